/* What a guest's process has sent, and what the lender makes of it. */
#include "measures.h"
#include "places.h"

/* What no process of a guest can have: more pages than its memory may have, or a number of held
 * pages that isn't one; NULL: all may be. */
static const char *number_fault(const struct lending_message *report)
{
    const uint32_t pages[] = {report->pages,      report->wanted,         report->ballooned,
                              report->held_pages, report->ballooned_then, lending_outside(report)};
    for (unsigned i = 0; i < sizeof pages / sizeof pages[0]; i++)
        if (pages[i] > MOST_SET)
            return "more pages than a guest may have";
    if (report->held_kib / PAGE_KIB > UINT32_MAX)
        return "more memory that it holds than there is";
    if (report->migration > MIGRATES_IN)
        return "a migration that isn't one";
    return report->waits > WAIT_RESET ? "a wait that isn't one" : NULL;
}

/* Whether a report has more pages than were granted: the first one to a later lender, with what is
 * outside of slots, than the earlier one has kept. */
static bool has_more(const struct seat *seat, const struct lending_message *report)
{
    if (seat->adopts)
        return report->pages + lending_outside(report) > seat_frames(seat);
    return ask_read(seat, report).ungranted > 0;
}

/* Why a report isn't believed, beside what was granted, and how its process was started; NULL: it
 * is. */
static const char *report_fault(const struct seat *seat, const struct lending_message *report)
{
    const char *fault = number_fault(report);
    if (fault || (seat->adopts && !seat->reserves))
        return fault;
    if (has_more(seat, report))
        return "pages that nobody has granted";
    if (seat->adopts || (report->holds != 0) == seat->holds)
        return NULL;
    return seat->holds ? "that its deflates don't wait" : "that its deflates wait";
}

/* The pages that are missing for those that its process waits for; 0: it may wait for them, or
 * there is room for all. */
static uint64_t missing_room(const struct seat *seat)
{
    struct host *host = seat->host;
    uint32_t asked = seat->report.wanted - ask_read(seat, &seat->report).without;
    bool comes_from_another = seat_pages(seat) == 0 && seat->report.ballooned > 0;
    if (!seat->holds || comes_from_another)
        return policy_lacks(host, seat, asked);
    return asked > host->budget ? asked - host->budget : 0;
}

/* What its client brings isn't admitted: this many pages are missing. */
static void turn_away(struct seat *seat, enum refusal why, uint64_t pages)
{
    seat->host->counters.refused++;
    seat->refused = true;
    seat->refused_for = why;
    seat->refused_by = pages;
    seat->refusals++;
}

/* What it has is admitted: no refusal before counts any longer. */
static void note_admission(struct seat *seat)
{
    if (!seat->refused && seat_pages(seat) > 0)
        seat->refused_for = REFUSED_NOTHING;
}

/* Whether it is to start with more than its client brings. */
static bool starts_above(const struct seat *seat)
{
    uint32_t start = seat->terms.start;
    return seat_pages(seat) == 0 && start != UINT32_MAX && start > seat->report.wanted;
}

/* It waits for room: it is refused where there is none for it, and has it at once where its process
 * holds nothing back. */
static void answer_room(struct seat *seat)
{
    struct host *host = seat->host;
    uint32_t wanted = seat->report.wanted;
    char size[MOST_SIZE_TEXT], other[MOST_SIZE_TEXT];
    if (seat->report.waits != WAIT_ROOM || seat->refused || host_awaits(host) ||
        wanted <= seat_pages(seat))
        return;
    if (wanted > seat->terms.memory) {
        refuse("its memory has %s, and may have %s (memory=)", size_text(wanted, size),
               size_text(seat->terms.memory, other));
        turn_away(seat, REFUSED_MEMORY, wanted - seat->terms.memory);
        return;
    }
    if (starts_above(seat)) {
        refuse("its memory has %s, and it is to start with %s (start=)", size_text(wanted, size),
               size_text(seat->terms.start, other));
        turn_away(seat, REFUSED_START, seat->terms.start - wanted);
        return;
    }
    uint64_t missing = missing_room(seat);
    if (missing > 0) {
        refuse("no room for %s: %s are missing", size_text(wanted, size),
               size_text(missing, other));
        turn_away(seat, REFUSED_ROOM, missing);
    } else if (!seat->holds && (seat_pages(seat) == 0 || seat_has_paid(seat) <= loop_now())) {
        host->counters.admitted += seat_pages(seat) == 0;
        place_admits(seat);
        host_changed(host, BY_GUESTS);
    }
}

/* What may have changed by what was served: statistics, and pages that the guest took back by
 * itself. */
static void take_note(struct seat *seat)
{
    const struct counters *counters = &seat->report.counters;
    pressure_follows(seat);
    if (counters->statistics != seat->heard) {
        seat->heard = counters->statistics;
        seat->silent = 0;
        seat->heard_at = loop_now();
        policy_hears(seat);
    }
    if (counters->taken != seat->taken && seat->report.taken_since)
        policy_sees_taken(seat);
    seat->taken = counters->taken;
}

/* The first report of a process that an earlier lender has started: its target goes on, and its
 * terms where 0.3.0 had it keep them. */
static void adopt(struct seat *seat)
{
    const struct lending_message *report = &seat->report;
    seat->adopts = false;
    seat->holds = report->holds;
    seat->target = report->target;
    place_takes_over(seat);
    if (!seat->asks_terms)
        return;
    if (report->has_terms)
        seat->terms = (struct guest_terms){.least = report->terms.least,
                                           .most = report->terms.most,
                                           .priority = report->terms.priority,
                                           .weight = seat->terms.weight,
                                           .strict = report->terms.strict != 0,
                                           .overhead = seat->terms.overhead,
                                           .limit = seat->terms.limit,
                                           .user = seat->terms.user,
                                           .memory = seat->terms.memory,
                                           .start = seat->terms.start};
    folder_keep(seat, &seat->terms);
}

/* The version that a process says that it has; empty where it isn't one. */
static void check_version(char version[MOST_VERSION])
{
    static const char signs[] =
        "abcdefghijklmnopqrstuvwxyzABCDEFGHIJKLMNOPQRSTUVWXYZ0123456789.+~-";
    size_t length = strnlen(version, MOST_VERSION);
    if (length == MOST_VERSION || strspn(version, signs) != length)
        version[0] = 0;
}

/* The pages for which it waits since this report, as its client brings them: none of those that
 * were outside of its slots. */
static uint32_t brings(const struct seat *seat, const struct lending_message *message)
{
    bool has_waited = seat->report.waits == WAIT_ROOM && message->wait == seat->report.wait;
    return has_waited ? 0 : ask_read(seat, message).brings;
}

/* Passes its report on, with what it asks for. */
static void pass_on(struct seat *seat)
{
    uint32_t pages = seat_pages(seat);
    ask_note(seat);
    answer_room(seat);
    note_admission(seat);
    seat_repeat(seat);
    loan_audit(seat);
    place_hears(seat);
    if (seat_pages(seat) != pages)
        host_changed(seat->host, BY_GUESTS);
}

/* It answers this order, which was given to it; 0: none. */
static void take_answer(struct seat *seat, uint64_t number, bool asked)
{
    struct question *question = &seat->host->question;
    if (number == 0 || number > seat->number)
        return;
    if (number == seat->number)
        seat->asked_at = 0;
    seat->exchange.obeyed = number > seat->exchange.obeyed ? number : seat->exchange.obeyed;
    if (number == question->ask && seat == question->of)
        question->asked = asked;
}

static void take_report(struct seat *seat, const struct lending_message *message)
{
    uint32_t brought = brings(seat, message);
    seat_waits(seat, message);
    seat_migrates(seat, message);
    seat->report = *message;
    check_version(seat->report.program);
    take_answer(seat, message->number, message->asked != 0);
    if (seat->adopts)
        adopt(seat);
    take_note(seat);
    pass_on(seat);
    if (brought > 0 && !seat->refused)
        seat_pays(seat, brought);
    if (seat_moves(seat))
        seat_look(seat, true);
}

/* It says that its client has gone. What it was lent stays lent, and what it held is held, until
 * the kernel says that it has ended. */
static void take_leave(struct seat *seat)
{
    bool had_pages = seat_pages(seat) > 0;
    uint64_t held_kib = seat->report.held_kib;
    say_gone();
    seat->host->counters.gone++;
    measure_gone(seat->listener < 0 ? GONE_REMOVED : seat->refused ? GONE_REFUSED : GONE_LEFT);
    seat_clear(seat);
    seat->report.held_kib = held_kib;
    seat->gone = true;
    place_stays(seat);
    if (had_pages)
        host_changed(seat->host, BY_GUESTS);
}

/* Words of a process, whose lines take none of the lender's own about it: those of its client's
 * making have nothing in them that a terminal obeys. */
static void print_words(struct seat *seat, struct lending_message *message)
{
    for (char *it = message->words; *it; it++)
        if ((unsigned char)*it < ' ' || (unsigned char)*it > '~')
            *it = '?';
    speaker_begins(&seat->teller);
    if (message->kind == TELL_REFUSED)
        refuse("%s", message->words);
    else
        complain("%s", message->words);
    speaker_begins(&seat->speaker);
}

static void take(struct seat *seat, struct lending_message *message, pid_t sender)
{
    if (seat->gone)
        return;
    const char *fault = message->kind == TELL_REPORT ? report_fault(seat, message) : NULL;
    if (fault) {
        refuse("its process reports %s", fault);
        seat_disown(seat);
        return;
    }
    if (message->kind == TELL_REPORT) {
        seat->serving = sender;
        take_report(seat, message);
        folder_keep_pages(seat);
    }
    bool isnt_admitted = message->kind == TELL_REFUSED && seat_pages(seat) == 0 && !seat->refused;
    seat->host->counters.refused += isnt_admitted;
    if (message->kind == TELL_GONE)
        take_leave(seat);
    else if (message->kind == TELL_REFUSED || message->kind == TELL_REMARK)
        print_words(seat, message);
    seat->refused |= message->kind == TELL_REFUSED;
}

unsigned seat_read(struct seat *seat, unsigned most)
{
    struct lending_message message;
    pid_t sender;
    unsigned count = 0;
    speaker_begins(&seat->speaker);
    while (count < most && seat->channel >= 0) {
        int got = lending_read_from(seat->channel, &message, &sender);
        if (got < 0) {
            file_close(seat->channel);
            seat->channel = -1;
        }
        if (got <= 0)
            break;
        count++;
        take(seat, &message, sender);
    }
    speaker_ends();
    return count;
}
