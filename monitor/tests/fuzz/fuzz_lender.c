/* A lender, fuzzed: any messages of three guests' processes, which may obey it, or lie, or go; and
 * budgets, floors and terms that change. After each step what is lent to guests that wait for it is
 * within the budget, whatever others do; each that waits has its place in line or its answer;
 * nobody waits who could be granted, nor who never can; no sum wraps. In the end no file is left
 * open. */
#include "../../backends/lender/places.h"
#include "process.h"
#include "script.h"

#include <stddef.h>
#include <stdlib.h>
#include <sys/socket.h>
#include <unistd.h>

enum {
    SEATS = 3,
    FRAMES = 512,
    OVERDRAFT = 64,
    START = 50,
    PERIOD = 200,
    PATIENCE = 2,
    MOST_READ = 8,
    STEP_MS = 50,
    TELLS_IN = 500
};

struct script script;

static struct host host;
static struct process processes[SEATS];
static bool adopted[SEATS]; /* its process is an earlier lender's: what it has nobody granted */
/* Its last report was read while the host awaited an earlier lender's processes. */
static bool not_refused_yet[SEATS];
static uint32_t most_frames; /* the largest budget that there was */
/* A process has said that it holds more than a guest may have: that counts as lent to it, as no
 * limit of the kernel's holds it. */
static bool says_more;
static uint64_t lent_before; /* to those that wait, after the step before */
static struct timespec now;

int __wrap_clock_gettime(clockid_t clock, struct timespec *time);
int LLVMFuzzerTestOneInput(const uint8_t *data, size_t size);

/* Each look at the clock is a millisecond after the one before. */
int __wrap_clock_gettime(clockid_t clock, struct timespec *time)
{
    (void)clock;
    now.tv_nsec += 1000000;
    now.tv_sec += now.tv_nsec >= 1000000000;
    now.tv_nsec %= 1000000000;
    *time = now;
    return 0;
}

static void hush(enum saying saying, const char *words)
{
    demand(saying <= SAY_NEWS && strlen(words) < 4096);
}

/* A process begins, as a new one or as an earlier lender's. */
static void process_begins(unsigned number, bool is_adopted)
{
    struct seat *seat = host.seats[number];
    int ends[2];
    if (seat->here)
        return;
    demand(!socketpair(AF_UNIX, SOCK_SEQPACKET | SOCK_CLOEXEC | SOCK_NONBLOCK, 0, ends) &&
           lending_names_senders(ends[0]));
    seat_clear(seat);
    seat->channel = ends[0];
    seat->here = true;
    seat->adopts = seat->asks_terms = adopted[number] = is_adopted;
    seat->adopts_until = loop_now() + TELLS_IN;
    seat->holds = seat->terms.strict;
    processes[number] =
        (struct process){.channel = ends[1], .report = {.kind = TELL_REPORT, .holds = seat->holds}};
}

/* A line of the operator's. */
static void operator_says(void)
{
    static const char *const lines[] = {"budget %u",
                                        "floor %u",
                                        "terms a least=%u",
                                        "terms b most=%u",
                                        "terms c priority=%u",
                                        "terms b strict=%u",
                                        "guests",
                                        "counters",
                                        "log",
                                        "a target %u",
                                        "terms a memory=%u",
                                        "b ask"};
    char line[64];
    const char *format = lines[next_below(sizeof lines / sizeof lines[0])];
    unsigned value = next_byte();
    snprintf(line, sizeof line, format, strstr(format, "strict") ? value % 2 : value % 8);
    if (!*host.question.line)
        demand(host_line(&host, line));
    rewind(host.answers.out);
}

/* What clients are shown of the host and of a guest. */
static void show(unsigned number)
{
    struct host_view all;
    struct guest_view its;
    host_see(&host, &all);
    host_see_guest(&host, number, &its);
    demand(all.guests == SEATS && its.loan == seat_lent(host.seats[number]));
}

static void look(unsigned number)
{
    struct seat *seat = host.seats[number];
    unsigned seconds = next_byte();
    show(number);
    now.tv_sec += seconds > 240 ? seconds - 240 : 0;
    if (seat_is_due(seat)) {
        seat_look_again(seat, true);
        seat->silent += seconds % 2;
    }
    bool comes = seat->holds && place_of(seat)->granted == 0;
    demand(!seat_is_taken(seat) || comes || seat_is_behind(seat) ||
           seat->target <= place_of(seat)->wanted);
    seat_step(seat, STEP_MS);
    loans_audit(&host);
    places_relieve(&host);
    if (!seat_rests(seat))
        seat_remind(seat);
}

/* What a turn of the lender's does. */
static void serve(void)
{
    for (unsigned i = 0; i < SEATS; i++) {
        struct seat *seat = host.seats[i];
        bool awaits = host_awaits(&host);
        if (seat_read(seat, MOST_READ) > 0)
            not_refused_yet[i] = awaits;
        if (seat->here && seat->channel < 0)
            seat_ended(seat);
    }
    question_answer(&host);
    places_follow_budget(&host);
    if (host.news)
        policy_decide(&host);
    most_frames = host.frames > most_frames ? host.frames : most_frames;
    for (unsigned i = 0; i < SEATS; i++)
        process_hears(&processes[i]);
}

/* Whether a guest may come for more than there ever was: while the host awaits the processes of an
 * earlier lender it refuses nobody, and then each guest by its next report. */
static bool may_want_all(unsigned place)
{
    return host.places[place].granted > 0 || (place < SEATS && not_refused_yet[place]);
}

/* Nobody waits who could be granted, nor for more than there ever was; and nobody has more pages
 * than there may be. */
static void check_line(void)
{
    size_t first = vb_host_first(host.places, host.place_count);
    uint32_t asked = first == SIZE_MAX ? 0 : vb_seat_asked(&host.places[first]);
    demand(first == SIZE_MAX || places_owed(&host) + asked > host.lends.frames);
    for (unsigned i = 0; i < host.place_count; i++) {
        const VbSeat *its = &host.places[i];
        demand(its->pages <= MOST_SET || says_more);
        demand(!vb_seat_waits(its) || vb_seat_asked(its) > 0);
        demand(may_want_all(i) || vb_seat_asked(its) <= most_frames);
    }
}

/* Whether all that a guest has was granted: its process holds deflates, and isn't one that an
 * earlier lender has left, nor was it seen to take pages. */
static bool is_granted(unsigned number)
{
    const struct seat *seat = host.seats[number];
    return seat->holds && !adopted[number] && !place_of(seat)->uncounted;
}

/* Whatever a guest takes, or has of an earlier lender: the others are lent no more together than
 * there is, but for what they were lent of a larger budget. */
static void check_budget(void)
{
    uint64_t lent = 0;
    for (unsigned i = 0; i < SEATS; i++)
        lent += is_granted(i) ? seat_lent(host.seats[i]) : 0;
    demand(lent <= (uint64_t)host.lends.frames + host.lends.overdraft || lent <= lent_before);
    lent_before = lent;
}

/* A guest whose process waits, by the last report that is believed, has its place in line, or its
 * process was answered by the number of that wait; or it waits for memory for which its seat is
 * still to pay. One that was seen to hold pages beyond its memory has its place by its next
 * report. */
static void check_wait(unsigned number)
{
    const struct seat *seat = host.seats[number];
    const struct lending_message *report = &seat->report;
    bool is_in = seat_pages(seat) > 0;
    bool holds_answer =
        report->waits == WAIT_ROOM ? report->wanted > 0 : report->waits == WAIT_RESET && is_in;
    bool was_answered = holds_answer && processes[number].answered == report->wait;
    bool was_granted = report->held_pages > 0 && processes[number].granted == report->held_wait;
    bool is_in_line = vb_seat_waits(place_of(seat)) ||
                      (seat->added != NO_PLACE && vb_seat_waits(&host.places[seat->added]));
    bool holds_beyond = place_of(seat)->outside > report->outside;
    bool is_heard = seat->holds && seat_is_taken(seat) && seat->channel >= 0 && seat->lost == 0 &&
                    !holds_beyond;
    bool waits = holds_answer || (report->held_pages > 0 && is_in);
    bool pays = report->waits == WAIT_ROOM && seat_has_paid(seat) > loop_now();
    demand(!is_heard || !waits || is_in_line || was_answered || was_granted || pays);
}

static void check(void)
{
    for (unsigned i = 0; i < SEATS; i++)
        says_more |= host.seats[i]->report.held_kib / PAGE_KIB > MOST_SET;
    check_line();
    check_budget();
    for (unsigned i = 0; i < SEATS; i++) {
        check_wait(i);
        demand(host.seats[i]->report.held_kib / PAGE_KIB <= UINT32_MAX);
    }
}

/* A process goes; that of the second guest with an order that it hasn't read. */
static void leave(unsigned number)
{
    if (number == 1)
        seat_look(host.seats[number], false);
    process_goes(&processes[number]);
}

static void act(void)
{
    unsigned what = next_byte(), number = what / 16 % SEATS;
    what %= 16;
    if (what < 8)
        process_tells(&processes[number], host.seats[number]->number);
    else if (what < 11)
        process_obeys(&processes[number]);
    else if (what == 11)
        leave(number);
    else if (what == 12)
        process_begins(number, next_byte() % 4 == 0);
    else if (what == 13)
        operator_says();
    else
        look(number);
}

static void begin_once(void)
{
    static char folder[] = "/tmp/fuzz-lender-XXXXXX";
    static const char *const names[SEATS] = {"a", "b", "c"};
    if (host.folder)
        return;
    demand(mkdtemp(folder) && answers_begin(&host.answers) && host_make_tables(&host, SEATS));
    host.folder = folder;
    demand(folder_lock(&host));
    host.program = "/bin/false";
    say_through = hush;
    for (unsigned i = 0; i < SEATS; i++) {
        struct guest_terms terms = host_usual_terms(&host);
        demand(!seat_add(&host, names[i], &terms));
    }
}

/* A host as it begins; the first byte says which guests are strict, and whether targets grow by
 * steps. */
static void begin(void)
{
    unsigned kind = next_byte();
    memset(host.places, 0, host.place_count * sizeof host.places[0]);
    host.lends = (VbHost){.overdraft = kind & 16 ? OVERDRAFT : 0};
    now = (struct timespec){1, 0};
    host.budget = host.frames = most_frames = FRAMES;
    lent_before = 0;
    says_more = false;
    memset(not_refused_yet, 0, sizeof not_refused_yet);
    host.floor = kind / 16;
    host.period = PERIOD;
    host.patience = PATIENCE;
    host.stand = (VbStand){0};
    host.unsettled = false;
    host.step = kind & 8 ? 8 : 0;
    host.question.line[0] = 0;
    host.news = host.anew = false;
    for (unsigned i = 0; i < SEATS; i++) {
        host.seats[i]->terms = host_usual_terms(&host);
        host.seats[i]->terms.strict = kind >> i & 1;
        host.seats[i]->terms.overhead = 0;
        host.seats[i]->terms.start = kind & 64 ? START : UINT32_MAX;
        process_begins(i, false);
    }
}

int LLVMFuzzerTestOneInput(const uint8_t *data, size_t size)
{
    begin_once();
    int before = dup(STDIN_FILENO);
    close(before);
    script.at = data, script.end = data + size;
    begin();
    while (script_goes_on()) {
        act();
        serve();
        check();
    }
    for (unsigned i = 0; i < SEATS; i++)
        process_goes(&processes[i]);
    serve();
    int after = dup(STDIN_FILENO);
    close(after);
    demand(after == before);
    return 0;
}
