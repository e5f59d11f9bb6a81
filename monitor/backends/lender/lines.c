/* The control pipe of a host: a line in, and a line out, or some lines after one that says how
 * many. */
#include "places.h"

#include <inttypes.h>

/* Milliseconds for which new reports are waited for before a line is answered by the old ones. */
enum { NEW_REPORTS = 300 };

static FILE *out(const struct host *host)
{
    return host->answers.out;
}

static void print_seat(const struct seat *seat)
{
    const struct lending_message *report = &seat->report;
    const struct counters *counters = &report->counters;
    FILE *to = out(seat->host);
    fprintf(to, "%s here %d ready %d pages %" PRIu32 " held_kib %" PRIu64, seat->name,
            seat_is_taken(seat), seat_is_ready(seat), seat_pages(seat), report->held_kib);
    fprintf(to,
            " ballooned %" PRIu32 " target %" PRIu32 " free %" PRIu32 " spare %" PRIu32
            " answers %d",
            report->ballooned, seat->target, seat->free, policy_spare(seat), seat_answers(seat));
    fprintf(to,
            " inflated %" PRIu64 " deflated %" PRIu64 " reported %" PRIu64 " taken %" PRIu64
            " statistics %" PRIu64,
            counters->inflated, counters->deflated, counters->reported, counters->taken,
            counters->statistics);
    fprintf(to,
            " available %" PRIu32 " asked %" PRIu32 " least %" PRIu32 " most %" PRIu32
            " priority %" PRIu32 " reports %d process %d lent %" PRIu32 " waits %s",
            seat->available, seat_told(seat), seat->terms.least, seat->terms.most,
            seat->terms.priority, seat_reports(seat), (int)seat->serving, seat_lent(seat),
            guest_wait_word(seat_waits_for(seat)));
    fprintf(to,
            " overhead %" PRIu32 " limit %" PRIu64 " limit_failures %" PRIu64 " cooperates %d"
            " weight %" PRIu32 " pressed %d\n",
            seat->terms.overhead, seat->writer.written, seat->writer.failures, seat->cooperates,
            seat->terms.weight, seat_is_pressed(seat));
}

static void print_guests(const struct host *host)
{
    fprintf(out(host), "guests %u\n", host->count);
    for (unsigned i = 0; i < host->count; i++)
        print_seat(host->seats[i]);
}

static void print_counters(const struct host *host)
{
    const struct host_counters *it = &host->counters;
    FILE *to = out(host);
    fprintf(to, "frames %" PRIu32 " floor %" PRIu32 " short %" PRIu64 " held_kib %" PRIu64,
            host->frames, host->floor, host->missing, host_held(host));
    fprintf(to,
            " looks %" PRIu64 " above %" PRIu64 " peak_kib %" PRIu64 " decisions %" PRIu64
            " changed %" PRIu64,
            it->looks, it->above, it->peak, it->decisions, it->changed);
    fprintf(to,
            " shorts %" PRIu64 " admitted %" PRIu64 " refused %" PRIu64 " gone %" PRIu64
            " dropped %" PRIu64 " lent %" PRIu64 " grants %" PRIu64 " tier %s\n",
            it->shorts, it->admitted, it->refused, it->gone, lines_dropped, places_owed(host),
            it->grants, tier_word(host->tier));
}

/* Reads a size, or a number of MiB, as pages. */
static bool read_mib(const char *word, uint32_t *pages)
{
    uint64_t mib;
    if (!read_number(word, 10, UINT32_MAX / PAGES_PER_MIB, &mib))
        return read_size(word, pages);
    *pages = (uint32_t)mib * PAGES_PER_MIB;
    return true;
}

static void set_pages(struct host *host, const char *word,
                      const char *(*set)(struct host *host, uint32_t pages))
{
    uint32_t pages;
    const char *fault =
        read_mib(word, &pages) ? set(host, pages) : "a number of MiB, or a size such as 8G";
    fprintf(out(host), fault ? "error: %s\n" : "ok\n", fault);
}

static const char no_terms[] =
    "a name, and of least=MIB, most=MIB, priority=NUMBER, weight=NUMBER "
    "from 1 on, strict=0 or 1, overhead=MIB, limit=cgroup:PATH or tmpfs:MOUNT, user=NAME, "
    "memory=MIB, start=MIB what is wanted";

/* Reads one of the words of a guest's terms; NULL, or why it is none. */
static const char *read_term(struct guest_terms *terms, const char *word)
{
    const struct {
        const char *name;
        uint32_t *pages;
    } sizes[] = {{"least=", &terms->least},
                 {"most=", &terms->most},
                 {"overhead=", &terms->overhead},
                 {"memory=", &terms->memory},
                 {"start=", &terms->start}};
    uint64_t number;
    for (unsigned i = 0; i < sizeof sizes / sizeof sizes[0]; i++)
        if (!strncmp(word, sizes[i].name, strlen(sizes[i].name)))
            return read_mib(word + strlen(sizes[i].name), sizes[i].pages) ? NULL : no_terms;
    if (!strncmp(word, "limit=", 6))
        return limit_read(word + 6, &terms->limit);
    if (!strncmp(word, "user=", 5))
        return owner_read(word + 5, &terms->user);
    if (!strncmp(word, "priority=", 9) && read_number(word + 9, 10, UINT32_MAX, &number))
        return terms->priority = (uint32_t)number, NULL;
    if (!strncmp(word, "weight=", 7) && read_number(word + 7, 10, UINT32_MAX, &number) && number)
        return terms->weight = (uint32_t)number, NULL;
    if (!strncmp(word, "strict=", 7) && read_number(word + 7, 10, 1, &number))
        return terms->strict = number != 0, NULL;
    return no_terms;
}

/* That the term that is the last one of a line is said before it, too; NULL: it isn't. */
static const char *said_before(const char *line, const char *last)
{
    static char fault[64];
    int length = (int)strcspn(last, "=");
    for (const char *word = strchr(line, ' '); word + 1 < last; word = strchr(word + 1, ' ')) {
        if (strncmp(word + 1, last, (size_t)length + 1) != 0)
            continue;
        snprintf(fault, sizeof fault, "%.*s= is said twice", length, last);
        return fault;
    }
    return NULL;
}

/* Takes the words of terms off the end of a line, which the name is left of; NULL, or why one is
 * none. */
static const char *read_terms(char *line, struct guest_terms *terms)
{
    for (char *word; (word = strrchr(line, ' ')); *word = 0) {
        const char *fault = read_term(terms, word + 1);
        fault = fault ? fault : said_before(line, word + 1);
        if (fault)
            return fault;
    }
    return NULL;
}

static void add(struct host *host, const char *words)
{
    char line[256];
    struct guest_terms terms = host_usual_terms(host);
    strcpy(line, words);
    const char *fault = read_terms(line, &terms);
    fault = fault ? fault : host_add(host, line, &terms);
    if (fault)
        fprintf(out(host), "error: %s: %s\n", line, fault);
    else
        fprintf(out(host), "listening %s\n", seat_of(host, line)->path);
}

static void set_terms(struct host *host, const char *words)
{
    char line[256];
    strcpy(line, words);
    char *end = strchr(line, ' ');
    size_t length = end ? (size_t)(end - line) : strlen(line);
    line[length] = 0;
    const struct seat *seat = seat_of(host, line);
    struct guest_terms terms = seat ? seat->terms : host_usual_terms(host);
    memcpy(line, words, strlen(words) + 1);
    const char *fault = read_terms(line, &terms);
    fault = fault ? fault : host_set_terms(host, line, &terms);
    fprintf(out(host), fault ? "error: %s\n" : "ok\n", fault);
}

static void remove_named(struct host *host, const char *name)
{
    const char *fault = host_remove(host, name);
    fprintf(out(host), fault ? "error: %s\n" : "ok\n", fault);
}

#define PRINT_COUNTER(name) fprintf(to, " " #name " %" PRIu64, it->name);

static void print_its_counters(const struct seat *seat)
{
    const struct lending_message *report = &seat->report;
    const struct counters *it = &report->counters;
    FILE *to = out(seat->host);
    fprintf(to, "target %" PRIu32 " actual %" PRIu32 " status %u held_kib %" PRIu64 " end %" PRIu64,
            report->target, report->actual, report->status, report->held_kib, report->end);
    COUNTERS(PRINT_COUNTER)
    fputc('\n', to);
}

static void print_its_statistics(const struct seat *seat)
{
    const struct lending_message *report = &seat->report;
    FILE *to = out(seat->host);
    fprintf(to, "statistics %" PRIu64, report->counters.statistics);
    for (uint32_t i = 0; i < report->figure_count; i++)
        fprintf(to, " %s %" PRIu64, tag_name(report->figures[i].tag), report->figures[i].value);
    fputc('\n', to);
}

static void target_line(struct seat *seat, const char *word)
{
    uint64_t pages;
    const char *fault = read_number(word, 10, UINT32_MAX, &pages)
                            ? host_set_target(seat->host, seat->name, (uint32_t)pages)
                            : "target PAGES";
    fprintf(out(seat->host), fault ? "error: %s\n" : "ok\n", fault);
}

/* A line for one guest, as its backend takes it. */
static void guest_line(struct seat *seat, const char *line)
{
    if (!seat_is_taken(seat))
        fputs("error: nobody is there\n", out(seat->host));
    else if (!strcmp(line, "counters"))
        print_its_counters(seat);
    else if (!strcmp(line, "statistics"))
        print_its_statistics(seat);
    else if (!strcmp(line, "ask"))
        fputs(seat->host->question.asked ? "asked\n" : "nothing\n", out(seat->host));
    else if (!strncmp(line, "target ", 7))
        target_line(seat, line + 7);
    else if (!strcmp(line, "quit"))
        fputs("error: quit is for all guests\n", out(seat->host));
    else
        fputs("error: target PAGES, counters, statistics or ask\n", out(seat->host));
}

/* The seat whose name a line begins with, and what follows it; NULL where no guest has it. */
static struct seat *named(const struct host *host, const char *line, const char **rest)
{
    char name[MOST_NAME];
    size_t length = strcspn(line, " ");
    if (length >= MOST_NAME || !line[length])
        return NULL;
    memcpy(name, line, length);
    name[length] = 0;
    *rest = line + length + 1;
    return seat_of(host, name);
}

static void obey(struct host *host, const char *line)
{
    const char *rest;
    struct seat *seat;
    if (!strncmp(line, "add ", 4))
        add(host, line + 4);
    else if (!strncmp(line, "remove ", 7))
        remove_named(host, line + 7);
    else if (!strncmp(line, "terms ", 6))
        set_terms(host, line + 6);
    else if (!strncmp(line, "budget ", 7))
        set_pages(host, line + 7, host_set_budget);
    else if (!strncmp(line, "floor ", 6))
        set_pages(host, line + 6, host_set_floor);
    else if (!strcmp(line, "guests"))
        print_guests(host);
    else if (!strcmp(line, "counters"))
        print_counters(host);
    else if (!strcmp(line, "log"))
        journal_print(host);
    else if ((seat = named(host, line, &rest)))
        guest_line(seat, rest);
    else
        fputs("error: add, remove, terms, budget, floor, guests, counters, log, leave, quit, or a "
              "guest's name and its line\n",
              out(host));
}

/* Whether a line's answer wants new reports; they are ordered then. */
static bool wants_reports(struct host *host, const char *line)
{
    const char *rest = "";
    struct seat *seat = named(host, line, &rest);
    if (seat &&
        (!strcmp(rest, "counters") || !strcmp(rest, "statistics") || !strcmp(rest, "ask"))) {
        seat_look(seat, !strcmp(rest, "ask"));
        host->question.of = seat;
        host->question.ask = seat->number;
        host->question.asked = false;
        return seat_is_taken(seat);
    }
    if (strcmp(line, "guests") != 0 && strcmp(line, "counters") != 0)
        return false;
    for (unsigned i = 0; i < host->count; i++)
        seat_look(host->seats[i], false);
    return true;
}

/* Whether all that were asked since a question have answered, or won't soon. */
static bool reports_are_new(const struct host *host)
{
    const struct question *question = &host->question;
    if (loop_now() >= question->until)
        return true;
    for (unsigned i = 0; i < host->count; i++) {
        const struct seat *seat = host->seats[i];
        if (seat_is_taken(seat) && seat->number > question->number &&
            seat->exchange.obeyed <= question->number && seat_reports(seat))
            return false;
    }
    return true;
}

void question_answer(struct host *host)
{
    char line[sizeof host->question.line];
    if (!*host->question.line || !reports_are_new(host))
        return;
    strcpy(line, host->question.line);
    host->question.line[0] = 0;
    obey(host, line);
    answers_send(&host->answers);
}

bool host_line(struct host *host, const char *line)
{
    uint64_t number = host->looks_asked;
    bool leaves = !strcmp(line, "leave");
    if (leaves || !strcmp(line, "quit")) {
        host->leaves = leaves;
        return false;
    }
    if (!wants_reports(host, line)) {
        obey(host, line);
        return true;
    }
    host->question.number = number;
    host->question.until = loop_now() + NEW_REPORTS;
    strcpy(host->question.line, line);
    question_answer(host);
    return true;
}
