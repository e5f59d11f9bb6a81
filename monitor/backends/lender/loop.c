/* What a lender does in its loop: all sockets where clients come, the channels of their processes,
 * its lines, and a look each period. */
#include "measures.h"
#include "places.h"

#include <unistd.h>

/* Seconds for messages in a turn. */
static const double reading_seconds = 0.001;

/* Milliseconds between two decisions on what guests do; messages of a process that are read in
 * REFILL milliseconds; milliseconds between two steps of targets; milliseconds for each process
 * that is started, and how many are started ahead of that. */
enum {
    DECIDE_EVERY = 10,
    MESSAGES = 40,
    REFILL = 50,
    STEP_EVERY = 50,
    START_EVERY = 20,
    STARTS_AHEAD = 64
};

void host_changed(struct host *host, enum reason reason)
{
    host->anew = host->news = true;
    host->reason = reason;
}

/* Each guest, and each that is leaving after them. */
static struct seat *seat_at(const struct host *host, unsigned number)
{
    return number < host->count ? host->seats[number] : host->leaving[number - host->count];
}

static unsigned count_seats(const struct host *host)
{
    return host->count + host->leaving_count;
}

uint64_t host_held(const struct host *host)
{
    uint64_t held = 0;
    for (unsigned i = 0; i < count_seats(host); i++)
        held += seat_at(host, i)->report.held_kib;
    return held;
}

/* Has something be done with each. */
static void each_seat(struct host *host, void (*act)(struct seat *seat))
{
    for (unsigned i = 0; i < count_seats(host); i++)
        act(seat_at(host, i));
}

/* Counts what the host holds, decides, and asks for new statistics. */
static void look(struct host *host)
{
    struct host_counters *counters = &host->counters;
    uint64_t held = host_held(host);
    host->looked = true, counters->looks++;
    counters->above += held > host->frames * UINT64_C(4);
    measure_above(held > host->frames * UINT64_C(4) ? (double)host->period / 1000 : 0);
    counters->peak = held > counters->peak ? held : counters->peak;
    each_seat(host, seat_reach);
    loans_audit(host);
    policy_decide(host);
    places_relieve(host);
    shortage_look(host);
    for (unsigned i = 0; i < host->leaving_count; i++)
        seat_leave(host->leaving[i]);
    for (unsigned i = 0; i < host->count; i++) {
        if (!seat_is_due(host->seats[i]))
            continue;
        host->seats[i]->silent++;
        seat_look_again(host->seats[i], true);
    }
}

/* Between two looks, since a notice beside a question for statistics may wait in Linux. */
static void remind(struct host *host)
{
    for (unsigned i = 0; i < host->count; i++) {
        if (seat_rests(host->seats[i]))
            continue;
        seat_remind(host->seats[i]);
        seat_look_again(host->seats[i], false);
    }
}

/* Whether there is a guest that isn't asked yet for what was decided, or hasn't heard it. */
static bool is_behind(const struct host *host)
{
    for (unsigned i = 0; i < host->count; i++)
        if (seat_is_behind(host->seats[i]))
            return true;
    return false;
}

static int take_limit(void *seat, int file)
{
    (void)file;
    limit_take(seat);
    return LOOP_GOES_ON;
}

/* One client is taken in a turn: that of the guest whose last one came first. */
static int take_client(void *context, int file)
{
    struct seat *seat = context, **comes = &seat->host->comes;
    (void)file;
    if (!*comes || seat->comes_at < (*comes)->comes_at)
        *comes = seat;
    return LOOP_GOES_ON;
}

static int take_end(void *seat, int file)
{
    (void)file;
    seat_ended(seat);
    return LOOP_GOES_ON;
}

/* Reads a message of a guest's process: poll(2) says whether more have come. Once this turn's time
 * for messages is over, the next turn begins with this guest. */
static int take_messages(void *context, int file)
{
    struct seat *seat = context;
    struct host *host = seat->host;
    (void)file;
    if (host->reads_next)
        return LOOP_GOES_ON;
    if (loop_seconds() - host->loop.woke_at < reading_seconds)
        seat->read += seat_read(seat, 1);
    else
        host->reads_next = seat;
    return LOOP_GOES_ON;
}

static int64_t latest(int64_t one, int64_t other)
{
    return one > other ? one : other;
}

/* Waits for a guest's client or process, and for the writer of its limit. A process that ends
 * closes its channel; one that has ended without is found once a period. */
static void wait_for_seat(struct seat *seat, int64_t now)
{
    struct loop *loop = &seat->host->loop;
    int64_t host_comes_at = latest(seat->host->rests_until,
                                   seat->host->paid_until - (int64_t)STARTS_AHEAD * START_EVERY);
    int64_t comes_at = latest(latest(seat->comes_at, seat_has_paid(seat)), host_comes_at);
    bool waits = !seat->here && seat->listener >= 0, comes = comes_at <= now;
    loop_wait_for(loop, seat->writer.channel, POLLIN, take_limit, seat);
    loop_wait_for(loop, waits && comes ? seat->listener : -1, POLLIN, take_client, seat);
    loop_wait_for(loop, seat->channel < 0 || seat->host->looked ? seat->process_file : -1, POLLIN,
                  take_end, seat);
    loop_wait_for(loop, seat->read < MESSAGES ? seat->channel : -1, POLLIN, take_messages, seat);
    if (seat->leaves_until > 0)
        loop_wait_until(loop, seat->leaves_until);
    if (waits && !comes)
        loop_wait_until(loop, comes_at);
    if (seat->read >= MESSAGES)
        loop_wait_until(loop, seat->host->refills_at);
}

static void forget_messages(struct seat *seat)
{
    seat->read = 0;
}

/* Lets processes that have sent too many messages be read again. */
static void refill(struct host *host)
{
    if (loop_now() < host->refills_at)
        return;
    host->refills_at = loop_now() + REFILL;
    each_seat(host, forget_messages);
}

/* The number of the guest with which this turn begins to read. */
static unsigned first_read(struct host *host)
{
    const struct seat *next = host->reads_next;
    host->reads_next = NULL;
    for (unsigned i = 0; next && i < count_seats(host); i++)
        if (seat_at(host, i) == next)
            return i;
    return 0;
}

static void wait_for_seats(void *context, struct loop *loop)
{
    struct host *host = context;
    refill(host);
    double processor = loop_processor_seconds();
    if (loop->woke_at > 0)
        measure_turn(loop_seconds() - loop->woke_at, processor - host->processor_at);
    host->processor_at = processor;
    limits_follow(host);
    unsigned first = first_read(host), count = count_seats(host);
    int64_t now = loop_now();
    for (unsigned i = 0; i < count; i++)
        wait_for_seat(seat_at(host, (first + i) % count), now);
    host->looked = false;
}

/* A process that can't be waited for has ended once its channel has. */
static void end_silently(struct seat *seat)
{
    if (seat->here && !seat->unreached && seat->channel < 0 && seat->process_file < 0)
        seat_ended(seat);
}

/* Frees the seats that were taken away, once their processes have ended. */
static void bury(struct host *host)
{
    unsigned kept = 0;
    for (unsigned i = 0; i < host->leaving_count; i++)
        if (host->leaving[i]->here)
            host->leaving[kept++] = host->leaving[i];
        else
            seat_free(host->leaving[i]);
    host->leaving_count = kept;
}

/* Starts the process of the client that comes. */
static void start_one(struct host *host)
{
    struct seat *seat = host->comes;
    host->comes = NULL;
    if (!seat)
        return;
    host->paid_until = latest(host->paid_until, loop_now()) + START_EVERY;
    seat_start(seat);
}

static int turn_of_seats(void *context)
{
    start_one(context);
    each_seat(context, end_silently);
    each_seat(context, seat_end_late);
    bury(context);
    return LOOP_GOES_ON;
}

/* Ramps the targets. */
static void step(struct host *host, int64_t now)
{
    int64_t passed = now - host->stepped_at;
    if (passed < STEP_EVERY)
        return;
    host->stepped_at = now;
    for (unsigned i = 0; i < host->count; i++)
        if (seat_is_taken(host->seats[i]))
            seat_step(host->seats[i], passed);
    places_settle(host);
}

static int take_signal(void *context, int file)
{
    struct host *host = context;
    (void)file;
    host->ends = true;
    return LOOP_GOES_ON;
}

static int take_room(void *context, int file)
{
    struct host *host = context;
    (void)file;
    answers_send(&host->answers);
    return LOOP_GOES_ON;
}

static int take_lines(void *context, int file)
{
    struct host *host = context;
    (void)file;
    input_read(&host->input);
    return LOOP_GOES_ON;
}

/* Waits for lines, room for answers, signals that end it, and the time of what is to be done. */
static void wait_for_lines(void *context, struct loop *loop)
{
    struct host *host = context;
    bool asks = *host->question.line, were_read = answers_were_read(&host->answers);
    loop_wait_for(loop, host->end, POLLIN, take_signal, host);
    loop_wait_for(loop, host->shortage.command, POLLIN, shortage_take_end, host);
    loop_wait_for(loop, were_read ? -1 : file_of_output(), POLLOUT, take_room, host);
    loop_wait_for(loop, host->input.ended || asks || !were_read ? -1 : STDIN_FILENO, POLLIN,
                  take_lines, host);
    loop_wait_until(loop, host->looks_at);
    if (host->machine.keep > 0 && !host_awaits(host))
        loop_wait_until(loop, host->machine.follows_at);
    if (asks)
        loop_wait_until(loop, host->question.until);
    if (host->news)
        loop_wait_until(loop, host->decides_at);
    host->steps = is_behind(host);
    if (host->step > 0 && host->steps)
        loop_wait_until(loop, host->stepped_at + STEP_EVERY);
}

/* Decides on what guests have done; not too often, whatever they do. */
static void decide(struct host *host, int64_t now)
{
    if (!host->news || (now < host->decides_at && !(host->anew && host->reason == BY_BUDGET)))
        return;
    policy_decide(host);
    host->decides_at = now + DECIDE_EVERY;
}

/* A look each period, and a reminder between two. */
static void look_or_remind(struct host *host, int64_t now)
{
    host->reminds ? remind(host) : look(host);
    host->reminds = !host->reminds;
    host->looks_at = now + host->period / 2;
}

/* Obeys lines, answers those whose answers have waited, and decides. */
static int turn_of_lines(void *context)
{
    struct host *host = context;
    if (host->ends)
        return LOOP_ENDS;
    question_answer(host);
    if (!input_obey(host) || host->upgrades)
        return LOOP_ENDS;
    int64_t now = loop_now();
    machine_follow(host);
    places_follow_budget(host);
    host->stepped_at = host->steps ? host->stepped_at : now;
    step(host, now);
    decide(host, now);
    if (now >= host->looks_at)
        look_or_remind(host, now);
    return LOOP_GOES_ON;
}

void host_run(struct host *host)
{
    host->looks_at = loop_now() + host->period;
    loop_add(&host->loop, (struct loop_part){host, wait_for_seats, turn_of_seats});
    if (host->service.waits)
        loop_add(&host->loop, host->service);
    loop_add(&host->loop, (struct loop_part){host, wait_for_lines, turn_of_lines});
    loop_run(&host->loop, NULL);
}
