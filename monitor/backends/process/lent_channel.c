/* What a guest's process says to the lender, and how it obeys. */
#include "lent.h"

#include "../balloon/large.h"
#include "../base/loop.h"

#include <sys/socket.h>
#include <unistd.h>

/* Milliseconds between two reports that nobody asked for; in which a report waits for statistics
 * that were asked for with it; of a turn in which the lender is waited for. */
enum { NEWS_EVERY = 10, ANSWERS_IN = 100, AWAIT_EVERY = 1000 };

/* Whose words go to the lender. */
static struct lent *speaks;

static void send_to_lender(struct lent *lent, struct lending_message *message)
{
    if (!lending_send(lent->notes.channel, message))
        lent->notes.lost++;
}

static void say_to_lender(enum saying saying, const char *words)
{
    static const uint32_t kinds[] = {[SAY_REFUSED] = TELL_REFUSED,
                                     [SAY_REMARK] = TELL_REMARK,
                                     [SAY_GONE] = TELL_GONE,
                                     [SAY_FAULT] = TELL_REMARK,
                                     [SAY_NEWS] = TELL_REMARK};
    struct lending_message message = {.kind = kinds[saying]};
    strncpy(message.words, words, MOST_WORDS - 1);
    send_to_lender(speaks, &message);
}

/* The hook for the effective target: the last one that the driver has read, or the current one
 * where it reads none, or hasn't for a while. */
static uint32_t obeyed(const struct backend *backend)
{
    const struct lent *lent = (const struct lent *)backend;
    bool reads = lent->notes.reads && loop_now() < lent->reads_until;
    return reads ? lent->notes.read_target : backend->balloon.state.device.target;
}

void lent_speaks(struct lent *lent)
{
    speaks = lent;
    say_through = say_to_lender;
    lent->backend.obeyed = obeyed;
}

void lent_reads(struct lent *lent)
{
    uint32_t target = lent->backend.balloon.state.device.target;
    lent->news |= target != obeyed(&lent->backend);
    lent->notes.reads = true;
    lent->notes.read_target = target;
}

/* What it says is kept before, so that another process says the same: but not amid a message. */
void lent_report(struct lent *lent, uint64_t number, bool asked)
{
    const struct backend *backend = &lent->backend;
    const VbDevice *device = &backend->balloon.state.device;
    struct lending_message message = {.kind = TELL_REPORT,
                                      .number = number,
                                      .serial = ++lent->notes.serial,
                                      .held_kib = memory_held(&backend->memory),
                                      .end = device->settings.memory_end / BALLOON_PAGE,
                                      .lost = lent->notes.lost,
                                      .pages = lent->notes.pages,
                                      .wanted = lent->wanted,
                                      .wait = lent->notes.wait,
                                      .holds = lent_hold(lent),
                                      .held_pages = lent->notes.held_pages + lent->returns,
                                      .held_wait = lent->notes.held_wait,
                                      .waits = lent->waits,
                                      .target = device->target,
                                      .actual = device->actual,
                                      .ballooned = lent_ballooned(lent),
                                      .status = device->status,
                                      .ready = backend_is_ready(backend),
                                      .obeyed = lent->notes.reads ? obeyed(&lent->backend) + 1 : 0,
                                      .asked = asked,
                                      .ballooned_then = lent->notes.ballooned_then,
                                      .taken_since = lent->notes.taken_since,
                                      .counters = backend->counters,
                                      .figure_count = backend->figure_count,
                                      .migration = lent_migration(lent)};
    message.outside = lent_outside(lent);
    memcpy(message.figures, backend->figures, sizeof message.figures);
    strcpy(message.program, VB_VERSION);
    lent->migration = message.migration;
    if (lent->waits == WAIT_NOTHING)
        kept_save(lent);
    send_to_lender(lent, &message);
    lent->news = false;
    if (number == 0)
        lent->report_at = loop_now() + NEWS_EVERY;
}

/* Reports to the question whose report has waited, if there is one; whether there was. */
static bool answer_question(struct lent *lent)
{
    uint64_t number = lent->answers;
    lent->answers = 0;
    if (number != 0)
        lent_report(lent, number, true);
    return number != 0;
}

bool lent_note(struct lent *lent)
{
    struct backend *backend = &lent->backend;
    const struct counters *counters = &backend->counters;
    bool ready = backend_is_ready(backend);
    bool heard = counters->statistics != lent->notes.heard,
         taken = counters->taken != lent->notes.taken;
    if (heard || taken) {
        lent->notes.ballooned_then = backend->ballooned;
        lent->notes.taken_since = taken;
    }
    awaited_note(lent);
    lent_note_held(lent);
    lent->news |= backend->options->holds && backend->ballooned != lent->notes.ballooned_before;
    lent->notes.ballooned_before = backend->ballooned;
    lent->news |= heard || taken || ready != lent->notes.ready_then ||
                  lent_migration(lent) != lent->migration;
    lent->notes.heard = counters->statistics;
    lent->notes.taken = counters->taken;
    lent->notes.ready_then = ready;
    if ((heard || loop_now() >= lent->answers_until) && answer_question(lent))
        return true;
    bool reports = lent->news && loop_now() >= lent->report_at;
    if (reports)
        lent_report(lent, 0, false);
    return reports;
}

/* Asks the guest for its statistics: 1; 0 where it can't be asked, or hasn't answered the last
 * question; -1 where it can't be served. */
static int ask(struct lent *lent)
{
    struct backend *backend = &lent->backend;
    if (!backend_is_ready(backend) || !backend->balloon.state.held.statistics)
        return 0;
    struct balloon_result result = balloon_ask_statistics(&backend->balloon);
    return backend_finish(backend, VB_STATISTICS, &result) ? 1 : -1;
}

static void set_target(struct lent *lent, uint32_t pages)
{
    struct backend *backend = &lent->backend;
    lent->notes.read_target = obeyed(&lent->backend);
    if (pages != backend->balloon.state.device.target)
        lent->reads_until = loop_now() + READS_IN;
    balloon_set_target(&backend->balloon, pages);
    lent->notes.ballooned_told = backend->ballooned;
    backend_tell_change(backend);
}

/* Linux may have missed its target where the balloon stays off it. */
static void remind(struct lent *lent)
{
    struct backend *backend = &lent->backend;
    bool off = backend->ballooned != backend->balloon.state.device.target;
    if (off && backend->ballooned == lent->notes.ballooned_told)
        backend_tell_change(backend);
    lent->notes.ballooned_told = backend->ballooned;
}

/* What the lender says of pages that are waited for: it tells itself why they aren't to be had. */
static void take_answer(struct lent *lent, const struct lending_message *order)
{
    if (lent->waits == WAIT_NOTHING || order->wait != lent->notes.wait)
        return;
    lent->answered = order->kind == ORDER_REFUSE ? -1 : 1;
    if (order->kind == ORDER_ADMIT && awaited_begin(lent, order->ballooned))
        set_target(lent, order->target);
}

void lent_holds(struct backend *backend, uint32_t pages)
{
    struct lent *lent = (struct lent *)backend;
    lent->notes.held_pages = large_asks(backend, pages);
    lent->asks_nothing = lent->notes.held_pages == 0;
    lent->notes.held_wait += lent->regains ? 0 : 1;
    lent->regains = false;
    lent->returns = 0;
    lent->news = true;
    lent->report_at = 0;
}

/* The number of the grant is kept first: the pages leave the balloon's set before the chain is
 * given back. */
bool lent_give(struct lent *lent)
{
    lent->kept->granted = lent->notes.held_wait;
    __atomic_thread_fence(__ATOMIC_RELEASE);
    awaited_leave(lent, lent->notes.held_pages);
    lent->notes.held_pages = 0;
    return backend_give(&lent->backend);
}

/* The lender has granted the deflate that is held; false where the client can't be served any
 * longer. */
static bool give(struct lent *lent, const struct lending_message *order)
{
    if (order->wait != lent->notes.held_wait || queue_is_postponed(&lent->backend, VB_DEFLATE))
        return true;
    if (lent->returns > 0)
        awaited_leave(lent, lent->returns);
    return lent->notes.held_pages == 0 || lent_give(lent);
}

/* Reports to the lender; where the guest could be asked, once it has answered, or hasn't for a
 * while. */
static bool look(struct lent *lent, const struct lending_message *order)
{
    int asked = order->asks ? ask(lent) : 0;
    answer_question(lent);
    if (asked > 0) {
        lent->answers = order->number;
        lent->answers_until = loop_now() + ANSWERS_IN;
    } else {
        lent_report(lent, order->number, false);
    }
    return asked >= 0;
}

/* Obeys one order; false where the client can't be served any longer. */
static bool obey(struct lent *lent, const struct lending_message *order)
{
    switch (order->kind) {
    case ORDER_LOOK:
        return look(lent, order);
    case ORDER_REMIND:
        return remind(lent), true;
    case ORDER_TARGET:
        set_target(lent, order->target);
        return true;
    case ORDER_ADMIT:
    case ORDER_REFUSE:
        take_answer(lent, order);
        return true;
    case ORDER_GRANT:
        return give(lent, order);
    case ORDER_LEAVE:
        lent->leaves = true;
        return true;
    case ORDER_RENEW:
        lent->kept->renews = lent->ends_anew = lent->waits == WAIT_NOTHING;
        return true;
    default:
        return true; /* of a later lender's */
    }
}

bool lent_obey(struct lent *lent)
{
    struct lending_message orders[MOST_AT_ONCE];
    bool ended, good = true;
    unsigned count = lending_read(lent->notes.channel, orders, MOST_AT_ONCE, &ended);
    for (unsigned i = 0; i < count && good; i++)
        good = obey(lent, &orders[i]);
    if (ended) {
        file_close(lent->notes.channel);
        lent->notes.channel = -1;
    }
    return good;
}

void lent_take_lender(struct lent *lent)
{
    int channel = process_accept(lent->notes.later);
    if (channel < 0)
        return;
    if (lent->notes.channel >= 0)
        file_close(lent->notes.channel);
    lent->notes.channel = channel;
    lent->answers = 0; /* the order was the former one's */
    lent_report(lent, 0, false);
}

static int take_lender(void *context, int file)
{
    (void)file;
    lent_take_lender(context);
    return LOOP_GOES_ON;
}

static int obey_lender(void *context, int file)
{
    (void)file;
    return lent_obey(context) ? LOOP_GOES_ON : LOOP_FAULT;
}

static int take_signal(void *context, int file)
{
    struct lent *lent = context;
    (void)file;
    lent->leaves = true;
    return LOOP_GOES_ON;
}

static int take_end_of_client(void *context, int file)
{
    struct lent *lent = context;
    (void)file;
    lent->backend.gone = true;
    return LOOP_GOES_ON;
}

/* What is waited for until the lender has answered. */
static void waits(void *context, struct loop *loop)
{
    struct lent *lent = context;
    loop_wait_for(loop, lent->notes.later, POLLIN, take_lender, lent);
    loop_wait_for(loop, lent->notes.channel, POLLIN, obey_lender, lent);
    loop_wait_for(loop, lent->notes.end, POLLIN, take_signal, lent);
    loop_wait_for(loop, lent->backend.socket, POLLRDHUP, take_end_of_client, lent);
    loop_wait_until(loop, loop_now() + AWAIT_EVERY);
}

static int turn(void *context)
{
    struct lent *lent = context;
    lent->backend.gone |= lent->leaves;
    if (lent->backend.gone || lent->answered != 0)
        return LOOP_ENDS;
    if (loop_now() >= lent->report_at)
        lent_report(lent, 0, false);
    return LOOP_GOES_ON;
}

bool lent_await(struct lent *lent, enum lending_wait what, uint32_t pages)
{
    static struct loop loop;
    lent->waits = what;
    lent->wanted = pages;
    lent->notes.wait++;
    lent->answered = 0;
    lent_report(lent, 0, false);
    loop.part_count = 0;
    loop_add(&loop, (struct loop_part){lent, waits, turn});
    bool served = loop_run(&loop, NULL) >= 0;
    lent->waits = WAIT_NOTHING;
    lent->news = true;
    return served && lent->answered > 0;
}
