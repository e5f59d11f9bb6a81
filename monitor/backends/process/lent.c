/* A guest's process of a host that lends: its client, its memory, its loop. */
#include "lent.h"

#include "sandbox.h"

#include "../balloon/guard.h"
#include "../base/loop.h"
#include "../vhost/vhost_user.h"

/* Milliseconds between two looks of a process without a lender, and between two of a ring that
 * nobody kicks. */
enum { LOOK_EVERY = 1000, POLL_EVERY = 10 };

/* The hook for the memory that a client hands over: whether the lender has room for it, and a set
 * for its pages. */
static bool admit(struct backend *backend)
{
    struct lent *lent = (struct lent *)backend;
    uint64_t end = backend->balloon.state.device.settings.memory_end / BALLOON_PAGE;
    uint64_t pages = memory_pages(&backend->memory);
    uint32_t before = lent->notes.pages, ballooned = lent_ballooned(lent);
    if (pages < lent->reserved) /* the rest of it still comes */
        pages = lent->reserved;
    else
        lent->reserved = 0;
    if (end > MOST_SET || pages > UINT32_MAX)
        return refuse("its memory ends above %llu GiB",
                      (unsigned long long)MOST_SET * BALLOON_PAGE >> 30);
    if (pages > before)
        lent->notes.pages += outside_returns(lent, (uint32_t)pages - before);
    if (pages > lent->notes.pages && !lent_await(lent, WAIT_ROOM, (uint32_t)pages))
        return false;
    if (!marks_follow(backend, &lent->marks, end))
        return refuse("there is no room for the set of its pages");
    lent->news |= pages != before;
    if (pages < before)
        lent->report_at = 0; /* what comes after it is asked for beside what is left */
    lent->notes.pages = (uint32_t)pages;
    awaited_note(lent);
    outside_note(lent, before, ballooned);
    return true;
}

void lent_note_held(struct lent *lent)
{
    uint32_t pages;
    if (lent->notes.held_pages == 0 || balloon_held_deflate(&lent->backend.balloon, &pages))
        return;
    lent->notes.held_pages = 0;
    lent->news = true;
}

/* The hook for a driver that restarts: what is in the balloon has to be lent before. It asks for
 * that alone. */
static bool empties(struct backend *backend)
{
    struct lent *lent = (struct lent *)backend;
    lent_note_held(lent);
    return lent_await(lent, WAIT_RESET, backend->ballooned);
}

/* The hook that answers a client: once, whatever process does. */
static bool answer(struct backend *backend, const struct message *message, const void *body,
                   size_t size)
{
    struct lent *lent = (struct lent *)backend;
    if (message->request == GET_CONFIG)
        lent_reads(lent);
    uint8_t bytes[MOST_MESSAGE];
    size_t length = message_answer_bytes(message, body, size, bytes);
    return length > 0 &&
           outbox_send(&lent->kept->outbox, backend->socket, lent->messages + 1, bytes, length);
}

/* The hook for a moment at which another process could go on. */
static void keep(struct backend *backend)
{
    kept_save((struct lent *)backend);
}

/* Serves the message that is whole in the inbox, which leaves that as this is kept, at the end of
 * the turn: until then another process finds what is left to do of it. Another process continues
 * with the next message where the count of bytes is half used up. */
static bool serve_message(struct lent *lent)
{
    struct inbox *inbox = &lent->kept->inbox;
    struct message message = inbox->message;
    bool served = message_serve(&lent->backend, &message);
    lent->messages++;
    uint64_t read = lent->bytes + inbox_bytes(inbox);
    lent->bytes += inbox_length(inbox);
    lent->ends_anew |= read - lent->kept->counted_from > COUNT_BEGINS / 2;
    return served;
}

/* The client's next message, if it is there whole: 1; 0 where it has gone; -1 where it can't be
 * served. */
static int serve_client(struct lent *lent)
{
    struct backend *backend = &lent->backend;
    enum stream_state state = inbox_read(backend->socket, &lent->kept->inbox);
    if (state == STREAM_WAITS || state == STREAM_GONE)
        return state == STREAM_WAITS;
    if (state == STREAM_WRONG)
        return refuse("the client's bytes are no message"), -1;
    if (serve_message(lent))
        return 1;
    return backend->gone ? 0 : -1;
}

static int take_lender(void *context, int file)
{
    (void)file;
    lent_take_lender(context);
    return LOOP_GOES_ON;
}

/* What the lender says comes first: it was said before the kicks that come with it. */
static int obey_lender(void *context, int file)
{
    struct lent *lent = context;
    (void)file;
    if (!lent_obey(lent))
        return LOOP_FAULT;
    return lent->leaves || lent->ends_anew ? LOOP_ENDS : LOOP_GOES_ON;
}

static int take_signal(void *context, int file)
{
    (void)context, (void)file;
    return LOOP_ENDS;
}

static int take_message(void *context, int file)
{
    struct lent *lent = context;
    int served = serve_client(lent);
    (void)file;
    if (served < 0)
        return LOOP_FAULT;
    return served == 0 || lent->leaves ? LOOP_ENDS : LOOP_GOES_ON;
}

static void waits(void *context, struct loop *loop)
{
    struct lent *lent = context;
    loop_wait_for(loop, lent->notes.later, POLLIN, take_lender, lent);
    loop_wait_for(loop, lent->notes.channel, POLLIN, obey_lender, lent);
    loop_wait_for(loop, lent->notes.end, POLLIN, take_signal, lent);
    loop_wait_for(loop, lent->backend.socket, POLLIN, take_message, lent);
    rings_wait(&lent->backend, loop);
    transfer_wait(&lent->backend, loop);
    if (lent->notes.channel < 0)
        loop_wait_until(loop, lent->look);
    if (lent->backend.pending || lent->asks_nothing)
        loop_wait_until(loop, loop_now());
    if (lent->news)
        loop_wait_until(loop, lent->report_at);
    if (lent->answers)
        loop_wait_until(loop, lent->answers_until);
    if (rings_polled(&lent->backend))
        loop_wait_until(loop, loop_now() + POLL_EVERY);
}

/* One deflate a turn, since a guest may have any number of them. */
static bool give_unasked(struct lent *lent)
{
    bool gives = lent->asks_nothing;
    lent->asks_nothing = false;
    return !gives || lent_give(lent);
}

static int turn(void *context)
{
    struct lent *lent = context;
    if (!rings_look(&lent->backend) || !give_unasked(lent) ||
        !backend_serve_pending(&lent->backend))
        return LOOP_FAULT;
    if (!lent_note(lent))
        kept_save(lent);
    lent->kept->turns++;
    if (lent->notes.channel < 0 && loop_now() >= lent->look) {
        lent->look = loop_now() + LOOK_EVERY;
        backend_look(&lent->backend);
    }
    return lent->ends_anew ? LOOP_ENDS : LOOP_GOES_ON;
}

static void set_hooks(struct lent *lent)
{
    struct backend *backend = &lent->backend;
    backend->tell = client_tell;
    backend->admit = admit;
    backend->comes = awaited_comes;
    backend->held = backend->options->holds ? lent_holds : NULL;
    backend->empties = backend->options->holds ? empties : NULL;
    backend->answer = answer;
    backend->keep = keep;
    marks_begin(&lent->marks, lent->kept->set, backend->options->holds);
    lent_speaks(lent);
}

/* The queue of deflates. */
static unsigned deflates_of(const struct backend *backend)
{
    unsigned number = 0;
    while (number < QUEUES - 1 &&
           vb_kind_of(features_of_device(backend->told.features), number) != VB_DEFLATE)
        number++;
    return number;
}

/* A deflate that was held is held again by the same number, unless it was used meanwhile. */
static void await_held(struct lent *lent)
{
    const struct kept_state *state = kept_state(lent->kept);
    unsigned number = deflates_of(&lent->backend);
    lent->regains =
        lent->notes.held_pages > 0 && state->rings[number].base == lent->backend.rings[number].base;
    if (!lent->regains)
        lent->notes.held_pages = 0;
}

/* The last notification may have been lost: it is repeated. */
static bool tell_all(struct backend *backend)
{
    for (unsigned number = 0; number < QUEUES; number++)
        if (ring_runs(backend, number) && !backend->tell(backend, (int)number))
            return refuse("the client can't be told of a used buffer");
    backend_tell_change(backend);
    return true;
}

/* Goes on with what is kept: serves what is on the rings, and then a message that is there
  * whole. */
static int go_on(void *what)
{
    struct lent *lent = what;
    struct backend *backend = &lent->backend;
    if (!kept_restore(lent))
        return -1;
    await_held(lent);
    if (!rings_settle(backend) || !tell_all(backend))
        return -1;
    if (lent->regains)
        lent->regains = false, lent->notes.held_pages = 0;
    if (lent->notes.held_pages > 0 && lent->notes.held_wait == lent->kept->granted &&
        !lent_give(lent))
        return -1;
    lent->news = true;
    int served = inbox_is_whole(&lent->kept->inbox) ? serve_client(lent) : 1;
    if (served > 0)
        kept_save(lent);
    return served;
}

/* Makes the process of what its client hasn't said anything to; false where it can't, which is
 * said. */
static bool prepare(struct lent *lent, const struct options *options, struct kept *kept)
{
    lent->kept = kept;
    if (!backend_start(&lent->backend, options))
        return false;
    lent->backend.room = &kept_file(kept)->room;
    lent->notes.channel = kept_state(kept)->notes.channel;
    lent->look = loop_now() + LOOK_EVERY;
    lent->reads_until = loop_now() + READS_IN;
    set_hooks(lent);
    return true;
}

static bool begin(struct lent *lent, const struct options *options, struct kept *kept)
{
    if (!prepare(lent, options, kept))
        return false;
    if (kept->ended_by > 0)
        complain("its process has ended by signal %u: another one takes over", kept->ended_by);
    if (kept->stays)
        complain(
            "upgrade refused: the installed program can't take over its process, which stays at %s",
            VB_VERSION);
    files_put_off(true);
    process_is_shut = HAS_SANDBOX && !options->open;
    return !process_is_shut || sandbox_enter();
}

/* The end of the client's service: all is closed. */
static void end(struct lent *lent)
{
    files_put_off(false);
    if (lent->backend.socket >= 0)
        file_close(lent->backend.socket);
    backend_leave(&lent->backend);
    kept_leave(lent);
    say_gone();
}

int lent_run(const struct options *options, struct kept *kept)
{
    static struct lent lent;
    static struct loop loop;
    int served = begin(&lent, options, kept) ? guard(go_on, &lent) : -1;
    if (lent.backend.socket < 0 || !loop_add(&loop, (struct loop_part){&lent, waits, turn}))
        served = -1;
    if (served > 0)
        served = loop_run(&loop, guard);
    if (served == 0 && lent.ends_anew)
        return ENDS_ANEW;
    end(&lent);
    return served < 0;
}
