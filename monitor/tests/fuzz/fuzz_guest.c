/* A guest's process of a host that lends, fuzzed: any messages, bytes and files of its client, any
 * rings and memory, and any orders of its lender, in any order; now and then another process goes
 * on with what is kept. Or one without a lender (alone.c). Its guest may migrate. After each step
 * its count of pages in the balloon is that of its set, and it has no file open that nobody
 * names. */
#include "../../backends/process/lent.c"
#include "alone.h"
#include "client.h"
#include "opened.h"
#include "plans.h"
#include "ring_layout.h"
#include "script.h"

#include <setjmp.h>
#include <signal.h>
#include <stddef.h>
#include <sys/mman.h>
#include <sys/socket.h>
#include <sys/stat.h>
#include <sys/un.h>
#include <unistd.h>

struct script script;

static struct lent fuzzed;
static struct loop turns; /* of the process */
static struct kept_file kept_there;
static struct kept *const kept = &kept_there.kept;
static struct options options;
static bool ends;        /* the process is to end after this turn */
static unsigned ends_at; /* or at this one of the moments at which it is kept; 0: at none */
static jmp_buf ended;

/* Turns in which messages are served that are left at the end. */
enum { MOST_LEFT = 8 };
static int lender, later; /* the lender's end of the channel; where a later one comes */
static bool is_other;     /* who comes there is another user */
static struct timespec now;

int __real_poll_some(struct pollfd *files, nfds_t count, int limit);
int __wrap_poll_some(struct pollfd *files, nfds_t count, int limit);
int __wrap_clock_gettime(clockid_t clock, struct timespec *time);
int __real_process_accept(int listener);
int __wrap_process_accept(int listener);
void __real_kept_save(struct lent *lent);
void __wrap_kept_save(struct lent *lent);
int LLVMFuzzerTestOneInput(const uint8_t *data, size_t size);

/* Each look at the clock is ten milliseconds after the one before. */
int __wrap_clock_gettime(clockid_t clock, struct timespec *time)
{
    (void)clock;
    now.tv_nsec += 10000000;
    now.tv_sec += now.tv_nsec >= 1000000000;
    now.tv_nsec %= 1000000000;
    *time = now;
    return 0;
}

/* An order: as the process waits for it, or any. */
static void lender_orders(void)
{
    unsigned kind = next_below(10), number = next_byte();
    struct lending_message order = {.kind = kind == TELL_REPORT ? ORDER_RENEW : kind,
                                    .number = number,
                                    .asks = number % 8 != 0,
                                    .ballooned = kind == ORDER_ADMIT ? number % 64 : 0};
    order.wait = next_byte() < 200
                     ? (order.kind == ORDER_GRANT ? fuzzed.notes.held_wait : fuzzed.notes.wait)
                     : next_byte();
    order.target = order.kind == ORDER_TARGET ? next_u32() % 100 : 0;
    if (next_byte() == 255)
        send(lender, &order, next_byte(), MSG_DONTWAIT | MSG_NOSIGNAL);
    else
        lending_send(lender, &order);
}

int __wrap_process_accept(int listener)
{
    int channel = __real_process_accept(listener);
    if (!is_other)
        return channel;
    close(channel);
    return -1;
}

/* The lender goes, or a later one comes, or another user. */
static void lender_changes(unsigned how)
{
    enum { COMES = 1, IS_OTHER = 6 };
    struct sockaddr_un address;
    socklen_t size = sizeof address;
    close(lender);
    lender = -1;
    is_other = (how & IS_OTHER) == IS_OTHER;
    if (!(how & COMES))
        return;
    lender = socket(AF_UNIX, SOCK_SEQPACKET | SOCK_CLOEXEC | SOCK_NONBLOCK, 0);
    demand(lender >= 0 && !getsockname(later, (struct sockaddr *)&address, &size));
    demand(!connect(lender, (struct sockaddr *)&address, size));
}

static void lender_hears(void)
{
    struct lending_message report;
    bool ended;
    while (lender >= 0 && lending_read(lender, &report, 1, &ended) > 0)
        demand(report.kind >= TELL_REPORT);
}

/* What comes while the process waits for its lender; the client goes at the end of the script. */
static void act_while_it_waits(void)
{
    unsigned what = next_below(4);
    if (!script_goes_on())
        client_ends();
    else if (what < 3)
        lender_orders();
    else
        lender_changes(next_byte());
}

int __wrap_poll_some(struct pollfd *files, nfds_t count, int limit)
{
    (void)limit;
    if (alone_is_there())
        alone_acts();
    else if (fuzzed.waits != WAIT_NOTHING)
        act_while_it_waits();
    return __real_poll_some(files, count, 0);
}

static void act(void)
{
    enum { PLANS = 240, ENDS = 244, ENDS_AMID = 247, CHANGES = 250 };
    static void (*const acts[])(void) = {client_sends, client_sends,     client_posts,
                                         client_posts, client_scribbles, lender_orders,
                                         client_kicks, client_babbles};
    if (plan_goes_on())
        return;
    unsigned what = next_byte();
    ends = what >= ENDS && what < CHANGES;
    ends_at = what >= ENDS_AMID && ends ? 1 + next_below(4) : 0;
    if (what >= CHANGES)
        lender_changes(what);
    else if (ends_at > 0)
        client_sends();
    else if (what >= PLANS && !ends)
        plan_begins();
    else if (!ends)
        acts[what % (sizeof acts / sizeof acts[0])]();
    lender_hears();
}

/* Where the process is kept it may end. */
void __wrap_kept_save(struct lent *lent)
{
    __real_kept_save(lent);
    if (ends_at > 0 && --ends_at == 0)
        longjmp(ended, 1);
}

/* A process begins on what is kept. */
static int process_begins(void)
{
    ends_at = 0;
    memset(&fuzzed, 0, sizeof fuzzed);
    demand(prepare(&fuzzed, &options, kept));
    demand(kept_regain(kept));
    files_let_go();
    opened_close_others(kept, lender);
    return guard(go_on, &fuzzed);
}

/* A process ends as it has read a message, perhaps with a part of the next one, or some bytes that
 * it hasn't noted. */
static void reads(void)
{
    struct inbox *inbox = &kept->inbox;
    enum { READS_WHOLE = 1, SENDS_TWO = 2 };
    client_sends();
    kept->unnoted = 0;
    unsigned how = next_byte();
    if (how & SENDS_TWO)
        client_sends();
    if (how & READS_WHOLE && inbox_read(fuzzed.backend.socket, inbox) == STREAM_WHOLE)
        return;
    size_t came = 0;
    if (inbox->got < sizeof inbox->head || inbox->message.size <= MOST_BODY)
        inbox_take(fuzzed.backend.socket, inbox, &came);
    kept->unnoted = came;
}

/* Whether a region's file still has this byte: its client may have cut it off. */
static bool file_has(const struct balloon_region *region, uint64_t at)
{
    struct stat its;
    return fstat(region->fd, &its) == 0 && region->offset + at < (uint64_t)its.st_size;
}

/* The guest changes a used index, which isn't the driver's. */
static void changes_used(const struct guest_memory *memory, const struct ring *ring)
{
    uint64_t used;
    uint8_t jump = next_byte();
    if (!memory_of_user(memory, ring->used, &used) || !memory_holds(memory, used, RING_META_SIZE))
        return;
    for (unsigned i = 0; i < memory->count; i++) {
        uint64_t at = used - memory->regions[i].guest + RING_INDEX_AT + 1;
        if (at < memory->regions[i].length && file_has(&memory->regions[i], at))
            memory->regions[i].host[at] ^= (uint8_t)jump;
    }
}

/* The process ends, with nothing that it has mapped, perhaps amid a transfer; and another one goes
 * on. */
static int another_goes_on(void)
{
    enum { IS_AMID = 250 };
    const struct guest_memory *memory = &fuzzed.backend.memory;
    unsigned what = next_byte();
    kept_there.room.amid = what >= IS_AMID;
    if (what % 8 == 7)
        changes_used(memory, &fuzzed.backend.rings[next_below(QUEUES)]);
    for (unsigned i = 0; i < memory->count; i++)
        munmap(memory->regions[i].host, memory->regions[i].length);
    if (fuzzed.backend.log.bits)
        munmap(fuzzed.backend.log.bits, fuzzed.backend.log.place.bytes);
    kept->unnoted = 0;
    if (!kept_state(kept)->outcome && next_byte() % 4)
        reads();
    return process_begins();
}

/* The words that the set of pages had after the last turn, and at most. */
static size_t words_before, most_words;

static int comes(unsigned kind)
{
    int ends[2];
    plans_clear(), words_before = most_words = 0;
    is_other = false;
    process_is_shut = true;
    options = (struct options){.client = "fuzzed",
                               .features = UINT64_C(1) << 32 | 0x27,
                               .is_lent = true,
                               .holds = kind & 1,
                               .strict = kind & 2,
                               .events = kind & 4,
                               .hints = kind & 8,
                               .discards_hints = kind & 16};
    memset(kept, 0, offsetof(struct kept, set));
    memset(kept_there.moves, 0, sizeof kept_there.moves);
    kept_there.room.amid = false;
    kept_clear(kept);
    demand(outbox_begin(&kept->outbox));
    demand(!socketpair(AF_UNIX, SOCK_SEQPACKET | SOCK_CLOEXEC | SOCK_NONBLOCK, 0, ends));
    struct kept_state *state = &kept->states[0];
    state->socket = client_comes();
    client.migrates = true;
    lender = ends[0];
    state->notes.channel = ends[1];
    state->notes.later = later;
    files_put_off(true);
    return process_begins();
}

static void goes(void)
{
    files_put_off(false);
    memset(kept->set, 0, most_words * sizeof *kept->set);
    if (fuzzed.backend.balloon.deflating)
        memset(fuzzed.backend.balloon.deflating, 0,
               fuzzed.backend.balloon.ballooned_words * sizeof *kept->set);
    backend_leave(&fuzzed.backend);
    kept_leave(&fuzzed);
    close(kept->outbox.ends[0]), close(kept->outbox.ends[1]);
    file_close(fuzzed.backend.socket);
    if (fuzzed.notes.channel >= 0)
        file_close(fuzzed.notes.channel);
    if (lender >= 0)
        close(lender);
    client_goes();
}

static void listen_once(void)
{
    if (later > 0)
        return;
    struct sockaddr_un address = {.sun_family = AF_UNIX};
    later = socket(AF_UNIX, SOCK_SEQPACKET | SOCK_CLOEXEC | SOCK_NONBLOCK, 0);
    demand(!bind(later, (struct sockaddr *)&address, sizeof address.sun_family) &&
           !listen(later, 8));
    signal(SIGPIPE, SIG_IGN);
    demand(loop_add(&turns, (struct loop_part){&fuzzed, waits, turn}));
    alone_begins();
}

/* The words that the set loses are zeros (marks.c), unless it ends amid a request. */
static void check_words(bool ends_amid)
{
    size_t words = fuzzed.backend.balloon.ballooned_words;
    for (size_t word = words; word < words_before && !ends_amid; word++)
        demand(kept->set[word] == 0);
    words_before = words;
    most_words = words > most_words ? words : most_words;
}

/* The life of a client of a host. */
static void lives(unsigned kind)
{
    volatile int served = comes(kind);
    while (served > 0 && script_goes_on()) {
        act();
        served = setjmp(ended) == 0 ? guard(loop_turn, &turns) : 1;
        check_words(served < 0);
        if (served >= 0) /* else it is amid a request, and ends */
            check_set(&fuzzed.backend);
        if (served > 0 && !ends)
            opened_check(kept, lender);
        if ((served > 0 && ends) || (served == 0 && fuzzed.ends_anew))
            served = another_goes_on();
    }
    /* A message that it hasn't read yet is served before it sees the end. */
    if (served > 0)
        client_ends();
    for (unsigned i = 0; served > 0 && i < MOST_LEFT; i++)
        served = guard(loop_turn, &turns);
    demand(served <= 0);
    goes();
    for (int it; (it = accept(later, NULL, NULL)) >= 0;)
        close(it);
}

int LLVMFuzzerTestOneInput(const uint8_t *data, size_t size)
{
    enum { ALONE = 32 };
    listen_once();
    opened_begin();
    script.at = data, script.end = data + size;
    now = (struct timespec){1, 0};
    unsigned kind = next_byte();
    if (kind & ALONE)
        alone_runs(kind);
    else
        lives(kind);
    opened_close_all();
    return 0;
}
