/* The queues as a vhost-user client tells of them: each is placed, started, enabled, stopped and
 * gone on with by itself. A ring that runs has a place in the device; one that doesn't has none
 * there, and nothing of it is served. */
#ifndef RINGS_H
#define RINGS_H
#include "events.h"
#include "vb.h"

#include <poll.h>
#include <stdint.h>

/* How many queues a client may tell of. Linux from 7.2 on asks for five, whatever features it
 * takes. A queue that the features give no kind never runs. */
enum { QUEUES = 5 };

/* What a client has told of one queue; addresses are the client's. */
struct ring {
    uint64_t table, avail, used;
    uint32_t size, base; /* base: the index at which it resumes */
    struct event kick, call, fault;
    bool placed, based; /* the addresses were told, and the index */
    bool enabled, started;
    bool polled; /* it is looked at now and then, without a kick */
    bool runs;
    bool logged; /* what is written to its used ring is logged, where the features have it */
};

/* What a client has told of the whole device. */
struct told {
    /* as it sent them, with the bit that says that there are protocol features */
    uint64_t features;
    uint64_t protocol; /* protocol features */
    uint8_t status;    /* where the client tells it */
    bool owned;        /* a session has begun */
    bool negotiated;   /* the device has taken the features */
    bool goes_on;      /* rings have stopped: they go on, or a new life begins */
    uint32_t actual;   /* `actual` of the rings that have stopped */
};

/* The bits of a client's features that aren't the device's: that there are protocol features, and
 * that what the device writes is to be logged. */
#define HAS_PROTOCOL_FEATURES (UINT64_C(1) << 30)
#define LOG_ALL (UINT64_C(1) << 26)

/* Of a client's features, the device's. */
static inline uint64_t features_of_device(uint64_t told)
{
    return told & ~(HAS_PROTOCOL_FEATURES | LOG_ALL);
}

struct backend;

/* Puts a number into a device's configuration as a driver does; a field that isn't offered takes
 * none. */
void configuration_write(VbDevice *device, uint32_t offset, uint32_t number);
enum { ACTUAL_AT = 4, POISON_AT = 12 };

/* No client has told anything. */
void rings_clear(struct backend *backend);

/* Closes the files of all rings. */
void rings_close(struct backend *backend);

/* Takes these features of the driver: 0, or why the device refuses them. No ring may run. */
uint32_t rings_negotiate(struct backend *backend, uint64_t features);

/* Starts and stops rings, so that those run of which the client has told all; false where one
 * can't, which is said. */
bool rings_settle(struct backend *backend);

/* Whether any ring runs, and whether this one does. */
bool rings_run(const struct backend *backend);
bool ring_runs(const struct backend *backend, unsigned number);

/* Whether a queue of this kind isn't served: a guest takes no pages while it migrates, where the
 * host that it goes to has to lend them. */
bool queue_is_postponed(const struct backend *backend, uint32_t kind);

/* The ring of this kind of queue, or NULL. */
const struct ring *ring_of_kind(const struct backend *backend, uint32_t kind);

/* Whether an address of the guest lies in the descriptors of the queue of this kind. */
bool ring_describes(const struct backend *backend, uint32_t kind, uint64_t guest);

/* Whether all rings that run lie in memory where they lay; else says which doesn't. */
bool rings_hold(struct backend *backend);

/* Stops a ring until it is restarted, and notes at which index it resumes. */
void ring_end(struct backend *backend, unsigned number);

/* Stops all rings and forgets what was told of them, but for the files for interrupts and the index
 * at which each resumes: QEMU 7.2 resets the status before it asks for that. */
void rings_halt(struct backend *backend);

/* As rings_halt, and forgets the indexes, too. */
void rings_forget(struct backend *backend);

/* The rings as another process begins with them; and takes them so, over the memory that they lay
 * in, to be started by rings_settle; whether the driver was ready when that was looked at last.
 * False where the guest has changed what isn't the driver's, which is said. */
void rings_keep(const struct backend *backend, struct ring kept[QUEUES]);
bool rings_regain(struct backend *backend, const struct told *told, const struct ring kept[QUEUES],
                  bool was_ready);

/* The end of a driver's life without another one after it: nothing is in the balloon any
 * longer. */
bool rings_reset(struct backend *backend);

/* Has a loop wait for the kicks of the queues that run, each of which is served when it has
  * come. */
struct loop;
void rings_wait(struct backend *backend, struct loop *loop);

/* Whether a ring is looked at now and then; and looks. */
bool rings_polled(const struct backend *backend);
bool rings_look(struct backend *backend);

#endif
