/* What a monitor calls, a part of balloon.h, whose functions alone touch guest memory.
 *
 * A monitor calls balloon_init once, hands each of its driver's accesses to the function of that
 * name, and does what a result says. One call at a time on a balloon; guests may write to their
 * memory during any call. */
#ifndef BALLOON_CALLS_H
#define BALLOON_CALLS_H
#include "balloon_notices.h"

enum {
    BALLOON_DRIVER_OK = 4, /* a bit of the status (VIRTIO 1.1, 2.1) */
};

/* Discards bytes of a region as the balloon does without a hook: whole pages that begin `at` bytes
 * into it. 0 or an errno. */
static inline int balloon_discard_bytes(const struct balloon_region *region, uint64_t at,
                                        uint64_t length)
{
    const VbCut cut = {0, at, region->offset + at, length};
    return balloon_drop(region, &cut);
}

/* ---- memory */

/* Puts regions as the library sees them into `places`; false where there are too many. */
static inline bool balloon_places(VbRegion *places, const struct balloon_region *regions,
                                  size_t count)
{
    for (size_t i = 0; count <= BALLOON_MOST_REGIONS && i < count; i++) {
        places[i].guest = regions[i].guest;
        places[i].length = regions[i].length;
        places[i].in_file = regions[i].fd < 0 ? 0 : regions[i].offset;
    }
    return count <= BALLOON_MOST_REGIONS;
}

/* Makes a balloon that waits for its driver. Where settings.memory_end is 0, memory ends with the
 * last region. VB_OK; or VB_BAD_ARGUMENT, as vb_new_over, or for more than BALLOON_MOST_REGIONS
 * regions. */
static inline uint32_t balloon_init(struct balloon *balloon, const struct balloon_region *regions,
                                    size_t count, VbSettings settings)
{
    memset(balloon, 0, sizeof *balloon);
    if (!balloon_places(balloon->places, regions, count))
        return VB_BAD_ARGUMENT;
    balloon->regions = regions;
    balloon->region_count = count;
    balloon->most_chains = BALLOON_MOST_CHAINS;
    balloon->most_pages = UINT32_MAX;
    return vb_new_over(&balloon->state, settings, balloon->places, count);
}

/* These regions are guest memory from now on, and it ends where the last one does. VB_OK, or
 * VB_BAD_ARGUMENT where no device has such memory, or in a hook; then nothing is changed. A driver
 * whose rings lay elsewhere has to reset the device. */
static inline uint32_t balloon_set_regions(struct balloon *balloon,
                                           const struct balloon_region *regions, size_t count)
{
    VbRegion places[BALLOON_MOST_REGIONS];
    memset(places, 0, sizeof places);
    if (balloon->notice.what || !balloon_places(places, regions, count) ||
        vb_set_regions(&balloon->state, places, count) != VB_OK)
        return VB_BAD_ARGUMENT;
    memcpy(balloon->places, places, sizeof places);
    balloon->regions = regions;
    balloon->region_count = count;
    return VB_OK;
}

/* ---- the driver's accesses */

/* The driver writes its features: 0, or why they are refused (vb_negotiate). */
static inline uint32_t balloon_negotiate(struct balloon *balloon, uint64_t features)
{
    return vb_negotiate(&balloon->state.device, features);
}

/* The driver gives a queue its place: as vb_place, and VB_MISPLACED where a part lies in a hole. */
static inline uint32_t balloon_place(struct balloon *balloon, uint32_t kind, uint64_t table,
                                     uint64_t avail, uint64_t used, uint16_t size)
{
    const VbQueuePlace at = {table, avail, used, size};
    return vb_place_over(&balloon->state, balloon->places, balloon->region_count, kind, at);
}

/* A call on a queue of this kind has answered this: where that is VB_OK, it has forgotten what is
 * held of the queue, and no notice of it continues. */
static inline uint32_t balloon_no_longer(struct balloon *balloon, uint32_t kind, uint32_t code)
{
    if (code == VB_OK)
        balloon_forget_pause(balloon, kind);
    if (kind == VB_DEFLATE && code == VB_OK)
        balloon_empty_deflating(balloon);
    return code;
}

/* Starts a queue at an index, before or after DRIVER_OK, and stops it: as vb_start_queue, and as
 * vb_stop_queue. */
static inline uint32_t balloon_start_queue(struct balloon *balloon, uint32_t kind, VbQueueStart at)
{
    return balloon_no_longer(
        balloon, kind,
        vb_start_queue(&balloon->state, balloon->places, balloon->region_count, kind, at));
}

static inline uint32_t balloon_stop_queue(struct balloon *balloon, uint32_t kind, uint16_t *next)
{
    return balloon_no_longer(balloon, kind, vb_stop_queue(&balloon->state, kind, next));
}

/* Forgets the chain that is held of this queue: as vb_forget_held. The pages of a deflate stay in
 * the set. */
static inline uint32_t balloon_forget_held(struct balloon *balloon, uint32_t kind)
{
    return balloon_no_longer(balloon, kind, vb_forget_held(&balloon->state, kind));
}

/* The driver writes the status: 0, or why it is refused (vb_write_status). At DRIVER_OK each queue
 * is looked at, as Linux fills its statistics buffer before and kicks it once; `result` says what
 * that came to. */
static inline uint32_t balloon_write_status(struct balloon *balloon, uint8_t status,
                                            struct balloon_result *result)
{
    uint32_t then, answer = vb_set_status(&balloon->state, status, &then);
    if (then & VB_EMPTY && balloon->ballooned)
        memset(balloon->ballooned, 0, balloon->ballooned_words * sizeof *balloon->ballooned);
    if (then & VB_EMPTY) {
        balloon_empty_deflating(balloon);
        memset(balloon->paused, 0, sizeof balloon->paused);
    }
    *result = then & VB_LOOK ? balloon_notify_all(balloon) : balloon_result_of(VB_NOTHING);
    return answer;
}

/* The driver reads its configuration space. */
static inline void balloon_read_config(const struct balloon *balloon, uint32_t offset, uint8_t *out,
                                       size_t length)
{
    vb_read_config(&balloon->state.device, offset, out, length);
}

/* The driver writes its configuration space: VB_OK, or VB_BAD_ARGUMENT and nothing is changed. */
static inline uint32_t balloon_write_config(struct balloon *balloon, uint32_t offset,
                                            const uint8_t *bytes, size_t length)
{
    return vb_write_config(&balloon->state.device, offset, bytes, length);
}

/* ---- the host's wishes */

/* Sets the balloon's target to `pages` pages: send the driver a configuration change notification
 * then. */
static inline void balloon_set_target(struct balloon *balloon, uint32_t pages)
{
    vb_set_target(&balloon->state.device, pages);
}

/* Whether the driver has another number of pages in its balloon than the host wants. Linux may have
 * missed the notice, or have given pages back as its memory ran out: tell of a change of
 * configuration again then, seldom. */
static inline bool balloon_is_off_target(const struct balloon *balloon)
{
    return balloon->state.device.actual != balloon->state.device.target;
}

/* Whether the driver may be told of a change of configuration: it reads its configuration as it
 * starts. */
static inline bool balloon_may_tell(const struct balloon *balloon)
{
    return vb_may_tell(&balloon->state.device) != 0;
}

/* Begins a round of free page hints (VIRTIO 1.2, 5.5.6.6), whose id `id` gets: send the driver a
 * configuration change notification then. VB_OK; or refused as by vb_begin_hints, and then nothing
 * is changed, and `id` is 0. */
static inline uint32_t balloon_begin_hints(struct balloon *balloon, uint32_t *id)
{
    return vb_begin_hints(&balloon->state.device, id);
}

/* Stops a round, so that the driver hints no more, and may keep what it hinted; or ends one, and
 * the driver takes that back: send it a configuration change notification then. */
static inline void balloon_stop_hints(struct balloon *balloon)
{
    vb_stop_hints(&balloon->state.device);
}

static inline void balloon_end_hints(struct balloon *balloon)
{
    vb_end_hints(&balloon->state.device);
}

/* ---- saving */

/* Puts all that the device is into `out`, as VB_STATE_BYTES bytes: as vb_save. The set of ballooned
 * pages, and that of a held deflate's pages, are the monitor's, and saved beside it. */
static inline uint32_t balloon_save(const struct balloon *balloon, uint8_t *out, size_t room)
{
    return vb_save(&balloon->state.device, balloon->state.held, out, room);
}

/* Goes on where the balloon was that was saved as these bytes, over regions that balloon_init was
 * told of. VB_OK, as vb_restore, or VB_MISPLACED where memory ends elsewhere than it did, or a
 * queue's part lies in a hole. Then nothing is changed. */
static inline uint32_t balloon_restore(struct balloon *balloon, const uint8_t *bytes, size_t length)
{
    uint32_t code =
        vb_restore_over(&balloon->state, balloon->places, balloon->region_count, bytes, length);
    if (code == VB_OK)
        memset(balloon->paused, 0, sizeof balloon->paused);
    return code;
}
#endif
