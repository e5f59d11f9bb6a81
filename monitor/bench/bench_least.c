/* What the calls of vb.h take by themselves: in place of the library's notices, inflates and
 * deflates of one number each, kept, in the first region, as plain C by hand does them. It makes
 * the tests of the device, the region and the guest's numbers that vb.h promises, hands over what
 * balloon.h needs, and remembers the same; all else goes to the library. The bench compares with
 * it. */
#define _GNU_SOURCE
#include "bench.h"

uint32_t __real_vb_begin(VbNotice *notice, VbBalloon *balloon, const VbRegion *regions,
                         size_t count, VbRoom *room, uint32_t kind, uint32_t chains, uint32_t pages,
                         uint32_t keeps);
uint32_t __real_vb_go_on(VbNotice *notice, VbBalloon *balloon, const VbRegion *regions,
                         size_t count, VbRoom *room, uint16_t answer);

enum { INDEX = 1, ENTRY, DESCRIPTOR, PART, FLAGS }; /* what the library's notices wait for */
enum { READ_ENTRY = VB_ACQUIRE + VB_READ, READ_FLAGS = VB_FULL_FENCE + VB_READ };
static const uint64_t LIMIT = 1ull << 44, FILE_LIMIT = 1ull << 62, KNOWN = 1ull << 32 | 0x3f;

#define USUALLY(condition) __builtin_expect(condition, 1)

/* Whether a region is as VbRegion says. */
static inline bool is_possible(const VbRegion *it)
{
    return !((it->guest | it->length) & 4095) && it->guest <= LIMIT &&
           it->length <= LIMIT - it->guest && it->in_file <= FILE_LIMIT;
}

static inline bool holds(const VbRegion *it, uint64_t address, uint64_t length)
{
    return it->guest <= address && length <= it->length &&
           address - it->guest <= it->length - length;
}

static inline bool is_part(uint64_t end, uint64_t address, uint64_t align, uint64_t length)
{
    return !(address & (align - 1)) && address <= end && length <= end - address;
}

/* Whether a queue that every driver has is served. */
static inline bool is_served(const VbDevice *device, const VbQueue *queue)
{
    uint64_t end = device->settings.memory_end, offered = device->settings.offered;
    uint32_t size = queue->size;
    return end < LIMIT && !(offered & ~KNOWN) && offered >> 32 & 1 &&
           (device->status & 0xc4) == 4 && !(size & (size - 1)) && size - 1 < VB_MAX_QUEUE_SIZE &&
           is_part(end, queue->table, 16, 16 * size) &&
           is_part(end, queue->avail, 2, 6 + 2 * size) &&
           is_part(end, queue->used, 4, 6 + 8 * size);
}

static inline VbQueue *queue_of(VbBalloon *balloon, uint32_t kind)
{
    return kind == VB_INFLATE ? &balloon->device.inflate : &balloon->device.deflate;
}

static inline uint64_t entry_of(const VbQueue *queue, uint16_t next)
{
    return queue->avail + 4 + 2 * (next & (queue->size - 1u));
}

/* What is done next, at this place of the first region. */
static inline uint32_t say(VbNotice *notice, uint32_t what, uint8_t phase, uint64_t offset)
{
    notice->at.region = 0, notice->at.offset = offset, notice->phase = phase;
    return notice->what = what;
}

uint32_t __wrap_vb_begin(VbNotice *notice, VbBalloon *balloon, const VbRegion *regions,
                         size_t count, VbRoom *room, uint32_t kind, uint32_t chains, uint32_t pages,
                         uint32_t keeps)
{
    const VbQueue *queue = queue_of(balloon, kind);
    if (!USUALLY(kind <= VB_DEFLATE && count && is_served(&balloon->device, queue) &&
                 is_possible(regions) && holds(regions, queue->avail + 2, 2)))
        return __real_vb_begin(notice, balloon, regions, count, room, kind, chains, pages, keeps);
    notice->kind = kind, notice->cuts = 0;
    notice->chains_left = chains, notice->pages_left = pages, notice->keeps = keeps != 0;
    notice->given = 0, notice->taken = 0, notice->published = 0;
    return say(notice, VB_READ, INDEX, queue->avail + 2 - regions->guest);
}

/* What is done once the index was read. Each of these answers 0 where the library has to go on, and
 * has changed nothing then. */
static inline uint32_t after_index(VbNotice *notice, const VbQueue *queue, const VbRegion *region,
                                   uint16_t index)
{
    uint16_t ahead = (uint16_t)(index - queue->next_avail);
    uint64_t entry = entry_of(queue, queue->next_avail);
    if (!USUALLY(ahead && ahead <= queue->size && !(queue->size & (queue->size - 1)) &&
                 notice->chains_left && notice->pages_left && holds(region, entry, 2)))
        return 0;
    notice->cuts = 0, notice->published = index, notice->chains_left--;
    return say(notice, READ_ENTRY, ENTRY, entry - region->guest);
}

static inline uint32_t after_entry(VbNotice *notice, const VbQueue *queue, const VbRegion *region,
                                   uint16_t head)
{
    uint64_t descriptor = queue->table + 16 * (uint32_t)head;
    if (!USUALLY(head < queue->size && descriptor >= queue->table && holds(region, descriptor, 16)))
        return 0;
    notice->cuts = 0, notice->length = 16, notice->into = 0, notice->number = head,
    notice->from = 0;
    notice->head = head, notice->count = 0, notice->flag = 0;
    return say(notice, VB_COPY, DESCRIPTOR, descriptor - region->guest);
}

static inline uint32_t after_descriptor(VbNotice *notice, VbRoom *room, const VbDevice *device,
                                        const VbQueue *queue, const VbRegion *region)
{
    uint64_t words[2], end = device->settings.memory_end & ~4095ull;
    memcpy(words, room->bytes, sizeof words);
    uint32_t length = (uint32_t)words[1], left = 4096 - (words[0] & 4095),
             first = length < left ? length : left;
    if (!USUALLY(!notice->count && !notice->flag && !(words[1] >> 32 & (NEXT | WRITE | INDIRECT)) &&
                 length - 1 < 1024 && !(length & 3) && queue->size && words[0] <= end &&
                 length <= end - words[0] && holds(region, words[0], first)))
        return 0;
    room->pieces[0] = (VbPiece){words[0], length, 0};
    notice->cuts = 0, notice->length = first, notice->into = 0, notice->count = 1,
    notice->number = 0, notice->flag = 0;
    return say(notice, VB_COPY, PART, words[0] - region->guest);
}

/* The page is told, the chain given back, and the next word read: another entry, or the flags. */
static inline uint32_t after_part(VbNotice *notice, VbRoom *room, const VbDevice *device,
                                  VbQueue *queue, const VbRegion *region)
{
    if (!USUALLY(notice->length == 4 && !notice->into && notice->count == 1 && !notice->number &&
                 !notice->flag && room->pieces[0].length == 4 && notice->keeps &&
                 is_served(device, queue)))
        return 0;
    uint32_t page, all = (uint32_t)(device->settings.memory_end >> 12),
                   reserved = device->settings.reserved_pages;
    uint16_t next = (uint16_t)(queue->next_avail + 1), ahead = (uint16_t)(notice->published - next);
    uint64_t element = queue->used + 4 + 8 * (queue->next_used & (queue->size - 1u));
    uint64_t word = ahead ? entry_of(queue, next) : queue->avail;
    memcpy(&page, room->bytes, sizeof page);
    if (!USUALLY(
            page - reserved < (all > reserved ? all - reserved : 0) && notice->head < queue->size &&
            (!ahead || (ahead <= queue->size && notice->chains_left && notice->pages_left > 1)) &&
            holds(region, element, 8) && holds(region, queue->used + 2, 2) &&
            holds(region, word, 2)))
        return 0;
    room->runs[0] = (VbRun){page, 1};
    queue->next_avail = next, queue->next_used++;
    notice->runs = 1, notice->pages = 1, notice->skipped = 0, notice->cuts = 0,
    notice->kept = notice->kind == VB_INFLATE;
    notice->id_at = (VbSpot){0, element - region->guest},
    notice->length_at = (VbSpot){0, element - region->guest + 4};
    notice->index_at = (VbSpot){0, queue->used + 2 - region->guest};
    notice->id = notice->head, notice->used_length = 0, notice->used_index = queue->next_used,
    notice->given = 1;
    notice->pages_left -= notice->pages_left > 0;
    notice->chains_left -= ahead != 0;
    if (!ahead)
        notice->code = 0, notice->rule = 0, notice->more = 0;
    return say(notice, VB_TELL_PAGES + VB_GIVE_BACK + (ahead ? READ_ENTRY : READ_FLAGS),
               ahead ? ENTRY : FLAGS, word - region->guest);
}

static inline uint32_t after_flags(VbNotice *notice, uint16_t flags)
{
    notice->cuts = 0, notice->rule = 0, notice->interrupt = !(flags & 1), notice->configuration = 0,
    notice->phase = 0;
    return notice->what = 0;
}

uint32_t __wrap_vb_go_on(VbNotice *notice, VbBalloon *balloon, const VbRegion *regions,
                         size_t count, VbRoom *room, uint16_t answer)
{
    VbQueue *queue = queue_of(balloon, notice->kind);
    uint32_t what = 0;
    if (USUALLY(notice->kind <= VB_DEFLATE && count && is_possible(regions))) {
        if (notice->phase == INDEX)
            what = after_index(notice, queue, regions, answer);
        else if (notice->phase == ENTRY)
            what = after_entry(notice, queue, regions, answer);
        else if (notice->phase == DESCRIPTOR)
            what = after_descriptor(notice, room, &balloon->device, queue, regions);
        else if (notice->phase == PART)
            what = after_part(notice, room, &balloon->device, queue, regions);
        else if (notice->phase == FLAGS && !notice->code)
            return after_flags(notice, answer);
    }
    return what ? what : __real_vb_go_on(notice, balloon, regions, count, room, answer);
}
