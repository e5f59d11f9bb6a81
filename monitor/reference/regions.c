/* Regions of guest memory, and a balloon over them, in plain C. */
#include "reference.h"

static const uint64_t MOST_IN_FILE = 1ull << 62;

bool is_region(const VbRegion *region)
{
    return region->guest % REGION_PAGE == 0 && region->length % REGION_PAGE == 0 &&
           region->guest <= MOST_MEMORY && region->length <= MOST_MEMORY - region->guest &&
           region->in_file <= MOST_IN_FILE;
}

/* The region in which all of these bytes lie, and where. */
bool find_within(const VbRegion *regions, size_t count, uint64_t address, uint64_t length,
                 VbSpot *spot)
{
    for (size_t i = 0; i < count; i++) {
        const VbRegion *it = &regions[i];
        if (!is_region(it) || address < it->guest || length > it->length ||
            address - it->guest > it->length - length)
            continue;
        *spot = (VbSpot){i, address - it->guest};
        return true;
    }
    return false;
}

/* Where the last region ends; false where one isn't as VbRegion says. */
static bool end_of(const VbRegion *regions, size_t count, uint64_t *end)
{
    *end = 0;
    for (size_t i = 0; i < count; i++) {
        if (!is_region(&regions[i]))
            return false;
        uint64_t here = regions[i].guest + regions[i].length;
        *end = here > *end ? here : *end;
    }
    return true;
}

uint32_t vb_new_over(VbBalloon *balloon, VbSettings settings, const VbRegion *regions, size_t count)
{
    uint64_t end;
    VbBalloon made = {.held = {0, 0, 0}};
    if (!end_of(regions, count, &end))
        return VB_BAD_ARGUMENT;
    if (settings.memory_end == 0)
        settings.memory_end = end;
    if (vb_new(&made.device, settings) != VB_OK)
        return VB_BAD_ARGUMENT;
    *balloon = made;
    return VB_OK;
}

uint32_t vb_set_regions(VbBalloon *balloon, const VbRegion *regions, size_t count)
{
    VbBalloon possible;
    VbSettings settings = balloon->device.settings;
    if (!end_of(regions, count, &settings.memory_end) ||
        vb_new_over(&possible, settings, regions, count) != VB_OK)
        return VB_BAD_ARGUMENT;
    balloon->device.settings = settings;
    return VB_OK;
}

/* Whether all these bytes lie in regions. */
static bool holds_bytes(const VbRegion *regions, size_t count, uint64_t address, uint64_t length)
{
    uint64_t end = address + length;
    VbSpot spot;
    for (; address < end; address = (address / REGION_PAGE + 1) * REGION_PAGE)
        if (!find_within(regions, count, address, 1, &spot))
            return false;
    return true;
}

static bool holds_queue(const VbRegion *regions, size_t count, const VbQueue *queue)
{
    uint64_t size = queue->size;
    return size == 0 ||
           (holds_bytes(regions, count, queue->table, DESCRIPTOR_SIZE * size) &&
            holds_bytes(regions, count, queue->avail, RING_META_SIZE + AVAIL_ENTRY_SIZE * size) &&
            holds_bytes(regions, count, queue->used, RING_META_SIZE + USED_ELEMENT_SIZE * size));
}

uint32_t vb_place_over(VbBalloon *balloon, const VbRegion *regions, size_t count, uint32_t kind,
                       VbQueuePlace at)
{
    VbDevice device = balloon->device;
    uint32_t code = vb_place(&device, kind, at.table, at.avail, at.used, at.size);
    if (code == VB_OK && !holds_queue(regions, count, queue_of(&device, kind)))
        code = VB_MISPLACED;
    if (code == VB_OK)
        balloon->device = device;
    return code;
}

uint32_t vb_start_queue(VbBalloon *balloon, const VbRegion *regions, size_t count, uint32_t kind,
                        VbQueueStart at)
{
    VbQueue *queue = queue_of(&balloon->device, kind);
    const VbQueue started = {at.table, at.avail, at.used, at.size, at.next, at.next};
    if (!queue)
        return VB_NO_QUEUE;
    uint32_t code = refusal_at(&balloon->device, FEATURES_OK, kind, &started);
    if (code == VB_OK && !holds_queue(regions, count, &started))
        return VB_MISPLACED;
    if (code != VB_OK)
        return code;
    *queue = started;
    vb_forget_held(balloon, kind);
    return VB_OK;
}

uint32_t vb_stop_queue(VbBalloon *balloon, uint32_t kind, uint16_t *next)
{
    VbQueue *queue = queue_of(&balloon->device, kind);
    *next = 0;
    if (!queue)
        return VB_NO_QUEUE;
    if (queue->size == 0)
        return VB_MISPLACED;
    *next = queue->next_used;
    memset(queue, 0, sizeof *queue);
    vb_forget_held(balloon, kind);
    return VB_OK;
}

uint32_t vb_set_status(VbBalloon *balloon, uint8_t status, uint32_t *then)
{
    uint8_t before = balloon->device.status;
    uint32_t code = vb_write_status(&balloon->device, status);
    *then = 0;
    if (code == 0 && status == 0) {
        memset(&balloon->held, 0, sizeof balloon->held);
        *then = VB_EMPTY;
    }
    if (code == 0 && (status & DRIVER_OK) && !(before & DRIVER_OK))
        *then |= VB_LOOK;
    return code;
}

uint32_t vb_restore_over(VbBalloon *balloon, const VbRegion *regions, size_t count,
                         const uint8_t *bytes, size_t length)
{
    VbBalloon made;
    uint32_t code = vb_restore(&made.device, &made.held, bytes, length);
    if (code != VB_OK)
        return code;
    VbDevice *it = &made.device;
    if (it->settings.memory_end != balloon->device.settings.memory_end ||
        !holds_queue(regions, count, &it->inflate) || !holds_queue(regions, count, &it->deflate) ||
        !holds_queue(regions, count, &it->statistics) ||
        !holds_queue(regions, count, &it->report) || !holds_queue(regions, count, &it->hint))
        return VB_MISPLACED;
    *balloon = made;
    return VB_OK;
}

uint32_t vb_may_tell(const VbDevice *device)
{
    return (device->status & DRIVER_OK) != 0;
}
