/* Where queues are, and what calls are refused for by status, features and place, in plain C. */
#include "reference.h"

uint32_t vb_kind_of(uint64_t features, uint32_t number)
{
    bool statistics = features & STATS_VQ, hint = features & VB_F_FREE_PAGE_HINT,
         report = features & REPORTING;
    if (number < 2)
        return number;
    if (number == 2 && statistics)
        return VB_STATISTICS;
    if (hint && number == 2u + statistics)
        return VB_HINT;
    return report && number == 2u + statistics + hint ? VB_REPORT : VB_NO_KIND;
}

uint32_t vb_kind(const VbDevice *device, uint32_t number)
{
    return vb_kind_of(device->features, number);
}

VbQueue *queue_of(VbDevice *device, uint32_t kind)
{
    VbQueue *queues[] = {&device->inflate, &device->deflate, &device->statistics, &device->report,
                         &device->hint};
    return kind < VB_NO_KIND ? queues[kind] : NULL;
}

bool lacks_feature(const VbDevice *device, uint32_t kind)
{
    return (kind == VB_STATISTICS && !(device->features & STATS_VQ)) ||
           (kind == VB_REPORT && !(device->features & REPORTING)) ||
           (kind == VB_HINT && !(device->features & VB_F_FREE_PAGE_HINT));
}

/* Whether a part of a ring may not be there. */
static bool misplaced(const VbDevice *device, uint64_t address, uint64_t alignment, uint64_t length)
{
    uint64_t end = device->settings.memory_end;
    return address % alignment || address > end || length > end - address;
}

/* Whether this is no ring (VIRTIO 1.1, 2.6). */
static bool has_no_place(const VbDevice *device, const VbQueue *queue)
{
    uint16_t size = queue->size;
    return size == 0 || size > VB_MAX_QUEUE_SIZE || (size & (size - 1)) ||
           misplaced(device, queue->table, TABLE_ALIGNMENT, (uint64_t)DESCRIPTOR_SIZE * size) ||
           misplaced(device, queue->avail, AVAIL_ALIGNMENT,
                     RING_META_SIZE + (uint64_t)AVAIL_ENTRY_SIZE * size) ||
           misplaced(device, queue->used, USED_ALIGNMENT,
                     RING_META_SIZE + (uint64_t)USED_ELEMENT_SIZE * size);
}

uint32_t vb_place(VbDevice *device, uint32_t kind, uint64_t table, uint64_t avail, uint64_t used,
                  uint16_t size)
{
    VbQueue *queue = queue_of(device, kind);
    if (!queue)
        return VB_NO_QUEUE;
    if ((device->status & DRIVER_OK) || are_impossible(&device->settings))
        return VB_BAD_ARGUMENT;
    if (lacks_feature(device, kind))
        return VB_NO_QUEUE;
    const VbQueue placed = {.table = table, .avail = avail, .used = used, .size = size};
    if (has_no_place(device, &placed))
        return VB_MISPLACED;
    *queue = placed;
    return VB_OK;
}

/* What a call is refused for by the status, in which a bit has to be set, the features and the
 * queue's place. */
uint32_t refusal_at(const VbDevice *device, uint8_t bit, uint32_t kind, const VbQueue *queue)
{
    if (are_impossible(&device->settings))
        return VB_BAD_ARGUMENT;
    if (!(device->status & bit) || (device->status & FAILED))
        return VB_NOT_READY;
    if (device->status & NEEDS_RESET)
        return VB_NEEDS_RESET;
    if (lacks_feature(device, kind))
        return VB_NO_QUEUE;
    return has_no_place(device, queue) ? VB_MISPLACED : VB_OK;
}

uint32_t refusal(const VbDevice *device, uint32_t kind, const VbQueue *queue)
{
    return refusal_at(device, DRIVER_OK, kind, queue);
}
