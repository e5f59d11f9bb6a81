/* The format of a saved state, written down once more. */
#include "saved.h"

uint8_t *put_number(uint8_t *at, uint64_t value, int bytes)
{
    for (int i = 0; i < bytes; i++)
        at[i] = (uint8_t)(value >> 8 * i);
    return at + bytes;
}

static uint8_t *put_ring(uint8_t *at, const VbQueue *queue)
{
    at = put_number(put_number(put_number(at, queue->table, 8), queue->avail, 8), queue->used, 8);
    return put_number(put_number(put_number(at, queue->size, 2), queue->next_avail, 2),
                      queue->next_used, 2);
}

void put_sum_at(uint8_t *bytes, size_t at)
{
    uint64_t sum = 14695981039346656037u;
    for (size_t i = 0; i < at; i++)
        sum = (sum ^ bytes[i]) * 1099511628211u;
    put_number(bytes + at, sum, 8);
}

void put_sum(uint8_t *bytes)
{
    put_sum_at(bytes, SUM_AT);
}

/* What all versions have. */
static uint8_t *put_first(const VbDevice *device, VbHeld held, uint8_t *bytes, unsigned version,
                          unsigned length)
{
    const VbSettings *settings = &device->settings;
    uint8_t *at = put_number(bytes, 0x0045544154534256, 8); /* VBSTATE and a 0 */
    at = put_number(put_number(at, version, 4), length, 4);
    at = put_number(put_number(at, settings->memory_end, 8), settings->offered, 8);
    at = put_number(at, settings->reserved_pages, 4);
    at = put_number(put_number(at, settings->needs_must_tell, 1), settings->skips_bad_pages, 1);
    at = put_number(put_number(put_number(at, device->features, 8), device->target, 4),
                    device->actual, 4);
    at = put_number(put_number(at, held.statistics, 4), device->status, 1);
    at = put_ring(
        put_ring(put_ring(put_ring(at, &device->inflate), &device->deflate), &device->statistics),
        &device->report);
    return put_number(at, device->poison, 4);
}

static uint8_t *put_holds(uint8_t *at, const VbDevice *device, VbHeld held)
{
    return put_number(
        put_number(put_number(at, device->settings.holds_deflates, 1), held.deflate, 4), held.pages,
        4);
}

void encode(const VbDevice *device, VbHeld held, uint8_t *bytes)
{
    const VbRound *round = &device->round;
    uint8_t *at =
        put_ring(put_holds(put_first(device, held, bytes, 4, 240), device, held), &device->hint);
    at = put_number(put_number(put_number(at, round->shown, 4), round->last, 4), round->opened, 1);
    EXPECT(put_number(at, device->settings.discards_hints, 1) == bytes + SUM_AT);
    put_sum(bytes);
}

size_t encode_older(const VbDevice *device, VbHeld held, unsigned version, uint8_t *bytes)
{
    const unsigned length = version == 2 ? 191 : 200;
    uint8_t *at = put_first(device, held, bytes, version, length);
    at = version == 2 ? at : put_holds(at, device, held);
    EXPECT(at == bytes + length - 8);
    put_sum_at(bytes, length - 8);
    return length;
}
