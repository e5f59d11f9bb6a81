/* Chains of descriptors in plain C. */
#include "reference.h"

Descriptor descriptor_at(const uint8_t *table, uint32_t number)
{
    const uint8_t *at = table + DESCRIPTOR_SIZE * (size_t)number;
    return (Descriptor){little(at, 8), (uint32_t)little(at + 8, 4), (uint16_t)little(at + 12, 2),
                        (uint16_t)little(at + 14, 2)};
}

/* How many descriptors a chain has at most in a table of `size`: no more than there is room for
 * pieces. */
uint32_t longest(uint16_t size)
{
    return size < VB_MAX_PIECES ? size : VB_MAX_PIECES;
}

/* The rule that a descriptor breaks after `before` others of its chain; 0: none
 * (VIRTIO 1.1, 2.6.5). */
uint32_t broken_rule(const VbDevice *device, uint16_t size, const Descriptor *it, uint32_t before,
                     bool writing)
{
    uint64_t end = page_count(device) * PAGE;
    if (it->flags & INDIRECT_TABLE)
        return INDIRECT;
    if (it->address > end || it->length > end - it->address)
        return OUT_OF_RAM;
    if (writing && !(it->flags & WRITE))
        return WRONG_DIRECTION;
    if ((it->flags & NEXT) && it->next >= size)
        return BAD_NEXT;
    return (it->flags & NEXT) && before + 1 >= longest(size) ? TOO_LONG : 0;
}

bool any_of_direction(const VbPiece *pieces, uint32_t count, uint8_t writable)
{
    for (uint32_t i = 0; i < count; i++)
        if (pieces[i].writable == writable)
            return true;
    return false;
}

/* The rule that the pieces of an inflate, a deflate, a statistics buffer or an id of hints break
 * (VIRTIO 1.2, 5.5.6). */
uint32_t buffer_rule(const VbDevice *device, uint32_t kind, const VbPiece *pieces, uint32_t count,
                     uint64_t total)
{
    if (any_of_direction(pieces, count, 1))
        return WRONG_DIRECTION;
    if (kind == VB_HINT)
        return total != ID_BYTES ? BAD_LENGTH : 0;
    if (kind == VB_STATISTICS)
        return total > STATISTICS_BYTES || total % FIGURE_BYTES ? BAD_LENGTH : 0;
    return total == 0 || total > 4 * longest_request(device) || total % 4 ? BAD_LENGTH : 0;
}
