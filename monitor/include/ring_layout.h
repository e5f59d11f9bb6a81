/* The layout of a split virtqueue, in bytes (VIRTIO 1.1, 2.6).
 * `tools/list-codes --write` makes this file. */
#ifndef BALLOON_RING_LAYOUT_H
#define BALLOON_RING_LAYOUT_H

/* clang-format off */
enum {
    DESCRIPTOR_SIZE = 16,       /* bytes of a descriptor */
    RING_WORD_SIZE = 2,         /* the flags of a ring, and then its index (VIRTIO 1.1, 2.6.6 and
                                   2.6.8): each of the two */
    RING_INDEX_AT = 2,          /* where the index of a ring is */
    RING_HEADER_SIZE = 4,       /* the flags and the index, after which the first entry is */
    RING_META_SIZE = 6,         /* a ring without its entries: its header, and the number after the
                                   last entry */
    AVAIL_ENTRY_SIZE = 2,       /* an entry of the available ring: the number of a head (VIRTIO 1.1,
                                   2.6.6) */
    USED_ELEMENT_SIZE = 8,      /* an element of the used ring: an id, and then a length (VIRTIO
                                   1.1, 2.6.8) */
    USED_FIELD_SIZE = 4,        /* the id or the length of such an element */
    USED_LENGTH_AT = 4,         /* where the length of such an element is */
    TABLE_ALIGNMENT = 16,       /* what the address of a table is a multiple of (VIRTIO 1.1, 2.6) */
    AVAIL_ALIGNMENT = 2,        /* what the address of an available ring is a multiple of */
    USED_ALIGNMENT = 4,         /* what the address of a used ring is a multiple of */
};
/* clang-format on */

#endif
