/* The codes, kinds, rules, limits and bits of vb.h, which includes it.
 * `tools/list-codes --write` makes this file. */
#ifndef VB_NUMBERS_H
#define VB_NUMBERS_H

/* clang-format off */
enum {                          /* answers: `code` */
    VB_OK = 0,                  /* what was asked for is done */
    VB_NOTHING = 1,             /* no chain is available */
    VB_BROKEN = 2,              /* the guest's bytes break a rule (`rule`); DEVICE_NEEDS_RESET is
                                   set now */
    VB_NOT_READY = 3,           /* DRIVER_OK isn't set (vb_start_queue: FEATURES_OK isn't), or
                                   FAILED is */
    VB_NEEDS_RESET = 4,         /* a rule was broken before */
    VB_NO_QUEUE = 5,            /* no queue of that kind, or not with the negotiated features */
    VB_MISPLACED = 6,           /* the queue has no place */
    VB_BAD_ARGUMENT = 7,        /* an argument out of range (settings, regions, a page), or too
                                   little room */
    VB_SHORT = 8,               /* the guests can't spare enough (`vb_policy_decide`) */
    VB_BAD_LENGTH = 9,          /* of a saved state: more or fewer bytes than it has (`vb_save`:
                                   less room) */
    VB_NOT_A_STATE = 10,        /* the bytes don't begin as a saved state does */
    VB_OTHER_VERSION = 11,      /* of the format of saved states */
    VB_BAD_SUM = 12,            /* the bytes aren't those that were saved */
    VB_IMPOSSIBLE = 13,         /* no calls lead to a device like that */
    VB_STALE = 14,              /* amid the notice its device was reset, or its queue moved or used
                                   */
};
enum { VB_INFLATE = 0, VB_DEFLATE = 1, VB_STATISTICS = 2, VB_REPORT = 3, VB_HINT = 4,
       VB_NO_KIND = 5 };    /* kinds of queues */
/* Rules of VB_BROKEN: 1 the head is no descriptor of the queue; 2 a next field names no
 * descriptor of the queue; 3 the chain is longer than the queue; 4 an indirect descriptor; 5 a
 * piece has the wrong direction; 6 a buffer is out of guest memory; 7 the available index has
 * jumped; 8 a length that the queue doesn't take; 9 no such page; 10 a reserved page. */
enum { VB_MAX_QUEUE_SIZE = 1024, VB_MAX_PIECES = 256, VB_MAX_RUNS = 256, VB_MAX_BYTES = 1024,
       VB_MAX_FIGURES = 102, VB_MAX_CUTS = 256, VB_LONGEST_REQUEST = 1048576,
       VB_STATE_BYTES = 240 };
enum {                          /* what is to be done: `what` of a notice, in this order; other bits
                                   are the library's */
    VB_TELL_PAGES = 1,          /* the first `runs` of the room were given up, are requested back,
                                   or are free */
    VB_TELL_FIGURES = 2,        /* the first `figures` of the room are what the guest says */
    VB_TELL_ID = 4,             /* `hint_id` is the id that the driver sent with its hints */
    VB_DISCARD = 8,             /* give the bytes of the first `cuts` of the room back to the
                                   machine */
    VB_GIVE_BACK = 16,          /* write `id` to `id_at` and `used_length` to `length_at` (32 bits
                                   each), then a release fence, then `used_index` to `index_at` (16
                                   bits, by one access) */
    VB_ACQUIRE = 32,            /* an acquire fence */
    VB_FULL_FENCE = 64,         /* a full fence */
    VB_READ = 128,              /* read the word of 16 bits that is `at`, by one access: that is the
                                   answer */
    VB_COPY = 256,              /* copy `length` bytes that are `at` to `bytes + into` of the room,
                                   each read once: one or up to 32 descriptors of a queue's table
                                   (16 bytes each), or bytes of a chain's piece */
    VB_PAUSE = 512,             /* call vb_go_on later, with this notice and its room's `pieces`:
                                   its budget of pages is used up amid a chain */
};
enum { VB_LOOK = 1, VB_EMPTY = 2 };    /* what a write of the status asks for */
/* clang-format on */

#endif
