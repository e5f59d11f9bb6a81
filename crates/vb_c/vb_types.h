/* The structs of the library, and where their fields are. A part of vb.h. */
#ifndef VB_TYPES_H
#define VB_TYPES_H
#include "vb_numbers.h"
#include <stddef.h>
#include <stdint.h>

#ifdef __cplusplus
#define VB_ASSERT(what) static_assert(what, #what)
#else
#define VB_ASSERT(what) _Static_assert(what, #what)
#endif

enum {
    VB_F_FREE_PAGE_HINT = 8,
    VB_F_PAGE_POISON = 16
}; /* features (VIRTIO 1.2, 5.5.3): poison_val says what free pages hold */

typedef struct {
    uint64_t memory_end;     /* bytes: where guest memory ends, below 2^44; the last part of a page
                                doesn't count. Holes below it are the caller's. */
    uint64_t offered;        /* features: of bits 0 to 5 and 32, with bit 32 (VERSION_1) */
    uint32_t reserved_pages; /* pages at the start that no request may name; none: 0 */
    uint8_t needs_must_tell; /* unless 0: FEATURES_OK is refused without MUST_TELL_HOST */
    uint8_t skips_bad_pages; /* unless 0: a page number past the end, or of a reserved page, is
                                skipped and counted; 0: it breaks rule 9 or 10, and then a Linux
                                driver waits for ever */
    uint8_t holds_deflates;  /* unless 0: a deflate is held until vb_give_held. Set needs_must_tell
                                too: no other driver waits */
    uint8_t discards_hints;  /* unless 0: hinted pages are discarded once they were told, also what
                                the driver wrote to them since */
} VbSettings;

typedef struct {
    uint64_t table, avail, used;          /* guest addresses of its parts */
    uint16_t size, next_avail, next_used; /* size 0: it has no place */
} VbQueue;

/* Of rounds of hints: what free_page_hint_cmd_id shows, an id, STOP (0) or DONE (1); the id of the
 * last round, or 0; and, unless 0, that the id that is shown was read since its round began, and
 * nothing ended it. */
typedef struct {
    uint32_t shown, last;
    uint8_t opened;
} VbRound;
typedef struct {
    VbSettings settings;
    uint64_t features;       /* what the driver negotiated */
    uint32_t target, actual; /* num_pages and actual of the configuration space */
    VbQueue inflate, deflate, statistics, hint, report;
    uint32_t poison; /* poison_val of the configuration space */
    VbRound round;
    uint8_t status;
} VbDevice;

typedef struct {
    uint64_t address;
    uint32_t length;
    uint8_t writable;
} VbPiece;
typedef struct {
    uint32_t first, count;
} VbRun; /* pages first .. first + count - 1 */
typedef struct {
    uint16_t tag;
    uint64_t value;
} VbStatistic;

typedef struct {
    uint32_t code;
    uint64_t pages;
} VbMarked;

/* ---- notices over the memory of a running guest: types; the calls are below */

/* Guest memory: regions of whole pages, in any order, no two of which overlap; what lies in none is
 * a hole. A region that isn't whole pages below 2^44, or begins past 2^62 in its file, has no
 * byte. */
typedef struct {
    uint64_t guest, length; /* bytes: where it begins in guest memory, and how many it has */
    uint64_t in_file;       /* where it begins in the file that has its bytes; none: 0 */
} VbRegion;
typedef struct {
    size_t region;
    uint64_t offset;
} VbSpot; /* a region's number, and an offset in bytes */
typedef struct {
    size_t region;
    uint64_t offset, in_file, length;
} VbCut; /* whole pages of one region */
/* Whole large pages of one region (none: length 0), and how many pages of 4096 bytes of a part
 * aren't among them. */
typedef struct {
    VbCut cut;
    uint64_t waiting;
} VbLarge;

/* A device, and the chains that it holds until vb_give_held: 1 more than the head of a statistics
 * buffer, and of a deflate; none: 0; and how many pages that deflate names. */
typedef struct {
    uint32_t statistics, deflate, pages;
} VbHeld;
typedef struct {
    VbDevice device;
    VbHeld held;
} VbBalloon;
/* The place of a queue: where its parts lie, and how many descriptors it has. */
typedef struct {
    uint64_t table, avail, used;
    uint16_t size;
} VbQueuePlace;
/* Where a queue starts, with how many of its chains were taken and given back until now, modulo
 * 65,536. */
typedef struct {
    uint64_t table, avail, used;
    uint16_t size, next;
} VbQueueStart;

/* A notice: what is to be done next. Fields that `what` doesn't speak of mean nothing. All of them
 * are the library's to write. Each place lies within its region: region < count, and offset +
 * length (2, 4 or as said) <= regions[region].length; into + length <= VB_MAX_BYTES; runs <=
 * VB_MAX_RUNS; figures <= VB_MAX_FIGURES; cuts <= VB_MAX_CUTS. */
typedef struct {
    uint32_t what; /* 0: it has ended */
    uint32_t kind; /* of its queue */
    uint32_t runs; /* VB_TELL_PAGES: runs, the pages in them, and numbers (of VB_HINT: late pages)
                      that were skipped */
    uint32_t pages, skipped;
    uint32_t figures; /* VB_TELL_FIGURES */
    uint32_t cuts;    /* VB_DISCARD */
    uint32_t kept;  /* VB_TELL_PAGES: how many of the pages are kept: given up or free, and yet not
                       discarded */
    uint32_t waits; /* VB_TELL_PAGES: 1 where they wait for vb_give_held, as their chain is held
                       once all of it is told; else 0 */
    uint32_t hint_id;                  /* VB_TELL_ID */
    VbSpot id_at, length_at, index_at; /* VB_GIVE_BACK */
    uint32_t id, used_length;
    uint16_t used_index;
    VbSpot at;                  /* VB_READ and VB_COPY */
    uint32_t length, into;      /* VB_COPY */
    size_t number, from, piece; /* these six: what the library remembers */
    uint32_t done;
    uint64_t in_file, cut_length;
    uint32_t code, rule; /* at the end: VB_OK where a chain was served; VB_NOTHING; or why the last
                            one wasn't */
    uint32_t interrupt;  /* at the end: 1 where the driver wants an interrupt for its used buffers,
                            else 0 */
    uint32_t configuration; /* at the end: 1 where the driver is to be told of a change of
                               configuration, else 0 */
    uint32_t more; /* at the end: 1 where another chain is available, for which there was no budget,
                      else 0 */
    uint32_t chains_left, pages_left, most_pages, longest, told_pages; /* these too */
    uint16_t head, count, taken_head;
    uint8_t given, taken, flag, phase, keeps; /* `taken`: 1 where the chain that was told is held */
    uint16_t published;
    uint32_t taken_pages; /* how many pages that chain names */
    uint32_t told[3];
    /* within a call alone: what is told, and what is written of a used chain */
    uint64_t written[10];
    VbQueue ring; /* and the device as the notice left it: the queue, the id of hints that was
                        shown, and the status */
    uint32_t shown;
    uint8_t status;
} VbNotice;

/* The room that a notice needs, with any bytes at first; then the library's to write, but for
 * `bytes`. One room serves notice after notice, of any device, one at a time. */
typedef struct {
    VbPiece pieces[VB_MAX_PIECES]; /* the chain's */
    uint8_t bytes[VB_MAX_BYTES];   /* the private copies: VB_COPY */
    VbRun runs[VB_MAX_RUNS];
    VbStatistic figures[VB_MAX_FIGURES];
    VbCut cuts[VB_MAX_CUTS];
} VbRoom;

/* What the library was compiled to have: on every machine that it is for, structs are as here. */
#define VB_HAS(type, size) (sizeof(Vb##type) == (size))
#define VB_AT(type, field, at) (offsetof(Vb##type, field) == (at))
VB_ASSERT(VB_HAS(Settings, 24) && VB_AT(Settings, offered, 8) &&
          VB_AT(Settings, reserved_pages, 16) && VB_AT(Settings, needs_must_tell, 20) &&
          VB_AT(Settings, skips_bad_pages, 21) && VB_AT(Settings, holds_deflates, 22) &&
          VB_AT(Settings, discards_hints, 23) && VB_HAS(Queue, 32) && VB_AT(Queue, avail, 8) &&
          VB_AT(Queue, used, 16) && VB_AT(Queue, size, 24) && VB_AT(Queue, next_avail, 26) &&
          VB_AT(Queue, next_used, 28) && VB_HAS(QueuePlace, 32) && VB_AT(QueuePlace, avail, 8) &&
          VB_AT(QueuePlace, used, 16) && VB_AT(QueuePlace, size, 24) && VB_HAS(QueueStart, 32) &&
          VB_AT(QueueStart, avail, 8) && VB_AT(QueueStart, used, 16) &&
          VB_AT(QueueStart, size, 24) && VB_AT(QueueStart, next, 26) && VB_HAS(Round, 12) &&
          VB_AT(Round, last, 4) && VB_AT(Round, opened, 8) && VB_HAS(Device, 224) &&
          VB_AT(Device, settings, 0) && VB_AT(Device, features, 24) && VB_AT(Device, target, 32) &&
          VB_AT(Device, actual, 36) && VB_AT(Device, inflate, 40) && VB_AT(Device, deflate, 72) &&
          VB_AT(Device, statistics, 104) && VB_AT(Device, hint, 136) &&
          VB_AT(Device, report, 168) && VB_AT(Device, poison, 200) && VB_AT(Device, round, 204) &&
          VB_AT(Device, status, 216) && VB_HAS(Held, 12) && VB_AT(Held, deflate, 4) &&
          VB_AT(Held, pages, 8) && VB_HAS(Balloon, 240) && VB_AT(Balloon, held, 224));
VB_ASSERT(VB_HAS(Piece, 16) && VB_AT(Piece, length, 8) && VB_AT(Piece, writable, 12) &&
          VB_HAS(Run, 8) && VB_AT(Run, count, 4) && VB_HAS(Statistic, 16) &&
          VB_AT(Statistic, value, 8) && VB_HAS(Marked, 16) && VB_AT(Marked, pages, 8));
VB_ASSERT(VB_HAS(Region, 24) && VB_AT(Region, length, 8) && VB_AT(Region, in_file, 16) &&
          VB_HAS(Spot, 16) && VB_AT(Spot, offset, 8) && VB_HAS(Cut, 32) && VB_AT(Cut, offset, 8) &&
          VB_AT(Cut, in_file, 16) && VB_AT(Cut, length, 24) && VB_HAS(Large, 40) &&
          VB_AT(Large, waiting, 32) && VB_HAS(Room, 16992) && VB_AT(Room, bytes, 4096) &&
          VB_AT(Room, runs, 5120) && VB_AT(Room, figures, 7168) && VB_AT(Room, cuts, 8800) &&
          VB_HAS(Notice, 368) && VB_AT(Notice, runs, 8) && VB_AT(Notice, figures, 20) &&
          VB_AT(Notice, kept, 28) && VB_AT(Notice, waits, 32) && VB_AT(Notice, hint_id, 36) &&
          VB_AT(Notice, id_at, 40) && VB_AT(Notice, id, 88) && VB_AT(Notice, used_index, 96) &&
          VB_AT(Notice, at, 104) && VB_AT(Notice, length, 120) && VB_AT(Notice, number, 128) &&
          VB_AT(Notice, piece, 144) && VB_AT(Notice, done, 152) && VB_AT(Notice, in_file, 160) &&
          VB_AT(Notice, code, 176) && VB_AT(Notice, chains_left, 196) &&
          VB_AT(Notice, longest, 208) && VB_AT(Notice, given, 222) && VB_AT(Notice, phase, 225) &&
          VB_AT(Notice, keeps, 226) && VB_AT(Notice, published, 228) &&
          VB_AT(Notice, taken_pages, 232) && VB_AT(Notice, told, 236) &&
          VB_AT(Notice, written, 248) && VB_AT(Notice, ring, 328) && VB_AT(Notice, shown, 360) &&
          VB_AT(Notice, status, 364));

#endif
