/* A balloon device over guest memory that lies in regions with holes. The library of vb.h decides
 * which access a notice makes, where, in which order, and what it means. This file obeys it, and
 * makes them all. It tests no bound, since numbers come from the library: it adds an offset to
 * where a region is mapped. A monitor calls balloon_calls.h. Include this file first, or define
 * _GNU_SOURCE. */
#ifndef BALLOON_H
#define BALLOON_H
#ifndef _GNU_SOURCE
#define _GNU_SOURCE
#endif
#include "vb.h"
#include <endian.h>
#include <errno.h>
#include <fcntl.h>
#include <stdbool.h>
#include <string.h>
#include <sys/mman.h>
#if !defined FALLOC_FL_PUNCH_HOLE || !defined MADV_REMOVE
#error "include balloon.h before other headers, or define _GNU_SOURCE"
#endif
#ifndef BALLOON_MOST_REGIONS
#define BALLOON_MOST_REGIONS 64 /* regions that a balloon has at most */
#endif

/* In place of a file: private anonymous memory; shared anonymous memory, or a file that the monitor
 * has no descriptor of. */
enum { BALLOON_PRIVATE = -1, BALLOON_SHARED = -2, BALLOON_PAGE = 4096, BALLOON_MOST_CHAINS = 256 };

/* Guest memory from one address on, mapped at `host`: whole pages. No two overlap; their order is
 * free. */
struct balloon_region {
    uint64_t guest, length;
    uint8_t *host;
    int fd;             /* the shared file that backs it, or BALLOON_PRIVATE or BALLOON_SHARED */
    uint64_t offset;    /* where the region begins in that file */
    uint64_t page_size; /* bytes of the pages of the machine that back it: 4096 (or 0) to 1 GiB, a
                           power of two */
};

/* A notice that pauses amid a chain, and the pieces of this chain. */
struct balloon_pause {
    VbNotice notice;
    VbPiece pieces[VB_MAX_PIECES];
};

struct balloon {
    VbBalloon state; /* all that a device is: plain data, which may be copied; balloon_save makes
                        bytes of it */
    const struct balloon_region *regions; /* the monitor's; they stay while the balloon uses them */
    size_t region_count;
    VbRegion places[BALLOON_MOST_REGIONS]; /* the same, as the library sees them */
    /* What a monitor may set after balloon_init; each hook may be NULL. They get `context`. A hook
     * may call the balloon: where that resets the device, or moves the notice's queue, the notice
     * makes no access any longer (VB_STALE); where it ends a round of hints, none of its pages is
     * discarded any longer. In a hook no further notice begins (the result has `more`), and regions
     * stay. */
    uint32_t most_chains,
        most_pages; /* a notice begins no further chain after these, and pauses amid one after this
                     * many numbers, at the end of a portion: at first 256, and any number */
    bool keeps_pages; /* no page is discarded (counted: kept), as under a passed-through device; may
                         be set at any time, also amid a notice; once it is cleared, what the next
                         notice names that begins is discarded */
    /* Each part is discarded by a call of its own: set once the kernel didn't take several, as one
     * before Linux 6.13. */
    bool discards_apart;
    void *context;
    /* These pages are given up (VB_INFLATE) or free (VB_REPORT, VB_HINT), before any of them is
     * discarded; or requested back (VB_DEFLATE). A driver may take hinted pages back at any time,
     * by writing to them. It is called once for each portion of 256 numbers of a request, which is
     * given back once, after the last portion. */
    void (*on_pages)(void *context, uint32_t kind, const VbRun *runs, uint32_t count);
    /* The guest told its statistics, any tags in any order. */
    void (*on_statistics)(void *context, const VbStatistic *figures, uint32_t count);
    /* The driver sent this id of hints: a round of hints begins with its own, and ends with any
     * other one. */
    void (*on_hint_id)(void *context, uint32_t id);
    /* Discards bytes of a region, whole pages of its page_size, in place of balloon_discard_bytes;
     * 0 or an errno. */
    int (*discard)(void *context, const struct balloon_region *region, uint64_t at,
                   uint64_t length);
    /* Copies bytes of a region, descriptors or a chain's, in place of balloon_read_once: each is
     * read once. It doesn't call the balloon. */
    void (*copy)(void *context, const struct balloon_region *region, uint64_t at, uint8_t *to,
                 size_t length);
    /* The device has written these bytes of a region: a monitor that keeps a dirty log marks their
     * pages. It is called for each stretch, once all of a used element and the index after it are
     * there. It doesn't call the balloon. */
    void (*on_written)(void *context, const struct balloon_region *region, uint64_t at,
                       uint64_t length);
    /* The set of the pages in the balloon, or NULL: words of the monitor's, zeros at first
     * (vb_mark). A page is put in before it is discarded, and taken out before its chain is given
     * back. A reset empties it. Save and restore it beside `state`. */
    uint64_t *ballooned;
    size_t ballooned_words; /* for all pages: memory_end / 4096 / 64, rounded up */
    /* The set of the pages of the deflate that is held, beside `ballooned` where the settings say
     * holds_deflates, in as many words: they leave that set once the deflate is granted. Zeros at
     * first. Save and restore it beside that set. */
    uint64_t *deflating;
    struct balloon_pause paused[2]; /* of inflates and of deflates; `what` is 0 where none does */
    VbNotice notice;                /* what is to be done */
    VbRoom room;                    /* the private copies, and what the library makes of them */
};

/* What happened, and what the monitor has to do. */
struct balloon_result {
    /* VB_OK: something was served; VB_NOTHING; or why the last chain wasn't served */
    uint32_t code;
    uint32_t rule, chains; /* of VB_BROKEN; how many were served */
    uint32_t interrupts;   /* bit 1 << kind: interrupt for a used buffer of this queue */
    bool configuration;    /* tell of a change of configuration: the device needs a reset */
    bool more; /* as much was served as a notice may, and more is available, of a chain or of the
                  queue: call again, later */
    bool held; /* a deflate is held now, of `held_pages` pages: balloon_give_deflate grants it */
    uint32_t held_pages;
    uint64_t pages,
        discarded; /* named by inflates, deflates, reports and hints; of these, discarded */
    /* of these, pages whose large page wasn't given up whole yet (vb_large_pages) */
    uint64_t waiting;
    uint64_t skipped; /* numbers past the end or of reserved pages */
    uint64_t late;    /* pages of hints that came while no round was open: they aren't named */
    uint64_t marked, unmarked; /* pages put into the set of ballooned pages, or taken out; those
                                  that the sets haven't words for */
    uint64_t in_holes,
        kept; /* in no region; not discarded, by `error`, keeps_pages, or as reports stay
                 (vb_keeps_reports), or hints; or as a hook called the balloon (vb_recheck) */
    int error;
};

typedef uint64_t __attribute__((may_alias, aligned(1)))
balloon_word64; /* anywhere, as the next one */
typedef uint32_t __attribute__((may_alias, aligned(1))) balloon_word32;
typedef uint16_t __attribute__((may_alias)) balloon_word16;

/* Where a spot is here. */
static inline uint8_t *balloon_at(const struct balloon *balloon, VbSpot spot)
{
    return balloon->regions[spot.region].host + spot.offset;
}

/* Copies bytes that others may write meanwhile: each is read once. */
static inline void balloon_read_once(uint8_t *to, const uint8_t *from, size_t length)
{
    for (; length >= 16; length -= 16, from += 16, to += 16) { /* a descriptor */
        ((balloon_word64 *)to)[0] = ((const volatile balloon_word64 *)from)[0];
        ((balloon_word64 *)to)[1] = ((const volatile balloon_word64 *)from)[1];
    }
    for (; length >= 8; length -= 8, from += 8, to += 8)
        *(balloon_word64 *)to = *(const volatile balloon_word64 *)from;
    for (; length >= 4; length -= 4, from += 4, to += 4)
        *(balloon_word32 *)to = *(const volatile balloon_word32 *)from;
    for (; length > 0; length--)
        *to++ = *(const volatile uint8_t *)from++;
}

/* Copies what the notice asks for into its room. */
static inline void balloon_copy(struct balloon *balloon)
{
    const VbNotice *notice = &balloon->notice;
    uint8_t *to = balloon->room.bytes + notice->into;
    if (balloon->copy)
        balloon->copy(balloon->context, &balloon->regions[notice->at.region], notice->at.offset, to,
                      notice->length);
    else
        balloon_read_once(to, balloon_at(balloon, notice->at), notice->length);
}

#include "balloon_discards.h"

/* After a hook, which may have called the balloon: what is still to be done of `what`. What isn't
 * discarded then is kept. */
static inline uint32_t balloon_recheck(const struct balloon *balloon, uint32_t what,
                                       struct balloon_result *result)
{
    const uint32_t still = what & vb_recheck(&balloon->notice, &balloon->state);
    if ((what ^ still) & VB_DISCARD)
        result->kept = result->pages - result->discarded - result->waiting;
    return still;
}

/* Tells the pages that are named, and keeps the set of those in the balloon: those of a deflate
 * that is held stay in it. Whether a hook was called. */
static inline bool balloon_tell_pages(struct balloon *balloon, struct balloon_result *result)
{
    const VbNotice *notice = &balloon->notice;
    const uint32_t kind =
        notice->waits ? (uint32_t)VB_INFLATE : notice->kind; /* what waits is put into its set */
    uint64_t *set = notice->waits ? balloon->deflating : balloon->ballooned;
    VbMarked marked = {VB_OK, 0};
    result->pages += notice->pages;
    *(notice->kind == VB_HINT ? &result->late : &result->skipped) += notice->skipped;
    result->kept += notice->kept;
    if (balloon->ballooned)
        marked = vb_mark(kind, balloon->room.runs, notice->runs, set,
                         set ? balloon->ballooned_words : 0);
    result->marked += notice->waits ? 0 : marked.pages;
    result->unmarked += marked.code == VB_BAD_ARGUMENT ? notice->pages : 0;
    const bool told = balloon->on_pages && (notice->runs > 0 || notice->kind != VB_HINT);
    if (told)
        balloon->on_pages(balloon->context, notice->kind, balloon->room.runs, notice->runs);
    return told;
}

/* Names a stretch that the device has written. */
static inline void balloon_tell_written(const struct balloon *balloon, VbSpot at, uint64_t length)
{
    balloon->on_written(balloon->context, &balloon->regions[at.region], at.offset, length);
}

/* Publishes a used element: its two numbers, the fence, then the index. */
static inline void balloon_give_back(const struct balloon *balloon)
{
    const VbNotice *notice = &balloon->notice;
    *(volatile balloon_word32 *)balloon_at(balloon, notice->id_at) = htole32(notice->id);
    *(volatile balloon_word32 *)balloon_at(balloon, notice->length_at) =
        htole32(notice->used_length);
    __atomic_thread_fence(__ATOMIC_RELEASE);
    *(volatile balloon_word16 *)balloon_at(balloon, notice->index_at) = htole16(notice->used_index);
    if (!balloon->on_written)
        return;
    balloon_tell_written(balloon, notice->id_at, sizeof(balloon_word32));
    balloon_tell_written(balloon, notice->length_at, sizeof(balloon_word32));
    balloon_tell_written(balloon, notice->index_at, sizeof(balloon_word16));
}

/* Tells, discards and gives back; what is still to be done then. */
static inline uint32_t balloon_serve(struct balloon *balloon, uint32_t what,
                                     struct balloon_result *result)
{
    result->chains += (what & VB_TELL_FIGURES) != 0;
    if (what & VB_TELL_PAGES && balloon_tell_pages(balloon, result))
        what = balloon_recheck(balloon, what, result);
    if (what & VB_TELL_FIGURES && balloon->on_statistics) {
        balloon->on_statistics(balloon->context, balloon->room.figures, balloon->notice.figures);
        what = balloon_recheck(balloon, what, result);
    }
    if (what & VB_TELL_ID && balloon->on_hint_id) {
        balloon->on_hint_id(balloon->context, balloon->notice.hint_id);
        what = balloon_recheck(balloon, what, result);
    }
    bool discards = what & VB_DISCARD && !balloon->keeps_pages;
    uint32_t together = discards ? balloon_discard_together(balloon, result) : 0;
    const VbCut *part = balloon->room.cuts + together;
    for (uint32_t i = together; what & VB_DISCARD && i < balloon->notice.cuts; i++, part++) {
        balloon_discard(balloon, part, result);
        what = balloon->discard ? balloon_recheck(balloon, what, result) : what;
    }
    if (what & VB_GIVE_BACK)
        balloon_give_back(balloon);
    result->chains += (what & VB_GIVE_BACK) != 0;
    return what;
}

/* Does each thing that is to be done, in the order of the bits of `what`; answers the word that was
 * read, if one was. */
static inline uint16_t balloon_perform(struct balloon *balloon, uint32_t what,
                                       struct balloon_result *result)
{
    const VbNotice *notice = &balloon->notice;
    uint16_t answer = 0;
    if (what != VB_COPY) {
        if (what & (VB_TELL_PAGES | VB_TELL_FIGURES | VB_TELL_ID | VB_DISCARD | VB_GIVE_BACK))
            what = balloon_serve(balloon, what, result);
        if (what & VB_ACQUIRE)
            __atomic_thread_fence(__ATOMIC_ACQUIRE);
        if (what & VB_FULL_FENCE)
            __atomic_thread_fence(__ATOMIC_SEQ_CST);
        if (what & VB_READ)
            answer = le16toh(*(const volatile balloon_word16 *)balloon_at(balloon, notice->at));
    }
    if (what & VB_COPY)
        balloon_copy(balloon);
    return answer;
}

/* What is to be done next, where this was the answer. */
static inline uint32_t balloon_go_on(struct balloon *balloon, uint16_t answer)
{
    return vb_go_on(&balloon->notice, &balloon->state, balloon->places, balloon->region_count,
                    &balloon->room, answer);
}

/* Obeys until the notice has ended, or pauses. */
static inline void balloon_obey(struct balloon *balloon, struct balloon_result *result)
{
    for (uint32_t what = balloon->notice.what; what;) {
        const uint16_t answer = balloon_perform(balloon, what, result);
        if (what & VB_PAUSE && vb_recheck(&balloon->notice, &balloon->state) & VB_PAUSE)
            return;
        what = balloon_go_on(balloon, answer);
    }
}

#include "balloon_calls.h"
#endif
