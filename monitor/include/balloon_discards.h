/* Discards, for balloon.h, which includes this: pages that the guest has given up go back to the
 * machine. */
#ifndef BALLOON_DISCARDS_H
#define BALLOON_DISCARDS_H
#include <sys/syscall.h>
#include <sys/uio.h>
#include <unistd.h>

/* Parts of private memory that are discarded by one call at most. */
enum { BALLOON_MOST_TOGETHER = 256 };

/* Gives bytes back to the machine: they read as zeros then (as the file's where a private mapping
 * has one). 0 or an errno. */
static inline int balloon_drop(const struct balloon_region *region, const VbCut *cut)
{
    int status, advice = region->fd == BALLOON_SHARED ? MADV_REMOVE : MADV_DONTNEED;
    if (region->fd < 0)
        return madvise(region->host + cut->offset, cut->length, advice) ? errno : 0;
    do
        status = fallocate(region->fd, FALLOC_FL_PUNCH_HOLE | FALLOC_FL_KEEP_SIZE,
                           (off_t)cut->in_file, (off_t)cut->length);
    while (status != 0 && errno == EINTR);
    return status ? errno : 0;
}

/* Discards a part, unless pages are to stay, also those of a notice that began before; where the
 * machine's pages are large, those that are given up whole, and the others wait. */
static inline void balloon_discard(const struct balloon *balloon, const VbCut *part,
                                   struct balloon_result *result)
{
    const struct balloon_region *region = &balloon->regions[part->region];
    uint64_t pages = part->length / BALLOON_PAGE;
    VbLarge large;
    if (balloon->keeps_pages) {
        result->kept += pages;
        return;
    }
    if (region->page_size) {
        large = vb_large_pages(&balloon->state.device, &balloon->places[part->region],
                               region->page_size, part, balloon->ballooned,
                               balloon->ballooned ? balloon->ballooned_words : 0);
        result->waiting += large.waiting;
        if (large.cut.length == 0)
            return;
        pages -= large.waiting;
        part = &large.cut;
    }
    int error = balloon->discard
                    ? balloon->discard(balloon->context, region, part->offset, part->length)
                    : balloon_drop(region, part);
    *(error ? &result->kept : &result->discarded) += pages;
    result->error = error ? error : result->error;
}

/* Has the kernel discard parts of this process's own private memory; how many bytes of them it did,
 * or -1. */
static inline ssize_t balloon_drop_all(const struct iovec *parts, uint32_t count)
{
    long self = syscall(SYS_pidfd_open, getpid(), 0);
    ssize_t done = self < 0 ? -1
                            : (ssize_t)syscall(SYS_process_madvise, self, parts, (size_t)count,
                                               MADV_DONTNEED, 0);
    if (self >= 0)
        close((int)self);
    return done;
}

/* The first parts of a notice that lie in private memory, in the machine's small pages. */
static inline uint32_t balloon_private_parts(const struct balloon *balloon, struct iovec *parts)
{
    uint32_t count = 0;
    for (; count < balloon->notice.cuts && count < BALLOON_MOST_TOGETHER; count++) {
        const VbCut *part = &balloon->room.cuts[count];
        const struct balloon_region *region = &balloon->regions[part->region];
        if (region->fd != BALLOON_PRIVATE || region->page_size > BALLOON_PAGE)
            break;
        parts[count] = (struct iovec){region->host + part->offset, part->length};
    }
    return count;
}

/* Discards these parts by one call, which takes a quarter of the time of a call for each; returns
 * how many: none where the monitor discards by itself. A part that the kernel didn't take whole is
 * discarded alone, and so is each one from then on. */
static inline uint32_t balloon_discard_together(struct balloon *balloon,
                                                struct balloon_result *result)
{
    struct iovec parts[BALLOON_MOST_TOGETHER];
    uint32_t whole = 0, count;
    if (balloon->discard || balloon->discards_apart || balloon->notice.cuts < 2)
        return 0;
    count = balloon_private_parts(balloon, parts);
    ssize_t done = count < 2 ? 0 : balloon_drop_all(parts, count);
    for (; whole < count && done >= (ssize_t)parts[whole].iov_len; whole++) {
        done -= (ssize_t)parts[whole].iov_len;
        result->discarded += parts[whole].iov_len / BALLOON_PAGE;
    }
    balloon->discards_apart = count >= 2 && whole < count;
    return whole;
}

#endif
