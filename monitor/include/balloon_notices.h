/* What a monitor calls as its driver kicks a queue, a part of balloon.h: each serves a queue, and
 * says what there is to do then. */
#ifndef BALLOON_NOTICES_H
#define BALLOON_NOTICES_H

/* ---- pauses */

/* Where the notice of a queue of this kind is kept that pauses: there is none for other kinds than
 * those of requests. */
static inline struct balloon_pause *balloon_pause_of(struct balloon *balloon, uint32_t kind)
{
    return kind <= VB_DEFLATE ? &balloon->paused[kind] : NULL;
}

/* Forgets a notice that pauses: its chain begins again from its first number. */
static inline void balloon_forget_pause(struct balloon *balloon, uint32_t kind)
{
    struct balloon_pause *pause = balloon_pause_of(balloon, kind);
    if (pause)
        pause->notice.what = 0;
}

/* Keeps the notice, which pauses: other notices need its room. */
static inline void balloon_keep_pause(struct balloon *balloon)
{
    struct balloon_pause *pause = balloon_pause_of(balloon, balloon->notice.kind);
    if (pause) {
        pause->notice = balloon->notice;
        memcpy(pause->pieces, balloon->room.pieces, sizeof pause->pieces);
    }
    balloon->notice.what = 0;
}

/* Continues the notice of this queue that pauses; false where none does, or its device is another
 * one by now (VB_STALE). */
static inline bool balloon_continue(struct balloon *balloon, uint32_t kind)
{
    struct balloon_pause *pause = balloon_pause_of(balloon, kind);
    if (!pause || !pause->notice.what)
        return false;
    balloon->notice = pause->notice;
    memcpy(balloon->room.pieces, pause->pieces, sizeof pause->pieces);
    pause->notice.what = 0;
    return balloon_go_on(balloon, 0) || balloon->notice.code != VB_STALE;
}

/* ---- results */

/* A result that says nothing but this. */
static inline struct balloon_result balloon_result_of(uint32_t code)
{
    struct balloon_result result;
    memset(&result, 0, sizeof result);
    result.code = code;
    return result;
}

/* What a notice came to that has ended. */
static inline void balloon_say_end(const VbNotice *notice, struct balloon_result *result)
{
    result->code = notice->code;
    result->rule = notice->rule;
    result->interrupts = notice->interrupt << (notice->kind & 7);
    result->configuration = notice->configuration != 0;
    result->more = notice->more != 0;
    result->held =
        notice->taken && !notice->given && notice->code == VB_OK && notice->kind == VB_DEFLATE;
    result->held_pages = result->held ? notice->taken_pages : 0;
}

/* Obeys a notice that has begun; what it came to, or has until it pauses. */
static inline struct balloon_result balloon_finish(struct balloon *balloon)
{
    const VbNotice *notice = &balloon->notice;
    struct balloon_result result = balloon_result_of(VB_NOTHING);
    balloon_obey(balloon, &result);
    if (notice->what & VB_PAUSE) {
        balloon_keep_pause(balloon);
        result.code = VB_OK;
        result.more = true;
    } else {
        balloon_say_end(notice, &result);
    }
    result.in_holes = notice->kind == VB_DEFLATE
                          ? 0
                          : result.pages - result.discarded - result.kept - result.waiting;
    return result;
}

/* What a notice comes to that would begin in a hook: it is to begin later. */
static inline struct balloon_result balloon_later(void)
{
    struct balloon_result result = balloon_result_of(VB_NOTHING);
    result.more = true;
    return result;
}

/* The driver kicked the queue of this kind: serves what is available, at most as much as a notice
 * may, and continues the notice of this queue that pauses. Take the kick before: what the driver
 * publishes meanwhile waits for its next one. */
static inline struct balloon_result balloon_notify(struct balloon *balloon, uint32_t kind)
{
    if (balloon->notice.what)
        return balloon_later();
    if (!balloon_continue(balloon, kind))
        vb_begin(&balloon->notice, &balloon->state, balloon->places, balloon->region_count,
                 &balloon->room, kind, balloon->most_chains, balloon->most_pages,
                 balloon->keeps_pages);
    return balloon_finish(balloon);
}

/* The driver kicked the queue of this number, as the negotiated features number them. */
static inline struct balloon_result balloon_notify_number(struct balloon *balloon, uint32_t number)
{
    return balloon_notify(balloon, vb_kind(&balloon->state.device, number));
}

/* Asks for new statistics, by giving the buffer back (VIRTIO 1.1, 5.5.6.3): on_statistics comes at
 * a later notice. VB_NOTHING: the driver has the buffer. */
static inline struct balloon_result balloon_ask_statistics(struct balloon *balloon)
{
    if (balloon->notice.what)
        return balloon_later();
    vb_give_held(&balloon->notice, &balloon->state, balloon->places, balloon->region_count,
                 &balloon->room, VB_STATISTICS);
    return balloon_finish(balloon);
}

/* Whether a deflate is held, and of how many pages. */
static inline bool balloon_held_deflate(const struct balloon *balloon, uint32_t *pages)
{
    return vb_held(&balloon->state, VB_DEFLATE, pages) == VB_OK;
}

/* The set of the pages of the deflate that is held is empty from now on. */
static inline void balloon_empty_deflating(struct balloon *balloon)
{
    if (balloon->deflating)
        memset(balloon->deflating, 0, balloon->ballooned_words * sizeof *balloon->deflating);
}

/* Whether a deflate's pages may leave the set, `named` pages: all of memory is out of it, or
 * `deflating` has some of them. */
static inline bool balloon_may_unmark(const struct balloon *balloon, uint32_t named)
{
    return !balloon->ballooned || named == 0 ||
           (balloon->deflating &&
            vb_count_ballooned(balloon->deflating, balloon->ballooned_words) > 0);
}

/* Grants the deflate that is held (VIRTIO 1.1, 5.5.6): the set loses its pages (marked), and then
 * its chain is given back. VB_NOTHING: none is held; VB_BAD_ARGUMENT: a set is kept, and
 * `deflating` has none of its pages; then nothing is changed. Look at the queue again then
 * (balloon_notify), as its kicks did nothing meanwhile. */
static inline struct balloon_result balloon_give_deflate(struct balloon *balloon)
{
    const size_t words = balloon->ballooned_words;
    uint32_t named;
    uint64_t marked = 0;
    if (balloon->notice.what)
        return balloon_later();
    if (!balloon_held_deflate(balloon, &named))
        return balloon_result_of(VB_NOTHING);
    if (!balloon_may_unmark(balloon, named))
        return balloon_result_of(VB_BAD_ARGUMENT);
    if (balloon->ballooned && balloon->deflating)
        marked = vb_unmark(balloon->deflating, words, balloon->ballooned, words);
    vb_give_held(&balloon->notice, &balloon->state, balloon->places, balloon->region_count,
                 &balloon->room, VB_DEFLATE);
    struct balloon_result result = balloon_finish(balloon);
    result.marked = marked;
    if (result.code == VB_OK)
        balloon_empty_deflating(balloon);
    return result;
}

/* Adds what one queue's result says to that of all. */
static inline void balloon_add_result(struct balloon_result *all, const struct balloon_result *one)
{
    if (one->code == VB_BROKEN || (one->code == VB_OK && all->code == VB_NOTHING))
        all->code = one->code;
    if (one->code == VB_BROKEN)
        all->rule = one->rule;
    all->chains += one->chains;
    all->interrupts |= one->interrupts;
    all->configuration |= one->configuration;
    all->more |= one->more;
    all->held |= one->held;
    all->held_pages += one->held_pages;
    all->pages += one->pages;
    all->discarded += one->discarded;
    all->waiting += one->waiting;
    all->skipped += one->skipped;
    all->late += one->late;
    all->marked += one->marked;
    all->unmarked += one->unmarked;
    all->in_holes += one->in_holes;
    all->kept += one->kept;
    all->error = one->error ? one->error : all->error;
}

/* Looks at every queue once; one that the driver doesn't use is passed by. */
static inline struct balloon_result balloon_notify_all(struct balloon *balloon)
{
    struct balloon_result all = balloon_result_of(VB_NOTHING);
    for (uint32_t kind = VB_INFLATE; kind < VB_NO_KIND; kind++) {
        struct balloon_result one = balloon_notify(balloon, kind);
        balloon_add_result(&all, &one);
    }
    return all;
}

#endif
