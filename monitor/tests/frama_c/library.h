/* The library as its contracts allow, a part of frama_c.c: each answer is any that they leave open,
 * and what they promise is named where it is used. */

/* vb_monitor, law nothing_outside_the_regions_is_touched: a place of `length` bytes lies within one
 * region. */
static VbSpot any_spot(uint64_t bytes)
{
    VbSpot spot = {ANY_UP_TO(REGIONS - 1), ANY_UP_TO(LENGTH - bytes)};
    return spot;
}

/* Whole pages of this size, within one region, and where that region's file has them (vb_monitor,
 * IsPartOf of a part of a run and GoesBack of large pages; that they lie within it is IsWithin and
 * AreWholePages). */
static VbCut any_cut(uint64_t region, uint64_t size, uint64_t pages)
{
    uint64_t offset = ANY_UP_TO(LENGTH / size - pages) * size;
    VbCut cut = {region, offset, balloon.places[region].in_file + offset, pages * size};
    return cut;
}

/* The calls of a notice: any of their answers. */
static uint32_t any_notice(VbNotice *notice, const VbBalloon *of, const VbRegion *places,
                           size_t count, VbRoom *room)
{
    //@ assert the_balloon: notice == &balloon.notice && of == &balloon.state;
    //@ assert the_room: room == &balloon.room;
    //@ assert the_regions: places == (VbRegion *)balloon.places && count == REGIONS;
    Frama_C_make_unknown((char *)room, sizeof *room); /* what is discarded: below */
    Frama_C_make_unknown((char *)notice, sizeof *notice);
    notice->what = any_u32() & ~(uint32_t)VB_COPY; /* copies: below */
    notice->kind = ANY_UP_TO(VB_NO_KIND - 1);
    notice->id_at = any_spot(4);
    notice->length_at = any_spot(4);
    notice->index_at = any_spot(2);
    notice->id = any_u32();
    notice->used_length = any_u32();
    notice->used_index = ANY_UP_TO(UINT16_MAX);
    notice->runs = ANY_UP_TO(VB_MAX_RUNS); /* vb_core, Named: runs have room */
    notice->pages = any_u32();
    notice->skipped = any_u32();
    notice->kept = any_u32();
    notice->waits = ANY_UP_TO(1);
    notice->hint_id = any_u32();
    notice->figures = ANY_UP_TO(VB_MAX_FIGURES); /* vb_core, AreFigures */
    notice->code = any_u32();
    notice->rule = any_u32();
    notice->interrupt = ANY_UP_TO(1);
    notice->configuration = ANY_UP_TO(1);
    notice->more = ANY_UP_TO(1);
    notice->at = any_spot(2);
    notice->length = notice->into = 0;
    notice->cuts = ANY_UP_TO(VB_MAX_CUTS); /* vb.h, VbNotice */
    return notice->what;
}

uint32_t vb_begin(VbNotice *notice, VbBalloon *of, const VbRegion *places, size_t count,
                  VbRoom *room, uint32_t kind, uint32_t chains, uint32_t pages, uint32_t keeps)
{
    return any_notice(notice, of, places, count, room);
}

uint32_t vb_give_held(VbNotice *notice, VbBalloon *of, const VbRegion *places, size_t count,
                      VbRoom *room, uint32_t kind)
{
    return any_notice(notice, of, places, count, room);
}

uint32_t vb_go_on(VbNotice *notice, VbBalloon *of, const VbRegion *places, size_t count,
                  VbRoom *room, uint16_t answer)
{
    return any_notice(notice, of, places, count, room);
}

VbMarked vb_mark(uint32_t kind, const VbRun *runs, size_t count, uint64_t *set, size_t set_words)
{
    //@ assert the_set: set == (uint64_t *)words || set == (uint64_t *)waiting;
    //@ assert its_words: set_words == WORDS;
    //@ assert the_runs: runs == (VbRun *)balloon.room.runs && count <= VB_MAX_RUNS;
    Frama_C_make_unknown((char *)set, WORDS * sizeof *set);
    VbMarked marked = {any_u32(), ANY_UP_TO(UINT32_MAX)};
    return marked;
}

uint64_t vb_count_ballooned(const uint64_t *set, size_t set_words)
{
    //@ assert the_waiting: set == (uint64_t *)waiting && set_words == WORDS;
    return ANY_UP_TO(64 * WORDS);
}

uint64_t vb_unmark(const uint64_t *pages, size_t count, uint64_t *set, size_t set_words)
{
    //@ assert the_sets: set == (uint64_t *)words && pages == (uint64_t *)waiting;
    //@ assert their_words: count == WORDS && set_words == WORDS;
    Frama_C_make_unknown((char *)set, WORDS * sizeof *set);
    return ANY_UP_TO(UINT32_MAX);
}

/* ---- the other calls: any answer; what they are handed is looked at */

static uint32_t any_answer(const VbRegion *places, size_t count)
{
    //@ assert all_regions: count == REGIONS;
    //@ assert as_they_are: as_they_are(places);
    return any_u32();
}

uint32_t vb_new_over(VbBalloon *of, VbSettings settings, const VbRegion *places, size_t count)
{
    Frama_C_make_unknown((char *)of, sizeof *of);
    return any_answer(places, count);
}

uint32_t vb_set_regions(VbBalloon *of, const VbRegion *places, size_t count)
{
    return any_answer(places, count);
}

uint32_t vb_place_over(VbBalloon *of, const VbRegion *places, size_t count, uint32_t kind,
                       VbQueuePlace at)
{
    return any_answer(places, count);
}

uint32_t vb_start_queue(VbBalloon *of, const VbRegion *places, size_t count, uint32_t kind,
                        VbQueueStart at)
{
    return any_answer(places, count);
}

uint32_t vb_stop_queue(VbBalloon *of, uint32_t kind, uint16_t *next)
{
    *next = (uint16_t)any_u32();
    return any_u32();
}

uint32_t vb_recheck(const VbNotice *it, const VbBalloon *of)
{
    return any_u32();
}
uint32_t vb_forget_held(VbBalloon *of, uint32_t kind)
{
    return any_u32();
}
uint32_t vb_held(const VbBalloon *of, uint32_t kind, uint32_t *pages)
{
    *pages = any_u32();
    return ANY_UP_TO(VB_IMPOSSIBLE);
}

uint32_t vb_restore_over(VbBalloon *of, const VbRegion *places, size_t count, const uint8_t *bytes,
                         size_t length)
{
    return any_answer(places, count);
}

uint32_t vb_set_status(VbBalloon *of, uint8_t status, uint32_t *then)
{
    *then = any_u32();
    return any_u32();
}

uint32_t vb_negotiate(VbDevice *device, uint64_t features)
{
    return any_u32();
}
uint32_t vb_kind(const VbDevice *device, uint32_t number)
{
    return ANY_UP_TO(VB_NO_KIND);
}
uint32_t vb_kind_of(uint64_t features, uint32_t number)
{
    return ANY_UP_TO(VB_NO_KIND);
}
uint32_t vb_write_config(VbDevice *device, uint32_t offset, const uint8_t *bytes, size_t length)
{
    return any_u32();
}
void vb_read_config(const VbDevice *device, uint32_t offset, uint8_t *out, size_t length)
{
}
void vb_set_target(VbDevice *device, uint32_t pages)
{
    device->target = pages;
}

uint32_t vb_begin_hints(VbDevice *device, uint32_t *id)
{
    *id = any_u32();
    return any_u32();
}

void vb_stop_hints(VbDevice *device)
{
    device->round.shown = 0;
}
void vb_end_hints(VbDevice *device)
{
    device->round.shown = 1;
}
uint32_t vb_may_tell(const VbDevice *device)
{
    return ANY_UP_TO(1);
}
uint32_t vb_save(const VbDevice *device, VbHeld held, uint8_t *out, size_t room)
{
    return any_u32();
}

/* ---- large pages */

/* What goes back with a part (vb_monitor, LargeBy): large pages in a row (GoesBack), which lie
 * within the region (AreWholePages, law large_pages_go_once_they_are_given_up), wherever the part
 * lies; or none, and then all of it waits (AllWait), as it does where the region isn't made of such
 * pages (may_go). Each number of them is looked at by itself, so that the analysis sees that it and
 * where they begin belong together. */
VbLarge vb_large_pages(const VbDevice *device, const VbRegion *region, uint64_t page_size,
                       const VbCut *part, const uint64_t *set, size_t set_words)
{
    //@ assert the_device: device == &balloon.state.device;
    //@ assert its_region: region == &balloon.places[cut_region];
    //@ assert its_pages: page_size == regions[cut_region].page_size;
    //@ assert the_part: part->region == cut_region && part->length == cut_pages * 4096;
    //@ assert large_set: set_words == 0 || (set == (uint64_t *)words && set_words == WORDS);
    VbLarge large = {{part->region, 0, 0, 0}, part->length / BALLOON_PAGE};
    if (page_size > LENGTH)
        return large;
    cut_large = ANY_UP_TO(LENGTH / page_size);
    //@ split cut_large;
    if (cut_large > 0) {
        large.cut = any_cut(part->region, page_size, cut_large);
        large.waiting = ANY_UP_TO(large.waiting);
    }
    return large;
}
