/* What a notice serves once its chain is read, in plain C. */
#include "reference.h"

uint32_t give_back(const Call *call)
{
    VbNotice *notice = call->notice;
    Used used = use(&call->balloon->device, notice->kind, call->queue, notice->head);
    if (used.code != VB_OK)
        return end(call, used.code);
    if (!find_spot(call, used.element_at, USED_FIELD_SIZE, &notice->id_at) ||
        !find_spot(call, used.element_at + USED_LENGTH_AT, USED_FIELD_SIZE, &notice->length_at) ||
        !find_spot(call, used.index_at, RING_WORD_SIZE, &notice->index_at))
        return fail(call, OUT_OF_RAM);
    notice->id = notice->head;
    notice->used_length = 0;
    notice->used_index = used.index;
    return wait_for(call, AT_GIVEN, VB_GIVE_BACK);
}

/* The part of a run's pages that lies in the region of this number, if one does. */
static bool cut_of(const Call *call, size_t number, VbRun run, VbCut *cut)
{
    const VbRegion *region = &call->regions[number];
    uint64_t first = region->guest / REGION_PAGE,
             last = (region->guest + region->length) / REGION_PAGE;
    uint64_t past = (uint64_t)run.first + run.count;
    if (!is_region(region))
        return false;
    first = first > run.first ? first : run.first;
    last = last < past ? last : past;
    if (first >= last)
        return false;
    uint64_t offset = first * REGION_PAGE - region->guest;
    *cut = (VbCut){number, offset, region->in_file + offset, (last - first) * REGION_PAGE};
    return true;
}

/* The pages that its chains name are kept, though they were given up or are free. */
static bool is_kept(const Call *call)
{
    const VbDevice *device = &call->balloon->device;
    switch (call->notice->kind) {
    case VB_INFLATE:
        return call->notice->keeps;
    case VB_REPORT:
        return call->notice->keeps || vb_keeps_reports(device);
    case VB_HINT:
        return call->notice->keeps || vb_keeps_reports(device) || !device->settings.discards_hints;
    default:
        return false;
    }
}

/* Whether bytes of the chain weren't copied yet. */
static bool has_more(const VbNotice *notice)
{
    return notice->piece < notice->count;
}

/* What comes once a portion is told and discarded, of whose chain there is more: a pause where no
 * more pages may be named. */
static uint32_t go_further(const Call *call)
{
    return call->notice->pages_left == 0 ? wait_for(call, AT_PAUSE, VB_PAUSE) : next_portion(call);
}

uint32_t after_portion(const Call *call)
{
    return has_more(call->notice) ? go_further(call) : give_back(call);
}

uint32_t after_pause(const Call *call)
{
    call->notice->pages_left = call->notice->most_pages;
    return next_portion(call);
}

/* Asks for the next part of a run, from run `number` and region `from` on. */
uint32_t ask_cut(const Call *call)
{
    VbNotice *notice = call->notice;
    if (notice->kind == VB_DEFLATE || is_kept(call))
        return after_portion(call);
    uint32_t cuts = 0;
    for (; notice->number < notice->runs && notice->number < VB_MAX_RUNS && cuts < MOST_AT_ONCE;
         notice->number += notice->from == 0) {
        for (; notice->from < call->count && cuts < MOST_AT_ONCE; notice->from++)
            cuts += cut_of(call, notice->from, call->room->runs[notice->number],
                           &call->room->cuts[cuts]);
        notice->from = notice->from < call->count ? notice->from : 0;
    }
    if (cuts == 0)
        return after_portion(call);
    notice->cuts = cuts;
    return wait_for(call, AT_CUT, VB_DISCARD);
}

/* The chain is held until it is asked for. */
static void hold(const Call *call, uint32_t pages)
{
    VbNotice *notice = call->notice;
    notice->taken = 1;
    notice->taken_pages = pages;
    *held_of(&call->balloon->held, notice->kind) = 1 + (uint32_t)notice->head;
    if (notice->kind == VB_DEFLATE)
        call->balloon->held.pages = pages;
}

/* The chain is taken, of which all is named; it is held where the settings say so. */
static void take(const Call *call)
{
    call->queue->next_avail++;
    if (call->notice->waits)
        hold(call, call->notice->told_pages);
}

uint32_t tell_pages(const Call *call, const Named *named)
{
    VbNotice *notice = call->notice;
    const uint64_t numbers = (uint64_t)named->pages + named->skipped;
    if (named->code != VB_OK) {
        notice->rule = named->rule;
        return end(call, named->code);
    }
    notice->runs = named->runs;
    notice->pages = named->pages;
    notice->skipped = named->skipped;
    notice->kept = is_kept(call) ? named->pages : 0;
    notice->pages_left = numbers < notice->pages_left ? notice->pages_left - (uint32_t)numbers : 0;
    notice->told_pages += named->pages;
    notice->waits = holds_chains(&call->balloon->device, notice->kind);
    notice->number = 0, notice->from = 0;
    if (!has_more(notice))
        take(call);
    return wait_for(call, AT_TOLD, VB_TELL_PAGES);
}

uint32_t after_told(const Call *call)
{
    if (!call->notice->waits)
        return ask_cut(call);
    return has_more(call->notice) ? go_further(call) : end(call, VB_NOTHING);
}

/* The figures of a statistics buffer, which is held. */
static uint32_t keep_figures(const Call *call, size_t length)
{
    VbNotice *notice = call->notice;
    uint32_t count = 0, code = tell_figures(&call->balloon->device, call->room->bytes, length,
                                            call->room->figures, &count);
    if (code != VB_OK)
        return end(call, code);
    notice->figures = count;
    hold(call, 0);
    return wait_for(call, AT_FIGURES, VB_TELL_FIGURES);
}

/* An id of hints: the round opens where it is the one that is shown, and else it closes. */
static uint32_t tell_id(const Call *call, size_t length)
{
    if (length != ID_BYTES)
        return fail(call, BAD_LENGTH);
    call->notice->hint_id = (uint32_t)little(call->room->bytes, ID_BYTES);
    call->queue->next_avail++;
    hear_id(&call->balloon->device, call->notice->hint_id);
    return wait_for(call, AT_ID, VB_TELL_ID);
}

uint32_t serve_bytes(const Call *call)
{
    const VbNotice *notice = call->notice;
    if (notice->kind == VB_STATISTICS)
        return keep_figures(call, notice->from);
    if (notice->kind == VB_HINT)
        return tell_id(call, notice->from);
    Named named = name(&call->balloon->device, notice->kind, call->room->bytes, notice->from,
                       call->room->runs);
    return tell_pages(call, &named);
}

uint32_t after_given(const Call *call)
{
    call->notice->given = 1;
    if (!call->notice->taken)
        return next_chain(call);
    vb_forget_held(call->balloon, call->notice->kind);
    return end(call, VB_NOTHING);
}

uint32_t after_flags(const Call *call, uint16_t flags)
{
    call->notice->interrupt = !(flags & NO_INTERRUPT);
    return stop(call, call->notice->code);
}
