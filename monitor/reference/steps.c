/* The calls of a notice, in plain C. */
#include "reference.h"

/* What is to be done once that was done which was to be done. */
static uint32_t step(const Call *call, uint16_t answer)
{
    VbNotice *notice = call->notice;
    bool holds = notice->count <= VB_MAX_PIECES && notice->runs <= VB_MAX_RUNS &&
                 notice->length <= VB_MAX_BYTES && notice->cuts <= VB_MAX_CUTS;
    if (!call->queue || !holds || call->queue->size > VB_MAX_QUEUE_SIZE ||
        (call->queue->size == 0 && notice->phase != NO_PHASE))
        return stop(call, VB_BAD_ARGUMENT);
    switch (notice->phase) {
    case AT_INDEX:
        return after_index(call, answer);
    case AT_ENTRY:
        return wait_for(call, AT_WORD, VB_READ);
    case AT_WORD:
        return after_entry(call, answer);
    case AT_DESCRIPTOR:
        return notice->from <= VB_MAX_BYTES / DESCRIPTOR_SIZE ? after_row(call)
                                                              : stop(call, VB_BAD_ARGUMENT);
    case AT_PART:
        return after_part(call);
    case AT_TOLD:
        return after_told(call);
    case AT_CUT:
        return ask_cut(call);
    case AT_PAUSE:
        return after_pause(call);
    case AT_FIGURES:
        return end(call, VB_NOTHING);
    case AT_ID:
        return give_back(call);
    case AT_GIVEN:
        return after_given(call);
    case AT_FLAGS:
        return wait_for(call, AT_FLAG_WORD, VB_READ);
    case AT_FLAG_WORD:
        return after_flags(call, answer);
    default:
        return notice->what ? stop(call, VB_BAD_ARGUMENT) : 0;
    }
}

/* Adds what needs no answer of what is to be done now, as long as its bit comes after the
 * others. */
static uint32_t grouped(const Call *call)
{
    VbNotice *notice = call->notice, before;
    while (GROUPS && notice->what && !(notice->what & (VB_READ | VB_COPY | VB_PAUSE))) {
        VbBalloon balloon = *call->balloon;
        VbCut cuts[VB_MAX_CUTS];
        size_t kept = notice->cuts <= VB_MAX_CUTS ? notice->cuts * sizeof cuts[0] : 0;
        memcpy(cuts, call->room->cuts, kept);
        before = *notice;
        uint32_t next = step(call, 0);
        if (next <= before.what) {
            memcpy(call->room->cuts, cuts, kept);
            *call->balloon = balloon;
            *notice = before;
            break;
        }
        notice->what = before.what | next;
    }
    return notice->what;
}

/* All that is to be done at once, and the device as the notice leaves it. */
static uint32_t hand_over(const Call *call)
{
    const VbDevice *device = &call->balloon->device;
    grouped(call);
    if (call->queue)
        call->notice->ring = *call->queue;
    call->notice->shown = device->round.shown;
    call->notice->status = device->status;
    return call->notice->what;
}

/* The device is as the notice left it: it wasn't reset, and the queue wasn't moved or used. */
static bool is_current(const VbNotice *notice, const VbDevice *device, const VbQueue *queue)
{
    const VbQueue *left = &notice->ring;
    return notice->status == device->status && left->table == queue->table &&
           left->avail == queue->avail && left->used == queue->used && left->size == queue->size &&
           left->next_avail == queue->next_avail && left->next_used == queue->next_used;
}

/* Hints are discarded only while their round is open. */
static bool may_discard(const VbNotice *notice, const VbDevice *device)
{
    return notice->kind != VB_HINT ||
           (vb_hints_open(device) && notice->shown == device->round.shown);
}

static uint32_t stop_stale(const Call *call)
{
    call->notice->rule = call->notice->interrupt = call->notice->more = 0;
    return stop(call, VB_STALE);
}

uint32_t vb_begin(VbNotice *notice, VbBalloon *balloon, const VbRegion *regions, size_t count,
                  VbRoom *room, uint32_t kind, uint32_t chains, uint32_t pages, uint32_t keeps)
{
    const Call call = {notice, balloon, queue_of(&balloon->device, kind), regions, count, room};
    memset(notice, 0, sizeof *notice);
    notice->kind = kind;
    notice->chains_left = chains;
    notice->pages_left = notice->most_pages = pages;
    notice->keeps = keeps != 0;
    if (!call.queue)
        return stop(&call, VB_NO_QUEUE);
    is_held(balloon, kind) ? stop(&call, VB_NOTHING) : look(&call);
    return hand_over(&call);
}

uint32_t vb_give_held(VbNotice *notice, VbBalloon *balloon, const VbRegion *regions, size_t count,
                      VbRoom *room, uint32_t kind)
{
    const Call call = {notice, balloon, queue_of(&balloon->device, kind), regions, count, room};
    memset(notice, 0, sizeof *notice);
    notice->kind = kind;
    if (!call.queue)
        return stop(&call, VB_NO_QUEUE);
    if (vb_held(balloon, kind, &notice->taken_pages) != VB_OK)
        return stop(&call, VB_NOTHING);
    uint32_t head = *held_of(&balloon->held, kind) - 1;
    notice->head = head > UINT16_MAX ? UINT16_MAX : (uint16_t)head;
    notice->taken = 1;
    give_back(&call);
    return hand_over(&call);
}

uint32_t vb_go_on(VbNotice *notice, VbBalloon *balloon, const VbRegion *regions, size_t count,
                  VbRoom *room, uint16_t answer)
{
    const Call call = {notice,  balloon, queue_of(&balloon->device, notice->kind),
                       regions, count,   room};
    if (call.queue && !is_current(notice, &balloon->device, call.queue))
        return stop_stale(&call);
    if (notice->phase == AT_CUT && !may_discard(notice, &balloon->device))
        after_portion(&call);
    else
        step(&call, answer);
    return hand_over(&call);
}

uint32_t vb_recheck(const VbNotice *notice, const VbBalloon *balloon)
{
    VbDevice device = balloon->device;
    const VbQueue *queue = queue_of(&device, notice->kind);
    if (!queue || !is_current(notice, &device, queue))
        return 0;
    return may_discard(notice, &device) ? notice->what : notice->what & ~(uint32_t)VB_DISCARD;
}
