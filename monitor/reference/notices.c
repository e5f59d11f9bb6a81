/* Notices of vb.h in plain C: a look at a queue, and a chain. */
#include "reference.h"

enum { MOST_IN_ROW = 32 };

bool find_spot(const Call *call, uint64_t address, uint64_t length, VbSpot *spot)
{
    return find_within(call->regions, call->count, address, length, spot);
}

uint32_t wait_for(const Call *call, enum phase phase, uint32_t what)
{
    call->notice->phase = (uint8_t)phase;
    return call->notice->what = what;
}

/* ---- how a notice ends */

uint32_t stop(const Call *call, uint32_t code)
{
    VbNotice *notice = call->notice;
    bool served = notice->given || notice->taken;
    notice->code = code != VB_NOTHING ? code : served ? VB_OK : VB_NOTHING;
    notice->configuration = notice->code == VB_BROKEN;
    return wait_for(call, NO_PHASE, 0);
}

/* Where a chain was given back, the driver is asked whether it wants an interrupt. `code` is kept
 * for the end. */
uint32_t end(const Call *call, uint32_t code)
{
    call->notice->code = code;
    if (!call->notice->given ||
        !find_spot(call, call->queue->avail, RING_WORD_SIZE, &call->notice->at))
        return stop(call, code);
    return wait_for(call, AT_FLAGS, VB_FULL_FENCE);
}

uint32_t fail(const Call *call, uint32_t rule)
{
    call->balloon->device.status |= NEEDS_RESET;
    call->notice->rule = rule;
    return end(call, VB_BROKEN);
}

/* ---- a look at a queue */

uint32_t look(const Call *call)
{
    uint32_t code = refusal(&call->balloon->device, call->notice->kind, call->queue);
    if (code != VB_OK)
        return end(call, code);
    if (!find_spot(call, call->queue->avail + RING_INDEX_AT, RING_WORD_SIZE, &call->notice->at))
        return fail(call, OUT_OF_RAM);
    return wait_for(call, AT_INDEX, VB_READ);
}

/* The chain that is next by the index that was read, or the end. */
uint32_t next_chain(const Call *call)
{
    VbNotice *notice = call->notice;
    uint16_t ahead = (uint16_t)(notice->published - call->queue->next_avail);
    if (ahead > call->queue->size)
        return fail(call, INDEX_JUMP);
    if (ahead == 0)
        return end(call, VB_NOTHING);
    if (notice->chains_left == 0 || notice->pages_left == 0) {
        notice->more = 1;
        return end(call, VB_NOTHING);
    }
    notice->chains_left--;
    const VbQueue *queue = call->queue;
    uint64_t entry = queue->avail + RING_HEADER_SIZE +
                     (uint64_t)AVAIL_ENTRY_SIZE * (queue->next_avail % queue->size);
    if (!find_spot(call, entry, AVAIL_ENTRY_SIZE, &notice->at))
        return fail(call, OUT_OF_RAM);
    return wait_for(call, AT_ENTRY, VB_ACQUIRE);
}

uint32_t after_index(const Call *call, uint16_t index)
{
    call->notice->published = index;
    return next_chain(call);
}

/* ---- a chain */

/* Asks for the descriptor of this number: a chain's first alone, and another one with those that
 * come after it in the table, as many as a row has, where one region has them all. `number` is the
 * first of the copy, `from` how many it has. */
static uint32_t ask_row(const Call *call, uint16_t number)
{
    VbNotice *notice = call->notice;
    const uint64_t address = call->queue->table + DESCRIPTOR_SIZE * (uint64_t)number;
    uint32_t left = (uint32_t)call->queue->size - number, many = notice->count == 0   ? 1
                                                                 : left < MOST_IN_ROW ? left
                                                                                      : MOST_IN_ROW;
    if (!find_spot(call, address, DESCRIPTOR_SIZE * (uint64_t)many, &notice->at)) {
        many = 1;
        if (!find_spot(call, address, DESCRIPTOR_SIZE, &notice->at))
            return fail(call, OUT_OF_RAM);
    }
    notice->length = DESCRIPTOR_SIZE * many;
    notice->into = 0;
    notice->number = number;
    notice->from = many;
    return wait_for(call, AT_DESCRIPTOR, VB_COPY);
}

uint32_t after_entry(const Call *call, uint16_t head)
{
    if (head >= call->queue->size)
        return fail(call, BAD_HEAD);
    call->notice->head = head;
    call->notice->count = 0;
    call->notice->flag = 0;
    call->notice->told_pages = 0;
    return ask_row(call, head);
}

/* How many bytes the next part of a piece has: it ends where its page, its piece or the room
  * does. */
static uint32_t part_length(uint64_t address, uint32_t left, uint32_t room)
{
    const uint32_t page = (uint32_t)(REGION_PAGE - address % REGION_PAGE);
    const uint32_t most = left < room ? left : room;
    return most < page ? most : page;
}

/* Asks for the next part of the pieces. Where the room is full before the last of them, what it has
 * is a portion, which is served first. `piece` is the piece, `done` how many of its bytes are
 * copied, `from` how many bytes the room has. */
static uint32_t ask_part(const Call *call)
{
    VbNotice *notice = call->notice;
    for (; notice->piece < notice->count; notice->piece++, notice->done = 0) {
        const VbPiece piece = call->room->pieces[notice->piece];
        const uint64_t address = piece.address + notice->done;
        if (notice->done >= piece.length)
            continue;
        if (notice->from >= VB_MAX_BYTES)
            return serve_bytes(call);
        notice->length = part_length(address, piece.length - notice->done,
                                     VB_MAX_BYTES - (uint32_t)notice->from);
        notice->into = (uint32_t)notice->from;
        return find_spot(call, address, notice->length, &notice->at)
                   ? wait_for(call, AT_PART, VB_COPY)
                   : fail(call, OUT_OF_RAM);
    }
    return serve_bytes(call);
}

uint32_t after_part(const Call *call)
{
    VbNotice *notice = call->notice;
    notice->from += notice->length;
    notice->done += notice->length;
    return ask_part(call);
}

/* Goes on in the chain once a portion of it is told and discarded. */
uint32_t next_portion(const Call *call)
{
    call->notice->from = 0;
    return ask_part(call);
}

/* The pages of a report or of hints, whose pieces are in the room: of hints that come while no
 * round is open, all are skipped. */
static uint32_t serve_report(const Call *call)
{
    VbDevice *device = &call->balloon->device;
    Named named = {.code = VB_OK};
    uint32_t count = call->notice->count, rule = report_rule(device, call->room->pieces, count);
    if (rule)
        return fail(call, rule);
    for (; named.runs < count; named.runs++) {
        const VbPiece piece = call->room->pieces[named.runs];
        call->room->runs[named.runs] =
            (VbRun){(uint32_t)(piece.address / PAGE), piece.length / PAGE};
        named.pages += piece.length / PAGE;
    }
    if (call->notice->kind == VB_HINT && !vb_hints_open(device))
        named = (Named){.code = VB_OK, .skipped = named.pages};
    call->notice->piece = call->notice->count;
    return tell_pages(call, &named);
}

static uint32_t serve_chain(const Call *call)
{
    VbNotice *notice = call->notice;
    uint64_t total = 0;
    if (notice->kind == VB_REPORT || (notice->kind == VB_HINT && call->room->pieces[0].writable))
        return serve_report(call);
    for (uint32_t i = 0; i < notice->count; i++)
        total += call->room->pieces[i].length;
    uint32_t rule =
        buffer_rule(&call->balloon->device, notice->kind, call->room->pieces, notice->count, total);
    if (rule)
        return fail(call, rule);
    notice->piece = 0, notice->done = 0;
    return next_portion(call);
}

/* The walk continues in the copy for as long as it has the next descriptor. */
uint32_t after_row(const Call *call)
{
    VbNotice *notice = call->notice;
    for (size_t place = 0;;) {
        Descriptor it = descriptor_at(call->room->bytes, (uint32_t)place);
        uint32_t rule = notice->count >= longest(call->queue->size)
                            ? (uint32_t)TOO_LONG
                            : broken_rule(&call->balloon->device, call->queue->size, &it,
                                          notice->count, notice->flag);
        if (rule)
            return fail(call, rule);
        notice->flag = (it.flags & WRITE) != 0;
        call->room->pieces[notice->count++] = (VbPiece){it.address, it.length, notice->flag};
        if (!(it.flags & NEXT))
            return serve_chain(call);
        if (it.next < notice->number || it.next - notice->number >= notice->from)
            return ask_row(call, it.next);
        place = it.next - notice->number;
    }
}
