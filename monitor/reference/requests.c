/* What chains ask for, and how they are given back, in plain C. */
#include "reference.h"

/* Puts a page after the others: it joins the last run where it is at one of its ends. */
static void add_page(Named *named, VbRun *runs, uint32_t page)
{
    VbRun *last = named->runs ? &runs[named->runs - 1] : NULL;
    if (last && page == (uint64_t)last->first + last->count)
        last->count++;
    else if (last && page + 1ull == last->first)
        *last = (VbRun){page, last->count + 1};
    else
        runs[named->runs++] = (VbRun){page, 1};
    named->pages++;
}

static uint32_t page_rule(const VbDevice *device, uint64_t page)
{
    if (page >= page_count(device))
        return BAD_PAGE;
    return page < device->settings.reserved_pages ? RESERVED_PAGE : 0;
}

static Named broken(VbDevice *device, uint32_t rule)
{
    device->status |= NEEDS_RESET;
    return (Named){.code = VB_BROKEN, .rule = rule};
}

Named name(VbDevice *device, uint32_t kind, const uint8_t *bytes, size_t length, VbRun *runs)
{
    VbQueue *queue = queue_of(device, kind);
    Named named = {.code = VB_NO_QUEUE};
    if (!queue || kind > VB_DEFLATE)
        return named;
    bool fits = length <= VB_MAX_BYTES && length % 4 == 0;
    named.code = !fits ? VB_BAD_ARGUMENT : refusal(device, kind, queue);
    if (named.code != VB_OK)
        return named;
    for (size_t i = 0; i + 4 <= length; i += 4) {
        uint32_t page = (uint32_t)little(bytes + i, 4), rule = page_rule(device, page);
        if (rule && !device->settings.skips_bad_pages)
            return broken(device, rule);
        if (rule)
            named.skipped++;
        else
            add_page(&named, runs, page);
    }
    return named;
}

/* The rule that the pieces of a report break. */
uint32_t report_rule(const VbDevice *device, const VbPiece *pieces, uint32_t count)
{
    if (any_of_direction(pieces, count, 0))
        return WRONG_DIRECTION;
    if (count > REPORT_PIECES)
        return BAD_LENGTH;
    for (uint32_t i = 0; i < count; i++)
        if (pieces[i].length == 0 || pieces[i].length % PAGE)
            return BAD_LENGTH;
    for (uint32_t i = 0; i < count; i++) {
        uint32_t rule =
            pieces[i].address % PAGE ? BAD_PAGE : page_rule(device, pieces[i].address / PAGE);
        if (rule)
            return rule;
    }
    return 0;
}

/* Takes a statistics buffer: `count` gets how many figures it has. */
uint32_t tell_figures(VbDevice *device, const uint8_t *bytes, size_t length, VbStatistic *figures,
                      uint32_t *count)
{
    bool fits = length <= STATISTICS_BYTES && length % FIGURE_BYTES == 0;
    uint32_t code = !fits ? VB_BAD_ARGUMENT : refusal(device, VB_STATISTICS, &device->statistics);
    if (code != VB_OK)
        return code;
    for (size_t i = 0; i + FIGURE_BYTES <= length; i += FIGURE_BYTES)
        figures[(*count)++] =
            (VbStatistic){(uint16_t)little(bytes + i, 2), little(bytes + i + 2, 8)};
    device->statistics.next_avail++;
    return VB_OK;
}

Used use(VbDevice *device, uint32_t kind, VbQueue *queue, uint32_t head)
{
    Used used = {.code = head >= queue->size ? VB_BAD_ARGUMENT : refusal(device, kind, queue)};
    if (used.code != VB_OK)
        return used;
    used.element_at = queue->used + RING_HEADER_SIZE +
                      USED_ELEMENT_SIZE * (uint64_t)(queue->next_used % queue->size);
    used.index_at = queue->used + RING_INDEX_AT;
    used.index = ++queue->next_used;
    return used;
}
