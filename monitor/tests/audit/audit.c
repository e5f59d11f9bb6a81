/* Looks at a device while it serves, from the guest's bytes alone. It reads rings and requests by
 * itself, in order of the positions on the ring, as the device serves them. */
#include "ring_layout.h"

#include "../../backends/balloon/audit.h"
#include "../mutants/wrong_device.h"

#include <inttypes.h>
#include <stdarg.h>
#include <stdio.h>
#include <stdlib.h>
#include <unistd.h>

struct descriptor {
    uint64_t address;
    uint32_t length;
    uint16_t flags, next;
};

static struct {
    uint16_t available, used;           /* the indexes before a service */
    uint8_t *may_be_hole[MOST_REGIONS]; /* a byte for each page of a region */
    uint64_t faults, services, entries, named;
    char first[160];
    struct backend *telling; /* whose request was named, and isn't used yet */
    uint32_t kind;
} audit;

static void fault(const char *format, ...) __attribute__((format(printf, 1, 2)));

static void fault(const char *format, ...)
{
    va_list words;
    va_start(words, format);
    if (audit.faults++ == 0)
        vsnprintf(audit.first, sizeof audit.first, format, words);
    va_end(words);
}

/* A byte of the guest, or NULL in a hole. */
static const uint8_t *byte_at(const struct backend *backend, uint64_t address)
{
    for (unsigned i = 0; i < backend->memory.count; i++) {
        const struct balloon_region *region = &backend->memory.regions[i];
        if (address >= region->guest && address - region->guest < region->length)
            return region->host + (address - region->guest);
    }
    return NULL;
}

/* Bytes of the guest, or zeros in a hole. */
static void read_guest(const struct backend *backend, uint64_t address, void *to, size_t length)
{
    uint8_t *bytes = to;
    for (size_t i = 0; i < length; i++) {
        const volatile uint8_t *from = byte_at(backend, address + i);
        bytes[i] = from ? *from : 0;
        if (!from)
            fault("0x%" PRIx64 " isn't memory", address + i);
    }
}

static uint16_t word_at(const struct backend *backend, uint64_t address)
{
    uint16_t word;
    read_guest(backend, address, &word, sizeof word);
    return word;
}

static const VbQueue *queue_of(const struct backend *backend, uint32_t kind)
{
    const VbDevice *device = &backend->balloon.state.device;
    const VbQueue *queues[] = {&device->inflate, &device->deflate, &device->statistics,
                               &device->report, &device->hint};
    return kind < VB_NO_KIND && queues[kind]->size > 0 ? queues[kind] : NULL;
}

static const VbQueue *queue_at(const struct backend *backend, unsigned number)
{
    return queue_of(backend, vb_kind(&backend->balloon.state.device, number));
}

void audit_before(struct backend *backend, unsigned number)
{
    const VbQueue *queue = queue_at(backend, number);
    wrong_memory = &backend->memory;
    if (!queue)
        return;
    audit.used = word_at(backend, queue->used + RING_INDEX_AT);
    audit.available = word_at(backend, queue->avail + RING_INDEX_AT);
}

/* Whether the entry at this position of the used ring is the one at this position of the available
 * ring. */
static void check_entry(struct backend *backend, unsigned number, const VbQueue *queue,
                        uint16_t position)
{
    uint32_t entry[2];
    unsigned at = position % queue->size;
    uint16_t head = word_at(backend, queue->avail + RING_HEADER_SIZE + AVAIL_ENTRY_SIZE * at);
    read_guest(backend, queue->used + RING_HEADER_SIZE + USED_ELEMENT_SIZE * at, entry,
               sizeof entry);
    audit.entries++;
    if (entry[0] != head)
        fault("queue %u: used element %u has id %" PRIu32 ", and %u was taken", number, position,
              entry[0], head);
    if (entry[1] != 0)
        fault("queue %u: used element %u has length %" PRIu32, number, position, entry[1]);
}

void audit_after(struct backend *backend, unsigned number)
{
    const VbQueue *queue = queue_at(backend, number);
    if (!queue)
        return;
    uint16_t used = word_at(backend, queue->used + RING_INDEX_AT),
             available = word_at(backend, queue->avail + RING_INDEX_AT);
    uint16_t given = (uint16_t)(used - audit.used),
             stood = (uint16_t)(audit.available - audit.used);
    uint32_t kind = vb_kind(&backend->balloon.state.device, number);
    bool leaves =
        kind == VB_STATISTICS ||
        kind == VB_HINT; /* a buffer is kept, and a turn ends after a hint of many pages */
    audit.services++;
    if (given > (uint16_t)(available - audit.used))
        fault("queue %u: the used index is %u, and %u were available", number, used, available);
    else if (given < stood && !leaves)
        fault("queue %u: the used index is %u, and %u were available before", number, used,
              audit.available);
    else
        for (uint16_t i = 0; i < given; i++)
            check_entry(backend, number, queue, (uint16_t)(audit.used + i));
}

/* Whether the pages that are told now stay. */
static bool keeps(const struct balloon *balloon)
{
    return balloon->keeps_pages ||
           (audit.kind == VB_HINT && !balloon->state.device.settings.discards_hints);
}

/* Notes that pages may be holes from now on; they have to be, after their discarding. */
static void name_pages(struct backend *backend, uint64_t address, uint64_t length)
{
    for (unsigned i = 0; i < backend->memory.count; i++) {
        const struct balloon_region *region = &backend->memory.regions[i];
        if (address < region->guest || address - region->guest >= region->length)
            continue;
        uint64_t in = address - region->guest, page = in / BALLOON_PAGE,
                 count = length / BALLOON_PAGE;
        for (uint64_t k = 0;
             audit.may_be_hole[i] && k < count && page + k < region->length / BALLOON_PAGE; k++)
            audit.may_be_hole[i][page + k] = 1;
        audit.named += count;
        off_t at = (off_t)(region->offset + in), data = lseek(region->fd, at, SEEK_DATA);
        if (data >= 0 && data < at + (off_t)length && !keeps(&backend->balloon))
            fault("page 0x%" PRIx64 " was named, and isn't discarded before its request is used",
                  address / BALLOON_PAGE);
    }
}

/* The pages whose numbers are in a buffer. */
static void name_numbers(struct backend *backend, const struct descriptor *buffer)
{
    for (uint32_t at = 0; at + 4 <= buffer->length; at += 4) {
        uint32_t page;
        read_guest(backend, buffer->address + at, &page, sizeof page);
        name_pages(backend, (uint64_t)page * BALLOON_PAGE, BALLOON_PAGE);
    }
}

void audit_pages(struct backend *backend, uint32_t kind)
{
    audit.telling = backend;
    audit.kind = kind;
}

/* The request that is used next is the one at the used index. */
void audit_use(void)
{
    struct backend *backend = audit.telling;
    uint32_t kind = audit.kind;
    const VbQueue *queue = backend ? queue_of(backend, kind) : NULL;
    struct descriptor piece = {.flags = 1};
    audit.telling = NULL;
    if (!queue || kind == VB_DEFLATE)
        return;
    unsigned position = word_at(backend, queue->used + RING_INDEX_AT) % queue->size;
    uint16_t next = word_at(backend, queue->avail + RING_HEADER_SIZE + AVAIL_ENTRY_SIZE * position);
    for (unsigned i = 0; (piece.flags & 1) && i < queue->size; i++) {
        read_guest(backend, queue->table + DESCRIPTOR_SIZE * (uint64_t)(next % queue->size), &piece,
                   sizeof piece);
        if (kind == VB_INFLATE)
            name_numbers(backend, &piece);
        else
            name_pages(backend, piece.address, piece.length);
        next = piece.next;
    }
}

/* Each hole of a region: noted, or looked up. */
static void look_at_holes(const struct balloon_region *region, uint8_t *may_be_hole, bool note)
{
    off_t end = (off_t)(region->offset + region->length), at = (off_t)region->offset;
    while (at < end) {
        off_t hole = lseek(region->fd, at, SEEK_HOLE);
        at = hole < 0 || hole > end ? end : hole;
        off_t data = lseek(region->fd, at, SEEK_DATA);
        data = data < 0 || data > end ? end : data;
        for (; at < data; at += BALLOON_PAGE) {
            uint64_t page = ((uint64_t)at - region->offset) / BALLOON_PAGE;
            if (note)
                may_be_hole[page] = 1;
            else if (!may_be_hole[page])
                fault("page 0x%" PRIx64 " became a hole, and wasn't named",
                      region->guest / BALLOON_PAGE + page);
        }
    }
}

static void take_snapshot(struct backend *backend)
{
    for (unsigned i = 0; i < backend->memory.count; i++) {
        const struct balloon_region *region = &backend->memory.regions[i];
        free(audit.may_be_hole[i]);
        audit.may_be_hole[i] = calloc(region->length / BALLOON_PAGE + 1, 1);
        if (!audit.may_be_hole[i])
            abort();
        look_at_holes(region, audit.may_be_hole[i], true);
    }
}

bool audit_line(struct backend *backend, const char *line)
{
    if (!strcmp(line, "snapshot")) {
        take_snapshot(backend);
        puts("ok");
        return true;
    }
    if (strcmp(line, "audit"))
        return false;
    for (unsigned i = 0; i < backend->memory.count; i++)
        if (audit.may_be_hole[i])
            look_at_holes(&backend->memory.regions[i], audit.may_be_hole[i], false);
    printf("audit faults %" PRIu64 " services %" PRIu64 " entries %" PRIu64 " named %" PRIu64
           " first %s\n",
           audit.faults, audit.services, audit.entries, audit.named,
           audit.faults ? audit.first : "none");
    return true;
}
