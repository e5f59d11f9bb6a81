/* What a notice takes where nothing is proved: a balloon in plain C, by hand. It reads rings in
 * place and only what is in use, and tests what a guest may get wrong. The bench compares with it;
 * nothing else uses it. */
#include "bench.h"

enum { MOST = 256, MOST_BYTES = 1024, MOST_PIECES_OF_REPORT = 32, BROKEN = -1 };

static struct plain {
    const struct guest *guest;
    VbQueue queue;
    const uint8_t *avail, *table;
    uint8_t *used;  /* where the queue's parts are here */
    uint64_t pages; /* of memory */
    bool discards;
    VbRun runs[MOST];
} plain;

/* The first address of these bytes, where all lie in one region. */
static inline uint8_t *plain_host(uint64_t address, uint64_t length)
{
    for (const struct balloon_region *it = plain.guest->regions; it < plain.guest->regions + 2;
         it++)
        if (address - it->guest < it->length && length <= it->length - (address - it->guest))
            return it->host + (address - it->guest);
    return NULL;
}

static inline uint16_t word_at(const uint8_t *host)
{
    return le16toh(*(const volatile uint16_t *)(const void *)host);
}

/* Gives a run back to the machine, by one call for each region that it touches. */
static void plain_discard(const VbRun *run)
{
    uint64_t from = run->first * 4096ull, to = from + run->count * 4096ull;
    for (const struct balloon_region *it = plain.guest->regions; it < plain.guest->regions + 2;
         it++) {
        uint64_t first = from > it->guest ? from : it->guest;
        uint64_t end = to < it->guest + it->length ? to : it->guest + it->length;
        if (first < end && madvise(it->host + (first - it->guest), end - first, MADV_DONTNEED) != 0)
            abort();
    }
}

/* A page number joins the run that grows, or ends it and begins another. */
static inline uint32_t join(uint32_t count, VbRun *run, uint32_t page, uint64_t pages)
{
    if (page >= pages)
        return count;
    if (page == run->first + run->count) {
        run->count++;
    } else if (page + 1 == run->first) {
        run->first = page, run->count++;
    } else {
        if (run->count > 0)
            plain.runs[count++] = *run;
        *run = (VbRun){page, 1};
    }
    return count;
}

/* The runs of a request's page numbers, each read once where it is; how many, or BROKEN. Numbers
 * that two pieces share are left to others. */
static inline int request(uint16_t head, const uint8_t *table, uint32_t size)
{
    VbRun run = {UINT32_MAX, 0};
    const uint64_t pages = plain.pages;
    uint32_t length = 0, count = 0;
    for (uint32_t steps = 0;; steps++) {
        uint64_t words[2];
        if (head >= size || steps == size)
            return BROKEN;
        memcpy(words, table + 16 * head, 16);
        uint32_t part = (uint32_t)words[1], flags = words[1] >> 32 & 0xffff;
        const uint8_t *from = plain_host(words[0], part);
        if (!from || flags & (WRITE | INDIRECT) || part > MOST_BYTES - length || part % 4)
            return BROKEN;
        for (const uint8_t *end = from + part; from < end; from += 4)
            count = join(count, &run, le32toh(*(const volatile balloon_word32 *)from), pages);
        length += part;
        if (!(flags & NEXT) && run.count > 0)
            plain.runs[count++] = run;
        if (!(flags & NEXT))
            return length == 0 ? BROKEN : (int)count;
        head = (uint16_t)(words[1] >> 48);
    }
}

/* The runs of a report's pieces; how many, or BROKEN. */
static inline int report(uint16_t head, const uint8_t *table, uint32_t size)
{
    for (uint32_t count = 0; head < size && count < MOST_PIECES_OF_REPORT;) {
        uint64_t words[2];
        memcpy(words, table + 16 * head, 16);
        uint32_t length = (uint32_t)words[1], flags = words[1] >> 32 & 0xffff;
        uint64_t first = words[0] / 4096, pages = length / 4096;
        if ((words[0] | length) % 4096 || pages == 0 || first >= plain.pages ||
            pages > plain.pages - first || !(flags & WRITE) || flags & INDIRECT)
            return BROKEN;
        plain.runs[count++] = (VbRun){(uint32_t)first, (uint32_t)pages};
        if (!(flags & NEXT))
            return (int)count;
        head = (uint16_t)(words[1] >> 48);
    }
    return BROKEN;
}

void plain_start(const struct guest *guest, uint32_t kind)
{
    const VbDevice *device = &guest->balloon.state.device;
    plain.guest = guest;
    plain.queue = kind == VB_REPORT ? device->report : device->inflate;
    plain.pages = device->settings.memory_end / 4096;
    plain.avail = plain_host(plain.queue.avail, 6 + 2u * plain.queue.size);
    plain.table = plain_host(plain.queue.table, 16u * plain.queue.size);
    plain.used = plain_host(plain.queue.used, 6 + 8u * plain.queue.size);
    EXPECT(plain.avail && plain.table && plain.used);
}

void plain_discards(bool discards)
{
    plain.discards = discards;
}

/* The driver kicked the queue: serves what is available. How many pages were named; `told` gets
 * them, run by run. */
uint64_t plain_notify(uint32_t kind, void (*told)(const VbRun *runs, uint32_t count))
{
    const uint32_t size = plain.queue.size, mask = size - 1;
    const uint8_t *avail = plain.avail, *table = plain.table;
    const uint16_t index = word_at(avail + 2);
    uint16_t next = plain.queue.next_avail, used = plain.queue.next_used;
    uint64_t pages = 0;
    while (index != next) {
        __atomic_thread_fence(__ATOMIC_ACQUIRE);
        uint16_t head = word_at(avail + 4 + 2 * (next & mask));
        int count = kind == VB_REPORT ? report(head, table, size) : request(head, table, size);
        if ((uint16_t)(index - next) > size || count == BROKEN)
            break;
        for (int i = 0; i < count; i++)
            pages += plain.runs[i].count;
        told(plain.runs, (uint32_t)count);
        for (int i = 0; plain.discards && i < count; i++)
            plain_discard(&plain.runs[i]);
        uint32_t element[2] = {head, 0};
        memcpy(plain.used + 4 + 8 * (used & mask), element, 8);
        next++, used++;
        __atomic_thread_fence(__ATOMIC_RELEASE);
        *(volatile uint16_t *)(void *)(plain.used + 2) = htole16(used);
    }
    if (used != plain.queue.next_used) {
        __atomic_thread_fence(__ATOMIC_SEQ_CST);
        interrupts += !(word_at(avail) & 1);
    }
    plain.queue.next_avail = next, plain.queue.next_used = used;
    return pages;
}
