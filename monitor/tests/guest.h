/* A guest's driver played by hand, for tests and the bench: memory in two regions with a hole
 * between them, rings and buffers at fixed places, and the steps in which Linux starts a balloon
 * (VIRTIO 1.1, 3.1.1). */
#ifndef GUEST_H
#define GUEST_H
#include "shim.h"
#include <stdatomic.h>
#include <stdio.h>
#include <stdlib.h>
#include <unistd.h>

#define EXPECT(condition)                                                                          \
    ((condition)                                                                                   \
         ? (void)0                                                                                 \
         : (fprintf(stderr, "%s:%d: not so: %s\n", __FILE__, __LINE__, #condition), exit(1)))

enum { /* features (VIRTIO 1.1, 5.5.3 and 6), and bit 5 of Linux: free page reporting */
       MUST_TELL_HOST = 1,
       STATS_VQ = 2,
       DEFLATE_ON_OOM = 4,
       REPORTING = 32,
};
static const uint64_t VERSION_1 = 1ull << 32;
static const uint64_t LINUX_FEATURES = 1ull << 32 | 0x27;

enum { NEXT = 1, WRITE = 2, INDIRECT = 4 }; /* flags of a descriptor (VIRTIO 1.1, 2.6.5) */
enum { MIB = 1 << 20, LOW_MIB = 8, HIGH_MIB = 8 };
static const uint64_t HIGH_ADDRESS = 16ull * MIB; /* the hole is from 8 to 16 MiB */

struct guest {
    struct balloon balloon;
    struct balloon_region regions[2];
    uint16_t size;                  /* of each queue */
    uint16_t published[VB_NO_KIND]; /* available index, by kind */
};

static inline uint64_t table_of(uint32_t kind)
{
    return (16 + 4 * kind) * 4096ull;
}
static inline uint64_t avail_of(uint32_t kind)
{
    return (17 + 4 * kind) * 4096ull;
}
static inline uint64_t used_of(uint32_t kind)
{
    return (18 + 4 * kind) * 4096ull;
}
static inline uint64_t buffer_of(uint32_t kind)
{
    return (40 + kind) * 4096ull + 0x91c;
}

/* Where a byte of a balloon's guest memory is here, or NULL in a hole. */
static inline uint8_t *host_of(const struct balloon *balloon, uint64_t address)
{
    for (size_t i = 0; i < balloon->region_count; i++)
        if (address >= balloon->regions[i].guest &&
            address - balloon->regions[i].guest < balloon->regions[i].length)
            return balloon->regions[i].host + (address - balloon->regions[i].guest);
    return NULL;
}

static inline uint8_t *at(const struct guest *guest, uint64_t address)
{
    uint8_t *host = host_of(&guest->balloon, address);
    EXPECT(host != NULL);
    return host;
}

static inline VbQueue *ring_of_kind(struct balloon *balloon, uint32_t kind)
{
    VbDevice *device = &balloon->state.device;
    VbQueue *queues[] = {&device->inflate, &device->deflate, &device->statistics, &device->report,
                         &device->hint};
    return queues[kind];
}

static inline bool same_queue(const VbQueue *one, const VbQueue *other)
{
    return one->table == other->table && one->avail == other->avail && one->used == other->used &&
           one->size == other->size && one->next_avail == other->next_avail &&
           one->next_used == other->next_used;
}

static inline void put(const struct guest *guest, uint64_t address, uint64_t value, size_t bytes)
{
    value = htole64(value);
    memcpy(at(guest, address), &value, bytes);
}

static inline uint64_t get(const struct guest *guest, uint64_t address, size_t bytes)
{
    uint64_t value = 0;
    memcpy(&value, at(guest, address), bytes);
    return le64toh(value);
}

static inline void describe(const struct guest *guest, uint32_t kind, uint16_t number,
                            uint64_t address, uint32_t length, uint16_t flags, uint16_t next)
{
    uint64_t where = table_of(kind) + 16ull * number;
    put(guest, where, address, 8);
    put(guest, where + 8, length, 4);
    put(guest, where + 12, flags, 2);
    put(guest, where + 14, next, 2);
}

static inline void publish(struct guest *guest, uint32_t kind, uint16_t head)
{
    put(guest, avail_of(kind) + 4 + 2 * (guest->published[kind] % guest->size), head, 2);
    atomic_thread_fence(memory_order_release);
    put(guest, avail_of(kind) + 2, ++guest->published[kind], 2);
}

/* Names pages as Linux does: one readable descriptor, head 0. */
static inline void name_pages(struct guest *guest, uint32_t kind, const uint32_t *pages,
                              uint32_t count)
{
    for (uint32_t i = 0; i < count; i++)
        put(guest, buffer_of(kind) + 4 * i, pages[i], 4);
    describe(guest, kind, 0, buffer_of(kind), 4 * count, 0, 1);
    publish(guest, kind, 0);
}

/* What the used ring's index says, and the element before it. */
static inline uint16_t used_index(const struct guest *guest, uint32_t kind)
{
    return (uint16_t)get(guest, used_of(kind) + 2, 2);
}

static inline uint32_t last_used(const struct guest *guest, uint32_t kind)
{
    uint16_t last = (uint16_t)(used_index(guest, kind) - 1);
    EXPECT(get(guest, used_of(kind) + 8 + 8 * (last % guest->size), 4) == 0);
    return (uint32_t)get(guest, used_of(kind) + 4 + 8 * (last % guest->size), 4);
}

/* Memory: 8 MiB from 0 on in a file, or shared or private without one, and 8 MiB from 16 MiB on
 * that is private. */
static inline void make_memory(struct guest *guest, int low)
{
    int fd = low >= 0 ? memfd_create("guest", 0) : low;
    int flags = low == BALLOON_PRIVATE ? MAP_PRIVATE : MAP_SHARED;
    EXPECT(low < 0 || (fd >= 0 && ftruncate(fd, LOW_MIB * MIB) == 0));
    void *first = mmap(NULL, LOW_MIB * MIB, PROT_READ | PROT_WRITE,
                       flags | (low < 0 ? MAP_ANONYMOUS : 0), low < 0 ? -1 : fd, 0);
    void *second =
        mmap(NULL, HIGH_MIB * MIB, PROT_READ | PROT_WRITE, MAP_PRIVATE | MAP_ANONYMOUS, -1, 0);
    EXPECT(first != MAP_FAILED && second != MAP_FAILED);
    guest->regions[0] = (struct balloon_region){0, LOW_MIB * MIB, first, fd, 0, 0};
    guest->regions[1] =
        (struct balloon_region){HIGH_ADDRESS, HIGH_MIB * MIB, second, BALLOON_PRIVATE, 0, 0};
}

static inline void free_memory(struct guest *guest)
{
    munmap(guest->regions[0].host, LOW_MIB * MIB);
    munmap(guest->regions[1].host, HIGH_MIB * MIB);
    if (guest->regions[0].fd >= 0)
        close(guest->regions[0].fd);
}

/* The driver's steps to status 11, with each queue at its place. */
static inline void start_features(struct guest *guest, uint64_t features, uint16_t size)
{
    struct balloon_result result;
    struct balloon *balloon = &guest->balloon;
    guest->size = size;
    memset(guest->published, 0, sizeof guest->published);
    EXPECT(balloon_write_status(balloon, 0, &result) == 0);
    EXPECT(balloon_write_status(balloon, 1, &result) == 0);
    EXPECT(balloon_write_status(balloon, 3, &result) == 0);
    EXPECT(balloon_negotiate(balloon, features) == 0);
    EXPECT(balloon_write_status(balloon, 11, &result) == 0);
    for (uint32_t number = 0; number < VB_NO_KIND; number++) {
        uint32_t kind = vb_kind(&balloon->state.device, number);
        if (kind == VB_NO_KIND)
            continue;
        for (uint64_t page = table_of(kind); page <= used_of(kind); page += 4096)
            memset(at(guest, page), 0, 4096);
        EXPECT(balloon_place(balloon, kind, table_of(kind), avail_of(kind), used_of(kind), size) ==
               VB_OK);
    }
}

static inline void start(struct guest *guest, int low, VbSettings settings, uint64_t features,
                         uint16_t size)
{
    struct balloon_result result;
    make_memory(guest, low);
    EXPECT(balloon_init(&guest->balloon, guest->regions, 2, settings) == VB_OK);
    start_features(guest, features, size);
    EXPECT(balloon_write_status(&guest->balloon, 15, &result) == 0);
}
#endif
