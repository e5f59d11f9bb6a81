/* Random numbers, lists, devices and regions, most of them such that calls have something to do. */
#include "any.h"

static uint64_t state = 88172645463325252ull;
static uint8_t *arena_ends[3];

uint64_t any(void)
{
    state ^= state << 13;
    state ^= state >> 7;
    state ^= state << 17;
    return state;
}

bool once_in(uint32_t times)
{
    return any() % times == 0;
}

/* A number at a bound, or any. */
uint64_t any_number(void)
{
    const uint64_t bounds[] = {0,         1,          2,          3,          4,
                               8,         15,         16,         255,        256,
                               257,       512,        1023,       1024,       1025,
                               2048,      4095,       4096,       8192,       65535,
                               65536,     1ull << 32, UINT32_MAX, 1ull << 43, (1ull << 44) + 4096,
                               UINT64_MAX};
    uint64_t number = once_in(4) ? any() : bounds[any() % (sizeof bounds / 8)];
    return once_in(4) ? number + any() % 3 - 1 : number;
}

/* A list of `bytes` bytes after which nothing is mapped. */
void *list_of(int arena, size_t bytes)
{
    EXPECT(bytes <= ARENA);
    return arena_ends[arena] - bytes;
}

uint8_t *any_bytes(int arena, size_t count)
{
    uint8_t *bytes = list_of(arena, count);
    for (size_t i = 0; i < count; i++)
        bytes[i] = (uint8_t)(any() >> 32);
    return bytes;
}

static VbQueue any_queue(void)
{
    VbQueue queue = {0x10000, 0x12000, 0x14000, 8, (uint16_t)any(), (uint16_t)any()};
    queue.size = (uint16_t)(once_in(4) ? any_number() : 2u << any() % 8);
    if (once_in(8))
        queue = (VbQueue){any_number(), any_number(),     any_number(),
                          queue.size,   queue.next_avail, queue.next_used};
    return queue;
}

VbDevice any_device(void)
{
    VbDevice device = {.settings = {.memory_end = 16ull << 20}};
    device.settings.offered = LINUX_FEATURES | (once_in(2) ? VB_F_PAGE_POISON : 0) |
                              (once_in(4) ? 0 : VB_F_FREE_PAGE_HINT);
    device.settings.reserved_pages = once_in(2) ? 0 : (uint32_t)any_number();
    device.settings.skips_bad_pages = once_in(2);
    device.settings.discards_hints = once_in(2);
    if (once_in(8))
        device.settings.memory_end = any_number();
    if (once_in(16))
        device.settings.offered = any();
    device.features = once_in(8)   ? any()
                      : once_in(4) ? VERSION_1 | any() % 64
                                   : LINUX_FEATURES | VB_F_FREE_PAGE_HINT;
    device.target = (uint32_t)any();
    device.actual = (uint32_t)any();
    device.poison = once_in(2) ? 0 : (uint32_t)any_number();
    device.status = once_in(4) ? (uint8_t)any() : 15;
    device.inflate = any_queue();
    device.deflate = any_queue();
    device.statistics = any_queue();
    device.hint = any_queue();
    device.report = any_queue();
    device.round = (VbRound){(uint32_t)any_number(), (uint32_t)any_number(), once_in(2)};
    return device;
}

/* Up to four regions: whole pages in a row with holes between them usually, else any. */
VbRegion *any_regions(size_t *count)
{
    *count = any() % 5;
    VbRegion *regions = list_of(0, *count * sizeof *regions);
    for (size_t i = 0; i < *count; i++) {
        regions[i] =
            (VbRegion){i * (6 << 20), (1 + any() % 6) << 20, once_in(2) ? 0 : any() % 64 * 4096};
        if (once_in(16))
            regions[i] = (VbRegion){any_number(), any_number(), any_number()};
    }
    return regions;
}

/* Maps what lists lie in. */
void make_arenas(void)
{
    for (int i = 0; i < 3; i++) {
        uint8_t *all =
            mmap(NULL, ARENA + 4096, PROT_READ | PROT_WRITE, MAP_PRIVATE | MAP_ANONYMOUS, -1, 0);
        EXPECT(all != MAP_FAILED && mprotect(all + ARENA, 4096, PROT_NONE) == 0);
        arena_ends[i] = all + ARENA;
    }
}
