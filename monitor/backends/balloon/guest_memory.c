#include "guest_memory.h"

#include "../base/process.h"
#include "../base/say.h"

#include <linux/magic.h>
#include <sys/stat.h>
#include <sys/vfs.h>
#include <unistd.h>

static void unmap(const struct balloon_region *region)
{
    if (munmap(region->host, region->length))
        complain("%llu bytes of memory can't be unmapped: %s", (unsigned long long)region->length,
                 strerror(errno));
    file_close(region->fd);
}

void memory_clear(struct guest_memory *memory)
{
    for (unsigned i = 0; i < memory->count; i++)
        unmap(&memory->regions[i]);
    memory->count = 0;
}

/* Whether one of two ranges of these lengths has an address of the other one. */
static bool overlap(uint64_t one, uint64_t length, uint64_t other, uint64_t its)
{
    return one < other ? other - one < length : one - other < its;
}

/* Whether a region may be beside the others. */
static bool has_room(const struct guest_memory *memory, const struct region_place *place)
{
    for (unsigned i = 0; i < memory->count; i++)
        if (overlap(place->guest, place->size, memory->regions[i].guest,
                    memory->regions[i].length) ||
            overlap(place->user, place->size, memory->user[i], memory->regions[i].length))
            return false;
    return memory->count < MOST_REGIONS;
}

/* Whether a region is whole pages, and ends. */
static bool is_range(const struct region_place *place)
{
    uint64_t end;
    return place->size > 0 && (place->guest | place->size) % BALLOON_PAGE == 0 &&
           !__builtin_add_overflow(place->guest, place->size, &end) &&
           !__builtin_add_overflow(place->user, place->size, &end) &&
           !__builtin_add_overflow(place->offset, place->size, &end);
}

/* Whether a file has all bytes of a region. */
static bool has_bytes(int file, const struct region_place *place)
{
    struct stat its;
    return file_look(file, &its) && S_ISREG(its.st_mode) &&
           place->offset + place->size <= (uint64_t)its.st_size;
}

static bool is_among(unsigned long type, const unsigned long types[], size_t count)
{
    for (size_t i = 0; i < count; i++)
        if (type == types[i])
            return true;
    return false;
}

/* Whether a file is memory without a disk. */
static bool is_memory(const struct statfs *its)
{
    static const unsigned long known[] = {TMPFS_MAGIC, HUGETLBFS_MAGIC, RAMFS_MAGIC};
    return is_among((unsigned long)its->f_type, known, sizeof known / sizeof known[0]);
}

/* Whether nobody but the kernel is waited for at an access: memory, or a plain file on a disk of
 * its own. A file of FUSE, or one of another machine, has its pages when somebody else likes. */
static bool is_at_hand(const struct statfs *its)
{
    static const unsigned long known[] = {EXT4_SUPER_MAGIC, XFS_SUPER_MAGIC, BTRFS_SUPER_MAGIC,
                                          F2FS_SUPER_MAGIC};
    if (is_memory(its) ||
        is_among((unsigned long)its->f_type, known, sizeof known / sizeof known[0]))
        return true;
    complain(
        "a region's file is on a file system of type 0x%lx, whose pages may have to be waited for",
        (unsigned long)its->f_type);
    return false;
}

/* Whether a region is whole pages of its file, which are large in one of hugetlbfs: `page_size`,
 * else 0. */
static bool is_whole(const struct region_place *place, const struct statfs *its,
                     uint64_t *page_size)
{
    *page_size = its->f_type == HUGETLBFS_MAGIC ? (uint64_t)its->f_bsize : 0;
    if (*page_size == 0 || (place->size | place->offset) % *page_size == 0)
        return true;
    complain("a region of %llu bytes isn't whole pages of %llu", (unsigned long long)place->size,
             (unsigned long long)*page_size);
    return false;
}

/* Maps a region's file, which can't be cut off from now on where it is a memfd that lets itself be
 * sealed; MAP_FAILED where it can't. */
static uint8_t *map(const struct region_place *place, int file, uint64_t *page_size, bool *on_disk)
{
    struct statfs its;
    if (fstatfs(file, &its) || !is_at_hand(&its) || !is_whole(place, &its, page_size))
        return MAP_FAILED;
    *on_disk = !is_memory(&its);
    fcntl(file, F_ADD_SEALS, F_SEAL_SHRINK);
    if (!has_bytes(file, place))
        return MAP_FAILED;
    return mmap(NULL, place->size, PROT_READ | PROT_WRITE, MAP_SHARED, file, (off_t)place->offset);
}

uint8_t *file_map(int file, uint64_t bytes, uint64_t offset)
{
    const struct region_place place = {.size = bytes, .offset = offset};
    uint64_t page_size, end;
    bool on_disk, ends = !__builtin_add_overflow(bytes, offset, &end);
    uint8_t *at = ends ? map(&place, file, &page_size, &on_disk) : MAP_FAILED;
    return at == MAP_FAILED ? NULL : at;
}

bool memory_add(struct guest_memory *memory, struct region_place place, int file)
{
    uint8_t *at = MAP_FAILED;
    uint64_t page_size = 0;
    bool on_disk = false;
    struct stat its;
    if (is_range(&place) && has_room(memory, &place) && file_look(file, &its))
        at = map(&place, file, &page_size, &on_disk);
    if (at == MAP_FAILED) {
        file_close(file);
        return false;
    }
    memory->user[memory->count] = place.user;
    memory->files[memory->count] = (struct file_identity){its.st_dev, its.st_ino, on_disk};
    memory->regions[memory->count++] =
        (struct balloon_region){place.guest, place.size, at, file, place.offset, page_size};
    return true;
}

bool memory_remove(struct guest_memory *memory, struct region_place place)
{
    for (unsigned i = 0; i < memory->count; i++) {
        const struct balloon_region *region = &memory->regions[i];
        if (region->guest != place.guest || region->length != place.size ||
            memory->user[i] != place.user)
            continue;
        unmap(region);
        memory->count--;
        memory->regions[i] = memory->regions[memory->count];
        memory->user[i] = memory->user[memory->count];
        memory->files[i] = memory->files[memory->count];
        return true;
    }
    return false;
}

bool memory_map(struct guest_memory *memory, const struct region_place *places, const int *files,
                unsigned count)
{
    bool good = true;
    memory_clear(memory);
    for (unsigned i = 0; i < count; i++)
        good = memory_add(memory, places[i], files[i]) && good;
    return good;
}

bool memory_of_user(const struct guest_memory *memory, uint64_t user, uint64_t *address)
{
    for (unsigned i = 0; i < memory->count; i++) {
        if (user >= memory->user[i] && user - memory->user[i] < memory->regions[i].length) {
            *address = user - memory->user[i] + memory->regions[i].guest;
            return true;
        }
    }
    return false;
}

/* The region of an address of the guest, or NULL. */
static const struct balloon_region *region_of(const struct guest_memory *memory, uint64_t guest)
{
    for (unsigned i = 0; i < memory->count; i++)
        if (guest >= memory->regions[i].guest &&
            guest - memory->regions[i].guest < memory->regions[i].length)
            return &memory->regions[i];
    return NULL;
}

bool memory_holds(const struct guest_memory *memory, uint64_t guest, uint64_t length)
{
    while (length > 0) {
        const struct balloon_region *region = region_of(memory, guest);
        if (!region)
            return false;
        uint64_t room = region->length - (guest - region->guest);
        uint64_t part = room < length ? room : length;
        guest += part;
        length -= part;
    }
    return true;
}

static uint64_t larger(uint64_t one, uint64_t other)
{
    return one > other ? one : other;
}

uint64_t memory_discard(const struct guest_memory *memory, uint64_t guest, uint64_t length)
{
    uint64_t held = 0;
    for (unsigned i = 0; i < memory->count; i++) {
        const struct balloon_region *region = &memory->regions[i];
        uint64_t first = guest > region->guest ? guest : region->guest;
        uint64_t end = guest + length, last = region->guest + region->length;
        uint64_t page = larger(region->page_size, BALLOON_PAGE);
        end = end < last ? end : last;
        if (first >= end)
            continue;
        uint64_t at = (first - region->guest + page - 1) / page * page,
                 past = (end - region->guest) / page * page;
        if (at < past && balloon_discard_bytes(region, at, past - at))
            held += (past - at) / BALLOON_PAGE;
    }
    return held;
}

bool memory_word(const struct guest_memory *memory, uint64_t guest, uint16_t *word)
{
    *word = 0;
    for (unsigned i = 0; i < sizeof *word; i++) {
        const struct balloon_region *region = region_of(memory, guest + i);
        if (!region)
            return false;
        const volatile uint8_t *byte = region->host + (guest + i - region->guest);
        *word |= (uint16_t)(*byte << 8 * i);
    }
    return true;
}

/* Where the file isn't read, as it was cut off, an access says so. */
void memory_copy(const struct balloon_region *region, uint64_t at, uint8_t *to, size_t length)
{
    if (pread(region->fd, to, length, (off_t)(region->offset + at)) != (ssize_t)length)
        balloon_read_once(to, region->host + at, length);
}

bool memory_is_one_file(const struct guest_memory *memory, unsigned one, unsigned other)
{
    const struct file_identity *its = &memory->files[one], *others = &memory->files[other];
    return its->device == others->device && its->inode == others->inode;
}

bool memory_seen_before(const struct guest_memory *memory, unsigned number)
{
    for (unsigned i = 0; i < number; i++)
        if (memory_is_one_file(memory, i, number))
            return true;
    return false;
}

uint64_t memory_of_file(const struct guest_memory *memory, unsigned number)
{
    uint64_t bytes = 0;
    for (unsigned i = 0; i < memory->count; i++)
        if (memory_is_one_file(memory, i, number))
            bytes += memory->regions[i].length;
    return bytes;
}

uint64_t memory_held(const struct guest_memory *memory)
{
    uint64_t blocks = 0;
    struct stat file;
    for (unsigned i = 0; i < memory->count; i++) {
        if (memory_seen_before(memory, i) || !file_look(memory->regions[i].fd, &file))
            continue;
        uint64_t most = memory->files[i].on_disk ? memory_of_file(memory, i) / BLOCK : UINT64_MAX,
                 its = (uint64_t)file.st_blocks;
        blocks += its < most ? its : most;
    }
    return blocks / 2;
}

uint64_t memory_pages(const struct guest_memory *memory)
{
    uint64_t pages = 0;
    for (unsigned i = 0; i < memory->count; i++)
        pages += memory->regions[i].length / BALLOON_PAGE;
    return pages;
}

bool memory_is_large(const struct guest_memory *memory)
{
    for (unsigned i = 0; i < memory->count; i++)
        if (memory->regions[i].page_size > BALLOON_PAGE)
            return true;
    return false;
}
