/* Pages of slots that were removed, whose files other slots have: the host holds them as before,
 * until the client discards them or lets go of the file. Those of a file on a disk go there. */
#include "lent.h"

#include <unistd.h>

/* Runs of data that are looked for in a file: what is after these counts as data. */
enum { MOST_RUNS = 256 };

static uint64_t larger(uint64_t one, uint64_t other)
{
    return one > other ? one : other;
}

/* The file of a region, by its number. */
struct region_file {
    const struct guest_memory *memory;
    unsigned number;
    int file;
    uint64_t size;
};

/* Where what begins at `at` of a file ends, up to a region that `has` it, or before the next. */
static uint64_t part_end(const struct region_file *its, uint64_t at, bool *has)
{
    const struct guest_memory *memory = its->memory;
    uint64_t end = its->size;
    *has = false;
    for (unsigned i = 0; i < memory->count && !*has; i++) {
        const struct balloon_region *region = &memory->regions[i];
        if (!memory_is_one_file(memory, i, its->number))
            continue;
        *has = region->offset <= at && at - region->offset < region->length;
        if (*has)
            end = region->offset + region->length;
        else if (region->offset > at && region->offset < end)
            end = region->offset;
    }
    return end;
}

/* Where the next run of data begins and ends, between these bytes of a file. */
static uint64_t next_data(int file, uint64_t at, uint64_t end, uint64_t *ends)
{
    off_t begins = lseek(file, (off_t)at, SEEK_DATA);
    uint64_t data = begins < 0 && errno == ENXIO ? end : begins < 0 ? at : (uint64_t)begins;
    off_t hole = data < end ? lseek(file, (off_t)data, SEEK_HOLE) : -1;
    *ends = hole < 0 || (uint64_t)hole > end ? end : (uint64_t)hole;
    return data < end ? data : end;
}

/* The bytes of data that a file has in no region. */
static uint64_t data_outside(const struct region_file *its)
{
    uint64_t at = 0, ends, bytes = 0;
    unsigned runs = 0;
    bool has;
    while (at < its->size) {
        uint64_t end = part_end(its, at, &has);
        if (!has && runs++ < MOST_RUNS) {
            at = next_data(its->file, at, end, &ends);
            end = ends;
        }
        bytes += has ? 0 : end - at;
        at = end;
    }
    return bytes;
}

/* The pages of a file in no region, of the bytes that it holds: no fewer than those beyond its
 * regions. The client's place in it stays. */
static uint64_t pages_outside(const struct region_file *its, uint64_t held)
{
    off_t place = lseek(its->file, 0, SEEK_CUR);
    uint64_t bytes = data_outside(its);
    lseek(its->file, place, SEEK_SET);
    uint64_t within = memory_of_file(its->memory, its->number);
    held -= within < held ? within : held;
    return (larger(bytes, held) + BALLOON_PAGE - 1) / BALLOON_PAGE;
}

static uint64_t all_outside(const struct guest_memory *memory)
{
    uint64_t pages = 0;
    struct stat its;
    for (unsigned i = 0; i < memory->count; i++) {
        int file = memory->regions[i].fd;
        if (!memory->files[i].on_disk && !memory_seen_before(memory, i) && file_look(file, &its))
            pages += pages_outside(&(struct region_file){memory, i, file, (uint64_t)its.st_size},
                                   (uint64_t)its.st_blocks * BLOCK);
    }
    return pages;
}

void outside_note(struct lent *lent, uint32_t pages, uint32_t ballooned)
{
    uint32_t left = lent->notes.pages, stays = lent_ballooned(lent);
    uint32_t taken = pages > left ? pages - left : 0,
             gave = ballooned > stays ? ballooned - stays : 0;
    lent->outside += taken > gave ? taken - gave : 0;
}

static uint32_t smaller(uint64_t one, uint32_t other)
{
    return one < other ? (uint32_t)one : other;
}

uint32_t lent_outside(struct lent *lent)
{
    if (lent->outside > 0)
        lent->outside = smaller(all_outside(&lent->backend.memory), lent->outside);
    return lent->outside;
}

uint32_t outside_returns(struct lent *lent, uint32_t added)
{
    uint32_t before = lent->outside;
    return smaller(before - lent_outside(lent), added);
}
