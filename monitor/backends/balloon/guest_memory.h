/* A guest's memory, as a vhost-user client hands it over: regions of files, mapped here. */
#ifndef GUEST_MEMORY_H
#define GUEST_MEMORY_H
#include "balloon.h"

#include <sys/types.h>

/* BLOCK: bytes in which the kernel counts what a file holds (stat(2)). */
enum { MOST_REGIONS = 32, BLOCK = 512 };

/* As a message has it: where a region is in the guest, in the client, and in its file. */
struct region_place {
    uint64_t guest, size, user, offset;
};

/* A file, whatever its number is; and whether it is on a disk, whose blocks are no memory. */
struct file_identity {
    dev_t device;
    ino_t inode;
    bool on_disk;
};

struct guest_memory {
    struct balloon_region regions[MOST_REGIONS];
    uint64_t user[MOST_REGIONS];              /* where each is in the client */
    struct file_identity files[MOST_REGIONS]; /* which file each is of */
    unsigned count;
};

/* Unmaps all regions and closes their files. */
void memory_clear(struct guest_memory *memory);

/* Maps one more region. Takes the file; false where it can't be mapped: it isn't whole pages of its
 * file, it wraps, there is one at these addresses of the guest or of the client, its file ends
 * before, or isn't a memfd, one of tmpfs or hugetlbfs, or a plain file; or there are
  * MOST_REGIONS. */
bool memory_add(struct guest_memory *memory, struct region_place place, int file);

/* Unmaps the region of this place, wherever it begins in its file; false where there is none. */
bool memory_remove(struct guest_memory *memory, struct region_place place);

/* Maps these regions in place of those before. Takes the files; false where one can't be mapped. */
bool memory_map(struct guest_memory *memory, const struct region_place *places, const int *files,
                unsigned count);

/* Maps bytes of a file that is at hand, and that can't be cut off from now on where it lets itself
 * be sealed; NULL where it can't be mapped, or doesn't have them. */
uint8_t *file_map(int file, uint64_t bytes, uint64_t offset);

/* Discards pages of the guest, as far as they are whole pages of its files; how many of these
 * couldn't be, at most. */
uint64_t memory_discard(const struct guest_memory *memory, uint64_t guest, uint64_t length);

/* The guest's address of an address in the client; false where it lies in no region. */
bool memory_of_user(const struct guest_memory *memory, uint64_t user, uint64_t *address);

/* Whether all these bytes of the guest are memory, whichever regions they lie in. */
bool memory_holds(const struct guest_memory *memory, uint64_t guest, uint64_t length);

/* A word of the guest, little-endian; false where it isn't memory. */
bool memory_word(const struct guest_memory *memory, uint64_t guest, uint16_t *word);

/* Copies bytes of a region from its file: a page that the host doesn't hold reads as zeros, and
 * isn't held then either, as it would be after an access. */
void memory_copy(const struct balloon_region *region, uint64_t at, uint8_t *to, size_t length);

/* Whether two regions are of one file; and whether one before the region of this number is of its
 * file. */
bool memory_is_one_file(const struct guest_memory *memory, unsigned one, unsigned other);
bool memory_seen_before(const struct guest_memory *memory, unsigned number);

/* What the files hold on the host, in KiB: of one on a disk, in regions alone. */
uint64_t memory_held(const struct guest_memory *memory);

/* The bytes of all regions that are of the file of this one. */
uint64_t memory_of_file(const struct guest_memory *memory, unsigned number);

/* Whether a region is of a file of large pages. */
bool memory_is_large(const struct guest_memory *memory);

/* How many pages the regions have. */
uint64_t memory_pages(const struct guest_memory *memory);

#endif
