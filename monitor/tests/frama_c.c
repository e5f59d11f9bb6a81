/* What ../tools/check-shim has Frama-C look at: balloon.h with any bytes of a guest, and with
 * whatever the library may answer.
 *
 * The library is in frama_c/library.h as what its contracts leave open: each answer is any that
 * they allow, and what they promise is named where it is used. What is copied, written, told and
 * discarded is looked at by the analysis itself, and by the assertions of the monitor's hooks and
 * of the machine's calls below. There are four analyses, each from a function of its own: `main`,
 * all but the copies, by the contracts of balloon_discard and balloon_discard_together; `discards`,
 * those contracts; `copies`, each copy that a notice may ask for, by the contract of
 * balloon_read_once; `lengths`, that contract. */
#include <__fc_builtin.h>
#include <stdint.h>
#include <sys/types.h>
#include <sys/uio.h>

int fallocate(int fd, int how, off_t from, off_t length);
int madvise(void *from, size_t length, int advice);
void __atomic_thread_fence(int order);
uint16_t le16toh(uint16_t word);
uint16_t htole16(uint16_t word);
uint32_t htole32(uint32_t word);

/*@ requires reads: \valid_read(from + (0 .. length - 1));
    requires writes: \valid(to + (0 .. length - 1));
    assigns to[0 .. length - 1] \from from[0 .. length - 1]; */
static inline void balloon_read_once(uint8_t *to, const uint8_t *from, size_t length);

/* What is given up together is memory, in parts that aren't empty. */
/*@ requires some: count >= 2;
    requires parts: \valid_read(parts + (0 .. count - 1));
    requires within_memory: \forall integer i; 0 <= i < count ==> parts[i].iov_len > 0
        && \valid((char *)parts[i].iov_base + (0 .. parts[i].iov_len - 1));
    assigns \result \from count;
    ensures -1 <= \result; */
static inline ssize_t balloon_drop_all(const struct iovec *parts, uint32_t count);
#include "balloon.h"

enum { PAGES = 4, LENGTH = PAGES * BALLOON_PAGE, REGIONS = 3, WORDS = 3, SOME_FD = 3 };
static const uint64_t IN_FILE = 1ull << 20;

/* Memory of each kind: shared, private, and of a file. */
static uint8_t shared[LENGTH], private[LENGTH], of_file[LENGTH];
static struct balloon_region regions[REGIONS];
static struct balloon balloon;
static uint64_t words[WORDS],
    waiting[WORDS]; /* the set of ballooned pages, and that of a held deflate's pages */
static bool has_set;

/* Of what is discarded: its region, the size of the machine's pages there, its pages, and the large
 * pages that go with it. */
static uint64_t cut_region, cut_size, cut_pages, cut_large;

/* The regions as the library sees them. */
/*@ predicate as_they_are(VbRegion *places) =
        places[0].guest == 0 && places[1].guest == 2 * LENGTH && places[2].guest == 4 * LENGTH
        && places[0].length == LENGTH && places[1].length == LENGTH && places[2].length == LENGTH
        && places[0].in_file == 0 && places[1].in_file == 0 && places[2].in_file == IN_FILE; */

/* Discarding is asked for by a notice's cuts alone. Of what it gets, the result alone isn't const:
 * that it may write. */
/*@ requires the_balloon:
        the_one == &balloon && the_one->regions == (struct balloon_region *)regions;
    requires the_regions: as_they_are((VbRegion *)balloon.places);
    requires the_set: balloon.ballooned_words == WORDS &&
        (balloon.ballooned == \null || balloon.ballooned == (uint64_t *)words);
    requires a_part: (VbCut *)balloon.room.cuts <= part < balloon.room.cuts + balloon.notice.cuts;
    requires counts: \valid(result);
    assigns *result, errno \from *part; */
static inline void balloon_discard(const struct balloon *the_one, const VbCut *part,
                                   struct balloon_result *result);

/* No more parts are discarded together than the notice has. */
/*@ requires the_balloon:
        the_one == &balloon && the_one->regions == (struct balloon_region *)regions;
    requires counts: \valid(result);
    assigns *result, the_one->discards_apart, \result \from the_one->notice.cuts;
    ensures some: 0 <= \result <= the_one->notice.cuts; */
static inline uint32_t balloon_discard_together(struct balloon *the_one,
                                                struct balloon_result *result);

#define ANY_UP_TO(most) Frama_C_unsigned_long_long_interval(0, most)
static uint32_t any_u32(void)
{
    return Frama_C_unsigned_int_interval(0, UINT32_MAX);
}
static uint64_t any_u64(void)
{
    return ANY_UP_TO(UINT64_MAX);
}
static bool maybe(void)
{
    return Frama_C_nondet(0, 1);
}

#include "frama_c/library.h"

/* ---- the machine and the monitor */

static int any_errno(void)
{
    errno = Frama_C_interval(1, 133);
    return maybe() ? 0 : -1;
}

/* What is given up are whole pages of the region, of the size that they have there: of its memory,
 * or of its file. */
int madvise(void *from, size_t length, int advice)
{
    //@ assert not_a_file: cut_region < 2;
    //@ assert within_memory: length > 0 && \valid((char *)from + (0 .. length - 1));
    //@ assert its_memory: \base_addr(from) == \base_addr(regions[cut_region].host);
    //@ assert whole_pages: \offset((char *)from) % cut_size == 0 && length % cut_size == 0;
    return any_errno();
}

int fallocate(int fd, int how, off_t from, off_t length)
{
    //@ assert the_hole: fd == SOME_FD && how == 3;
    //@ assert its_file: cut_region == 2;
    //@ assert within_the_file: IN_FILE <= from && length > 0 && from + length <= IN_FILE + LENGTH;
    //@ assert whole_pages_of_the_file: from % cut_size == 0 && length % cut_size == 0;
    return any_errno();
}

/* The fences are ../tools/check-fences' and order.c's. */
void __atomic_thread_fence(int order)
{
}

static void be_told(void *context, uint32_t kind, const VbRun *runs, uint32_t count)
{
    //@ assert told_runs: \valid_read(runs + (0 .. (int)count - 1));
}

static void hear(void *context, const VbStatistic *figures, uint32_t count)
{
    //@ assert told_figures: \valid_read(figures + (0 .. (int)count - 1));
}

static void hear_id(void *context, uint32_t id)
{
}

static int discard(void *context, const struct balloon_region *region, uint64_t at, uint64_t length)
{
    //@ assert the_region: region == &regions[cut_region];
    uint8_t *from = region->host + at;
    //@ assert within_the_region: length > 0 && \valid(from + (0 .. length - 1));
    //@ assert whole_pages_of_the_region: at % cut_size == 0 && length % cut_size == 0;
    return Frama_C_interval(0, 133);
}

/* ---- any monitor, and any driver */

static void any_call(void)
{
    struct balloon_result result;
    uint8_t bytes[VB_STATE_BYTES];
    VbQueueStart start = {any_u64(), any_u64(), any_u64(), ANY_UP_TO(UINT16_MAX),
                          ANY_UP_TO(UINT16_MAX)};
    uint16_t next;
    uint32_t id;
    switch (Frama_C_interval(0, 16)) {
    case 0:
        balloon_notify(&balloon, any_u32());
        break;
    case 1:
        balloon_ask_statistics(&balloon);
        break;
    case 2:
        balloon_write_status(&balloon, ANY_UP_TO(255), &result);
        break;
    case 3:
        balloon_set_regions(&balloon, regions, REGIONS);
        break;
    case 4:
        balloon_place(&balloon, any_u32(), any_u64(), any_u64(), any_u64(), ANY_UP_TO(UINT16_MAX));
        break;
    case 5:
        balloon_notify_number(&balloon, any_u32());
        break;
    case 6:
        balloon_restore(&balloon, bytes, sizeof bytes);
        break;
    case 7:
        balloon_save(&balloon, bytes, sizeof bytes);
        break;
    case 8:
        balloon_set_regions(&balloon, regions, BALLOON_MOST_REGIONS + 1);
        break;
    case 9:
        balloon_start_queue(&balloon, any_u32(), start);
        break;
    case 10:
        balloon_stop_queue(&balloon, any_u32(), &next);
        break;
    case 11:
        balloon_forget_held(&balloon, any_u32());
        break;
    case 12:
        balloon_give_deflate(&balloon);
        break;
    case 13:
        balloon_begin_hints(&balloon, &id);
        break;
    case 14:
        balloon_stop_hints(&balloon);
        break;
    case 15:
        balloon_end_hints(&balloon);
        break;
    default:
        balloon_negotiate(&balloon, any_u64());
        break;
    }
}

/* A hook that copies as the shim does: within the region. */
static void copy_bytes(void *context, const struct balloon_region *region, uint64_t at, uint8_t *to,
                       size_t length)
{
    (void)context;
    balloon_read_once(to, region->host + at, length);
}

/* A hook that is told what was written: bytes of a region. */
static void be_told_of_a_write(void *context, const struct balloon_region *region, uint64_t at,
                               uint64_t length)
{
    (void)context;
    //@ assert within_the_region: 0 < length <= 4 && at + length <= region->length;
}

/* The regions, and a balloon over them with any hooks. */
static void begin(void)
{
    const VbSettings settings = {0};
    has_set = maybe();
    //@ split has_set;
    regions[0] = (struct balloon_region){0, LENGTH, shared, BALLOON_SHARED, IN_FILE, any_u64()};
    regions[1] =
        (struct balloon_region){2 * LENGTH, LENGTH, private, BALLOON_PRIVATE, IN_FILE, any_u64()};
    regions[2] = (struct balloon_region){4 * LENGTH, LENGTH, of_file, SOME_FD, IN_FILE, any_u64()};
    balloon_init(&balloon, regions, REGIONS, settings);
    balloon.on_pages = maybe() ? be_told : NULL;
    balloon.on_statistics = maybe() ? hear : NULL;
    balloon.on_hint_id = maybe() ? hear_id : NULL;
    balloon.discard = maybe() ? discard : NULL;
    balloon.copy = maybe() ? copy_bytes : NULL;
    balloon.on_written = maybe() ? be_told_of_a_write : NULL;
    balloon.keeps_pages = maybe();
    balloon.ballooned = has_set ? words : NULL;
    balloon.deflating = has_set ? waiting : NULL;
    balloon.ballooned_words = WORDS;
}

int main(void)
{
    begin();
    while (maybe())
        any_call();
    return 0;
}

/* A size of the machine's pages: a power of two from 4096 to 1 GiB, or 0, which says 4096. */
static uint64_t any_page_size(void)
{
    uint64_t doublings = ANY_UP_TO(18);
    //@ split doublings;
    return doublings == 0 && maybe() ? 0 : BALLOON_PAGE << doublings;
}

/* Each part that a notice may discard, over the machine's pages of each size; and what a monitor
 * discards by itself. Each region, each size and each number of pages is looked at by itself. */
void discards(void)
{
    struct balloon_result result;
    begin();
    Frama_C_make_unknown((char *)&result, sizeof result);
    Frama_C_make_unknown((char *)&balloon.notice, sizeof balloon.notice);
    Frama_C_make_unknown((char *)&balloon.room, sizeof balloon.room);
    cut_region = ANY_UP_TO(REGIONS - 1);
    cut_pages = Frama_C_unsigned_long_long_interval(1, PAGES);
    //@ split cut_region;
    //@ split cut_pages;
    VbCut part = any_cut(cut_region, BALLOON_PAGE, cut_pages);
    if (maybe()) {
        balloon.notice.cuts = 2;
        balloon.room.cuts[0] = balloon.room.cuts[1] = part;
        uint32_t together = balloon_discard_together(&balloon, &result);
        //@ assert no_more: together <= 2;
    } else if (maybe()) {
        cut_size = BALLOON_PAGE;
        balloon_discard_bytes(&regions[cut_region], part.offset, part.length);
    } else {
        uint64_t size = any_page_size();
        regions[cut_region].page_size = size;
        cut_size = size ? size : BALLOON_PAGE;
        balloon.notice.cuts = 1;
        balloon.room.cuts[0] = part;
        balloon_discard(&balloon, &balloon.room.cuts[0], &result);
    }
}

/* Each copy that a notice may ask for: it lies within a region, and has room after what was copied
 * (vb_monitor, Fits). Each length is looked at by itself, so that the analysis sees that a place
 * and its length belong together. */
void copies(void)
{
    struct balloon_result result = {0};
    VbNotice *notice = &balloon.notice;
    begin();
    notice->what = VB_COPY;
    notice->length = ANY_UP_TO(VB_MAX_BYTES);
    //@ split notice->length;
    notice->at = any_spot(notice->length);
    notice->into = ANY_UP_TO(VB_MAX_BYTES - notice->length);
    balloon_perform(&balloon, notice->what, &result);
}

/* Copying keeps to its contract above: each length by itself, between bytes that end with what is
 * copied. */
void lengths(void)
{
    static uint8_t from[VB_MAX_BYTES], to[VB_MAX_BYTES];
    size_t length = ANY_UP_TO(VB_MAX_BYTES);
    //@ split length;
    balloon_read_once(to + VB_MAX_BYTES - length, from + VB_MAX_BYTES - length, length);
}
