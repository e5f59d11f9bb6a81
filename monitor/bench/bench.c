/* What a notice takes through balloon.h and the library, beside a balloon in plain C by hand
 * (bench_plain.c).
 *
 *     bench                          nanoseconds, as a table: without discarding, and with it
 *     bench count SIDE ROW NOTICES   makes n notices of a row, for who counts instructions: SIDE is
 *                                    shim, plain or none
 *
 * measure-notices does both, and compares with goals.
 */
#include "bench.h"
#include <time.h>

enum {
    SIZE = 256,
    ROUNDS = 101,
    NOTICES = 200,
    WARM = 20,
    DISCARDING_ROUNDS = 15,
    DISCARDING_NOTICES = 20
};

static const struct row {
    const char *what;
    uint32_t kind, chains,
        count; /* of each chain: pages that a request names, or pieces of a report */
    bool scattered;
} rows[] = {
    {"1 page", VB_INFLATE, 1, 1, false},
    {"256 pages in a row", VB_INFLATE, 1, 256, false},
    {"256 scattered pages", VB_INFLATE, 1, 256, true},
    {"report of 32 pieces", VB_REPORT, 1, 32, true},
    {"256 chains of a page", VB_INFLATE, 256, 1, true},
};
enum { ROWS = sizeof rows / sizeof rows[0] };

enum side { SHIM, PLAIN, NONE };
static const char *const SIDES[] = {"shim", "plain", "none"};

uint64_t interrupts;
static uint64_t told_first, told_runs;

void bench_told(const VbRun *runs, uint32_t count)
{
    told_first += runs[0].first;
    told_runs += count;
}

/* The page that a row names at this place. */
static uint32_t page_of(const struct row *row, uint32_t place)
{
    return row->scattered ? 300 + place * 1543 % 1700 : 1000 - place;
}

static void write_report(struct guest *guest, const struct row *row)
{
    for (uint16_t i = 0; i < row->count; i++)
        describe(guest, VB_REPORT, i, page_of(row, i) * 4096ull, 4096,
                 WRITE | (i + 1u < row->count ? NEXT : 0), i + 1);
}

static void write_requests(struct guest *guest, const struct row *row)
{
    for (uint32_t chain = 0; chain < row->chains; chain++) {
        uint64_t bytes = buffer_of(row->kind) + 4 * chain;
        for (uint32_t i = 0; i < row->count; i++)
            put(guest, bytes + 4 * i, page_of(row, chain + i), 4);
        describe(guest, row->kind, (uint16_t)chain, bytes, 4 * row->count, 0, 0);
    }
}

/* A guest whose rings have a row's chains at every place, so that the index alone publishes them
 * again. */
static void begin(struct guest *guest, const struct row *row)
{
    const VbSettings settings = {.offered = LINUX_FEATURES, .skips_bad_pages = 1};
    start(guest, BALLOON_PRIVATE, settings, LINUX_FEATURES, SIZE);
    if (row->kind == VB_REPORT)
        write_report(guest, row);
    else
        write_requests(guest, row);
    for (uint32_t i = 0; i < SIZE; i++)
        put(guest, avail_of(row->kind) + 4 + 2 * i, i % row->chains, 2);
}

static void set_discards(struct guest *guest, bool discards)
{
    plain_discards(discards);
    shim_discards(guest, discards);
}

static void notice(struct guest *guest, enum side side, const struct row *row)
{
    uint64_t pages = (uint64_t)row->chains * row->count;
    guest->published[row->kind] = (uint16_t)(guest->published[row->kind] + row->chains);
    *(volatile uint16_t *)(void *)(guest->regions[0].host + avail_of(row->kind) + 2) =
        htole16(guest->published[row->kind]);
    if (side == SHIM)
        EXPECT(shim_notify(guest, row->kind) == pages);
    if (side == PLAIN)
        EXPECT(plain_notify(row->kind, bench_told) == pages);
}

static uint64_t now(void)
{
    struct timespec time;
    clock_gettime(CLOCK_MONOTONIC, &time);
    return (uint64_t)time.tv_sec * 1000000000 + (uint64_t)time.tv_nsec;
}

/* Nanoseconds of a notice, whose pages aren't discarded. */
static double time_notices(struct guest *guest, enum side side, const struct row *row)
{
    set_discards(guest, false);
    for (int i = 0; i < WARM; i++)
        notice(guest, side, row);
    uint64_t from = now();
    for (int i = 0; i < NOTICES; i++)
        notice(guest, side, row);
    return (double)(now() - from) / NOTICES;
}

/* Nanoseconds of a notice whose pages were written to before, and are discarded. */
static double time_discarding(struct guest *guest, enum side side, const struct row *row)
{
    uint64_t took = 0;
    set_discards(guest, true);
    for (int i = 0; i < DISCARDING_NOTICES; i++) {
        for (uint32_t k = 0; k < row->chains * row->count; k++)
            guest->regions[0].host[page_of(row, k) * 4096ull] = 1;
        uint64_t from = now();
        notice(guest, side, row);
        took += now() - from;
    }
    return (double)took / DISCARDING_NOTICES;
}

static int compare(const void *one, const void *other)
{
    double first = *(const double *)one, second = *(const double *)other;
    return (first > second) - (first < second);
}

/* Many short rounds of each side in turn, so that other work of the machine meets both: the least
 * time of each, and the median of the rounds' ratios. */
static void measure(const struct row *row,
                    double time_side(struct guest *, enum side, const struct row *), int rounds,
                    const char *how)
{
    static _Alignas(4096) struct guest guests[2];
    double least[2] = {1e18, 1e18}, ratios[ROUNDS];
    for (int side = SHIM; side <= PLAIN; side++)
        begin(&guests[side], row);
    plain_start(&guests[PLAIN], row->kind);
    for (int i = 0; i < rounds; i++) {
        double times[2];
        for (int side = SHIM; side <= PLAIN; side++) {
            times[side] = time_side(&guests[side], side, row);
            least[side] = times[side] < least[side] ? times[side] : least[side];
        }
        ratios[i] = times[SHIM] / times[PLAIN];
    }
    qsort(ratios, (size_t)rounds, sizeof ratios[0], compare);
    printf("%-22s %-12s %9.0f %9.0f %6.2f\n", row->what, how, least[SHIM], least[PLAIN],
           ratios[rounds / 2]);
    for (int side = SHIM; side <= PLAIN; side++)
        free_memory(&guests[side]);
}

static int count_notices(const char *side, size_t row, uint64_t notices)
{
    static struct guest guest;
    for (int i = SHIM; i <= NONE; i++) {
        if (row >= ROWS || strcmp(side, SIDES[i]))
            continue;
        begin(&guest, &rows[row]);
        plain_start(&guest, rows[row].kind);
        set_discards(&guest, false);
        for (uint64_t k = 0; k < notices; k++)
            notice(&guest, (enum side)i, &rows[row]);
        return 0;
    }
    fprintf(stderr, "bench count shim|plain|none 0..%d NOTICES\n", ROWS - 1);
    return 2;
}

int main(int count, char **words)
{
    if (count == 5 && !strcmp(words[1], "count"))
        return count_notices(words[2], strtoull(words[3], NULL, 10), strtoull(words[4], NULL, 10));
    printf("%-22s %-12s %9s %9s %6s\n", "a notice of", "", "ns", "by hand", "ratio");
    for (size_t i = 0; i < ROWS; i++)
        measure(&rows[i], time_notices, ROUNDS, "");
    for (size_t i = 0; i < ROWS; i++)
        measure(&rows[i], time_discarding, DISCARDING_ROUNDS, "discarding");
    return told_first + told_runs == 0;
}
