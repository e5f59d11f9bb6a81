/* Replays the rings of real Linux drivers (vectors/rings-*.txt, as their devices found them)
 * through balloon.h: each chain asks for what the driver meant, and the used ring gets what Linux
 * saw next.
 *
 *     vectors FILE..
 */
#include "guest.h"
#include <inttypes.h>

enum { MOST_RECORDS = 16, MOST_PIECES = 32 };
static const uint64_t MEMORY = 320ull * MIB;
static const char *const KIND_NAMES[] = {"inflate", "deflate", "stats", "report"};

struct part {
    uint64_t address;
    uint32_t length;
    uint8_t bytes[4096];
};

/* A chain that was next, with the ring round it. */
struct record {
    uint32_t number, kind, index, taken, head, count;
    struct {
        uint64_t address;
        uint32_t length, flags;
    } piece[MOST_PIECES];
    struct part table, avail, used;
    uint32_t pages[6]; /* the lowest, the highest, the first four */
};

static struct record records[MOST_RECORDS];
static uint32_t record_count;

static struct guest guest;
static VbRun seen[VB_MAX_RUNS];
static uint32_t seen_kind, seen_runs, figure_count;
static int8_t meant[320 * MIB / 4096];

/* ---- the files */

static void read_pieces(struct record *record, const char *line)
{
    for (const char *it = strchr(line, '['); it; it = strchr(it + 1, '[')) {
        EXPECT(record->count < MOST_PIECES);
        EXPECT(sscanf(it, "[0x%" SCNx64 "+%" SCNu32 " flags %" SCNu32,
                      &record->piece[record->count].address, &record->piece[record->count].length,
                      &record->piece[record->count].flags) == 3);
        record->count++;
    }
}

static void read_record(const char *line)
{
    char name[16];
    uint32_t count;
    EXPECT(record_count < MOST_RECORDS);
    struct record *record = &records[record_count++];
    memset(record, 0, sizeof *record);
    EXPECT(sscanf(line,
                  "%*f queue %" SCNu32 " %15[a-z]: avail flags %*u index %" SCNu32 " taken %" SCNu32
                  " head %" SCNu32 " descriptors %" SCNu32,
                  &record->number, name, &record->index, &record->taken, &record->head,
                  &count) == 6);
    while (strcmp(KIND_NAMES[record->kind], name) != 0)
        EXPECT(++record->kind < VB_NO_KIND);
    read_pieces(record, line);
    EXPECT(record->count == count);
}

static void read_row(struct part *part, const char *line)
{
    unsigned offset, byte;
    int from;
    EXPECT(sscanf(line, " %4x %n", &offset, &from) == 1);
    for (const char *it = line + from; sscanf(it, "%2x", &byte) == 1; it += 2) {
        EXPECT(offset < part->length);
        part->bytes[offset++] = (uint8_t)byte;
    }
}

/* Reads the records of a file that have raw bytes; what comes after "at the end" has no chain. */
static void read_file(const char *name)
{
    static char line[4096];
    FILE *file = fopen(name, "r");
    struct part *part = NULL;
    char word[8];
    EXPECT(file != NULL);
    for (record_count = 0;
         fgets(line, sizeof line, file) && strncmp(line, "at the end", 10) != 0;) {
        struct record *record = record_count ? &records[record_count - 1] : NULL;
        if (strstr(line, " queue "))
            read_record(line);
        else if (record && sscanf(line, "  %7[a-z] at 0x", word) == 1 && strstr(line, " at 0x")) {
            part = word[0] == 't'   ? &record->table
                   : word[0] == 'a' ? &record->avail
                                    : &record->used;
            EXPECT(sscanf(line, "  %*s at 0x%" SCNx64 ", %" SCNu32, &part->address,
                          &part->length) == 2);
            EXPECT(part->length <= sizeof part->bytes);
        } else if (record && strncmp(line, "  pfns", 6) == 0)
            EXPECT(sscanf(line,
                          "  pfns %*u lowest %" SCNu32 " highest %" SCNu32
                          " consecutive %*u first %" SCNu32 " %" SCNu32 " %" SCNu32 " %" SCNu32,
                          &record->pages[0], &record->pages[1], &record->pages[2],
                          &record->pages[3], &record->pages[4], &record->pages[5]) == 6);
        else if (record && part && strncmp(line, "   ", 3) == 0)
            read_row(part, line);
    }
    fclose(file);
}

/* ---- the replay */

static void see_pages(void *context, uint32_t kind, const VbRun *runs, uint32_t count)
{
    (void)context;
    seen_kind = kind;
    seen_runs = count;
    memcpy(seen, runs, count * sizeof *runs);
}

static void hear(void *context, const VbStatistic *figures, uint32_t count)
{
    (void)context;
    for (uint32_t i = 0; i < count; i++)
        EXPECT(figures[i].tag == i && figures[i].value == 1000 + i);
    figure_count = count;
}

static void write_part(const struct part *part)
{
    memcpy(at(&guest, part->address), part->bytes, part->length);
}

/* Number i of a request: the vectors have the first four, the lowest and the highest; the others
 * lie between. */
static uint32_t number_of(const struct record *record, uint32_t i)
{
    return i < 4 ? record->pages[2 + i] : i < 6 ? record->pages[i - 4] : record->pages[0] + i * 3;
}

/* Puts a record's ring into memory, and bytes where its buffer is: the vectors don't have these
 * all. */
static void write_record(const struct record *record)
{
    uint64_t buffer = record->piece[0].address;
    write_part(&record->table);
    write_part(&record->avail);
    write_part(&record->used);
    for (uint32_t i = 0; record->kind == VB_STATISTICS && i < record->piece[0].length / 10; i++) {
        put(&guest, buffer + 10 * i, i, 2);
        put(&guest, buffer + 10 * i + 2, 1000 + i, 8);
    }
    for (uint32_t i = 0; record->kind <= VB_DEFLATE && i < record->piece[0].length / 4; i++)
        put(&guest, buffer + 4 * i, number_of(record, i), 4);
}

/* Adds to how often pages are meant. */
static void mean(uint64_t first, uint64_t count, int times)
{
    for (uint64_t page = first; page < first + count; page++) {
        EXPECT(page < MEMORY / 4096);
        meant[page] = (int8_t)(meant[page] + times);
    }
}

/* Whether the runs are the pages that the driver meant, each as often as it named it. */
static void expect_pages(const struct record *record)
{
    EXPECT(seen_kind == record->kind);
    for (uint32_t i = 0; i < seen_runs; i++)
        mean(seen[i].first, seen[i].count, -1);
    if (record->kind == VB_REPORT) {
        for (uint32_t i = 0; i < record->count; i++)
            mean(record->piece[i].address / 4096, record->piece[i].length / 4096, 1);
    } else {
        uint32_t least =
            record->kind == VB_INFLATE ? record->pages[5] : record->pages[2]; /* downward, upward */
        EXPECT(record->count == 1 && seen[0].first == least && seen[0].count >= 4);
        for (uint32_t i = 0; i < record->piece[0].length / 4; i++)
            mean(number_of(record, i), 1, 1);
    }
    for (uint64_t page = 0; page < MEMORY / 4096; page++)
        EXPECT(meant[page] == 0);
}

/* The ring of the queue's next record shows what Linux found in the used ring. */
static void expect_used(const struct record *record)
{
    for (const struct record *next = record + 1; next < records + record_count; next++)
        if (next->number == record->number) {
            EXPECT(memcmp(at(&guest, next->used.address), next->used.bytes, next->used.length) ==
                   0);
            return;
        }
    EXPECT(get(&guest, record->used.address + 2, 2) == (uint16_t)(record->taken + 1));
}

static void replay(const struct record *record, bool first)
{
    struct balloon_result result;
    write_record(record);
    if (first) /* Linux has filled its statistics buffer before DRIVER_OK */
        EXPECT(balloon_write_status(&guest.balloon, 15, &result) == 0);
    else
        result = balloon_notify_number(&guest.balloon, record->number);
    EXPECT(result.code == VB_OK && result.chains == 1 && result.skipped == 0 &&
           result.in_holes == 0);
    EXPECT(ring_of_kind(&guest.balloon, record->kind)->next_avail == record->index);
    if (record->kind == VB_STATISTICS) {
        EXPECT(figure_count == record->piece[0].length / 10);
        EXPECT(balloon_ask_statistics(&guest.balloon).code == VB_OK);
    } else
        expect_pages(record);
    expect_used(record);
}

/* A balloon whose queues lie where the driver put them. */
static void start_at_records(uint64_t begin)
{
    struct balloon_result result;
    static struct balloon_region region;
    int fd = memfd_create("guest", 0);
    EXPECT(fd >= 0 && ftruncate(fd, (off_t)MEMORY) == 0);
    uint8_t *host =
        mmap(NULL, MEMORY - begin, PROT_READ | PROT_WRITE, MAP_SHARED, fd, (off_t)begin);
    EXPECT(host != MAP_FAILED);
    region = (struct balloon_region){begin, MEMORY - begin, host, fd, begin, 0};
    VbSettings settings = {.offered = LINUX_FEATURES};
    EXPECT(balloon_init(&guest.balloon, &region, 1, settings) == VB_OK);
    guest.balloon.on_pages = see_pages;
    guest.balloon.on_statistics = hear;
    EXPECT(balloon_write_status(&guest.balloon, 1, &result) == 0);
    EXPECT(balloon_write_status(&guest.balloon, 3, &result) == 0);
    EXPECT(balloon_negotiate(&guest.balloon, LINUX_FEATURES) == 0);
    EXPECT(balloon_write_status(&guest.balloon, 11, &result) == 0);
    for (uint32_t i = 0; i < record_count; i++) {
        const struct record *it = &records[i];
        EXPECT(vb_kind(&guest.balloon.state.device, it->number) == it->kind);
        EXPECT(balloon_place(&guest.balloon, it->kind, it->table.address, it->avail.address,
                             it->used.address, (uint16_t)(it->table.length / 16)) == VB_OK);
    }
}

int main(int count, char **names)
{
    EXPECT(count > 1);
    for (int i = 1; i < count; i++) {
        read_file(names[i]);
        EXPECT(record_count == 8);
        start_at_records(strstr(names[i], "uml") ? 0xaa8000 : 0);
        for (uint32_t k = 0; k < record_count; k++)
            replay(&records[k], k == 0);
        printf("ok  %s: %u chains\n", names[i], record_count);
        close(guest.balloon.regions[0].fd);
    }
    return 0;
}
