/* What the parts of test.c share: each runs its tests and says so. */
#ifndef TEST_H
#define TEST_H
#include "../guest.h"

#define RUN(test) (test, puts("ok  " #test))

static const VbSettings REFUSES = {.offered = 1ull << 32 | 0x27};
static const VbSettings SKIPS = {.offered = 1ull << 32 | 0x27, .skips_bad_pages = 1};

static inline bool resident(const struct guest *guest, uint32_t page)
{
    unsigned char state = 0;
    EXPECT(mincore(at(guest, page * 4096ull), 4096, &state) == 0);
    return state & 1;
}

/* What a monitor was told last of pages, and how often it was. */
struct seen {
    uint32_t kind, runs, calls;
    VbRun run[VB_MAX_RUNS];
};

void see_pages(void *context, uint32_t kind, const VbRun *runs, uint32_t count);

/* A discard that fails where it begins with page 700, and else does nothing. */
int fail_at_700(void *context, const struct balloon_region *region, uint64_t from, uint64_t length);

/* How often the machine was asked to discard a part that lies in no file. */
extern uint32_t advices;

void test_steps(void);
void test_settings(void);
void test_queues(void);
void test_sizes(void);
void test_requests(void);
void test_portions(void);
void test_pauses(void);
void test_notices(void);
void test_discards(void);
void test_together(void);
void test_regions(void);
void test_set(void);
void test_statistics(void);
void test_holds(void);
void test_reports(void);
void test_hints(void);
void test_large_pages(void);
void test_holes(void);
void test_moves(void);
void test_amid(void);
void test_hooks(void);
#endif
