/* What the parts of the plain implementation of vb.h have in common. Nothing is proved of it: it
 * explains answers in tests, and replaces the library where that isn't built yet. `build` makes one
 * object of it. */
#ifndef REFERENCE_H
#define REFERENCE_H

#include "ring_layout.h"
#include "vb.h"
#include <stdbool.h>
#include <string.h>

enum {
    ACKNOWLEDGE = 1,
    DRIVER = 2,
    DRIVER_OK = 4,
    FEATURES_OK = 8,
    NEEDS_RESET = 64,
    FAILED = 128
};
enum {
    MUST_TELL_HOST = 1,
    STATS_VQ = 2,
    REPORTING = 32,
    PAGE = 4096,
    REPORT_PIECES = 32,
    STATISTICS_BYTES = 1020,
    ID_BYTES = 4
};
enum { NEXT = 1, WRITE = 2, INDIRECT_TABLE = 4, NO_INTERRUPT = 1, FIGURE_BYTES = 10 };
/* clang-format off */
/* tools/list-codes: rules, from here */
enum { BAD_HEAD = 1, BAD_NEXT = 2, TOO_LONG = 3, INDIRECT = 4, WRONG_DIRECTION = 5, OUT_OF_RAM = 6,
       INDEX_JUMP = 7, BAD_LENGTH = 8, BAD_PAGE = 9, RESERVED_PAGE = 10 };
/* tools/list-codes: rules, to here */
/* clang-format on */
static const uint64_t VERSION_1 = 1ull << 32;
static const uint64_t KNOWN = 1ull << 32 | 0x3f;
static const uint64_t MOST_MEMORY = 1ull << 44;

/* device.c: settings and numbers */
uint64_t little(const uint8_t *bytes, int count);
uint64_t page_count(const VbDevice *device);
bool are_impossible(const VbSettings *settings);
uint64_t longest_request(const VbDevice *device);

/* queues.c: where queues are, and what calls are refused for */
VbQueue *queue_of(VbDevice *device, uint32_t kind);
bool lacks_feature(const VbDevice *device, uint32_t kind);
uint32_t refusal_at(const VbDevice *device, uint8_t bit, uint32_t kind, const VbQueue *queue);
uint32_t refusal(const VbDevice *device, uint32_t kind, const VbQueue *queue);

/* held.c: the chains that a balloon holds */
bool holds_chains(const VbDevice *device, uint32_t kind);
uint32_t *held_of(VbHeld *held, uint32_t kind);
bool is_held(const VbBalloon *balloon, uint32_t kind);

/* hints.c: rounds of free page hints */
void hear_id(VbDevice *device, uint32_t id);
bool is_round(const VbDevice *device);

/* chains.c: descriptors, and the rules of chains */
typedef struct {
    uint64_t address;
    uint32_t length;
    uint16_t flags, next;
} Descriptor;
Descriptor descriptor_at(const uint8_t *table, uint32_t number);
uint32_t longest(uint16_t size);
uint32_t broken_rule(const VbDevice *device, uint16_t size, const Descriptor *it, uint32_t before,
                     bool writing);
bool any_of_direction(const VbPiece *pieces, uint32_t count, uint8_t writable);
uint32_t buffer_rule(const VbDevice *device, uint32_t kind, const VbPiece *pieces, uint32_t count,
                     uint64_t total);

/* requests.c: what numbers of a request or a report name, their pages as runs, or why it is
 * refused; what is written for a used chain, and where */
typedef struct {
    uint32_t code, rule, runs, pages, skipped;
} Named;
typedef struct {
    uint32_t code;
    uint64_t element_at, index_at;
    uint16_t index;
} Used;
Named name(VbDevice *device, uint32_t kind, const uint8_t *bytes, size_t length, VbRun *runs);
uint32_t report_rule(const VbDevice *device, const VbPiece *pieces, uint32_t count);
uint32_t tell_figures(VbDevice *device, const uint8_t *bytes, size_t length, VbStatistic *figures,
                      uint32_t *count);
Used use(VbDevice *device, uint32_t kind, VbQueue *queue, uint32_t head);

/* sums of any number of pages */
typedef unsigned __int128 Sum;

static inline Sum less(Sum one, Sum other)
{
    return one < other ? one : other;
}

static inline Sum more(Sum one, Sum other)
{
    return one > other ? one : other;
}

static inline Sum beyond(Sum one, Sum other)
{
    return one > other ? one - other : 0;
}

/* regions.c: regions of guest memory */
enum { REGION_PAGE = 4096 };
bool is_region(const VbRegion *region);
bool find_within(const VbRegion *regions, size_t count, uint64_t address, uint64_t length,
                 VbSpot *spot);

/* notices.c and serving.c: what a notice waits for, in its field `phase`, and all that a call works
 * on */
enum phase {
    NO_PHASE,
    AT_INDEX,
    AT_ENTRY,
    AT_WORD,
    AT_DESCRIPTOR,
    AT_PART,
    AT_TOLD,
    AT_FIGURES,
    AT_CUT,
    AT_GIVEN,
    AT_FLAGS,
    AT_FLAG_WORD,
    AT_ID,
    AT_PAUSE
};
typedef struct {
    VbNotice *notice;
    VbBalloon *balloon;
    VbQueue *queue;
    const VbRegion *regions;
    size_t count;
    VbRoom *room;
} Call;

/* As much at once as the order of the bits allows, as the library has it; one thing at a time where
 * that explains what it says. */
#ifdef ONE_AT_A_TIME
enum { GROUPS = false, MOST_AT_ONCE = 1 };
#else
enum { GROUPS = true, MOST_AT_ONCE = VB_MAX_CUTS };
#endif

bool find_spot(const Call *call, uint64_t address, uint64_t length, VbSpot *spot);
uint32_t wait_for(const Call *call, enum phase phase, uint32_t what);
uint32_t stop(const Call *call, uint32_t code);
uint32_t end(const Call *call, uint32_t code);
uint32_t fail(const Call *call, uint32_t rule);
uint32_t look(const Call *call);
uint32_t next_chain(const Call *call);
uint32_t after_index(const Call *call, uint16_t index);
uint32_t after_entry(const Call *call, uint16_t head);
uint32_t next_portion(const Call *call);
uint32_t after_part(const Call *call);
uint32_t after_row(const Call *call);
uint32_t serve_bytes(const Call *call);
uint32_t tell_pages(const Call *call, const Named *named);
uint32_t give_back(const Call *call);
uint32_t after_told(const Call *call);
uint32_t ask_cut(const Call *call);
uint32_t after_portion(const Call *call);
uint32_t after_pause(const Call *call);
uint32_t after_given(const Call *call);
uint32_t after_flags(const Call *call, uint16_t flags);

#endif
