/* Bigvasta: which guest of a host is asked for how much: memory that guests use for nothing before
 * page cache, page cache before their reserves, and within each in equal parts by weight. A part of
 * the library of vb.h. The library keeps nothing, and any numbers may be passed: of what a guest
 * says no more counts than its pages. All numbers count pages unless it is said.
 */
#ifndef VB_POLICY_H
#define VB_POLICY_H
#include "vb.h"

#ifdef __cplusplus
extern "C" {
#endif

/* Whether a guest's word on its memory is at hand. Any other number is VB_CONTACT_STARTS. */
enum {
    VB_CONTACT_STARTS = 0, /* its driver isn't ready: it counts for all its pages, and gives none */
    VB_CONTACT_SILENT = 1, /* its statistics are too old: it counts for what it holds and has given,
                              and gives what it has given */
    VB_CONTACT_HEARD = 2,  /* its statistics are recent */
    /* it has gone, and its memory isn't freed yet: it counts for what it holds */
    VB_CONTACT_AWAY = 3,
};

/* What a host knows of a guest. */
typedef struct {
    uint32_t pages;          /* its memory */
    uint32_t held;           /* the frames that it holds, by the host's own count */
    uint32_t ballooned;      /* in its balloon now */
    uint32_t ballooned_then; /* in its balloon when its last statistics were made */
    uint32_t available; /* by these statistics; of a guest that doesn't tell that, what is free */
    uint32_t free; /* by these: used for nothing, nor for page cache; UINT32_MAX where they don't
                      say it */
    uint32_t lent, asked; /* of a strict guest: the frames that it was lent, and waits for */
    uint32_t least;       /* how many pages always stay to it, as far as it has them */
    uint32_t most;     /* what it has above these is asked of it, whatever the host lacks, as far as
                          it can give it and doesn't wait */
    uint32_t weight;   /* its part of what needn't be given; 0 counts as 1 */
    uint32_t priority; /* within each tier those of a lower one give first */
    uint32_t target;   /* its target so far */
    uint16_t contact;  /* VB_CONTACT_STARTS .. */
    /* Unless 0: it uses no frames but those that it is lent; its balloon doesn't count. Either
     * counts for all its pages. */
    uint16_t strict, uncounted;
    uint16_t paused; /* unless 0: it isn't asked for more than it has given, since it has just taken
                         pages by itself */
    /* Unless 0: its own work waits for memory (vb_policy_pressed). It isn't asked for more of its
     * unused memory and page cache than it has given, and gets its part at once. */
    uint16_t pressed;
    uint16_t first; /* unless 0: it waits first of all */
} VbFigures;

/* What a host has for its guests together, and what each of them is to keep. */
typedef struct {
    uint32_t frames;  /* for all guests */
    uint32_t floor;   /* to stay available in each guest */
    uint32_t slack;   /* too few to change a target for */
    uint32_t reserve; /* of each guest's page cache, as long as others have any: percent of its
                         pages; at most 100 count */
    uint32_t band;    /* percent: who has less than this of its part gets its part; at most 100
                         count */
} VbPolicyBudget;

/* Up to which tier guests give. */
enum {
    VB_TIER_NONE = 0,    /* nothing is missing */
    VB_TIER_UNUSED = 1,  /* memory that they use for nothing */
    VB_TIER_CACHE = 2,   /* page cache beside their reserves */
    VB_TIER_RESERVE = 3, /* their reserves: all above the floor */
    VB_TIER_SHORT = 4,   /* all that they can give isn't enough */
};

/* What a guest counts for, and how many pages it can give up to and with each tier; and with the
 * floor less the slack. */
typedef struct {
    uint32_t pages, unused, cached, spare, most;
} VbTiers;

/* Room for a guest in a decision. Nothing is kept there. */
typedef struct {
    uint32_t numbers[7];
    uint8_t flag;
} VbPolicyRoom;

typedef struct {
    uint32_t code, tier;
    uint64_t missing; /* the pages that stay missing; 0 unless VB_TIER_SHORT */
} VbDecision;

/* A counter of a guest's statistics, since the guest has booted. Any number may come. */
typedef struct {
    uint64_t value;
    uint64_t present; /* unless 0: the guest has reported it */
} VbCounter;

/* What a guest's statistics tell of its work's waits for memory, by the tags of Linux, and its
 * balloon at that time. A tag that isn't reported is a counter of zeros. */
typedef struct {
    VbCounter swap_in, swap_out; /* 0, 1: memory that was swapped */
    VbCounter oom_kills;         /* 10: processes that were killed for lack of memory */
    VbCounter stalls;            /* 11: allocations that waited until memory was reclaimed */
    VbCounter direct_scan;       /* 13: memory that these scanned */
    VbCounter direct_reclaim;    /* 15: memory that these reclaimed */
    /* pages in its balloon, and its target, or a greater one toward which it inflated since the
     * sample before */
    uint32_t ballooned, target;
} VbSample;

/* What a host remembers of a guest to tell whether it is pressed: zeros at first. */
typedef struct {
    VbSample last; /* the last sample, with counters that it lacked as they were before */
    uint64_t until;
} VbPressure;

/* Milliseconds for which a guest is pressed from a sample on: one that shows that it stalled; one
 * that shows that it killed a process. */
enum { VB_PRESSED_MS = 5000, VB_KILLED_MS = 120000 };

/* A machine whose guests' budget follows what its other work leaves. All are pages. */
typedef struct {
    uint32_t budget;      /* so far */
    uint32_t most, least; /* of the budget; where the most is below the least, the most counts */
    uint32_t keep;        /* what is to stay available to all else */
    uint32_t held;        /* what the guests hold */
    uint32_t available;   /* what is available (of Linux MemAvailable) */
    uint32_t step;        /* the most by which the budget rises at once */
    uint32_t pressed;     /* unless 0: the machine's own work waits for memory */
} VbMachine;

VB_ASSERT(VB_HAS(Figures, 64) && VB_AT(Figures, held, 4) && VB_AT(Figures, ballooned, 8) &&
          VB_AT(Figures, ballooned_then, 12) && VB_AT(Figures, available, 16) &&
          VB_AT(Figures, free, 20) && VB_AT(Figures, lent, 24) && VB_AT(Figures, asked, 28) &&
          VB_AT(Figures, least, 32) && VB_AT(Figures, most, 36) && VB_AT(Figures, weight, 40) &&
          VB_AT(Figures, priority, 44) && VB_AT(Figures, target, 48) &&
          VB_AT(Figures, contact, 52) && VB_AT(Figures, strict, 54) &&
          VB_AT(Figures, uncounted, 56) && VB_AT(Figures, paused, 58) &&
          VB_AT(Figures, pressed, 60) && VB_AT(Figures, first, 62));
VB_ASSERT(VB_HAS(PolicyBudget, 20) && VB_AT(PolicyBudget, floor, 4) &&
          VB_AT(PolicyBudget, slack, 8) && VB_AT(PolicyBudget, reserve, 12) &&
          VB_AT(PolicyBudget, band, 16));
VB_ASSERT(VB_HAS(Tiers, 20) && VB_AT(Tiers, unused, 4) && VB_AT(Tiers, cached, 8) &&
          VB_AT(Tiers, spare, 12) && VB_AT(Tiers, most, 16));
VB_ASSERT(VB_HAS(PolicyRoom, 32));
VB_ASSERT(VB_HAS(Decision, 16) && VB_AT(Decision, tier, 4) && VB_AT(Decision, missing, 8));
VB_ASSERT(VB_HAS(Counter, 16) && VB_AT(Counter, present, 8));
VB_ASSERT(VB_HAS(Sample, 104) && VB_AT(Sample, swap_out, 16) && VB_AT(Sample, oom_kills, 32) &&
          VB_AT(Sample, stalls, 48) && VB_AT(Sample, direct_scan, 64) &&
          VB_AT(Sample, direct_reclaim, 80) && VB_AT(Sample, ballooned, 96) &&
          VB_AT(Sample, target, 100));
VB_ASSERT(VB_HAS(Pressure, 112) && VB_AT(Pressure, until, 104));
VB_ASSERT(VB_HAS(Machine, 32) && VB_AT(Machine, most, 4) && VB_AT(Machine, least, 8) &&
          VB_AT(Machine, keep, 12) && VB_AT(Machine, held, 16) && VB_AT(Machine, available, 20) &&
          VB_AT(Machine, step, 24) && VB_AT(Machine, pressed, 28));

/* What a guest counts for, and what it can give. A guest whose statistics are recent gives what it
 * doesn't use, what was in its balloon then included, but for what stays: of its available memory
 * the floor (spare), and its reserve (cached); of its free memory half of the floor, and at least a
 * 512th of its pages (unused). A strict one that waits gives what stays in its balloon when it has
 * what it waits for, and one whose balloon doesn't count nothing. Its least pages stay to it. */
VbTiers vb_policy_tiers(const VbPolicyBudget *budget, const VbFigures *figures);

/* What a guest that waits takes in the end beyond what is lent to it, as its statistics say: its
 * memory but for what it could give by its own word, which leaves it the floor, and no more than
 * its most pages; at least what it asks for. 0 of one that doesn't wait. */
uint32_t vb_policy_wants(const VbPolicyBudget *budget, const VbFigures *figures);

/* Puts a target for each guest into `targets`, so that what the guests count for without their
 * targets is no more than the frames. The first tier that suffices is given by lower priorities
 * first; of it the guests of the last class keep equal parts by weight. A guest whose target so far
 * is more than it can give with the floor less the slack, or leaves it less than the band of its
 * part by more than the slack, gets its part; others keep their targets, or rise no further than
 * leaves enough. VB_OK and the tier; VB_SHORT, VB_TIER_SHORT and what is missing where all that
 * they can give isn't enough. Then each is asked for that, unless all targets so far are within the
 * slack of it and nobody waits. While one waits on a short host the first that waits is served
 * alone: the others that wait keep what they were lent, and those that don't wait are asked for all
 * but a quarter of the floor. VB_BAD_ARGUMENT where rooms aren't count; then nothing is changed. */
VbDecision vb_policy_decide(const VbPolicyBudget *budget, const VbFigures *figures, size_t count,
                            VbPolicyRoom *rooms, size_t rooms_count, uint32_t *targets,
                            size_t targets_count);

/* What is remembered of a guest with one more sample, taken at `now`, in milliseconds. A counter
 * has risen that is higher than it was reported before; one that falls hasn't. Where the OOM kills
 * have risen it is pressed for VB_KILLED_MS from `now` on. Where another counter has, it is pressed
 * for VB_PRESSED_MS, unless its balloon inflated meanwhile, which reclaims and swaps by itself: the
 * balloon has grown, or had less than its target at this sample or the last one. It is pressed no
 * shorter than by samples before, and no longer than VB_KILLED_MS from `now` on. */
VbPressure vb_policy_press(const VbPressure *pressure, const VbSample *sample, uint64_t now);

/* 1 where it is pressed at `now`, and 0 where it isn't. */
uint32_t vb_policy_pressed(const VbPressure *pressure, uint64_t now);

/* The budget from now on. Guests may hold what they hold and what is available together, less what
 * is to stay so: as they take pages, this number stays. It falls at once where the budget is more,
 * and by a step at least while the machine is pressed; it rises by a step where there is room for
 * all of it, or to the most. It is never above the most, nor below the least, whatever is left. */
uint32_t vb_policy_budget(const VbMachine *machine);

#ifdef __cplusplus
}
#endif
#endif
