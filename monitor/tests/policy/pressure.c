/* When a guest is pressed, by pencil: times in milliseconds; and random samples beside the plain
 * implementation. */
#include "policy.h"
#include <stdio.h>
#include <stdlib.h>
#include <string.h>

#define KNOWN(count)                                                                               \
    {                                                                                              \
        count, 1                                                                                   \
    }

/* A guest of Linux 6.12 with 100 pages in its balloon. */
#define CALM                                                                                       \
    {                                                                                              \
        KNOWN(10), KNOWN(20), KNOWN(30), KNOWN(40), KNOWN(50), KNOWN(60), 100, 100                 \
    }

static const struct row {
    const char *what;
    VbPressure before;
    VbSample sample;
    uint64_t now, until;
} rows[] = {
    {"the first sample presses nobody, whatever it counts",
     {.until = 0},
     {KNOWN(9), KNOWN(9), KNOWN(9), KNOWN(9), KNOWN(9), KNOWN(9), 0, 0},
     1000,
     1000},
    {"nor does one in which nothing has risen", {CALM, 0}, CALM, 1000, 1000},
    {"swap in",
     {CALM, 0},
     {KNOWN(11), KNOWN(20), KNOWN(30), KNOWN(40), KNOWN(50), KNOWN(60), 100, 100},
     1000,
     6000},
    {"swap out",
     {CALM, 0},
     {KNOWN(10), KNOWN(21), KNOWN(30), KNOWN(40), KNOWN(50), KNOWN(60), 100, 100},
     1000,
     6000},
    {"a killed process, for two minutes",
     {CALM, 0},
     {KNOWN(10), KNOWN(20), KNOWN(31), KNOWN(40), KNOWN(50), KNOWN(60), 100, 100},
     1000,
     121000},
    {"a stall",
     {CALM, 0},
     {KNOWN(10), KNOWN(20), KNOWN(30), KNOWN(41), KNOWN(50), KNOWN(60), 100, 100},
     1000,
     6000},
    {"direct scan",
     {CALM, 0},
     {KNOWN(10), KNOWN(20), KNOWN(30), KNOWN(40), KNOWN(51), KNOWN(60), 100, 100},
     1000,
     6000},
    {"direct reclaim",
     {CALM, 0},
     {KNOWN(10), KNOWN(20), KNOWN(30), KNOWN(40), KNOWN(50), KNOWN(61), 100, 100},
     1000,
     6000},
    {"a counter that falls, as all do at a boot",
     {CALM, 0},
     {KNOWN(0), KNOWN(0), KNOWN(0), KNOWN(0), KNOWN(0), KNOWN(0), 100, 100},
     1000,
     1000},
    {"and one that wraps around",
     {{.swap_out = KNOWN(UINT64_MAX), .stalls = KNOWN(UINT64_MAX)}, 0},
     {.swap_out = KNOWN(0), .stalls = KNOWN(3)},
     1000,
     1000},
    {"up to the last number it rises",
     {{.stalls = KNOWN(UINT64_MAX - 1)}, 0},
     {.stalls = {UINT64_MAX, UINT64_MAX}},
     1000,
     6000},
    {"a counter that isn't reported any longer",
     {CALM, 0},
     {{99, 0}, {99, 0}, {99, 0}, {99, 0}, {99, 0}, {99, 0}, 100, 100},
     1000,
     1000},
    {"one that was reported with no sample before",
     {{.swap_out = {5, 0}}, 0},
     {.swap_out = KNOWN(9)},
     1000,
     1000},
    {"Linux 6.1 reports swap alone",
     {{.swap_in = KNOWN(4096), .swap_out = KNOWN(8192)}, 0},
     {.swap_in = KNOWN(4096), .swap_out = KNOWN(12288)},
     1000,
     6000},
    {"what stalls while the balloon grows",
     {CALM, 0},
     {KNOWN(11), KNOWN(21), KNOWN(30), KNOWN(41), KNOWN(51), KNOWN(61), 101, 101},
     1000,
     1000},
    {"what stalls while it has less than its target",
     {CALM, 0},
     {KNOWN(11), KNOWN(21), KNOWN(30), KNOWN(41), KNOWN(51), KNOWN(61), 100, 101},
     1000,
     1000},
    {"what stalled while it had less than its last target",
     {{.stalls = KNOWN(1), .ballooned = 99, .target = 100}, 0},
     {.stalls = KNOWN(2), .ballooned = 99, .target = 99},
     1000,
     1000},
    {"what stalls while it falls, to its target",
     {CALM, 0},
     {KNOWN(10), KNOWN(20), KNOWN(30), KNOWN(41), KNOWN(50), KNOWN(60), 90, 80},
     1000,
     6000},
    {"a process that is killed while it grows: no balloon kills",
     {CALM, 0},
     {KNOWN(10), KNOWN(20), KNOWN(31), KNOWN(41), KNOWN(50), KNOWN(60), 101, 102},
     1000,
     121000},
    {"a quiet sample ends nothing", {CALM, 6000}, CALM, 5000, 6000},
    {"another stall, from then on",
     {CALM, 6000},
     {KNOWN(10), KNOWN(20), KNOWN(30), KNOWN(41), KNOWN(50), KNOWN(60), 100, 100},
     5000,
     10000},
    {"nor does a stall end what a kill began",
     {CALM, 121000},
     {KNOWN(10), KNOWN(20), KNOWN(30), KNOWN(41), KNOWN(50), KNOWN(60), 100, 100},
     5000,
     121000},
    {"never longer than a kill presses, where a clock was set back",
     {CALM, UINT64_MAX},
     CALM,
     1000,
     121000},
    {"time that stands still",
     {CALM, 6000},
     {KNOWN(10), KNOWN(20), KNOWN(30), KNOWN(41), KNOWN(50), KNOWN(60), 100, 100},
     1000,
     6000},
    {"time's end",
     {CALM, 0},
     {KNOWN(10), KNOWN(20), KNOWN(31), KNOWN(41), KNOWN(50), KNOWN(60), 100, 100},
     UINT64_MAX - 2,
     UINT64_MAX},
};

static bool is_counter(VbCounter is, VbCounter wanted)
{
    return is.value == wanted.value && is.present == wanted.present;
}

/* What is remembered of a counter: as it was reported last. */
static bool remembers(VbCounter is, VbCounter before, VbCounter sample)
{
    return is_counter(is, sample.present ? sample : before);
}

static bool remembers_all(const VbSample *is, const VbSample *before, const VbSample *sample)
{
    return remembers(is->swap_in, before->swap_in, sample->swap_in) &&
           remembers(is->swap_out, before->swap_out, sample->swap_out) &&
           remembers(is->oom_kills, before->oom_kills, sample->oom_kills) &&
           remembers(is->stalls, before->stalls, sample->stalls) &&
           remembers(is->direct_scan, before->direct_scan, sample->direct_scan) &&
           remembers(is->direct_reclaim, before->direct_reclaim, sample->direct_reclaim) &&
           is->ballooned == sample->ballooned && is->target == sample->target;
}

static void fail(const char *what, unsigned long long is, unsigned long long wanted)
{
    fprintf(stderr, "policy: pressure: %s: %llu, not %llu\n", what, is, wanted);
    exit(1);
}

/* Pressed before that time, and not from then on. */
static void check_times(const char *what, const VbPressure *is)
{
    if (is->until > 0 && vb_policy_pressed(is, is->until - 1) != 1)
        fail(what, 0, 1);
    if (vb_policy_pressed(is, is->until) != 0 || vb_policy_pressed(is, UINT64_MAX) != 0)
        fail(what, 1, 0);
}

void check_pressure(void)
{
    for (const struct row *row = rows; row < rows + sizeof rows / sizeof *rows; row++) {
        VbPressure is = vb_policy_press(&row->before, &row->sample, row->now);
        if (is.until != row->until)
            fail(row->what, is.until, row->until);
        if (!remembers_all(&is.last, &row->before.last, &row->sample))
            fail(row->what, 0, 1);
        check_times(row->what, &is);
    }
}

/* ---- random samples */

static VbCounter any_counter(void)
{
    static const uint64_t values[] = {0, 1, 2, 3, UINT64_MAX - 1, UINT64_MAX};
    static const uint64_t present[] = {0, 1, 1, 1, UINT64_MAX};
    return (VbCounter){values[policy_chance(6)], present[policy_chance(5)]};
}

static VbSample any_sample(void)
{
    static const uint32_t pages[] = {0, 1, 1, 1, 2, UINT32_MAX};
    VbSample it = {.swap_in = any_counter(), .swap_out = any_counter()};
    it.oom_kills = policy_chance(3) ? (VbCounter){1, 1} : any_counter();
    it.stalls = any_counter();
    it.direct_scan = any_counter();
    it.direct_reclaim = any_counter();
    it.ballooned = pages[policy_chance(6)];
    it.target = policy_chance(2) ? it.ballooned : pages[policy_chance(6)];
    return it;
}

static uint64_t any_time(void)
{
    static const uint64_t starts[] = {0, 1000, UINT64_MAX - VB_KILLED_MS, UINT64_MAX - 3000};
    return starts[policy_chance(4)] + policy_chance(3000);
}

void check_pressed_chance(unsigned long long samples)
{
    VbPressure is = {.until = 0};
    unsigned long long lasting[3] = {0};
    for (unsigned long long i = 0; i < samples; i++) {
        VbSample sample = any_sample();
        uint64_t now = any_time();
        is.until = policy_chance(2) ? 0 : any_time();
        VbPressure other = reference_policy_press(&is, &sample, now);
        is = vb_policy_press(&is, &sample, now);
        if (memcmp(&is, &other, sizeof is) != 0)
            fail("the plain implementation has another time", is.until, other.until);
        lasting[(is.until > now) + (is.until > now + VB_PRESSED_MS)]++;
        for (uint64_t time = is.until - 2; time != is.until + 2; time++)
            if (vb_policy_pressed(&is, time) != reference_policy_pressed(&is, time))
                fail("the plain implementation differs at", time, is.until);
    }
    printf("policy: %llu random samples: %llu press nobody, %llu by stalls, %llu by kills\n",
           samples, lasting[0], lasting[1], lasting[2]);
    for (unsigned i = 0; i < 3; i++)
        if (lasting[i] < samples / 20)
            fail("a kind is too rare", lasting[i], samples / 20);
}
