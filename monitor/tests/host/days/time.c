/* The time of a day: what is to happen, in order, and the clock that the lender reads. */
#define _GNU_SOURCE
#include "days.h"

#include "../../../backends/base/process.h"

#include <stdio.h>
#include <stdlib.h>
#include <sys/mman.h>
#include <time.h>
#include <unistd.h>

/* When the clock begins, in seconds: no moment is 0. */
enum { BEGIN = 1000 };

/* How long a lender is there, and how long there is none at most. */
enum { SHORTEST_LIFE = SECOND / 2, LONGEST_LIFE = 10 * SECOND, LONGEST_AWAY = 3 * SECOND };

/* Where the memory of a day is in each of its programs, and the number of its file, below those
 * that a lender takes. */
#define DAY_AT ((void *)0x600000000000)
enum { DAY_FILE = 3 };

struct day *day = DAY_AT;
static char **lender_words;

static void map_day(void)
{
    if (mmap(DAY_AT, sizeof *day, PROT_READ | PROT_WRITE, MAP_SHARED | MAP_FIXED_NOREPLACE,
             DAY_FILE, 0) == MAP_FAILED) {
        perror("the memory of a day");
        abort();
    }
}

/* A number that the environment says. */
static unsigned number_of(const char *name)
{
    const char *word = getenv(name);
    return word ? (unsigned)strtoul(word, NULL, 10) : 0;
}

static struct plan planned(void)
{
    return (struct plan){.seconds = number_of("SECONDS"),
                         .guests = number_of("GUESTS"),
                         .budget = number_of("BUDGET"),
                         .reboots = number_of("REBOOTS"),
                         .beyond = number_of("BEYOND"),
                         .slow = number_of("SLOW"),
                         .killed = number_of("KILLED"),
                         .overdraft = number_of("OVERDRAFT"),
                         .moves = number_of("MOVES"),
                         .loses = number_of("LOSES"),
                         .weight = number_of("WEIGHT")};
}

bool day_begins(char **words)
{
    bool goes_on = getenv("GOES_ON");
    lender_words = words;
    if (!goes_on) {
        int file = memfd_create("day", 0);
        if (file < 0 || ftruncate(file, sizeof *day) || dup2(file, DAY_FILE) != DAY_FILE)
            abort();
    }
    map_day();
    if (goes_on)
        return false;
    day->random = number_of("DAY") * UINT64_C(2) + 1;
    day->plan = planned();
    return true;
}

uint32_t chance(uint32_t least, uint32_t most)
{
    day->random = day->random * UINT64_C(6364136223846793005) + UINT64_C(1442695040888963407);
    return least + (uint32_t)((day->random >> 33) % (most - least + 1));
}

/* What a step takes: of a thousand some take long, as a machine may have other work. */
static int64_t moment(void)
{
    uint32_t which = chance(1, 1000);
    if (which <= 900)
        return chance(20, 300);
    if (which <= 990)
        return chance(300, 10 * MILLISECOND);
    return which < 1000 ? chance(10 * MILLISECOND, 200 * MILLISECOND) : chance(SECOND / 5, LONGEST);
}

void later(struct guest *guest, act *act, int64_t microseconds)
{
    if (day->count == MOST_STEPS)
        town_ends("too much is to happen", guest);
    day->steps[day->count++] = (struct step){day->now + microseconds, guest, act};
}

void soon(struct guest *guest, act *act)
{
    int64_t takes = moment() * day->plan.slow;
    later(guest, act, takes < LONGEST ? takes : LONGEST);
}

void forget(const struct guest *guest)
{
    unsigned kept = 0;
    for (unsigned i = 0; i < day->count; i++)
        if (day->steps[i].guest != guest)
            day->steps[kept++] = day->steps[i];
    day->count = kept;
}

/* The number of the next step, of those at one time the one that was there first. */
static unsigned next_step(void)
{
    unsigned next = 0;
    for (unsigned i = 1; i < day->count; i++)
        if (day->steps[i].at < day->steps[next].at)
            next = i;
    return next;
}

/* When it is. */
static int64_t next_at(void)
{
    return day->count > 0 ? day->steps[next_step()].at : INT64_MAX;
}

/* Has all happen that is due. */
static void happen(void)
{
    while (next_at() <= day->now) {
        unsigned next = next_step();
        struct step its = day->steps[next];
        day->count--;
        for (unsigned i = next; i < day->count; i++)
            day->steps[i] = day->steps[i + 1];
        its.act(its.guest);
    }
    town_looks();
}

/* When the lender ends, where it does, and until when there is none then. */
static void plan_end(void)
{
    bool ends = day->plan.killed > 0;
    day->lender_ends = ends ? day->now + chance(SHORTEST_LIFE, LONGEST_LIFE) : INT64_MAX;
    day->lender_begins = ends ? day->lender_ends + chance(0, LONGEST_AWAY) : INT64_MAX;
}

/* The lender ends as if it were killed, and the guests are alone for a while. Then the program
 * restarts. */
static void end_lender(void)
{
    for (unsigned i = 0; i < day->size; i++)
        process_is_alone(&day->guests[i]);
    for (int64_t at; (at = next_at()) < day->lender_begins; happen())
        day->now = at > day->now ? at : day->now;
    day->now = day->lender_begins;
    day->lenders++;
    setenv("GOES_ON", "1", 1);
    execv("/proc/self/exe", lender_words);
    town_ends("has no lender any longer", day->guests);
}

int __real_poll_some(struct pollfd *files, nfds_t number, int limit);
int __wrap_poll_some(struct pollfd *files, nfds_t number, int limit);
int __wrap_clock_gettime(clockid_t clock, struct timespec *time);

/* Time passes until something comes. The lender sends nothing meanwhile. What comes of others than
 * guests is there once no guest has anything to say. */
int __wrap_poll_some(struct pollfd *files, nfds_t number, int limit)
{
    int64_t end = limit < 0 ? INT64_MAX : day->now + limit * INT64_C(1000);
    if (day->lender_ends <= day->now)
        plan_end();
    for (bool first = true;; first = false) {
        happen();
        int came = mail_came(files, number);
        for (unsigned i = 0; i < day->size; i++)
            process_hears(&day->guests[i], first);
        if (came != 0)
            return came;
        int64_t at = next_at(), next = at < end ? at : end;
        if (next >= day->lender_ends)
            end_lender();
        day->now = next > day->now ? next : day->now;
        if (at > end)
            return __real_poll_some(files, number, 0);
    }
}

int __wrap_clock_gettime(clockid_t clock, struct timespec *time)
{
    (void)clock;
    time->tv_sec = BEGIN + day->now / SECOND;
    time->tv_nsec = day->now % SECOND * 1000;
    return 0;
}
