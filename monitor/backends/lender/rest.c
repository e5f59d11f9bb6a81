/* Guests at rest: nobody wants anything of them, and what their reports say stays as it is, but for
 * a little. They are asked at a slow pace; their processes tell by themselves what they do. */
#include "places.h"

/* Periods in which a guest stays as it is, and rests from then on; periods of which one that rests
 * is asked in one. What changes by more than this part of its pages counts as a change. */
enum { RESTS_AFTER = 10, ASKED_ONCE_IN = 5, LITTLE_PART = 256 };

/* The tags of what its kernel looks at and takes back in the background (Linux 6.12). What it does
 * while its work waits presses the guest. */
enum { ASYNC_SCANS = 12, ASYNC_RECLAIMS = 14 };

static bool is_near(uint64_t one, uint64_t other, uint64_t most)
{
    return (one > other ? one - other : other - one) <= most;
}

/* What its kernel has done so: as long as that grows its work may come to wait. */
static uint64_t reclaimed_by(const struct lending_message *report)
{
    uint64_t sum = 0;
    for (uint32_t i = 0; i < report->figure_count; i++) {
        uint16_t tag = report->figures[i].tag;
        if (tag == ASYNC_SCANS || tag == ASYNC_RECLAIMS)
            sum += report->figures[i].value;
    }
    return sum;
}

static struct stillness stillness_of(const struct seat *seat)
{
    return (struct stillness){.pages = seat_pages(seat),
                              .ballooned = seat->report.ballooned,
                              .held = pages_held(seat),
                              .reclaimed = reclaimed_by(&seat->report),
                              .available = seat->tells_available ? seat->available : seat->free};
}

/* Nothing is wanted of it that it hasn't done, and it wants nothing. */
static bool is_at_peace(const struct seat *seat)
{
    const struct lending_message *report = &seat->report;
    bool obeyed = seat_told(seat) == seat->target && report->target == seat->target &&
                  report->ballooned == seat->target;
    bool answered = seat->known && seat->silent == 0 && seat->asked_at == 0;
    bool waits = seat_waits_for(seat) != WAITS_FOR_NOTHING || seat_is_pressed(seat);
    return seat_is_ready(seat) && answered && obeyed && !waits;
}

bool seat_rests(const struct seat *seat)
{
    return is_at_peace(seat) && loop_now() - seat->moved_at >= RESTS_AFTER * seat->host->period;
}

bool seat_is_due(struct seat *seat)
{
    if (seat_rests(seat) && ++seat->passed_over < ASKED_ONCE_IN)
        return false;
    seat->passed_over = 0;
    return true;
}

bool seat_moves(struct seat *seat)
{
    struct stillness now = stillness_of(seat), then = seat->still;
    uint64_t little = seat_pages(seat) / LITTLE_PART;
    bool stays = now.pages == then.pages && now.ballooned == then.ballooned &&
                 now.reclaimed == then.reclaimed && is_near(now.held, then.held, little) &&
                 is_near(now.available, then.available, little);
    if (stays)
        return false;
    bool rested = seat_rests(seat);
    seat->still = now;
    seat->moved_at = loop_now();
    return rested;
}
