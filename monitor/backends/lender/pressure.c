/* Whether a guest's own work waits for memory: its counters are passed on, and vb_policy.h says
 * what they mean. */
#include "places.h"

/* The tags of the counters (VIRTIO 1.1, 5.5.6.3, and Linux). */
enum {
    SWAP_IN = 0,
    SWAP_OUT = 1,
    OOM_KILLS = 10,
    ALLOC_STALLS = 11,
    DIRECT_SCANS = 13,
    DIRECT_RECLAIMS = 15
};

/* Where a sample has the counter of a tag; NULL: it has none. */
static VbCounter *counter_of(VbSample *sample, uint16_t tag)
{
    switch (tag) {
    case SWAP_IN:
        return &sample->swap_in;
    case SWAP_OUT:
        return &sample->swap_out;
    case OOM_KILLS:
        return &sample->oom_kills;
    case ALLOC_STALLS:
        return &sample->stalls;
    case DIRECT_SCANS:
        return &sample->direct_scan;
    case DIRECT_RECLAIMS:
        return &sample->direct_reclaim;
    default:
        return NULL;
    }
}

/* What it reports: its balloon is as its driver says, which alone knows what it is still to put
 * there. */
static VbSample sample_of(const struct seat *seat)
{
    const struct lending_message *report = &seat->report;
    bool had_more = seat->inflates_to > report->target;
    VbSample sample = {.ballooned = report->actual,
                       .target = had_more ? seat->inflates_to : report->target};
    for (uint32_t i = 0; i < report->figure_count; i++) {
        VbCounter *counter = counter_of(&sample, report->figures[i].tag);
        if (counter)
            *counter = (VbCounter){.value = report->figures[i].value, .present = 1};
    }
    return sample;
}

/* Its target may have fallen by the time that its statistics come. */
void pressure_follows(struct seat *seat)
{
    const struct lending_message *report = &seat->report;
    if (report->target > report->actual && report->target > seat->inflates_to)
        seat->inflates_to = report->target;
}

void pressure_hears(struct seat *seat)
{
    VbSample sample = sample_of(seat);
    seat->pressure = vb_policy_press(&seat->pressure, &sample, (uint64_t)loop_now());
    seat->inflates_to = 0;
}

bool seat_is_pressed(const struct seat *seat)
{
    return vb_policy_pressed(&seat->pressure, (uint64_t)loop_now()) != 0;
}
