/* Rounds of free page hints (VIRTIO 1.2, 5.5.6.6), in plain C. */
#include "reference.h"

enum { STOP = 0, DONE = 1, FIRST_ID = 2 };

/* Whether it is the id of a round. */
static bool is_id(uint32_t id)
{
    return id >= FIRST_ID;
}

uint32_t vb_begin_hints(VbDevice *device, uint32_t *id)
{
    uint32_t code = refusal(device, VB_HINT, &device->hint), next = device->round.last + 1;
    *id = 0;
    if (code != VB_OK)
        return code;
    *id = is_id(next) ? next : FIRST_ID;
    device->round = (VbRound){.shown = *id, .last = *id};
    return VB_OK;
}

static void show(VbDevice *device, uint32_t word)
{
    device->round.shown = word;
    device->round.opened = 0;
}

void vb_stop_hints(VbDevice *device)
{
    show(device, STOP);
}

void vb_end_hints(VbDevice *device)
{
    show(device, DONE);
}

uint32_t vb_hints_open(const VbDevice *device)
{
    return device->round.opened && is_id(device->round.shown);
}

void hear_id(VbDevice *device, uint32_t id)
{
    device->round.opened = is_id(id) && id == device->round.shown;
}

/* Whether calls lead to the device's round: one that is shown is the last that began, and began
 * with a driver that takes hints. */
bool is_round(const VbDevice *device)
{
    const VbRound *round = &device->round;
    bool offered = device->settings.offered & VB_F_FREE_PAGE_HINT, shown = is_id(round->shown);
    bool begun = round->shown == round->last && (device->status & DRIVER_OK) &&
                 !lacks_feature(device, VB_HINT);
    return (round->last == 0 || (is_id(round->last) && offered)) && (!shown || begun) &&
           (round->opened == 0 || (round->opened == 1 && shown));
}
