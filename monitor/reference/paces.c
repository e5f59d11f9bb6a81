/* How a guest's target follows what was decided, in plain C. */
#include "reference.h"
#include "vb_host.h"

/* What is left of its balloon for what was decided. */
static uint32_t in_the_end(const VbSeat *seat, const VbAim *aim)
{
    Sum given = less(seat->ballooned, seat->least_target);
    if (!aim->strict)
        return aim->target;
    if (!seat->granted)
        return seat->wanted;
    return aim->ready ? aim->target : (uint32_t)more(given, aim->target);
}

/* Its last target with what it grows by, where that is less than was decided. */
static uint32_t stepped(const VbSeat *seat, const VbAim *aim, uint32_t told)
{
    Sum part = seat->granted ? (Sum)seat->pages * aim->passed / (1000u * (Sum)aim->seconds) : 0;
    Sum then = told + more(part, 1);
    return then < aim->target ? (uint32_t)then : in_the_end(seat, aim);
}

VbPace vb_seat_pace(const VbSeat *seat, const VbAim *aim)
{
    uint32_t told = seat->target_number ? seat->target : 0;
    VbPace pace = {.rises = aim->seconds && aim->target > told};
    bool is_at_ease = !aim->needed && aim->held_kib <= 4 * (Sum)aim->frames;
    pace.all = pace.now = in_the_end(seat, aim);
    pace.gains = aim->strict && aim->target < told;
    if (pace.rises && is_at_ease && seat->wanted != pace.all)
        pace.now = aim->passed ? stepped(seat, aim, told) : seat->wanted;
    return pace;
}
