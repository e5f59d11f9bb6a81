/* Who is helped on a host that stands still, in plain C. */
#include "seats.h"

enum { SECOND = 1000 };

static bool is_after_deflates(const VbSeat *seat)
{
    return seat->deferred || seat->line != VB_LINE_DEFLATES;
}

/* Of those that wait in a reset or to come, how many there are, and who is first. */
static size_t count_behind(const VbSeat *seats, size_t count, size_t *first)
{
    size_t found = 0;
    for (size_t i = 0; i < count; i++) {
        if (!seats[i].held || !is_after_deflates(&seats[i]))
            continue;
        if (found++ == 0 || waits_before(&seats[i], &seats[*first]))
            *first = i;
    }
    return found;
}

VbStand vb_host_stand(const VbSeat *seats, size_t count, const VbStand *stand, uint64_t now)
{
    size_t first = vb_host_first(seats, count), head = 0;
    bool waits = count_behind(seats, count, &head) > 0;
    VbStand then = {.lent = vb_host_owed(seats, count), .since = now, .head_since = now};
    then.first = first == SIZE_MAX ? 0 : first + 1;
    then.head = waits ? head + 1 : 0;
    then.turn = waits ? seats[head].turn : 0;
    if (then.first == stand->first && then.lent == stand->lent)
        then.since = stand->since;
    if (then.head == stand->head && then.turn == stand->turn)
        then.head_since = stand->head_since;
    return then;
}

/* The guest at this place is preferred, and no other; none where there is no such place. */
static bool is_alone(const VbSeat *seats, size_t count, size_t place)
{
    for (size_t i = 0; i < count; i++)
        if (!seats[i].preferred != (i != place))
            return false;
    return true;
}

/* Whether this time is over since then. */
static bool is_over(uint64_t since, uint64_t milliseconds, const VbLook *look)
{
    return look->time >= since && look->time - since >= milliseconds;
}

/* The first that waits proceeds alone on a host that is short, and nobody on another one; then it
 * is lent from the overdraft. */
static VbRelief relieve(const VbHost *host, const VbSeat *seats, size_t count, uint64_t number,
                        bool is_short)
{
    size_t first = number - 1, alone = is_short && number ? first : count;
    bool is_there = number && first < count;
    if (!is_alone(seats, count, alone) || (is_short && number && !is_there))
        return (VbRelief){VB_PREFERS, alone};
    if (is_there && may_overdraw(host, seats, count, first))
        return (VbRelief){VB_OVERDRAWS, first};
    return (VbRelief){0};
}

VbRelief vb_host_relief(const VbHost *host, const VbSeat *seats, size_t count, const VbStand *stand,
                        const VbLook *look)
{
    size_t head = stand->head - 1, any = 0;
    bool is_patient = !is_over(stand->head_since, (uint64_t)look->patience * SECOND, look);
    if (look->awaits)
        return (VbRelief){0};
    if (stand->head && !is_patient && count_behind(seats, count, &any) > 1)
        return head < count && seats[head].preferred ? (VbRelief){VB_PREFERS, count}
                                                     : (VbRelief){VB_DEFERS, head};
    if (!is_over(stand->since, SECOND, look))
        return (VbRelief){0};
    return relieve(host, seats, count, stand->first, look->missing);
}
