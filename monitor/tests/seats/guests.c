/* Guests and their processes at random, and the messages between them and the lender: strict ones,
 * whose pages leave a balloon by a grant or with memory alone. */
#include "guests.h"
#include <string.h>

static uint64_t seed = 20261204;

uint64_t any(void)
{
    seed ^= seed << 13;
    seed ^= seed >> 7;
    seed ^= seed << 17;
    return seed;
}

uint32_t chance(uint32_t below)
{
    return (uint32_t)((any() >> 16) % below);
}

static uint32_t less(uint32_t one, uint32_t other)
{
    return one < other ? one : other;
}

uint32_t guest_uses(const struct guest *guest)
{
    return guest->pages - guest->now.ballooned + guest->now.outside;
}

/* It uses no page: its process holds a deflate of all but those that stay in its balloon. */
void guest_arrive(struct guest *guest, uint32_t pages, uint32_t ballooned)
{
    memset(guest, 0, sizeof *guest);
    guest->pages = pages;
    guest->now = (VbReport){.ballooned = pages, .target = pages, .read_target = pages};
    guest->now.held = pages > ballooned ? pages - ballooned : 0;
    guest->now.line = VB_LINE_ARRIVALS;
    guest->now.deflates = 1;
}

/* A later lender: of the earlier one's messages none arrives. */
void guest_connect(struct guest *guest)
{
    guest->reports = guest->orders = 0;
}

void guest_join(struct guest *guest, struct guest *added)
{
    guest->pages += added->pages;
    guest->now.ballooned += added->now.ballooned;
    guest_arrive(added, 0, 0);
}

static void report(struct guest *guest)
{
    guest->report[guest->reports++ % KEPT] = guest->now;
}

static uint64_t any_kept(uint64_t sent)
{
    uint64_t kept = sent < KEPT ? sent : KEPT;
    return (sent - 1 - (chance(2) ? 0 : chance((uint32_t)kept))) % KEPT;
}

/* A report that may be late, or come again; one is made where there is none. */
VbReport guest_message(struct guest *guest)
{
    if (guest->reports == 0 || chance(2))
        report(guest);
    return guest->report[any_kept(guest->reports)];
}

void guest_send(struct guest *guest, const VbSeat *seat)
{
    guest->order[guest->orders++ % KEPT] = *seat;
}

/* It receives a target or a grant that was sent, one of these or both. */
static void obey(struct guest *guest)
{
    if (guest->orders == 0)
        return;
    const VbSeat *sent = &guest->order[any_kept(guest->orders)];
    if (chance(3) && guest->now.target_number < sent->target_number) {
        guest->now.target_number = sent->target_number;
        guest->now.target = sent->target;
    }
    if (chance(3) && guest->now.held && guest->now.deflates == sent->granted) {
        guest->now.ballooned -= guest->now.held;
        guest->now.held = 0;
    }
}

static void hold(struct guest *guest)
{
    VbReport *now = &guest->now;
    if (now->held || now->ballooned == 0)
        return;
    bool toward = now->ballooned > now->read_target && chance(2);
    now->held = 1 + chance(toward ? now->ballooned - now->read_target : now->ballooned);
    now->line = chance(3) ? VB_LINE_DEFLATES : 1 + chance(3);
    now->deflates++;
}

/* Memory is taken away, a part of it from the balloon and from the deflate that is held; some of
 * the rest stays outside, and what was there before may go. */
static void shrink(struct guest *guest)
{
    VbReport *now = &guest->now;
    uint32_t taken = chance(less(guest->pages, 8) + 1);
    uint32_t from = chance(less(taken, now->ballooned) + 1);
    uint32_t others = guest->pages - now->ballooned;
    if (taken - from > others)
        from = taken - others;
    guest->pages -= taken;
    now->ballooned -= from;
    now->held = less(now->held, now->ballooned);
    now->removed += taken;
    now->outside = chance(now->outside + taken - from + 1);
}

/* Up to its target, or any pages. */
static void give(struct guest *guest)
{
    VbReport *now = &guest->now;
    if (chance(4) == 0)
        now->ballooned += chance(guest->pages - now->ballooned + 1);
    else if (now->ballooned < now->read_target)
        now->ballooned = less(now->read_target, guest->pages);
}

void guest_live(struct guest *guest)
{
    switch (chance(8)) {
    case 0:
    case 1:
        give(guest);
        return;
    case 2:
        hold(guest);
        return;
    case 3:
        if (chance(4) == 0)
            guest->now.held = 0;
        return;
    case 4:
        guest->now.read_target = guest->now.target;
        return;
    case 5:
        if (chance(16) == 0)
            shrink(guest);
        else
            guest->now.outside = chance(guest->now.outside + 1);
        return;
    default:
        obey(guest);
    }
}
