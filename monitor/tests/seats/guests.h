/* Guests at random. */
#ifndef GUESTS_H
#define GUESTS_H
#include "seats.h"

enum { KEPT = 4 };

/* A guest's pages, what its process is now, and the last reports and orders that were sent. */
struct guest {
    uint32_t pages;
    VbReport now, report[KEPT];
    uint64_t reports, orders;
    VbSeat order[KEPT];
};

uint64_t any(void);
uint32_t chance(uint32_t below);

/* The frames that it uses. */
uint32_t guest_uses(const struct guest *guest);

void guest_arrive(struct guest *guest, uint32_t pages, uint32_t ballooned);
void guest_connect(struct guest *guest);
void guest_join(struct guest *guest, struct guest *added);
VbReport guest_message(struct guest *guest);
void guest_send(struct guest *guest, const VbSeat *seat);
/* It gives pages, holds a deflate, drops it, reads its target, loses memory, or obeys an order. */
void guest_live(struct guest *guest);
#endif
