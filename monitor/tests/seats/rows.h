/* Events of a host one after the other, with what each leaves of every seat. */
#ifndef ROWS_H
#define ROWS_H
#include "seats.h"

enum { PLACES = 3, NOBODY = -1 };

/* An event, and what there is then: the seats, the overdraft (set before), the budget, what is
 * lent, the room, and who waits first. */
struct row {
    const char *what;
    VbHostEvent event;
    VbSeat seats[PLACES];
    struct {
        uint32_t overdraft, frames, owed, room;
        int first;
    } is;
};

/* Makes each event, and compares what is left. */
void check_each(const struct row *rows, size_t count, VbHost *host, VbSeat *seats);
#endif
