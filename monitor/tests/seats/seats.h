/* What the parts of seats.c share. */
#ifndef SEATS_H
#define SEATS_H
#include "../../reference/calls.h"
#include <stdbool.h>

/* Whether all fields are the same; of the bytes between them nothing is said. */
bool same_seat(const VbSeat *one, const VbSeat *other);
void print_seat(size_t place, const VbSeat *seat);

/* Ends the program where something isn't so. */
void expect(bool is_so, const char *what);

/* rows.c: the events of a host with two guests. passing.c: of three of which one comes first, or
 * lets others pass. orders.c: seats of any numbers. messages.c: what a process says. paces.c: how
 * a target follows what was decided. relief.c: who is helped on a host that stands still. */
void check_rows(void);
void check_passing(void);
void check_lines(void);
void check_orders(void);
void check_messages(void);
void check_paces(void);
void check_relief(void);
void check_targets(void);
void check_refused(void);
void check_largest(void);

/* steps.c: random events, beside the plain implementation. said.c: whether a random message to a
 * seat is the same to both. relief.c: whether a host is helped alike, whatever is so;
 * and whether an event that helps was due less often than this, or nothing was. */
void check_steps(unsigned long long steps);
bool is_read_alike(const VbSeat *seat);
bool is_relieved_alike(const VbHost *host, const VbSeat *seats, size_t count);
bool are_reliefs_rare(unsigned long long least);
#endif
