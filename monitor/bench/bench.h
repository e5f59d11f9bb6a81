/* The bench's sides: a notice through balloon.h and the library, one by hand, and none at all. */
#ifndef BENCH_H
#define BENCH_H
#include "../tests/guest.h"

/* How often a driver would have been interrupted. */
extern uint64_t interrupts;

/* By hand, over a guest's memory, from where its device is. */
void plain_start(const struct guest *guest, uint32_t kind);
void plain_discards(bool discards);
uint64_t plain_notify(uint32_t kind, void (*told)(const VbRun *runs, uint32_t count));

/* Through balloon.h. */
void shim_discards(struct guest *guest, bool discards);
uint64_t shim_notify(struct guest *guest, uint32_t kind);

/* Both sides tell the pages that are named. */
void bench_told(const VbRun *runs, uint32_t count);
#endif
