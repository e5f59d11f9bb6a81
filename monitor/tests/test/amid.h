/* What the tests of calls amid a notice share. */
#ifndef AMID_H
#define AMID_H
#include "test.h"

enum { FIRST = 900, COUNT = 3, BYTE = 0xaa };
static const VbSettings WITH_HINTS = {.offered = 1ull << 32 | 0x2f, .discards_hints = 1};

extern struct guest amid;

/* Two chains of this kind, each of the same three pages, or of a figure: one notice serves both. */
void offer(uint32_t kind);

/* A round of hints opens. */
void open_round(void);

/* How many chains of the kind were given back since. */
uint32_t used_since(uint32_t kind);

/* Whether the three pages have the driver's bytes. */
bool are_whole(void);

/* The driver may start the device again, and it can be saved. */
void starts_again(void);
#endif
