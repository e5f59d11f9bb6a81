/* What the parts of scribble.c share. */
#ifndef SCRIBBLE_H
#define SCRIBBLE_H
#include "../guest.h"

enum { PAGES = 24 * MIB / 4096 };

extern struct guest guest;
extern bool is_named[PAGES]; /* by the last copies, of a chain that is being served */
extern bool names;           /* the pages of a chain are named, and it isn't given back yet */
extern uint64_t changed; /* copies that memory differed from already when they were handed over */
extern uint64_t calls_between; /* calls of the device between two steps */
extern bool may_call;          /* another one may come: none did since the device was started */

/* What a chain's copies name is zeros, but of a deflate, and is stamped again. */
void see_pages(uint32_t kind);

/* What is named gets its stamp again, where its notice is stale, and may not have come to an
  * end. */
void stamp_again(void);
#endif
