/* The memory that a wrong device discards in. */
#ifndef WRONG_H
#define WRONG_H
#include "../../backends/balloon/guest_memory.h"

extern const struct guest_memory *wrong_memory;

#endif
