/* What a client does in several messages, one a turn: it starts, stops its queues, migrates. */
#ifndef PLANS_H
#define PLANS_H
#include <stdbool.h>
#include <stddef.h>
#include <stdint.h>

/* Bytes of a device that is saved, at most. */
enum { MOST_SAVED = 1024 };

/* Nothing is planned or saved. */
void plans_clear(void);

/* Begins what the script says. */
void plan_begins(void);

/* Sends the next message of what has begun; false where nothing has, or all is sent. */
bool plan_goes_on(void);

/* Puts the device that was saved last into `to`: as it is, or with a fault. How many bytes. */
size_t saved_bytes(uint8_t to[MOST_SAVED]);

#endif
