/* What the parts of saved.c share. */
#ifndef SAVED_H
#define SAVED_H
#include "../guest.h"

enum {
    SUM_AT = VB_STATE_BYTES - 8,
    HOLD_AT = 183,
    POISON_AT = HOLD_AT - 4,
    RINGS_AT = 59,
    RING_BYTES = 30,
    HINT_AT = HOLD_AT + 9,
    ROUND_AT = HINT_AT + RING_BYTES,
    OPENED_AT = ROUND_AT + 8
};

uint8_t *put_number(uint8_t *at, uint64_t value, int bytes);
void put_sum_at(uint8_t *bytes, size_t at);
void put_sum(uint8_t *bytes);
void encode(const VbDevice *device, VbHeld held, uint8_t *bytes);
/* The same in a version before this one, 2 or 3: how many bytes it is. */
size_t encode_older(const VbDevice *device, VbHeld held, unsigned version, uint8_t *bytes);

extern struct guest guest;
extern const VbSettings SETTINGS;
bool reach(unsigned state);
bool are_same(const VbDevice *one, VbHeld held, const VbDevice *other, VbHeld other_held);

void any_restored_device_works(void);
void all_that_calls_lead_to_is_saved(void);
#endif
