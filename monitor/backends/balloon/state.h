/* A file that keeps what a device is beyond its process. */
#ifndef STATE_H
#define STATE_H
#include "vb.h"

#include <stdbool.h>

struct backend;

/* Puts the device as it is to be found, whose rings go on, into VB_STATE_BYTES bytes: as
 * vb_save. */
uint32_t state_bytes(const struct backend *backend, uint8_t bytes[VB_STATE_BYTES]);

/* Takes the target, `actual` and the last round of hints of a device that was saved: its rings
 * continue once a client tells of them again. */
void state_take(struct backend *backend, VbBalloon saved);

/* Takes the target, `actual` and the last round of hints of the device that its options' file has,
 * if there is one: its rings resume once a client tells of them again. False, which is said, where
 * the file has no such device. */
bool state_load(struct backend *backend);

/* Writes the device to its options' file, where it has changed since the last time, or, if `again`,
 * where that couldn't be written; its file is whole at each moment, also of the disk. Where it
 * can't be written, that is said, and all continues. False, which is said, where no device is like
 * this. */
bool state_save(struct backend *backend, bool again);

#endif
