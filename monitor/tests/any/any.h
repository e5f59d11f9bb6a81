/* What the parts of any.c share. */
#ifndef ANY_H
#define ANY_H
#include "../guest.h"
#include "../../reference/calls.h"

enum { ARENA = 16 * 4096 };

extern uint64_t answers[VB_BAD_ARGUMENT + 1]; /* how often each code came */
extern uint64_t went;                         /* how often large pages did */

/* At random. Each of three lists ends where nothing is mapped. */
uint64_t any(void);
bool once_in(uint32_t times);
uint64_t any_number(void);
void make_arenas(void);
void *list_of(int arena, size_t bytes);
uint8_t *any_bytes(int arena, size_t count);
VbDevice any_device(void);
VbRegion *any_regions(size_t *count);

/* Compared. */
bool same(const VbDevice *one, const VbDevice *other);

/* One call of each kind. */
void call_driver(void);
void call_config(void);
void call_hints(void);
void call_mark(void);
void call_over(void);
void call_notice(void);
void call_large(void);
#endif
