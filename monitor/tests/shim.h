/* The balloon that a test is for: balloon.h, or with -DRUST_SHIM the Rust crate as the same calls
 * (rust/ctests). */
#ifndef SHIM_H
#define SHIM_H
#ifdef RUST_SHIM
#define BALLOON_CALLS_H
#include "balloon.h"

uint32_t balloon_init(struct balloon *balloon, const struct balloon_region *regions, size_t count,
                      VbSettings settings);
uint32_t balloon_set_regions(struct balloon *balloon, const struct balloon_region *regions,
                             size_t count);
uint32_t balloon_negotiate(struct balloon *balloon, uint64_t features);
uint32_t balloon_place(struct balloon *balloon, uint32_t kind, uint64_t table, uint64_t avail,
                       uint64_t used, uint16_t size);
uint32_t balloon_start_queue(struct balloon *balloon, uint32_t kind, VbQueueStart at);
uint32_t balloon_stop_queue(struct balloon *balloon, uint32_t kind, uint16_t *next);
uint32_t balloon_forget_held(struct balloon *balloon, uint32_t kind);
uint32_t balloon_write_status(struct balloon *balloon, uint8_t status,
                              struct balloon_result *result);
struct balloon_result balloon_notify(struct balloon *balloon, uint32_t kind);
struct balloon_result balloon_notify_number(struct balloon *balloon, uint32_t number);
struct balloon_result balloon_ask_statistics(struct balloon *balloon);
struct balloon_result balloon_give_deflate(struct balloon *balloon);
bool balloon_held_deflate(const struct balloon *balloon, uint32_t *pages);
void balloon_read_config(const struct balloon *balloon, uint32_t offset, uint8_t *out,
                         size_t length);
uint32_t balloon_write_config(struct balloon *balloon, uint32_t offset, const uint8_t *bytes,
                              size_t length);
void balloon_set_target(struct balloon *balloon, uint32_t pages);
bool balloon_is_off_target(const struct balloon *balloon);
uint32_t balloon_begin_hints(struct balloon *balloon, uint32_t *id);
void balloon_stop_hints(struct balloon *balloon);
void balloon_end_hints(struct balloon *balloon);
bool balloon_may_tell(const struct balloon *balloon);
uint32_t balloon_save(const struct balloon *balloon, uint8_t *out, size_t room);
uint32_t balloon_restore(struct balloon *balloon, const uint8_t *bytes, size_t length);
#else
#include "balloon.h"
#endif
#endif
