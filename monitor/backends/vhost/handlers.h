/* Who serves which message of a client: see the table of messages.c. */
#ifndef HANDLERS_H
#define HANDLERS_H
#include "vhost_user.h"

#include "../balloon/backend.h"

enum outcome answer_bytes(struct backend *backend, const struct message *message, const void *body,
                          size_t size);
enum outcome answer_u64(struct backend *backend, const struct message *message, uint64_t value);

typedef enum outcome handler(struct backend *backend, struct message *message);

/* features.c */
handler get_features, set_features, set_owner, get_protocol_features, set_protocol_features,
    get_queue_num, set_channel;
handler get_status, set_status, reset_device, reset_owner;

/* control_area.c */
handler get_config, set_config;

/* ring_messages.c */
handler set_vring_num, set_vring_addr, set_vring_base, get_vring_base, set_vring_kick,
    set_vring_call, set_vring_err;
handler set_vring_enable, vring_kick;

/* migration.c */
handler set_log_base, set_device_state_fd, check_device_state;

/* Another process resumes the log that is there, and these rings; false where it can't,
 * which is said. */
bool migration_regain(struct backend *backend, struct log_place place,
                      const struct ring kept[QUEUES]);

/* slots.c */
handler set_mem_table, get_max_mem_slots, add_mem_reg, rem_mem_reg;

/* Takes all regions away; no ring may run. */
bool slots_forget(struct backend *backend);

#endif
