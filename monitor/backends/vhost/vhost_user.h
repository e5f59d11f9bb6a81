/* Messages of vhost-user, as QEMU documents them (docs/interop/vhost-user.rst). */
#ifndef VHOST_USER_H
#define VHOST_USER_H
#include "../base/stream.h"

#include <stdbool.h>

enum { /* requests of the client */
       GET_FEATURES = 1,
       SET_FEATURES = 2,
       SET_OWNER = 3,
       RESET_OWNER = 4,
       SET_MEM_TABLE = 5,
       SET_LOG_BASE = 6,
       SET_VRING_NUM = 8,
       SET_VRING_ADDR = 9,
       SET_VRING_BASE = 10,
       GET_VRING_BASE = 11,
       SET_VRING_KICK = 12,
       SET_VRING_CALL = 13,
       SET_VRING_ERR = 14,
       GET_PROTOCOL_FEATURES = 15,
       SET_PROTOCOL_FEATURES = 16,
       GET_QUEUE_NUM = 17,
       SET_VRING_ENABLE = 18,
       SET_BACKEND_REQ_FD = 21,
       GET_CONFIG = 24,
       SET_CONFIG = 25,
       RESET_DEVICE = 34,
       VRING_KICK = 35,
       GET_MAX_MEM_SLOTS = 36,
       ADD_MEM_REG = 37,
       REM_MEM_REG = 38,
       SET_STATUS = 39,
       GET_STATUS = 40,
       SET_DEVICE_STATE_FD = 42,
       CHECK_DEVICE_STATE = 43,
};

enum { /* messages of the backend */
       CONFIG_CHANGED = 2,
       VRING_CALL = 4,
};

enum { MOST_BODY = 512 };

/* The protocol features that this backend has. */
#define MQ_FEATURE (UINT64_C(1) << 0)
#define LOG_SHMFD_FEATURE (UINT64_C(1) << 1)
#define REPLY_ACK_FEATURE (UINT64_C(1) << 3)
#define BACKEND_REQ_FEATURE (UINT64_C(1) << 5)
#define CONFIG_FEATURE (UINT64_C(1) << 9)
#define RESET_DEVICE_FEATURE (UINT64_C(1) << 13)
#define IN_BAND_FEATURE (UINT64_C(1) << 14)
#define MEM_SLOTS_FEATURE (UINT64_C(1) << 15)
#define STATUS_FEATURE (UINT64_C(1) << 16)
#define DEVICE_STATE_FEATURE (UINT64_C(1) << 19)

struct message {
    uint32_t request, flags, size;
    uint8_t body[MOST_BODY];
    struct files files;
};

/* Whether the head of a message is one: this version, and no answer. */
bool message_is_request(const struct message *message);

/* Whether the client says that it waits for an answer to a message that has none of its own. */
bool message_wants_answer(const struct message *message);

/* Whether messages of this number may have files. */
bool message_has_files(uint32_t request);

/* Words of the body; 0 after its end. */
uint32_t message_u32(const struct message *message, unsigned at);
uint64_t message_u64(const struct message *message, unsigned at);

/* Puts an answer to a message, with this body, into `bytes`; how many there are, 0 where there are
 * too many. */
enum { MOST_MESSAGE = 12 + MOST_BODY };
size_t message_answer_bytes(const struct message *message, const void *body, size_t size,
                            uint8_t bytes[MOST_MESSAGE]);

/* Answers a message with these bytes; false where the client doesn't take them at once. */
bool message_answer(int socket, const struct message *message, const void *body, size_t size);

struct backend;

/* Serves a message, or what is left of it where its outcome is known; false where the client can't
 * be served any longer, which is said. */
bool message_serve(struct backend *backend, struct message *message);

/* Tells the client of a used buffer on a queue, or of a change of the configuration (queue -1).
 * False where it doesn't take that at once. */
bool message_tell(int channel, int queue);

/* The hook of backend.h, for a client of vhost-user: by an event where the queue has one, else by a
 * message. */
bool client_tell(struct backend *backend, int queue);

#endif
