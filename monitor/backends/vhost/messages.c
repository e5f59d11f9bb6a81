/* Each message of a vhost-user client: its size, its files, the protocol feature without which it
 * isn't spoken, and who serves it. A message that isn't as this table has it ends its client's
 * service. */
#include "handlers.h"

enum {
    WORD = 8,
    STATE = 8,
    ADDRESSES = 40,
    TABLE_HEAD = 8,
    REGION = 32,
    CONFIG_HEAD = 12,
    MOST_CONFIG = 256
};

struct rule {
    const char *name;
    handler *serve;
    uint16_t least, most; /* bytes of its body */
    uint8_t least_files, most_files;
    uint64_t needs; /* a protocol feature; 0: none */
};

static const struct rule rules[] = {
    [GET_FEATURES] = {"GET_FEATURES", get_features, 0, 0, 0, 0, 0},
    [SET_FEATURES] = {"SET_FEATURES", set_features, WORD, WORD, 0, 0, 0},
    [SET_OWNER] = {"SET_OWNER", set_owner, 0, 0, 0, 0, 0},
    [RESET_OWNER] = {"RESET_OWNER", reset_owner, 0, 0, 0, 0, 0},
    [SET_MEM_TABLE] = {"SET_MEM_TABLE", set_mem_table, TABLE_HEAD + REGION,
                       TABLE_HEAD + MOST_FILES *REGION, 1, MOST_FILES, 0},
    [SET_LOG_BASE] = {"SET_LOG_BASE", set_log_base, 2 * WORD, 2 * WORD, 1, 1, LOG_SHMFD_FEATURE},
    [SET_VRING_NUM] = {"SET_VRING_NUM", set_vring_num, STATE, STATE, 0, 0, 0},
    [SET_VRING_ADDR] = {"SET_VRING_ADDR", set_vring_addr, ADDRESSES, ADDRESSES, 0, 0, 0},
    [SET_VRING_BASE] = {"SET_VRING_BASE", set_vring_base, STATE, STATE, 0, 0, 0},
    [GET_VRING_BASE] = {"GET_VRING_BASE", get_vring_base, STATE, STATE, 0, 0, 0},
    [SET_VRING_KICK] = {"SET_VRING_KICK", set_vring_kick, WORD, WORD, 0, 1, 0},
    [SET_VRING_CALL] = {"SET_VRING_CALL", set_vring_call, WORD, WORD, 0, 1, 0},
    [SET_VRING_ERR] = {"SET_VRING_ERR", set_vring_err, WORD, WORD, 0, 1, 0},
    [GET_PROTOCOL_FEATURES] = {"GET_PROTOCOL_FEATURES", get_protocol_features, 0, 0, 0, 0, 0},
    [SET_PROTOCOL_FEATURES] = {"SET_PROTOCOL_FEATURES", set_protocol_features, WORD, WORD, 0, 0, 0},
    [GET_QUEUE_NUM] = {"GET_QUEUE_NUM", get_queue_num, 0, 0, 0, 0, MQ_FEATURE},
    [SET_VRING_ENABLE] = {"SET_VRING_ENABLE", set_vring_enable, STATE, STATE, 0, 0, 0},
    [SET_BACKEND_REQ_FD] = {"SET_BACKEND_REQ_FD", set_channel, 0, 0, 1, 1, BACKEND_REQ_FEATURE},
    [GET_CONFIG] = {"GET_CONFIG", get_config, CONFIG_HEAD, CONFIG_HEAD + MOST_CONFIG, 0, 0,
                    CONFIG_FEATURE},
    [SET_CONFIG] = {"SET_CONFIG", set_config, CONFIG_HEAD, CONFIG_HEAD + MOST_CONFIG, 0, 0,
                    CONFIG_FEATURE},
    [RESET_DEVICE] = {"RESET_DEVICE", reset_device, 0, 0, 0, 0, RESET_DEVICE_FEATURE},
    [VRING_KICK] = {"VRING_KICK", vring_kick, STATE, STATE, 0, 0, IN_BAND_FEATURE},
    [GET_MAX_MEM_SLOTS] = {"GET_MAX_MEM_SLOTS", get_max_mem_slots, 0, 0, 0, 0, MEM_SLOTS_FEATURE},
    [ADD_MEM_REG] = {"ADD_MEM_REG", add_mem_reg, WORD + REGION, WORD + REGION, 1, 1,
                     MEM_SLOTS_FEATURE},
    [REM_MEM_REG] = {"REM_MEM_REG", rem_mem_reg, WORD + REGION, WORD + REGION, 0, 1,
                     MEM_SLOTS_FEATURE},
    [SET_STATUS] = {"SET_STATUS", set_status, WORD, WORD, 0, 0, STATUS_FEATURE},
    [GET_STATUS] = {"GET_STATUS", get_status, 0, 0, 0, 0, STATUS_FEATURE},
    [SET_DEVICE_STATE_FD] = {"SET_DEVICE_STATE_FD", set_device_state_fd, STATE, STATE, 1, 1,
                             DEVICE_STATE_FEATURE},
    [CHECK_DEVICE_STATE] = {"CHECK_DEVICE_STATE", check_device_state, 0, 0, 0, 0,
                            DEVICE_STATE_FEATURE},
};

bool message_has_files(uint32_t request)
{
    return request < sizeof rules / sizeof rules[0] && rules[request].most_files > 0;
}

enum outcome answer_bytes(struct backend *backend, const struct message *message, const void *body,
                          size_t size)
{
    bool sent = backend->answer ? backend->answer(backend, message, body, size)
                                : message_answer(backend->socket, message, body, size);
    backend->gone = !sent;
    return backend->gone ? STOP : ANSWERED;
}

enum outcome answer_u64(struct backend *backend, const struct message *message, uint64_t value)
{
    return answer_bytes(backend, message, &value, sizeof value);
}

/* The rule of a message, or NULL, which is said, where it isn't as its rule has it. */
static const struct rule *rule_of(const struct backend *backend, const struct message *message)
{
    const struct rule *rule =
        message->request < sizeof rules / sizeof rules[0] ? &rules[message->request] : NULL;
    const struct files *files = &message->files;
    if (!rule || !rule->serve)
        refuse("message %u is unknown", message->request);
    else if (!message_is_request(message))
        refuse("%s has the flags 0x%x", rule->name, message->flags);
    else if (message->size < rule->least || message->size > rule->most)
        refuse("%s has %u bytes", rule->name, message->size);
    else if (files->lost || files->count < rule->least_files || files->count > rule->most_files)
        refuse("%s has %u files%s", rule->name, files->count, files->lost ? " and more" : "");
    else if (rule->needs & ~backend->told.protocol)
        refuse("%s isn't negotiated", rule->name);
    else
        return rule;
    return NULL;
}

/* Answers where the client waits for it, by a protocol feature. */
static bool answer_outcome(struct backend *backend, const struct message *message,
                           enum outcome outcome)
{
    if (outcome == ANSWERED || !(backend->told.protocol & REPLY_ACK_FEATURE) ||
        !message_wants_answer(message))
        return true;
    return answer_u64(backend, message, outcome == FAILED) == ANSWERED;
}

/* Calls the handler of a message. What comes of it is kept before any ring is started by it, and
 * before it is answered; one that was answered is kept with its turn. */
static void handle(struct backend *backend, struct message *message)
{
    const struct rule *rule = rule_of(backend, message);
    backend->outcome = rule ? rule->serve(backend, message) : STOP;
    files_close(&message->files);
    backend->counters.messages++;
    if (backend->keep && backend->outcome != ANSWERED)
        backend->keep(backend);
}

bool message_serve(struct backend *backend, struct message *message)
{
    if (backend->outcome == UNHANDLED)
        handle(backend, message);
    enum outcome outcome = backend->outcome;
    bool served =
        outcome != STOP && rings_settle(backend) && answer_outcome(backend, message, outcome);
    backend->outcome = UNHANDLED;
    return served;
}

bool client_tell(struct backend *backend, int queue)
{
    bool by_message =
        backend->channel >= 0 && (queue < 0 || (backend->told.protocol & IN_BAND_FEATURE));
    if (queue >= 0 && backend->rings[queue].call.file >= 0)
        return event_signal(&backend->rings[queue].call);
    /* A client with neither looks by itself. */
    return !by_message || message_tell(backend->channel, queue);
}
