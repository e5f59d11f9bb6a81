#include "vhost_user.h"

#include <string.h>
#include <sys/socket.h>

enum { VERSION_MASK = 3, VERSION = 1, IS_REPLY = 4, NEEDS_REPLY = 8 };

bool message_is_request(const struct message *message)
{
    return (message->flags & (VERSION_MASK | IS_REPLY)) == VERSION;
}

bool message_wants_answer(const struct message *message)
{
    return message->flags & NEEDS_REPLY;
}

uint32_t message_u32(const struct message *message, unsigned at)
{
    uint32_t word = 0;
    if (at + sizeof word <= message->size)
        memcpy(&word, message->body + at, sizeof word);
    return word;
}

uint64_t message_u64(const struct message *message, unsigned at)
{
    uint64_t word = 0;
    if (at + sizeof word <= message->size)
        memcpy(&word, message->body + at, sizeof word);
    return word;
}

/* Puts a message into `bytes`; how many there are, 0 where there are too many. */
static size_t make_message(uint32_t request, uint32_t flags, const void *body, size_t size,
                           uint8_t bytes[MOST_MESSAGE])
{
    uint32_t head[3] = {request, flags, (uint32_t)size};
    if (size > MOST_BODY)
        return 0;
    memcpy(bytes, head, sizeof head);
    memcpy(bytes + sizeof head, body, size);
    return sizeof head + size;
}

/* Sends one message whole, or not at all: a short one is one buffer of the socket. */
static bool send_message(int to, uint32_t request, uint32_t flags, const void *body, size_t size)
{
    uint8_t bytes[MOST_MESSAGE];
    size_t length = make_message(request, flags, body, size, bytes);
    return length > 0 && send(to, bytes, length, MSG_DONTWAIT | MSG_NOSIGNAL) == (ssize_t)length;
}

size_t message_answer_bytes(const struct message *message, const void *body, size_t size,
                            uint8_t bytes[MOST_MESSAGE])
{
    return make_message(message->request, VERSION | IS_REPLY, body, size, bytes);
}

bool message_answer(int socket, const struct message *message, const void *body, size_t size)
{
    return send_message(socket, message->request, VERSION | IS_REPLY, body, size);
}

bool message_tell(int channel, int queue)
{
    uint32_t words[2] = {(uint32_t)queue, 0};
    if (queue < 0)
        return send_message(channel, CONFIG_CHANGED, VERSION, words, 0);
    return send_message(channel, VRING_CALL, VERSION, words, sizeof words);
}
