#include "inbox.h"

#include <string.h>

enum { HEAD = sizeof((struct inbox *)0)->head };

static size_t least(size_t one, size_t other)
{
    return one < other ? one : other;
}

/* Whether the files that came beside the last bytes are the next message's: those of a message
 * without a body, of which a part may be the next one's, are its own where such messages have
 * some. */
static bool are_the_next_ones(const struct inbox *inbox)
{
    return inbox->ahead > 0 && !message_has_files(inbox->message.request);
}

/* Notes bytes that have come, and the files beside them. The bytes of the head are noted last: what
 * comes after a head counts once that is whole, and a process that continues where this one ended
 * before the last of these notes finds that the head's bytes lack alone. */
static void note(struct inbox *inbox, size_t length)
{
    struct message *message = &inbox->message;
    size_t of_head = least(length, HEAD - inbox->got), rest = length - of_head, of_body = 0;
    if (inbox->got + of_head == HEAD) {
        message->request = inbox->head[0];
        message->flags = inbox->head[1];
        message->size = inbox->head[2];
        of_body = least(rest, message->size - least(inbox->got_body, message->size));
        inbox->ahead = (uint32_t)(rest - of_body);
    }
    if (inbox->got + of_head < HEAD || !are_the_next_ones(inbox))
        files_take(&message->files);
    __atomic_store_n(&inbox->got_body, inbox->got_body + of_body, __ATOMIC_RELEASE);
    __atomic_store_n(&inbox->got, inbox->got + of_head, __ATOMIC_RELEASE);
}

enum stream_state inbox_take(int socket, struct inbox *inbox, size_t *came)
{
    struct message *message = &inbox->message;
    struct iovec begin[] = {{(uint8_t *)inbox->head + inbox->got, HEAD - inbox->got},
                            {message->body, LEAST_BODY}},
                 rest = {message->body + inbox->got_body, message->size - inbox->got_body};
    bool begins = inbox->got < HEAD;
    return stream_some(socket, begins ? begin : &rest, begins ? 2 : 1, &message->files.beside,
                       came);
}

enum stream_state inbox_read(int socket, struct inbox *inbox)
{
    const struct files *files = &inbox->message.files;
    enum stream_state state = STREAM_WHOLE;
    size_t came;
    while (state == STREAM_WHOLE && !inbox_is_whole(inbox)) {
        bool lost = files->lost;
        /* The process before may have ended as it had read the head alone. */
        if (inbox->got == HEAD && inbox->message.size > MOST_BODY)
            return STREAM_WRONG;
        state = inbox_take(socket, inbox, &came);
        if (state == STREAM_WHOLE)
            note(inbox, came);
        /* Files without room stay open: no more of them come than with one read. */
        if (state == STREAM_WHOLE && lost && files->beside.header.msg_controllen > 0)
            return STREAM_WRONG;
    }
    return state;
}

/* The number is last: a process that finds the one before continues from here. What was read
 * ahead stays where it is until the next read. */
void inbox_next(struct inbox *inbox)
{
    struct files *files = &inbox->message.files;
    memcpy(inbox->head, inbox->message.body, least(inbox->ahead, LEAST_BODY));
    files->count = 0;
    files->lost = false;
    if (are_the_next_ones(inbox))
        files_take(files);
    inbox->got_body = 0;
    inbox->got = least(inbox->ahead, LEAST_BODY);
    __atomic_store_n(&inbox->number, inbox->number + 1, __ATOMIC_RELEASE);
}

size_t inbox_length(const struct inbox *inbox)
{
    return inbox->got + inbox->got_body;
}

size_t inbox_bytes(const struct inbox *inbox)
{
    return inbox_length(inbox) + (inbox->got == HEAD ? inbox->ahead : 0);
}

bool inbox_is_whole(const struct inbox *inbox)
{
    return inbox->got == HEAD && inbox->got_body == inbox->head[2];
}

bool inbox_regain(struct inbox *inbox, uint64_t length)
{
    if (length == 0)
        return true;
    if (inbox->got > HEAD)
        return false;
    size_t size = least(inbox->message.size, MOST_BODY), left = size - least(inbox->got_body, size);
    if (length > (inbox->got < HEAD ? HEAD - inbox->got + LEAST_BODY : left))
        return false;
    note(inbox, length);
    return true;
}

struct files inbox_files_ahead(const struct inbox *inbox)
{
    struct files files = {.beside = inbox->message.files.beside};
    if (inbox->got == HEAD && are_the_next_ones(inbox))
        files_take(&files);
    return files;
}

void inbox_close(struct inbox *inbox)
{
    struct files ahead = inbox_files_ahead(inbox);
    files_close(&inbox->message.files);
    files_close(&ahead);
}
