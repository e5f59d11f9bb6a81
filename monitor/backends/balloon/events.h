/* Files by which two processes tell each other that something has happened: eventfds, and pipes and
 * sockets for one way of the two. A file of another sort is refused: its other end, or another
 * process that has it open, could make this process wait, or never rest. */
#ifndef EVENTS_H
#define EVENTS_H
#include <stdbool.h>
#include <stddef.h>
#include <sys/types.h>

struct event {
    int file; /* -1: none */
    bool is_socket;
};

#define NO_EVENT ((struct event){-1, false})

/* Whether a file is a stream socket of this machine: a send to one of another sort may wait. */
bool is_stream(int file);

/* Takes an eventfd that is read here in place of the file before. False where it is no eventfd, or
 * one whose reads don't take all that was told (EFD_SEMAPHORE), and then it is closed. */
bool event_take_kick(struct event *event, int file);

/* Takes an eventfd, a pipe or a stream socket that is written here in place of the file before;
 * false where it is another file, and then it is closed. */
bool event_take_call(struct event *event, int file);

/* Closes its file, if it has one. */
void event_close(struct event *event);

/* Takes what has been told: 1; 0 where nothing was; -1 where it can't be read. It waits for
  * nobody. */
int event_read(const struct event *event);

/* Tells the other end; false where that has gone. Where it hasn't read what it was told before, and
 * no more can be told, it knows. */
bool event_signal(const struct event *event);

/* Whether a file is a pipe or a stream socket, which doesn't block from now on. */
bool pipe_take(int file);

/* Writes to such a file, or reads from it, without waiting, whatever the other end makes of its
 * flags: how many bytes; 0 where none can be just now, or where the end has come, which is `ended`;
 * -1 where none ever can. */
ssize_t pipe_write(int file, const void *bytes, size_t length);
ssize_t pipe_read(int file, void *to, size_t length, bool *ended);

#endif
