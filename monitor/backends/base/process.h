/* What each of these programs is as a process: its standard files, the signals that end it, and how
 * many files it may open. */
#ifndef PROCESS_H
#define PROCESS_H
#include <poll.h>
#include <stdbool.h>
#include <stddef.h>
#include <sys/types.h>

/* Begins a program. Where standard input, output or error is closed, it is /dev/null from now on,
 * so that no other file is taken for it; lines go out as they end; a client that has gone is
 * noticed by what a write answers; signals that end it wait for process_end. */
void process_begin(void);

/* Writes to standard output or standard error without waiting, whatever they are: how many bytes;
 * -1 where there is no room. A pipe or a terminal is reopened for it, as how its file blocks is
 * shared with other processes. */
ssize_t file_put(int standard, const void *bytes, size_t length);

/* The file to poll for room on standard output. */
int file_of_output(void);

/* Lets the process open this many files, and says where the machine doesn't (RLIMIT_NOFILE). */
void process_allow_files(unsigned wanted);

/* Waits until a child has ended, for `milliseconds` at most: then it is killed. Whether it has
 * ended, and with which status. */
bool process_await(pid_t child, int milliseconds, int *status);

/* A file that has something to read once the process is to end, by SIGTERM, SIGINT or SIGHUP; -1,
 * which is said, where there can't be one. */
int process_end(void);

/* A file that has something to read once SIGHUP has come, which doesn't end the process: called
 * before process_end. -1, which is said, where there can't be one. */
int process_reload(void);

/* Takes one SIGHUP that has come; false where none has. */
bool process_took_reload(int file);

/* The process at the other end of a connection, by the kernel's word; 0 where this one has no
 * number for it, as it is in a namespace of its own; -1 where it is another user's. */
pid_t process_peer(int connection);

/* Takes a connection of this process's own user; -1 where there is none, or another user's, which
 * is said. */
int process_accept(int listener);

/* As poll, of files that are open. Where it can't wait, which is said, it comes back after a while,
 * and nothing has come. */
int poll_some(struct pollfd *files, nfds_t count, int limit);

/* Set once the process can't open files any longer. */
extern bool process_is_shut;

struct stat;

/* As fstat, but whether there is an answer. */
bool file_look(int file, struct stat *its);

/* The number that the kernel has of an open file by this name (/proc/self/fdinfo); -1 where it has
 * none, or where no file can be opened. */
int file_number(int file, const char *name);

/* Closes a file; says where that fails. Where closing is put off, it is closed at the next
 * files_let_go: until then a process that takes over where this one was may want it. */
void file_close(int file);

/* Whether closing is put off from now on; and closes what was put off. */
void files_put_off(bool puts_off);
void files_let_go(void);

#endif
