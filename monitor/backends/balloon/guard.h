/* Survives SIGBUS where a client truncates its memory file: an access there fails, and ends that
 * client alone. */
#ifndef GUARD_H
#define GUARD_H

/* Does something with a guest's memory: what `act` answers, or -1 where the memory's file ends
 * before the memory does. */
int guard(int (*act)(void *what), void *what);

#endif
