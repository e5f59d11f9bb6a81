/* What holds a guest's process beside the filter of its system calls, should that have a gap. */
#ifndef CONFINEMENT_H
#define CONFINEMENT_H
#include <stdbool.h>
#include <sys/types.h>

/* Numbers of files that a guest's process has are below this. */
enum { MOST_OPEN = 206 };

/* Forks as fork(2), with the same table of files: where that is wanted, and the kernel gives them,
 * into namespaces of processes and of users of the child's own, in which it is process 1. */
pid_t confinement_fork(bool is_alone);

/* In such a child: its user is that of its parent, and each other one is nobody; false where the
 * kernel doesn't let it. */
bool confinement_keeps_user(void);

/* From now on the kernel kills it before its lender where memory runs out, and gives it no more of
 * the processors than any other; it has little memory of its own, few files and no child, opens no
 * path, connects to nobody, and signals and traces nobody else (Landlock). What the kernel doesn't
 * give is said, once a process, and the process continues without. It has to have given up new
 * privileges before. */
void confinement_enter(void);

#endif
