/* What a guest's process may still do once its client's bytes are read: serve, and no more. */
#ifndef SANDBOX_H
#define SANDBOX_H
#include <stdbool.h>
#include <stdint.h>

/* The compiler's checks make system calls of their own: a build with them has no sandbox. */
#ifdef __SANITIZE_ADDRESS__
enum { HAS_SANDBOX = 0 };
#else
enum { HAS_SANDBOX = 1 };
#endif

/* Gives up all privileges but those of this mask of capabilities, and new ones; false, with errno,
 * where it can't. */
bool privileges_give_up(uint32_t but);

/* From now on the process has no privileges and gets none, and a system call that it has no use for
 * ends it (seccomp). It opens and names no file, and sends none; and it is confined
 * (confinement.h). False, which is said, where the machine doesn't allow that. */
bool sandbox_enter(void);

#endif
