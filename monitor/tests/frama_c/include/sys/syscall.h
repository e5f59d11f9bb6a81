/* What Frama-C's headers lack of Linux's calls. */
#ifndef SYSCALL_H
#define SYSCALL_H
enum { SYS_pidfd_open = 434, SYS_process_madvise = 440 };
long syscall(long number, ...);
#endif
