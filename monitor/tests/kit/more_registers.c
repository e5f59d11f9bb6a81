/* Has User Mode Linux before 6.13 run on a processor with more registers than it has room for
 * (AMX): the kernel takes all of a process's registers or none, and User Mode Linux, which sets
 * those that it knows, would end by a panic as it boots. Preloaded (LD_PRELOAD), it sets these, and
 * leaves the others as they are. */
#define _GNU_SOURCE
#include <elf.h>
#include <stdarg.h>
#include <stdbool.h>
#include <string.h>
#include <sys/ptrace.h>
#include <sys/syscall.h>
#include <sys/types.h>
#include <sys/uio.h>
#include <unistd.h>

/* Bytes of the registers of any processor. */
enum { MOST_REGISTERS = 1 << 16 };

/* Sets the first of a process's registers. */
static long set_first(pid_t process, void *kind, const struct iovec *first)
{
    static char bytes[MOST_REGISTERS];
    struct iovec all = {bytes, sizeof bytes};
    long answer = syscall(SYS_ptrace, PTRACE_GETREGSET, process, kind, &all);
    if (answer)
        return answer;
    memcpy(bytes, first->iov_base, first->iov_len < all.iov_len ? first->iov_len : all.iov_len);
    return syscall(SYS_ptrace, PTRACE_SETREGSET, process, kind, &all);
}

long ptrace(enum __ptrace_request request, ...)
{
    va_list words;
    va_start(words, request);
    pid_t process = va_arg(words, pid_t);
    void *address = va_arg(words, void *), *data = va_arg(words, void *);
    va_end(words);
    if (request == PTRACE_SETREGSET && address == (void *)NT_X86_XSTATE)
        return set_first(process, address, data);
    long word = 0;
    bool peeks =
        request == PTRACE_PEEKTEXT || request == PTRACE_PEEKDATA || request == PTRACE_PEEKUSER;
    long answer = syscall(SYS_ptrace, request, process, address, peeks ? &word : data);
    return peeks && answer == 0 ? word : answer;
}
