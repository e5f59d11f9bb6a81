#include "sandbox.h"

#include "confinement.h"

#include "../base/say.h"

#include <errno.h>
#include <fcntl.h>
#include <linux/capability.h>
#include <seccomp.h>
#include <signal.h>
#include <string.h>
#include <sys/mman.h>
#include <sys/prctl.h>
#include <sys/syscall.h>
#include <unistd.h>

/* A call that may be made, none of which takes a path; with an argument that has to be as it is
 * said, where there is a mask or a value to compare. */
struct allowed {
    int call;
    bool compares;
    struct scmp_arg_cmp argument;
};

#define ANY(name)                                                                                  \
    {                                                                                              \
        SCMP_SYS(name), false,                                                                     \
        {                                                                                          \
            0, SCMP_CMP_EQ, 0, 0                                                                   \
        }                                                                                          \
    }
#define WITH(name, ...)                                                                            \
    {                                                                                              \
        SCMP_SYS(name), true,                                                                      \
        {                                                                                          \
            __VA_ARGS__                                                                            \
        }                                                                                          \
    }

static const struct allowed calls[] = {
    /* The client, the lender, kicks and interrupts. No file goes to anybody: there is no
      * sendmsg. */
    ANY(accept4),
    ANY(recvmsg),
    ANY(recvmmsg),
    WITH(sendto, 4, SCMP_CMP_EQ, 0, 0),
    ANY(poll),
    ANY(ppoll),
    ANY(getsockopt),
    ANY(read),
    ANY(write),
    ANY(preadv2),
    ANY(pread64),
    ANY(splice),
    ANY(setitimer),
    ANY(close),
    /* The guest's memory, which is never code. */
    WITH(mmap, 2, SCMP_CMP_MASKED_EQ, PROT_EXEC, 0),
    ANY(munmap),
    ANY(madvise),
    ANY(fallocate),
    ANY(fstatfs),
    ANY(fstat),
    ANY(lseek),
    WITH(fcntl, 1, SCMP_CMP_EQ, F_GETFL, 0),
    WITH(fcntl, 1, SCMP_CMP_EQ, F_SETFL, 0),
    WITH(fcntl, 1, SCMP_CMP_EQ, F_ADD_SEALS, 0),
    /* The C library, signals, the end. */
    ANY(brk),
    ANY(mremap),
    ANY(clock_gettime),
    ANY(gettimeofday),
    ANY(getrandom),
    ANY(rt_sigaction),
    ANY(rt_sigprocmask),
    ANY(rt_sigreturn),
    ANY(restart_syscall),
    ANY(futex),
    ANY(exit),
    ANY(exit_group),
    /* What abort() makes beside tgkill, and the C library before it. */
    ANY(getpid),
    ANY(gettid),
    WITH(writev, 0, SCMP_CMP_EQ, STDERR_FILENO, 0),
};

/* Allows each call of the list; 0 or an errno, negative. */
static int allow(scmp_filter_ctx filter)
{
    int code = 0;
    for (unsigned i = 0; i < sizeof calls / sizeof calls[0] && code == 0; i++)
        code = seccomp_rule_add_array(filter, SCMP_ACT_ALLOW, calls[i].call, calls[i].compares,
                                      &calls[i].argument);
    /* A process may abort itself, and signals nobody else. */
    const struct scmp_arg_cmp itself[] = {{0, SCMP_CMP_EQ, (scmp_datum_t)getpid(), 0},
                                          {2, SCMP_CMP_EQ, SIGABRT, 0}};
    return code == 0 ? seccomp_rule_add_array(filter, SCMP_ACT_ALLOW, SCMP_SYS(tgkill), 2, itself)
                     : code;
}

/* Gives up privileges, also those that the lender may have for the sake of limits, and new ones. */
bool privileges_give_up(uint32_t but)
{
    struct __user_cap_header_struct head = {_LINUX_CAPABILITY_VERSION_3, 0};
    struct __user_cap_data_struct its[_LINUX_CAPABILITY_U32S_3];
    if (syscall(SYS_capget, &head, its))
        return false;
    const struct __user_cap_data_struct left[_LINUX_CAPABILITY_U32S_3] = {
        {but & its->permitted, but & its->permitted, 0}};
    return !syscall(SYS_capset, &head, left) && !prctl(PR_SET_NO_NEW_PRIVS, 1, 0, 0, 0);
}

bool sandbox_enter(void)
{
    if (!privileges_give_up(0))
        return complain("privileges can't be given up: %s", strerror(errno)), false;
    confinement_enter();
    scmp_filter_ctx filter = seccomp_init(SCMP_ACT_KILL_PROCESS);
    if (!filter)
        return complain("there is no memory for a filter of system calls"), false;
    int code = allow(filter);
    code = code == 0 ? seccomp_load(filter) : code;
    seccomp_release(filter);
    if (code != 0)
        complain("system calls can't be filtered: %s", strerror(-code));
    return code == 0;
}
