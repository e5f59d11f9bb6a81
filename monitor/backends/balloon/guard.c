#include "guard.h"

#include "backend.h"

#include <setjmp.h>
#include <signal.h>

/* It comes back with the signals that were blocked: none is while on_fault runs. */
static sigjmp_buf back;
static volatile sig_atomic_t guarded;

static void on_fault(int number)
{
    if (guarded)
        siglongjmp(back, 1);
    signal(number, SIG_DFL);
}

/* The first time: on_fault is for the signal. */
static void prepare(void)
{
    static bool prepared;
    struct sigaction action = {.sa_handler = on_fault, .sa_flags = SA_NODEFER};
    if (!prepared)
        prepared = sigaction(SIGBUS, &action, NULL) == 0;
}

int guard(int (*act)(void *what), void *what)
{
    prepare();
    if (sigsetjmp(back, 0)) {
        guarded = 0;
        return refuse("its memory's file has been cut off"), -1;
    }
    guarded = 1;
    int answer = act(what);
    guarded = 0;
    return answer;
}
