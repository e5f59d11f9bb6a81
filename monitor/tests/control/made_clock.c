/* A host whose clocks are made: each moves as it is read, by as long as a call may serve clients. A
 * call that reads it again finds its time over, to the moment. And its kernel waits for no more
 * files at once than WAITS says, where that is set. */
#include "../../backends/base/loop.h"
#include "../../backends/control/control.h"

#include <errno.h>
#include <stdlib.h>
#include <sys/epoll.h>

double __wrap_loop_seconds(void);
double __wrap_loop_processor_seconds(void);
int __wrap_epoll_ctl(int waits, int operation, int file, struct epoll_event *event);
int __real_epoll_ctl(int waits, int operation, int file, struct epoll_event *event);

double __wrap_loop_seconds(void)
{
    static double seconds;
    return seconds += CONTROL_SECONDS;
}

double __wrap_loop_processor_seconds(void)
{
    static double seconds;
    return seconds += CONTROL_SECONDS;
}

int __wrap_epoll_ctl(int waits, int operation, int file, struct epoll_event *event)
{
    static int count;
    const char *most = getenv("WAITS");
    if (operation == EPOLL_CTL_ADD && most && count >= atoi(most)) {
        errno = ENOSPC;
        return -1;
    }
    int code = __real_epoll_ctl(waits, operation, file, event);
    if (code == 0)
        count += (operation == EPOLL_CTL_ADD) - (operation == EPOLL_CTL_DEL);
    return code;
}
