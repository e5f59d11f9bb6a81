#include "opened.h"

#include "../../backends/process/kept.h"
#include "client.h"
#include "script.h"

#include <poll.h>
#include <unistd.h>

/* Numbers of files. */
enum { ROOM = 256 };

static bool before[ROOM];

static void look(bool are_open[ROOM])
{
    struct pollfd files[ROOM] = {0};
    for (int file = 0; file < ROOM; file++)
        files[file].fd = file;
    demand(poll(files, ROOM, 0) >= 0);
    for (int file = 0; file < ROOM; file++)
        are_open[file] = !(files[file].revents & POLLNVAL);
}

void opened_begin(void)
{
    look(before);
}

/* Whether somebody has a file that is open. */
static bool is_named(const struct kept *kept, int lender, int its)
{
    int files[MOST_KEPT_FILES];
    unsigned count = kept_files(kept, files);
    while (count > 0 && files[count - 1] != its)
        count--;
    return count > 0 || before[its] || its == lender || client_has(its);
}

void opened_check(const struct kept *kept, int lender)
{
    bool now[ROOM];
    look(now);
    for (int file = 0; file < ROOM; file++)
        demand(!now[file] || is_named(kept, lender, file) || kept->inbox.message.files.lost);
}

void opened_close_others(const struct kept *kept, int lender)
{
    bool now[ROOM];
    look(now);
    for (int file = 0; file < ROOM; file++)
        if (now[file] && !is_named(kept, lender, file))
            close(file);
}

void opened_close_all(void)
{
    bool now[ROOM];
    look(now);
    for (int file = 0; file < ROOM; file++)
        if (now[file] && !before[file])
            close(file);
}
