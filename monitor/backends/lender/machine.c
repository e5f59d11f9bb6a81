/* How much memory the machine leaves to its guests. */
#include "host.h"

#include <fcntl.h>
#include <inttypes.h>
#include <stdlib.h>
#include <unistd.h>

/* Milliseconds between two looks; the budget rises by a part of the most at each. */
enum { FOLLOW_EVERY = 1000, STEPS_TO_MOST = 64 };

/* Percent of the last ten seconds in which work waited for memory, from which on the machine is
 * pressed. */
enum { PRESSED_PERCENT = 10 };

enum { MOST_TEXT = 8192, LONGEST_PATH = 4096 };

/* Reads a file of the machine's; false with errno where it can't. */
static bool read_text(const struct machine *machine, const char *name, char text[MOST_TEXT])
{
    char path[LONGEST_PATH];
    snprintf(path, sizeof path, "%s/%s", machine->folder ? machine->folder : "/proc", name);
    int file = open(path, O_RDONLY | O_CLOEXEC | O_NONBLOCK);
    if (file < 0)
        return false;
    ssize_t length = read(file, text, MOST_TEXT - 1);
    int why = errno;
    file_close(file);
    text[length > 0 ? length : 0] = 0;
    return errno = why, length >= 0;
}

/* Pages that the kernel calls available; false with errno where it doesn't say. */
static bool read_available(const struct machine *machine, uint32_t *pages)
{
    static const char name[] = "\nMemAvailable:";
    char text[MOST_TEXT], *end;
    if (!read_text(machine, "meminfo", text))
        return false;
    const char *at = strstr(text, name);
    uint64_t kibibytes = at ? strtoull(at + sizeof name - 1, &end, 10) : 0;
    if (!at || strncmp(end, " kB\n", 4) != 0)
        return errno = ENODATA, false;
    uint64_t number = kibibytes / PAGE_KIB;
    *pages = number < UINT32_MAX ? (uint32_t)number : UINT32_MAX;
    return true;
}

/* Whether the machine's own work waits for memory; a kernel that doesn't say has none that does. */
static bool is_pressed(const struct machine *machine)
{
    static const char name[] = "some avg10=";
    char text[MOST_TEXT];
    return read_text(machine, "pressure/memory", text) && !strncmp(text, name, sizeof name - 1) &&
           strtoul(text + sizeof name - 1, NULL, 10) >= PRESSED_PERCENT;
}

/* The budget as the machine has it now; false with errno where that can't be read. */
static bool find_budget(const struct host *host, uint32_t *budget)
{
    const struct machine *machine = &host->machine;
    VbMachine it = {.budget = host->frames, .most = host->budget, .keep = machine->keep};
    if (!read_available(machine, &it.available))
        return false;
    uint64_t held = host_held(host) / PAGE_KIB;
    it.least = machine->lowest > 0 ? machine->lowest : 1;
    it.held = held < UINT32_MAX ? (uint32_t)held : UINT32_MAX;
    it.step = host->budget / STEPS_TO_MOST + 1;
    it.pressed = is_pressed(machine);
    *budget = vb_policy_budget(&it);
    return true;
}

/* The machine couldn't be read: the budget stays, and that is said once. */
static void fail(struct host *host)
{
    if (!host->machine.fails)
        complain("the budget stays: MemAvailable of the machine: %s", strerror(errno));
    host->machine.fails = true;
}

void machine_follow(struct host *host)
{
    struct machine *machine = &host->machine;
    uint32_t budget;
    if (machine->keep == 0 || loop_now() < machine->follows_at || host_awaits(host))
        return;
    machine->follows_at = loop_now() + FOLLOW_EVERY;
    if (!find_budget(host, &budget)) {
        fail(host);
        return;
    }
    machine->fails = false;
    host->news |= budget != host->frames;
    host->frames = budget;
}

bool machine_begin(struct host *host)
{
    uint32_t budget;
    if (host->machine.keep == 0)
        return true;
    if (!find_budget(host, &budget))
        return say_fault("keep: MemAvailable of the machine: %s", strerror(errno));
    machine_follow(host);
    return true;
}
