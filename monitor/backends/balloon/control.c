/* The control pipe: a line in, a line out. */
#include "audit.h"
#include "backend.h"
#include "hints.h"

#include <inttypes.h>
#include <stdio.h>
#include <unistd.h>

#define PRINT_COUNTER(name) printf(" " #name " %" PRIu64, it->name);
#define PRINT_HINTS(name) printf(" hints_" #name " %" PRIu64, backend->hints.name);

static void print_counters(const struct backend *backend)
{
    const VbDevice *device = &backend->balloon.state.device;
    const struct counters *it = &backend->counters;
    printf("target %" PRIu32 " actual %" PRIu32 " status %u held_kib %" PRIu64 " end %" PRIu64,
           device->target, device->actual, device->status, memory_held(&backend->memory),
           device->settings.memory_end / BALLOON_PAGE);
    COUNTERS(PRINT_COUNTER)
    HINT_COUNTERS(PRINT_HINTS)
    putchar('\n');
}

uint32_t statistics_room(uint32_t count)
{
    return count < MOST_TAGS ? count : MOST_TAGS;
}

static void print_statistics(const struct backend *backend)
{
    printf("statistics %" PRIu64, backend->counters.statistics);
    for (uint32_t i = 0; i < backend->figure_count; i++)
        printf(" %s %" PRIu64, tag_name(backend->figures[i].tag), backend->figures[i].value);
    putchar('\n');
}

bool backend_ask(struct backend *backend, bool *asked)
{
    const VbDevice *device = &backend->balloon.state.device;
    *asked = false;
    for (unsigned number = 0; number < QUEUES; number++) {
        if (vb_kind(device, number) != VB_STATISTICS || !backend_is_ready(backend))
            continue;
        audit_before(backend, number);
        struct balloon_result result = balloon_ask_statistics(&backend->balloon);
        audit_after(backend, number);
        *asked = result.code == VB_OK;
        return backend_finish(backend, VB_STATISTICS, &result);
    }
    return true;
}

/* `counters` and `statistics` say when what is asked for has come. */
static bool ask(struct backend *backend)
{
    bool asked, served = backend_ask(backend, &asked);
    puts(asked ? "asked" : "nothing");
    return served;
}

static void set_target(struct backend *backend, const char *number)
{
    uint64_t pages;
    if (!read_number(number, 10, UINT32_MAX, &pages)) {
        puts("error: target PAGES");
        return;
    }
    balloon_set_target(&backend->balloon, (uint32_t)pages);
    backend->seen = backend->balloon.state.device.actual;
    backend_tell_change(backend);
    puts("ok");
}

int control_read(struct control_line *line, int (*obey)(void *context, const char *line),
                 void *context)
{
    ssize_t got = read(STDIN_FILENO, line->bytes + line->length, sizeof line->bytes - line->length);
    line->ended = got == 0;
    if (got <= 0)
        return got < 0 && errno == EINTR;
    line->length += (size_t)got;
    for (char *end; (end = memchr(line->bytes, '\n', line->length));) {
        *end = 0;
        bool whole = !line->cut && line->bytes + strlen(line->bytes) == end;
        int obeyed = obey(context, whole ? line->bytes : "");
        if (obeyed <= 0)
            return obeyed;
        line->cut = false;
        line->length -= (size_t)(end + 1 - line->bytes);
        memmove(line->bytes, end + 1, line->length);
    }
    if (line->length == sizeof line->bytes)
        line->length = 0, line->cut = true;
    return 1;
}

int control_obey(struct backend *backend, const char *line)
{
    bool served = true;
    if (!strcmp(line, "quit")) {
        backend->ended = true;
        return 0;
    }
    if (!strncmp(line, "target ", 7))
        set_target(backend, line + 7);
    else if (!strcmp(line, "counters"))
        print_counters(backend);
    else if (!strcmp(line, "statistics"))
        print_statistics(backend);
    else if (!strcmp(line, "ask"))
        served = ask(backend);
    else if (!hints_line(backend, line) && !audit_line(backend, line))
        puts("error: target PAGES, counters, statistics, ask, hint start, hint stop, hint done or "
             "quit");
    return served ? 1 : -1;
}
