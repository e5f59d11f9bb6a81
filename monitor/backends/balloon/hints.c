#include "hints.h"

#include "backend.h"
#include "codes.h"

#include <inttypes.h>
#include <stdio.h>

static void begin(struct backend *backend)
{
    uint32_t id, code = balloon_begin_hints(&backend->balloon, &id);
    if (code != VB_OK) {
        printf("error: no round begins: %s\n", answer_words(code));
        return;
    }
    backend->hints.rounds++;
    backend_tell_change(backend);
    printf("round %" PRIu32 "\n", id);
}

/* Stops the round, or ends it. */
static void finish(struct backend *backend, void (*call)(struct balloon *balloon))
{
    call(&backend->balloon);
    backend_tell_change(backend);
    puts("ok");
}

bool hints_line(struct backend *backend, const char *line)
{
    if (!strcmp(line, "hint start"))
        begin(backend);
    else if (!strcmp(line, "hint stop"))
        finish(backend, balloon_stop_hints);
    else if (!strcmp(line, "hint done"))
        finish(backend, balloon_end_hints);
    else
        return false;
    return true;
}

void hints_go_on(struct backend *backend, VbBalloon before)
{
    VbSettings settings = backend->balloon.state.device.settings;
    const VbRegion memory = {.length = settings.memory_end};
    uint32_t then;
    settings.memory_end = before.device.settings.memory_end;
    if (memcmp(&settings, &before.device.settings, sizeof settings) == 0 &&
        vb_set_status(&before, 0, &then) == 0 && vb_set_regions(&before, &memory, 1) == VB_OK)
        backend->balloon.state = before;
}
