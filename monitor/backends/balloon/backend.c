#include "backend.h"

#include "audit.h"
#include "codes.h"
#include "large.h"

#include <stdarg.h>
#include <stdio.h>
#include <unistd.h>

void remark(struct backend *backend, const char *format, ...)
{
    char line[MOST_REMARK];
    va_list words;
    if (backend->remarks++ >= MOST_REMARKS)
        return;
    va_start(words, format);
    vsnprintf(line, sizeof line, format, words);
    va_end(words);
    complain("%s", line);
}

/* Counts the pages of a request that was served. */
static void count_pages(void *context, uint32_t kind, const VbRun *runs, uint32_t count)
{
    struct backend *backend = context;
    uint64_t pages = 0;
    for (uint32_t i = 0; i < count; i++)
        pages += runs[i].count;
    backend->counters.inflated += kind == VB_INFLATE ? pages : 0;
    backend->counters.deflated += kind == VB_DEFLATE ? pages : 0;
    backend->counters.reported += kind == VB_REPORT ? pages : 0;
    backend->counters.reports += kind == VB_REPORT;
    backend->hints.pages += kind == VB_HINT ? pages : 0;
    audit_pages(backend, kind);
}

static void hear_statistics(void *context, const VbStatistic *figures, uint32_t count)
{
    statistics_keep(context, figures, count);
}

/* Copies what a driver has posted, wherever that lies, and no page is held for it; the ring is
 * there, and was placed for the queue. */
static void copy(void *context, const struct balloon_region *region, uint64_t at, uint8_t *to,
                 size_t length)
{
    const struct backend *backend = context;
    if (ring_describes(backend, backend->balloon.notice.kind, region->guest + at))
        balloon_read_once(to, region->host + at, length);
    else
        memory_copy(region, at, to, length);
}

bool backend_start(struct backend *backend, const struct options *options)
{
    /* Where memory ends is known when the client hands it over. */
    VbSettings settings = {.memory_end = 2ull * BALLOON_PAGE,
                           .offered =
                               options->features | (options->hints ? VB_F_FREE_PAGE_HINT : 0),
                           .skips_bad_pages = !options->strict,
                           .holds_deflates = options->holds,
                           .needs_must_tell = options->holds,
                           .discards_hints = options->discards_hints};
    static struct moved_room room;
    backend->options = options;
    backend->room = &room;
    backend->socket = backend->listener = backend->channel = -1;
    rings_clear(backend);
    if (balloon_init(&backend->balloon, backend->memory.regions, 0, settings) != VB_OK)
        return refuse("the device can't offer the features 0x%llx",
                      (unsigned long long)options->features);
    backend->balloon.most_chains = MOST_CHAINS;
    backend->balloon.most_pages = MOST_PAGES;
    backend->balloon.context = backend;
    backend->balloon.copy = copy;
    backend->balloon.on_pages = count_pages;
    backend->balloon.on_statistics = hear_statistics;
    backend->balloon.keeps_pages = options->keep;
    return true;
}

void backend_leave(struct backend *backend)
{
    rings_close(backend);
    if (backend->channel >= 0)
        file_close(backend->channel);
    backend->channel = -1;
    backend_forget_migration(backend);
    memory_clear(&backend->memory);
}

void backend_forget_migration(struct backend *backend)
{
    transfer_forget(backend);
    dirty_log_forget(&backend->log);
    backend->balloon.on_written = NULL;
}

bool backend_is_ready(const struct backend *backend)
{
    return backend->balloon.state.device.status & BALLOON_DRIVER_OK;
}

void backend_tell_change(struct backend *backend)
{
    if (!backend_is_ready(backend))
        return; /* a driver reads its configuration as it starts */
    backend->counters.told++;
    if (!backend->tell(backend, -1))
        remark(backend, "the client can't be told of a change");
}

void backend_look(struct backend *backend)
{
    uint32_t actual = backend->balloon.state.device.actual;
    if (backend_is_ready(backend) && balloon_is_off_target(&backend->balloon) &&
        actual == backend->seen)
        backend_tell_change(backend);
    backend->seen = actual;
}

/* Tells of the used buffers of a result. */
static bool interrupt(struct backend *backend, const struct balloon_result *result)
{
    for (unsigned number = 0; number < QUEUES; number++) {
        uint32_t kind = vb_kind(&backend->balloon.state.device, number);
        if (kind >= VB_NO_KIND || !(result->interrupts & 1u << kind))
            continue;
        backend->counters.interrupts++;
        if (!backend->tell(backend, (int)number))
            return refuse("the client can't be told of a used buffer");
    }
    return true;
}

/* The least target that its driver may obey: what it deflates toward that it doesn't take by
 * itself. */
static uint32_t least_target(const struct backend *backend)
{
    uint32_t target = backend->balloon.state.device.target,
             obeyed = backend->obeyed ? backend->obeyed(backend) : target;
    return obeyed < target ? obeyed : target;
}

/* What a queue of this kind has done to the set of ballooned pages: inflates put pages in, deflates
 * take them out. */
static void count_marks(struct backend *backend, uint32_t kind, uint32_t marked)
{
    uint32_t before = backend->ballooned;
    if (kind == VB_INFLATE)
        backend->ballooned += marked;
    if (kind == VB_DEFLATE)
        backend->ballooned -= marked;
    backend->counters.taken += counters_taken(before, backend->ballooned, least_target(backend));
}

uint32_t backend_given(const struct backend *backend)
{
    uint64_t ballooned = backend->ballooned, held = backend->undiscarded + large_held(backend);
    return held < ballooned ? (uint32_t)(ballooned - held) : 0;
}

/* Which of a balloon's pages couldn't be discarded isn't known: those that leave it are others, as
 * long as there are any. */
static void count_undiscarded(struct backend *backend, uint32_t kind,
                              const struct balloon_result *result)
{
    uint64_t pages = backend->undiscarded;
    if (kind == VB_INFLATE && result->error)
        pages += result->kept;
    backend->undiscarded = pages < backend->ballooned ? (uint32_t)pages : backend->ballooned;
}

bool backend_finish(struct backend *backend, uint32_t kind, const struct balloon_result *result)
{
    counters_add(&backend->counters, result);
    backend->hints.late += result->late;
    count_marks(backend, kind, (uint32_t)result->marked);
    count_undiscarded(backend, kind, result);
    if (result->error)
        remark(backend, "%llu pages can't be discarded: %s", (unsigned long long)result->kept,
               strerror(result->error));
    if (result->held && backend->held)
        backend->held(backend, result->held_pages);
    if (backend->log.is_short)
        return refuse("the log of %llu bytes has no bit for a page that was written",
                      (unsigned long long)backend->log.place.bytes);
    if (!interrupt(backend, result))
        return false;
    if (result->code == VB_BROKEN)
        return refuse("the guest's bytes break a rule: %s (rule %u)", rule_words(result->rule),
                      result->rule);
    return result->code == VB_OK || result->code == VB_NOTHING ||
           refuse("a request is refused: %s", answer_words(result->code));
}

bool backend_give(struct backend *backend)
{
    unsigned number = 0;
    while (number < QUEUES && vb_kind(&backend->balloon.state.device, number) != VB_DEFLATE)
        number++;
    if (number == QUEUES)
        return true;
    audit_before(backend, number);
    struct balloon_result result = balloon_give_deflate(&backend->balloon);
    audit_after(backend, number);
    return backend_finish(backend, VB_DEFLATE, &result) && backend_serve(backend, number);
}

bool backend_serve(struct backend *backend, unsigned number)
{
    const struct event *fault = &backend->rings[number].fault;
    uint32_t kind = vb_kind(&backend->balloon.state.device, number);
    backend->pending &= ~(1u << number);
    if (queue_is_postponed(backend, kind))
        return true;
    audit_before(backend, number);
    struct balloon_result result = balloon_notify(&backend->balloon, kind);
    audit_after(backend, number);
    backend->pending |= result.more ? 1u << number : 0;
    bool served = backend_finish(backend, kind, &result);
    if (!served && fault->file >= 0)
        event_signal(fault);
    return served;
}

bool backend_serve_pending(struct backend *backend)
{
    for (unsigned number = 0; number < QUEUES; number++)
        if (backend->pending & 1u << number)
            return backend_serve(backend, number);
    return true;
}
