#include "events.h"

#include "answers.h"
#include "followers.h"
#include "notes.h"
#include "parts.h"

#include "../base/loop.h"
#include "../lender/journal.h"
#include "../lender/view.h"
#include "../settings/settings.h"

#include <stdio.h>
#include <stdlib.h>
#include <string.h>
#include <time.h>

/* Decisions that are told at a look; and guests that a look knows of: those of the last one, and
 * those that came since. */
enum { MOST_DECISIONS_OF_LOOK = 16, MOST_SEEN = 2 * MOST_GUESTS };

/* What a guest was at the last look. */
struct seen {
    char name[MOST_NAME];
    enum guest_state state;
    enum guest_wait waits_for;
    double waits;
    uint64_t ended; /* how many of its waits had ended */
    uint64_t refusals;
    const char *migration;
    bool cooperates, answers;
    bool here; /* the host still has it */
};

struct events {
    uint64_t next, decisions, shortages, notes;
    bool is_short;
    uint32_t budget;
    unsigned next_guest; /* at which the next look begins */
    unsigned count;
    struct seen seen[MOST_SEEN];
};

/* A look: its first event, and until when it tells more. */
struct look {
    struct events *events;
    uint64_t first_event;
    double until;
};

struct events *events_new(void)
{
    return calloc(1, sizeof(struct events));
}

void events_free(struct events *events)
{
    free(events);
}

uint64_t events_next(const struct control *control)
{
    return control->events->next;
}

static double seconds_now(void)
{
    struct timespec time;
    clock_gettime(CLOCK_REALTIME, &time);
    return (double)time.tv_sec + (double)time.tv_nsec / 1e9;
}

/* Tells each follower of an event, with more fields, which it takes. */
static void tell_more(struct control *control, const char *event, const char *guest, json_t *more)
{
    uint64_t number = control->events->next++;
    json_t *line =
        json_pack("{s:i, s:s, s:I, s:f, s:s*}", "version", CONTROL_VERSION, "event", event,
                  "number", (json_int_t)number, "time", seconds_now(), "guest", guest);
    followers_add(&control->followers, number, part_update(line, more));
}

static void tell(struct control *control, const char *event, const char *guest)
{
    tell_more(control, event, guest, json_object());
}

/* What was seen of the guest of this name, most likely at this place; NULL where nothing was. */
static struct seen *seen_of(struct events *events, const char *name, unsigned place)
{
    if (place < events->count && !strcmp(events->seen[place].name, name))
        return &events->seen[place];
    for (unsigned i = 0; i < events->count; i++)
        if (!strcmp(events->seen[i].name, name))
            return &events->seen[i];
    return NULL;
}

/* What was seen of a guest, which may be new; NULL where there is no room. */
static struct seen *seen_or_new(struct control *control, const char *name, unsigned place)
{
    struct events *events = control->events;
    struct seen *seen = seen_of(events, name, place);
    if (seen || events->count == MOST_SEEN)
        return seen;
    seen = &events->seen[events->count++];
    *seen = (struct seen){.state = GUEST_ABSENT,
                          .waits_for = WAITS_FOR_NOTHING,
                          .migration = "none",
                          .cooperates = true};
    snprintf(seen->name, sizeof seen->name, "%s", name);
    tell(control, "added", name);
    return seen;
}

static void tell_state(struct control *control, const struct seen *seen,
                       const struct guest_view *guest)
{
    bool was_here = seen->state != GUEST_ABSENT, is_here = guest->state != GUEST_ABSENT;
    if (was_here != is_here)
        tell(control, is_here ? "arrived" : "gone", guest->name);
    if (is_here && guest->state != seen->state)
        tell_more(control, "state", guest->name,
                  json_pack("{s:s}", "state", guest_state_word(guest->state)));
}

/* Tells how the wait has ended of which was told that it began. Where the guest has ended none
 * since, another one has its name now. */
static void tell_end_of_wait(struct control *control, const struct seen *seen, enum guest_wait now,
                             const struct ended_wait *ended)
{
    bool has_ended = ended->number > seen->ended;
    if (seen->waits_for == WAITS_FOR_NOTHING || (!has_ended && now == seen->waits_for))
        return;
    tell_more(control, wait_end_word(has_ended ? ended->how : WAS_WITHDRAWN), seen->name,
              json_pack("{s:s, s:f}", "waits_for", guest_wait_word(seen->waits_for), "waits",
                        has_ended ? ended->seconds : seen->waits));
}

/* Tells that its client wasn't admitted, and why: in place of the end of its wait. */
static void tell_refusal(struct control *control, const struct guest_view *guest)
{
    const char *why = guest->refused_for ? guest->refused_for : "nothing";
    tell_more(control, wait_end_word(WAS_REFUSED), guest->name,
              json_pack("{s:s, s:f, s:s, s:o}", "waits_for", guest_wait_word(WAITS_FOR_ROOM),
                        "waits", guest->ended.seconds, "for", why, "bytes",
                        part_bytes(guest->refused_by)));
}

static void tell_wait(struct control *control, const struct seen *seen,
                      const struct guest_view *guest)
{
    if (guest->waits_for != WAITS_FOR_NOTHING &&
        (guest->ended.number != seen->ended || guest->waits_for != seen->waits_for))
        tell_more(control, "waits", guest->name,
                  json_pack("{s:s}", "waits_for", guest_wait_word(guest->waits_for)));
}

static void tell_manners(struct control *control, const struct seen *seen,
                         const struct guest_view *guest)
{
    if (seen->cooperates && !guest->cooperates)
        tell(control, "uncooperative", guest->name);
    if (guest->state != GUEST_ABSENT && seen->answers != guest->answers)
        tell(control, guest->answers ? "answers" : "silent", guest->name);
}

static void tell_migration(struct control *control, const struct seen *seen,
                           const struct guest_view *guest)
{
    if (strcmp(seen->migration, guest->migration) != 0)
        tell_more(control, "migration", guest->name,
                  json_pack("{s:s}", "migration", guest->migration));
}

static void look_at_guest(struct control *control, const struct guest_view *guest, unsigned place)
{
    struct seen *seen = seen_or_new(control, guest->name, place);
    if (!seen)
        return;
    if (guest->refusals > seen->refusals)
        tell_refusal(control, guest);
    else
        tell_end_of_wait(control, seen, guest->waits_for, &guest->ended);
    tell_state(control, seen, guest);
    tell_wait(control, seen, guest);
    tell_manners(control, seen, guest);
    tell_migration(control, seen, guest);
    seen->state = guest->state;
    seen->waits_for = guest->waits_for;
    seen->waits = guest->waits;
    seen->ended = guest->ended.number;
    seen->refusals = guest->refusals;
    seen->migration = guest->migration;
    seen->cooperates = guest->cooperates;
    seen->answers = guest->answers && guest->state != GUEST_ABSENT;
    seen->here = true;
}

/* Forgets the guests that the host has no longer. */
static void tell_removed(struct control *control)
{
    struct events *events = control->events;
    unsigned kept = 0;
    for (unsigned i = 0; i < events->count; i++) {
        const struct seen *seen = &events->seen[i];
        if (!seen->here)
            tell_end_of_wait(control, seen, WAITS_FOR_NOTHING, &(struct ended_wait){0});
        if (!seen->here && seen->state != GUEST_ABSENT)
            tell(control, "gone", seen->name);
        if (!seen->here)
            tell(control, "removed", seen->name);
        else
            events->seen[kept++] = *seen;
    }
    events->count = kept;
    for (unsigned i = 0; i < kept; i++)
        events->seen[i].here = false;
}

/* Tells of a shortage once it has lasted, with who gives first, and of its end. */
static void tell_shortage(struct control *control, const struct host_view *view)
{
    struct events *events = control->events;
    bool is_new = events->shortages != view->shortages;
    if (events->is_short && (is_new || !view->is_short))
        tell(control, "enough", NULL);
    if (is_new)
        tell_more(control, "short", view->gives_first,
                  json_pack("{s:o}", "missing", part_bytes(view->short_by)));
    events->shortages = view->shortages;
    events->is_short = view->is_short;
}

/* Whether more may be told in this look: it has told nothing yet, or has time. */
static bool may_tell(const struct look *look)
{
    return look->events->next == look->first_event || loop_seconds() < look->until;
}

/* Looks at guests, from the one at which the last look has stopped; the others are still there. */
static void look_at_guests(struct control *control, const struct host *host,
                           const struct look *look, unsigned count)
{
    unsigned *next = &look->events->next_guest;
    for (unsigned i = 0; i < count; i++) {
        struct guest_view guest;
        host_see_guest(host, i, &guest);
        struct seen *seen = seen_of(look->events, guest.name, i);
        if (seen)
            seen->here = true;
        if (i == *next && may_tell(look)) {
            look_at_guest(control, &guest, i);
            ++*next;
        }
    }
}

/* Tells what was changed, and by whom. */
static void tell_notes(struct control *control, const struct look *look)
{
    const struct audit *audit = &control->settings->audit;
    struct events *events = control->events;
    uint64_t kept = audit_begin(audit);
    events->notes = events->notes < kept ? kept : events->notes;
    while (events->notes < audit->count && may_tell(look)) {
        uint64_t number = events->notes++;
        tell_more(control, "changed", NULL, answer_note(audit, number));
    }
}

/* Tells decisions once all guests were looked at, and those that are next wait for the next
  * look. */
static void tell_decisions(struct control *control, const struct host *host,
                           const struct look *look, uint64_t end)
{
    struct events *events = control->events;
    uint64_t kept = journal_begin(host);
    events->decisions = events->decisions < kept ? kept : events->decisions;
    for (unsigned i = 0; i < MOST_DECISIONS_OF_LOOK && events->decisions < end && may_tell(look);
         i++)
        tell_more(control, "decision", NULL,
                  json_pack("{s:o}", "decision", answer_decision(host, events->decisions++)));
}

/* Looks at all of the host; whether there was time for it. */
static bool look_at_host(struct control *control, const struct host *host, const struct look *look)
{
    struct events *events = control->events;
    struct host_view view;
    host_see(host, &view);
    if (events->budget != view.budget && events->budget > 0)
        tell_more(control, "budget", NULL, json_pack("{s:o}", "budget", part_bytes(view.budget)));
    events->budget = view.budget;
    tell_shortage(control, &view);
    tell_notes(control, look);
    look_at_guests(control, host, look, view.guests);
    tell_removed(control);
    if (events->next_guest < view.guests || events->notes < control->settings->audit.count)
        return false;
    events->next_guest = 0;
    tell_decisions(control, host, look, view.decisions);
    return events->decisions == view.decisions;
}

void events_look(struct control *control, const struct host *host)
{
    struct events *events = control->events;
    const struct look look = {events, events->next, loop_seconds() + CONTROL_SECONDS};
    if (!followers_send(control, look.until))
        return;
    bool all = look_at_host(control, host, &look);
    control->is_behind = !followers_send(control, look.until) || !all;
}
