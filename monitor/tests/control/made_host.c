/* A host that shows made numbers (made_values.h, which made.py writes), in each of two phases: its
 * floor, once a request has set that, is the number of the phase, in pages. */
#include "../../backends/control/answers.h"
#include "../../backends/lender/journal.h"
#include "../../backends/lender/measures.h"
#include "../../backends/lender/view.h"

#include <stdio.h>
#include <string.h>

#include "made_values.h"

static uint32_t phase;

const char *__wrap_host_set_floor(struct host *host, uint32_t pages);
void __wrap_host_see(const struct host *host, struct host_view *view);
void __wrap_host_see_guest(const struct host *host, unsigned number, struct guest_view *view);
int __wrap_host_find(const struct host *host, const char *name);
uint64_t __wrap_journal_begin(const struct host *host);
const struct decision *__wrap_journal_at(const struct host *host, uint64_t number);
const struct measures *__wrap_measures_see(void);
json_t *__real_answer_host(const struct control *control, const struct host *host);
json_t *__wrap_answer_host(const struct control *control, const struct host *host);

const char *__wrap_host_set_floor(struct host *host, uint32_t pages)
{
    (void)host;
    phase = pages;
    return NULL;
}

void __wrap_host_see(const struct host *host, struct host_view *view)
{
    (void)host;
    *view = made_hosts[phase];
}

void __wrap_host_see_guest(const struct host *host, unsigned number, struct guest_view *view)
{
    (void)host;
    *view = made_guests[phase][number];
}

int __wrap_host_find(const struct host *host, const char *name)
{
    (void)host;
    for (unsigned i = 0; i < made_hosts[phase].guests; i++)
        if (!strcmp(made_guests[phase][i].name, name))
            return (int)i;
    return -1;
}

/* The last decision of each phase is kept, and the one before. */
uint64_t __wrap_journal_begin(const struct host *host)
{
    (void)host;
    return made_hosts[phase].decisions - 2;
}

const struct decision *__wrap_journal_at(const struct host *host, uint64_t number)
{
    (void)host;
    return number < made_hosts[0].decisions ? &made_decisions[0] : &made_decisions[1];
}

const struct measures *__wrap_measures_see(void)
{
    return &made_measures;
}

json_t *__wrap_answer_host(const struct control *control, const struct host *host)
{
    static struct control made;
    made = *control;
    for (unsigned i = 0; i < CONTROL_SOCKETS; i++)
        made.sockets[i].counters = made_counters[i];
    return __real_answer_host(&made, host);
}
