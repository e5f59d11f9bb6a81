/* What a host has for each guest that there may be. */
#include "places.h"

#include <stdlib.h>

/* Files that are waited for: of each guest, also of one that leaves; of the service and of
 * lines. */
enum { FILES_OF_SEAT = 4, FILES_OF_REST = 6 };

size_t places_of(unsigned guests)
{
    return (size_t)guests * PLACES_OF_GUEST + 1;
}

bool tables_make(const struct table tables[], size_t count)
{
    for (size_t i = 0; i < count; i++) {
        void *made = calloc(tables[i].count, tables[i].size);
        memcpy(tables[i].at, &made, sizeof made);
        if (!made)
            return false;
    }
    return true;
}

bool host_make_tables(struct host *host, unsigned guests)
{
    const struct table tables[] = {
        {&host->places, places_of(guests), sizeof host->places[0]},
        {&host->seats, guests, sizeof host->seats[0]},
        {&host->leaving, guests, sizeof host->leaving[0]},
    };
    host->most = guests;
    return (tables_make(tables, sizeof tables / sizeof tables[0]) &&
            journal_make(&host->journal, 2 * guests) && policy_make(guests) &&
            loop_reserve(&host->loop, 2 * guests * FILES_OF_SEAT + FILES_OF_REST)) ||
           refuse("there is no memory for %u guests", guests);
}
