/* What the guest told of itself last. */
#include "backend.h"

void statistics_keep(struct backend *backend, const VbStatistic *figures, uint32_t count)
{
    backend->figure_count = statistics_room(count);
    memcpy(backend->figures, figures, backend->figure_count * sizeof figures[0]);
    backend->counters.statistics++;
}
