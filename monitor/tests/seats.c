/* A host's lender by the comments of vb_host.h: each event, refusal and order by rows that were
 * worked out by hand, and random steps beside the plain implementation, which has to leave the
 * same.
 *
 *     seats [STEPS]
 */
#include "seats/seats.h"
#include <stdio.h>
#include <stdlib.h>

enum { STEPS = 1000000 };

bool same_seat(const VbSeat *one, const VbSeat *other)
{
    return one->pages == other->pages && one->ballooned == other->ballooned &&
           one->least_target == other->least_target && one->target == other->target &&
           one->wanted == other->wanted && one->held == other->held && one->line == other->line &&
           one->outside == other->outside && one->target_number == other->target_number &&
           one->deflates == other->deflates && one->granted == other->granted &&
           one->removed == other->removed && one->turn == other->turn &&
           one->uncounted == other->uncounted && one->preferred == other->preferred &&
           one->deferred == other->deferred;
}

void print_seat(size_t place, const VbSeat *seat)
{
    fprintf(stderr, "  %zu: pages %u, ballooned %u, least %u, target %u, wanted %u,", place,
            seat->pages, seat->ballooned, seat->least_target, seat->target, seat->wanted);
    fprintf(stderr, " held %u, line %u, outside %u,", seat->held, seat->line, seat->outside);
    fprintf(stderr, " number %llu, deflates %llu, granted %llu, removed %llu, turn %llu,",
            (unsigned long long)seat->target_number, (unsigned long long)seat->deflates,
            (unsigned long long)seat->granted, (unsigned long long)seat->removed,
            (unsigned long long)seat->turn);
    fprintf(stderr, " uncounted %u, preferred %u, deferred %u\n", seat->uncounted, seat->preferred,
            seat->deferred);
}

void expect(bool is_so, const char *what)
{
    if (!is_so) {
        fprintf(stderr, "seats: %s\n", what);
        exit(1);
    }
}

int main(int count, char **words)
{
    if (vb_host_version() != VB_HOST_VERSION) {
        fprintf(stderr, "seats: the library has layout %u of vb_host.h, and this program %u\n",
                vb_host_version(), VB_HOST_VERSION);
        return 1;
    }
    check_rows();
    check_passing();
    check_lines();
    check_orders();
    check_messages();
    check_paces();
    check_relief();
    check_targets();
    check_refused();
    check_largest();
    check_steps(count > 1 ? strtoull(words[1], NULL, 10) : STEPS);
    return 0;
}
