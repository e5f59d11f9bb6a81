/* The calls of the plain implementation, where it is linked beside the library: each is declared as
 * that of vb.h is. */
#ifndef REFERENCE_CALLS_H
#define REFERENCE_CALLS_H
#include "vb.h"
#include "vb_host.h"
#include "vb_policy.h"

#define REFERENCE(call) extern __typeof__(vb_##call) reference_##call

REFERENCE(kind);
REFERENCE(kind_of);
REFERENCE(place);
REFERENCE(write_status);
REFERENCE(write_config);
REFERENCE(read_config);
REFERENCE(keeps_reports);
REFERENCE(begin_hints);
REFERENCE(stop_hints);
REFERENCE(end_hints);
REFERENCE(hints_open);
REFERENCE(negotiate);
REFERENCE(large_pages);
REFERENCE(mark);
REFERENCE(unmark);
REFERENCE(is_ballooned);
REFERENCE(count_ballooned);
REFERENCE(begin);
REFERENCE(give_held);
REFERENCE(held);
REFERENCE(go_on);
REFERENCE(recheck);
REFERENCE(new_over);
REFERENCE(set_regions);
REFERENCE(place_over);
REFERENCE(start_queue);
REFERENCE(stop_queue);
REFERENCE(forget_held);
REFERENCE(set_status);
REFERENCE(host_step);
REFERENCE(host_happen);
REFERENCE(host_owed);
REFERENCE(host_least_budget);
REFERENCE(host_room);
REFERENCE(host_first);
REFERENCE(host_stand);
REFERENCE(host_relief);
REFERENCE(seat_lent);
REFERENCE(seat_asked);
REFERENCE(seat_waits);
REFERENCE(seat_same);
REFERENCE(seat_due_target);
REFERENCE(seat_due_grant);
REFERENCE(seat_read);
REFERENCE(seat_note);
REFERENCE(seat_follow);
REFERENCE(seat_pace);
REFERENCE(policy_tiers);
REFERENCE(policy_wants);
REFERENCE(policy_decide);
REFERENCE(policy_press);
REFERENCE(policy_pressed);
REFERENCE(policy_budget);
#endif
