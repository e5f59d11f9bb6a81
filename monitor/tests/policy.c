/* A host's policy by the comments of vb_policy.h: decisions, pressed guests and budgets by rows
 * that were worked out by hand, and random ones beside the plain implementation, which has to
 * decide the same.
 *
 *     policy [DECISIONS]
 */
#include "policy/policy.h"
#include <stdlib.h>

enum { DECISIONS = 30000 };

int main(int count, char **words)
{
    check_rows();
    check_tiers();
    check_refused();
    check_pressure();
    check_machine();
    unsigned long long decisions = count > 1 ? strtoull(words[1], NULL, 10) : DECISIONS;
    check_chance(decisions);
    check_pressed_chance(decisions);
    check_machine_chance(decisions);
    return 0;
}
