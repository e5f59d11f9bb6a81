/* Tests of balloon.h over vb.h, with values from outside: VIRTIO 1.1, Linux 6.1's driver, and
 * vb.h's own words. Each topic is a part in test/. */
#include "test/test.h"

/* What other languages declare of vb.h has to have these sizes (rust/src/raw/structs.rs). */
_Static_assert(sizeof(VbSettings) == 24 && sizeof(VbQueue) == 32 && sizeof(VbDevice) == 224,
               "a device's state");
_Static_assert(sizeof(VbHeld) == 12 && sizeof(VbBalloon) == 240, "a device and what it holds");
_Static_assert(sizeof(VbQueueStart) == 32, "where a queue starts");
_Static_assert(sizeof(VbRound) == 12, "a round of hints");
_Static_assert(sizeof(VbPiece) == 16 && sizeof(VbRun) == 8 && sizeof(VbStatistic) == 16, "lists");
_Static_assert(sizeof(VbMarked) == 16, "what is marked");

int main(void)
{
    test_steps();
    test_settings();
    test_queues();
    test_sizes();
    test_requests();
    test_portions();
    test_pauses();
    test_notices();
    test_discards();
    test_together();
    test_regions();
    test_set();
    test_statistics();
    test_holds();
    test_reports();
    test_hints();
    test_large_pages();
    test_holes();
    test_moves();
    test_amid();
    test_hooks();
    return 0;
}
