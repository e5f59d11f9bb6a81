/* The headers, as a program in C11 or in C++17 reads them. */
#include "balloon.h"
#include "vb_host.h"
#include "vb_policy.h"

/* Each call is taken by its address, so that one whose body doesn't compile is found. */
int main(void)
{
    struct balloon *none = 0;
    uint8_t byte = 0;
    struct balloon_result result = balloon_notify_all(none);
    return (int)(balloon_save(none, &byte, 0) + balloon_restore(none, &byte, 0) +
                 balloon_write_status(none, 0, &result) + balloon_ask_statistics(none).code +
                 balloon_set_regions(none, 0, 0) + vb_host_owed(0, 0) +
                 vb_policy_decide(0, 0, 0, 0, 0, 0, 0).code + vb_version());
}
