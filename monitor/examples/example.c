/* How a monitor uses balloon.h. It runs: the driver's side is played here, where a monitor has its
 * transport. */
#include "balloon.h"
#include <stdio.h>

/* The driver kicked a queue: what there is to do then. */
static void kicked(struct balloon *balloon, uint32_t number)
{
    struct balloon_result result = balloon_notify_number(balloon, number);
    if (result.interrupts)
        printf("queue %u: interrupt the guest for a used buffer\n", number);
    if (result.configuration)
        printf("rule %u is broken: interrupt the guest for a change of configuration\n",
               result.rule);
    printf("%u chains, %u pages, %u discarded\n", result.chains, (unsigned)result.pages,
           (unsigned)result.discarded);
}

int main(void)
{
    /* Guest memory as the monitor maps it: here 4 MiB from address 0 on. */
    void *mapped = mmap(NULL, 4 << 20, PROT_READ | PROT_WRITE, MAP_PRIVATE | MAP_ANONYMOUS, -1, 0);
    uint8_t *memory = (uint8_t *)mapped;
    const struct balloon_region region = {0, 4 << 20, memory, BALLOON_PRIVATE, 0, 0};
    static VbSettings settings;
    settings.offered = 1ull << 32 | 0x27;
    settings.skips_bad_pages = 1;
    static struct balloon balloon;
    if (mapped == MAP_FAILED || balloon_init(&balloon, &region, 1, settings) != VB_OK)
        return 1;

    /* The driver's accesses, as the transport tells of them; each answer is 0, or why it is
     * refused. */
    struct balloon_result result;
    uint32_t refused =
        balloon_write_status(&balloon, 1, &result) | balloon_write_status(&balloon, 3, &result) |
        balloon_negotiate(&balloon, 1ull << 32 | 1) | balloon_write_status(&balloon, 11, &result) |
        balloon_place(&balloon, VB_INFLATE, 0x10000, 0x11000, 0x12000, 256) |
        balloon_place(&balloon, VB_DEFLATE, 0x14000, 0x15000, 0x16000, 256) |
        balloon_write_status(&balloon, 15, &result);
    balloon_set_target(&balloon, 2); /* and interrupt the guest for a change of configuration */

    /* The driver offers pages 513 and 512: their numbers, a descriptor, an entry with the index;
     * then it kicks. */
    const uint32_t pages[] = {513, 512};
    const uint64_t descriptor[] = {0x20000, 8};
    const uint16_t available[] = {0, 1, 0};
    memset(memory + 512 * 4096, 7, 2 * 4096);
    memcpy(memory + 0x20000, pages, sizeof pages);
    memcpy(memory + 0x10000, descriptor, sizeof descriptor);
    memcpy(memory + 0x11000, available, sizeof available);
    kicked(&balloon, 0);
    return refused || memory[512 * 4096] != 0 || memory[0x12002] != 1;
}
