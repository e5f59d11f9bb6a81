/* Preloaded into QEMU: nothing of the guest's memory may be discarded, as where VFIO pins it. */
#include <stdbool.h>

int ram_block_discard_disable(bool disabled);

static void __attribute__((constructor)) forbid(void)
{
    ram_block_discard_disable(true);
}
