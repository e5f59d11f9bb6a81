/* A device that moves, and its target. */
#include "test.h"

/* The state goes to another balloon over a copy of the memory, and the driver continues where it
  * was. */
static void a_device_moves(void)
{
    static struct guest guest, other;
    const uint32_t pages[] = {700, 701};
    start(&guest, 0, REFUSES, LINUX_FEATURES, 4);
    for (int i = 0; i < 3; i++) {
        name_pages(&guest, VB_DEFLATE, pages, 2);
        EXPECT(balloon_notify(&guest.balloon, VB_DEFLATE).chains == 1);
    }
    make_memory(&other, 0);
    EXPECT(balloon_init(&other.balloon, other.regions, 2, REFUSES) == VB_OK);
    memcpy(other.regions[0].host, guest.regions[0].host, LOW_MIB * MIB);
    other.balloon.state = guest.balloon.state;
    other.size = guest.size;
    memcpy(other.published, guest.published, sizeof other.published);
    name_pages(&other, VB_DEFLATE, pages, 1);
    struct balloon_result result = balloon_notify(&other.balloon, VB_DEFLATE);
    EXPECT(result.chains == 1 && result.pages == 1 && used_index(&other, VB_DEFLATE) == 4);
    EXPECT(used_index(&guest, VB_DEFLATE) == 3);
    free_memory(&guest);
    free_memory(&other);
}

static void the_target_is_told(void)
{
    static struct guest guest;
    uint8_t words[8], all[300];
    start(&guest, 0, REFUSES, LINUX_FEATURES, 8);
    EXPECT(!balloon_is_off_target(&guest.balloon));
    balloon_set_target(&guest.balloon, 513);
    balloon_read_config(&guest.balloon, 0, words, 8);
    EXPECT(words[0] == 1 && words[1] == 2 && words[4] == 0 &&
           balloon_is_off_target(&guest.balloon));
    memset(all, 0xa5, sizeof all);
    balloon_read_config(&guest.balloon, 0, all, sizeof all);
    for (size_t i = 0; i < sizeof all; i++)
        EXPECT(all[i] == (i == 0 ? 1 : i == 1 ? 2 : 0));
    EXPECT(balloon_write_config(&guest.balloon, 4, words, 4) == VB_OK &&
           !balloon_is_off_target(&guest.balloon));
    balloon_set_target(&guest.balloon, 512);
    EXPECT(balloon_is_off_target(&guest.balloon));
    balloon_set_target(&guest.balloon, 514);
    EXPECT(balloon_is_off_target(&guest.balloon));
    balloon_set_target(&guest.balloon, 513);
    for (uint32_t offset = 256; offset < 1 << 20; offset *= 2)
        EXPECT(balloon_write_config(&guest.balloon, offset + 4, all, 4) == VB_BAD_ARGUMENT &&
               !balloon_is_off_target(&guest.balloon));
    EXPECT(balloon_write_config(&guest.balloon, 0, words, 4) == VB_BAD_ARGUMENT);
    free_memory(&guest);
}

/* QEMU hands over all 16 bytes whenever the driver writes a field: num_pages isn't the driver's,
 * and stays. */
static void the_whole_configuration_is_written(void)
{
    static struct guest guest;
    const VbSettings settings = {.offered = LINUX_FEATURES | VB_F_PAGE_POISON};
    uint8_t all[16] = {9, 9, 9, 9, 1, 2, 0, 0, 9, 9, 9, 9, 0xaa, 0, 0, 0}, seen[16];
    start(&guest, 0, settings, LINUX_FEATURES | VB_F_PAGE_POISON, 8);
    balloon_set_target(&guest.balloon, 513);
    EXPECT(balloon_write_config(&guest.balloon, 0, all, 16) == VB_OK &&
           !balloon_is_off_target(&guest.balloon));
    balloon_read_config(&guest.balloon, 0, seen, 16);
    memset(all + 8, 0, 4);
    memcpy(all, (const uint8_t[]){1, 2, 0, 0}, 4);
    EXPECT(memcmp(seen, all, 16) == 0);
    EXPECT(balloon_write_config(&guest.balloon, 1, all, 6) == VB_BAD_ARGUMENT);
    free_memory(&guest);
}

void test_moves(void)
{
    RUN(a_device_moves());
    RUN(the_target_is_told());
    RUN(the_whole_configuration_is_written());
}
