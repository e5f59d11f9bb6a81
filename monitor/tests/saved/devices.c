/* Devices to save. */
#include "saved.h"

struct guest guest;

const VbSettings SETTINGS = {.offered = 1ull << 32 | 0x3f,
                             .reserved_pages = 16,
                             .skips_bad_pages = 7,
                             .holds_deflates = 1,
                             .discards_hints = 1};

enum { BEFORE_FEATURES = 3, BEFORE_CONFIGURATION = 4 };

/* Four rounds begin, of which the last one has an id of 5, and opens. */
static void open_round(struct balloon *balloon)
{
    uint32_t id;
    for (int i = 0; i < 4; i++)
        EXPECT(balloon_begin_hints(balloon, &id) == VB_OK);
    put(&guest, buffer_of(VB_HINT), id, 4);
    describe(&guest, VB_HINT, 0, buffer_of(VB_HINT), 4, 0, 0);
    publish(&guest, VB_HINT, 0);
    EXPECT(id == 5 && balloon_notify(balloon, VB_HINT).chains == 1 &&
           balloon->state.device.round.opened);
}

/* The states before a driver's features are set. */
static bool reach_unset(struct balloon *balloon, unsigned state)
{
    struct balloon_result result;
    if (state == 0)
        return true;
    if (state == 1)
        return balloon_write_status(balloon, 128, &result) == 0;
    if (state == 2)
        return balloon_place(balloon, VB_INFLATE, table_of(0), avail_of(0), used_of(0), 64) ==
               VB_OK;
    return balloon_write_status(balloon, 1, &result) == 0 &&
           balloon_write_status(balloon, 129, &result) == 0;
}

/* The states from a driver's configuration on; false past the last one. */
static bool reach_running(struct balloon *balloon, unsigned state)
{
    struct balloon_result result;
    balloon_set_target(balloon, 0x01020304);
    EXPECT(balloon_write_config(balloon, 4, (const uint8_t[]){9, 8, 7, 6}, 4) == VB_OK);
    EXPECT(balloon_write_config(balloon, 12, (const uint8_t[]){0xaa, 0xbb, 0, 1}, 4) == VB_OK);
    if (state == 5)
        return true;
    EXPECT(balloon_write_status(balloon, 15, &result) == 0);
    if (state == 6)
        return true;
    name_pages(&guest, VB_INFLATE, (const uint32_t[]){513, 512}, 2);
    EXPECT(balloon_notify(balloon, VB_INFLATE).chains == 1);
    put(&guest, buffer_of(VB_STATISTICS), 4, 2);
    put(&guest, buffer_of(VB_STATISTICS) + 2, 99, 8);
    describe(&guest, VB_STATISTICS, 3, buffer_of(VB_STATISTICS), 10, 0, 0);
    publish(&guest, VB_STATISTICS, 3);
    EXPECT(balloon_notify(balloon, VB_STATISTICS).chains == 1 &&
           balloon->state.held.statistics == 4);
    if (state == 7)
        return true;
    name_pages(&guest, VB_DEFLATE, (const uint32_t[]){513, 512, 600}, 3);
    EXPECT(balloon_notify(balloon, VB_DEFLATE).held && balloon->state.held.pages == 3);
    open_round(balloon);
    if (state == 8)
        return true;
    describe(&guest, VB_INFLATE, 0, buffer_of(VB_INFLATE), 3, 0, 0);
    publish(&guest, VB_INFLATE, 0);
    EXPECT(balloon_notify(balloon, VB_INFLATE).code == VB_BROKEN &&
           balloon->state.device.status == 79);
    if (state == 9)
        return true;
    EXPECT(balloon_write_status(balloon, 207, &result) == 0);
    return state == 10;
}

/* The states that a driver's steps lead through, by number; false past the last one. */
bool reach(unsigned state)
{
    struct balloon_result result;
    struct balloon *balloon = &guest.balloon;
    EXPECT(balloon_init(balloon, guest.regions, 2, SETTINGS) == VB_OK);
    guest.size = 64;
    memset(guest.published, 0, sizeof guest.published);
    if (state <= BEFORE_FEATURES)
        return reach_unset(balloon, state);
    start_features(&guest, LINUX_FEATURES | VB_F_FREE_PAGE_HINT, 64); /* placed, and status 11 */
    if (state == BEFORE_CONFIGURATION)
        return balloon_write_status(balloon, 139, &result) == 0;
    return reach_running(balloon, state);
}

bool are_same(const VbDevice *one, VbHeld held, const VbDevice *other, VbHeld other_held)
{
    uint8_t first[VB_STATE_BYTES], second[VB_STATE_BYTES];
    encode(one, held, first);
    encode(other, other_held, second);
    return memcmp(first, second, sizeof first) == 0;
}
