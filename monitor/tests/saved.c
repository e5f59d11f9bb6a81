/* Saved states (vb_save, vb_restore, balloon_save, balloon_restore): their bytes are those that
 * docs/INTEGRATION.md has, and each damaged one is refused by name and changes nothing. */
#include "saved/saved.h"

static void scribble_state(VbBalloon *state)
{
    memset(state, 0xee, sizeof *state);
}

static void saved_states_have_the_format(void)
{
    unsigned state = 0;
    for (; reach(state); state++) {
        const VbBalloon *it = &guest.balloon.state;
        uint8_t bytes[VB_STATE_BYTES + 9], expected[VB_STATE_BYTES];
        for (size_t room = 0; room < VB_STATE_BYTES; room++) {
            memset(bytes, 0x5a, sizeof bytes);
            EXPECT(vb_save(&it->device, it->held, bytes, room) == VB_BAD_LENGTH);
            for (size_t i = 0; i < sizeof bytes; i++)
                EXPECT(bytes[i] == 0x5a);
        }
        encode(&it->device, it->held, expected);
        EXPECT(vb_save(&it->device, it->held, bytes, sizeof bytes) == VB_OK);
        EXPECT(memcmp(bytes, expected, sizeof expected) == 0 && bytes[VB_STATE_BYTES] == 0x5a);
        VbBalloon restored;
        scribble_state(&restored);
        EXPECT(vb_restore(&restored.device, &restored.held, bytes, VB_STATE_BYTES) == VB_OK);
        EXPECT(are_same(&restored.device, restored.held, &it->device, it->held));
    }
    EXPECT(state == 11);
}

/* A restore that is refused, by this name, and changes nothing. */
static void is_refused(const uint8_t *bytes, size_t length, uint32_t code, size_t at)
{
    VbBalloon state, before;
    scribble_state(&state);
    scribble_state(&before);
    uint32_t told = vb_restore(&state.device, &state.held, bytes, length);
    if (told != code || memcmp(&state, &before, sizeof state) != 0) {
        fprintf(stderr, "saved: %u in place of %u, byte %zu of %zu\n", told, code, at, length);
        exit(1);
    }
}

static void each_damaged_byte_is_refused(void)
{
    for (unsigned state = 0; reach(state); state++) {
        uint8_t bytes[VB_STATE_BYTES + 1];
        EXPECT(balloon_save(&guest.balloon, bytes, VB_STATE_BYTES) == VB_OK);
        bytes[VB_STATE_BYTES] = 0;
        for (size_t at = 0; at < VB_STATE_BYTES; at++) {
            uint8_t good = bytes[at];
            for (unsigned change = 1; change < 256; change++) {
                bytes[at] = good ^ (uint8_t)change;
                bool older = at == 8 && (bytes[at] == 2 || bytes[at] == 3); /* of another length */
                uint32_t code = at < 8              ? VB_NOT_A_STATE
                                : at < 12 && !older ? VB_OTHER_VERSION
                                : at < 16           ? VB_BAD_LENGTH
                                                    : VB_BAD_SUM;
                is_refused(bytes, VB_STATE_BYTES, code, at);
            }
            bytes[at] = good;
        }
        for (size_t length = 0; length <= VB_STATE_BYTES + 1; length++)
            if (length != VB_STATE_BYTES)
                is_refused(bytes, length, VB_BAD_LENGTH, length);
    }
}

/* Fields that no calls lead to, each put into a running device's state (7), or into one before
 * DRIVER_OK (5), with a right sum. */
static const struct {
    unsigned state;
    size_t at;
    int bytes;
    uint64_t value;
} IMPOSSIBLE[] = {
    {7, 16, 8, 8191},
    {7, 16, 8, 1ull << 44},
    {7, 16, 8, 0x10000}, /* the end of memory; before the queues */
    {7, 24, 8, 0x3f},
    {7, 24, 8, 1ull << 32 | 0x7f}, /* offered */
    {7, 38, 8, 1ull << 32 | 0x40},
    {7, 38, 8, 0x2f},
    {7, 24, 8, 1ull << 32}, /* features */
    {7, HOLD_AT + 1, 4, 65},
    {7, HOLD_AT + 5, 4, 1},
    {8, HOLD_AT, 1, 0},
    {8, HOLD_AT + 1, 4, 0}, /* a deflate that is held */
    {8, HOLD_AT + 1, 4, 65},
    {8, HOLD_AT + 5, 4, VB_LONGEST_REQUEST + 1},
    {5, HOLD_AT + 1, 4, 1},
    {7, 54, 4, 65},
    {7, 54, 4, UINT32_MAX},
    {7, 38, 8, 1ull << 32 | 0x2d}, /* held; moved without STATS_VQ */
    {7, 58, 1, 0},
    {7, 58, 1, 2},
    {7, 58, 1, 3},
    {7, 58, 1, 5},
    {7, 58, 1, 7},
    {7, 58, 1, 11},
    {7, 58, 1, 13},
    {7, 58, 1, 14},
    {7, 58, 1, 31},
    {7, 58, 1, 47},
    {5, 58, 1, 75},
    {5, 58, 1, 0},
    {7, RINGS_AT, 8, 0x10008},
    {7, RINGS_AT + 8, 8, 0x11001},
    {7, RINGS_AT + 16, 8, 0x12002},
    {7, RINGS_AT, 8, 0xfffff0 + (8ull << 20)},
    {7, RINGS_AT, 8, UINT64_MAX - 15},
    {7, RINGS_AT + 24, 2, 0},
    {7, RINGS_AT + 24, 2, 3},
    {7, RINGS_AT + 24, 2, 63},
    {7, RINGS_AT + 24, 2, 768},
    {7, RINGS_AT + 24, 2, 2048},
    {7, RINGS_AT + RING_BYTES, 8, 1},
    {7, RINGS_AT + 2 * RING_BYTES, 8, 1},
    {7, RINGS_AT + 3 * RING_BYTES, 8, 1},
    {2, RINGS_AT + 26, 2, 1},
    {2, RINGS_AT + 28, 2, 1},
    {5, 54, 4, 1},
    {0, RINGS_AT + 26, 2, 1},
    {7, 24, 8, 1ull << 32 | 0x2f}, /* poison_val where PAGE_POISON isn't offered */
    {7, HINT_AT, 8, 1},
    {7, HINT_AT + 24, 2, 63},
    {0, HINT_AT + 24, 2, 64},
    {8, 38, 8, 1ull << 32 | 0x27}, /* the queue of hints */
    {8, ROUND_AT, 4, 4},
    {8, ROUND_AT, 4, 6},
    {8, ROUND_AT + 4, 4, 1},
    {8, ROUND_AT + 4, 4, 0}, /* a round's ids */
    {8, ROUND_AT, 4, 0},
    {8, ROUND_AT, 4, 1},
    {8, OPENED_AT, 1, 2},
    {7, OPENED_AT, 1, 1},
    {7, ROUND_AT, 4, 2},
    {7, ROUND_AT + 4, 4, 1},
    {4, ROUND_AT, 8, 0x200000002},
    {5, ROUND_AT, 8, 0x200000002}, /* before DRIVER_OK */
    {0, 38, 8, 1ull << 32},
    {0, 54, 4, 1},
    {0, RINGS_AT + 2 * RING_BYTES + 24, 2, 64},
    {3, 38, 8, 1},
    {7, 20 + 16, 1, 0}, /* nothing is changed: the one row that has to be restored */
};

/* Fields that may have any value in a running device. */
static const struct {
    size_t at;
    int bytes;
} FREE[] = {
    {32, 4},
    {37, 1},
    {46, 4},
    {50, 4},
    {RINGS_AT + 26, 2},
    {RINGS_AT + 28, 2},
    {RINGS_AT + RING_BYTES + 26, 2},
    {RINGS_AT + 3 * RING_BYTES + 28, 2},
    {POISON_AT, 4},
    {HOLD_AT, 1},
    {HINT_AT + 26, 4},
    {ROUND_AT + 4, 4},
    {SUM_AT - 1, 1},
};

static void impossible_devices_are_refused(void)
{
    size_t rows = sizeof IMPOSSIBLE / sizeof *IMPOSSIBLE;
    for (size_t row = 0; row < rows; row++) {
        uint8_t bytes[VB_STATE_BYTES];
        VbBalloon state;
        EXPECT(reach(IMPOSSIBLE[row].state) &&
               balloon_save(&guest.balloon, bytes, sizeof bytes) == VB_OK);
        put_number(bytes + IMPOSSIBLE[row].at, IMPOSSIBLE[row].value, IMPOSSIBLE[row].bytes);
        put_sum(bytes);
        if (row + 1 < rows)
            is_refused(bytes, sizeof bytes, VB_IMPOSSIBLE, row);
        else
            EXPECT(vb_restore(&state.device, &state.held, bytes, sizeof bytes) == VB_OK);
    }
    for (size_t row = 0; row < sizeof FREE / sizeof *FREE; row++) {
        uint8_t bytes[VB_STATE_BYTES];
        VbBalloon state;
        EXPECT(reach(7) && balloon_save(&guest.balloon, bytes, sizeof bytes) == VB_OK);
        put_number(bytes + FREE[row].at, UINT64_MAX, FREE[row].bytes);
        put_sum(bytes);
        EXPECT(vb_restore(&state.device, &state.held, bytes, sizeof bytes) == VB_OK);
    }
}

static const VbHeld NOTHING_HELD = {0, 0, 0};

/* The bytes of a version before this one are restored, as a device that neither has hints nor, of
 * version 2, holds a deflate or may; damaged ones by name are not. */
static void is_restored(VbBalloon it, unsigned version)
{
    VbBalloon restored;
    uint8_t bytes[VB_STATE_BYTES] = {0};
    it.device.hint = (VbQueue){.size = 0};
    it.device.round = (VbRound){.last = 0};
    it.device.settings.discards_hints = 0;
    if (version == 2) {
        it.device.settings.holds_deflates = 0;
        it.held.deflate = it.held.pages = 0;
    }
    size_t length = encode_older(&it.device, it.held, version, bytes);
    scribble_state(&restored);
    EXPECT(vb_restore(&restored.device, &restored.held, bytes, length) == VB_OK);
    EXPECT(are_same(&restored.device, restored.held, &it.device, it.held));
    is_refused(bytes, VB_STATE_BYTES, VB_BAD_LENGTH, 0);
    is_refused(bytes, length - 1, VB_BAD_LENGTH, 0);
    bytes[100] ^= 1;
    is_refused(bytes, length, VB_BAD_SUM, 100);
    bytes[100] ^= 1;
    for (unsigned other = 0; other < 6; other++) {
        bytes[8] = (uint8_t)other;
        put_sum_at(bytes, length - 8);
        if (other != version)
            is_refused(bytes, length, other >= 2 && other <= 4 ? VB_BAD_LENGTH : VB_OTHER_VERSION,
                       8);
    }
}

static void older_states_are_restored(void)
{
    for (unsigned state = 0; reach(state); state++) {
        is_restored(guest.balloon.state, 2);
        is_restored(guest.balloon.state, 3);
    }
}

/* What vb_save refuses: structs that were written to. */
static void impossible_devices_are_not_saved(void)
{
    uint8_t bytes[VB_STATE_BYTES], before[VB_STATE_BYTES];
    memset(bytes, 0x5a, sizeof bytes);
    memcpy(before, bytes, sizeof before);
    EXPECT(reach(7));
    VbDevice good = guest.balloon.state.device, device = good;
    device.status = 64;
    EXPECT(vb_save(&device, NOTHING_HELD, bytes, sizeof bytes) == VB_IMPOSSIBLE);
    device = good;
    device.inflate.table += 1;
    EXPECT(vb_save(&device, NOTHING_HELD, bytes, sizeof bytes) == VB_IMPOSSIBLE);
    device = good;
    device.settings.memory_end = 8192;
    EXPECT(vb_save(&device, NOTHING_HELD, bytes, sizeof bytes) == VB_IMPOSSIBLE);
    EXPECT(vb_save(&good, (VbHeld){.statistics = 65}, bytes, sizeof bytes) == VB_IMPOSSIBLE &&
           memcmp(bytes, before, sizeof bytes) == 0);
    const size_t rooms[] = {0, 1, VB_STATE_BYTES - 1};
    for (size_t i = 0; i < sizeof rooms / sizeof *rooms; i++)
        EXPECT(balloon_save(&guest.balloon, bytes, rooms[i]) == VB_BAD_LENGTH &&
               memcmp(bytes, before, sizeof bytes) == 0);
    EXPECT(vb_save(&good, (VbHeld){.statistics = 64}, bytes, sizeof bytes) == VB_OK);
}

/* A balloon continues where it was; not over other memory, or with a queue in a hole. */
static void a_balloon_goes_on(void)
{
    uint8_t bytes[VB_STATE_BYTES], again[VB_STATE_BYTES];
    struct balloon_region low = guest.regions[0];
    struct guest *it = &guest;
    EXPECT(reach(7) && balloon_save(&it->balloon, bytes, sizeof bytes) == VB_OK);
    uint16_t used = used_index(it, VB_STATISTICS);
    EXPECT(balloon_init(&it->balloon, &low, 1, SETTINGS) == VB_OK);
    EXPECT(balloon_restore(&it->balloon, bytes, sizeof bytes) == VB_MISPLACED &&
           it->balloon.state.device.status == 0);
    struct balloon_region above[2] = {it->regions[1], it->regions[0]};
    above[1].guest += 0x20000;
    above[1].host += 0x20000;
    above[1].length -= 0x20000;
    EXPECT(balloon_init(&it->balloon, above, 2, SETTINGS) == VB_OK);
    EXPECT(balloon_restore(&it->balloon, bytes, sizeof bytes) == VB_MISPLACED &&
           it->balloon.state.device.status == 0);
    EXPECT(balloon_init(&it->balloon, it->regions, 2, SETTINGS) == VB_OK);
    bytes[100] ^= 1;
    EXPECT(balloon_restore(&it->balloon, bytes, sizeof bytes) == VB_BAD_SUM &&
           it->balloon.state.device.status == 0);
    bytes[100] ^= 1;
    balloon_set_target(&it->balloon, 99);
    EXPECT(balloon_restore(&it->balloon, bytes, sizeof bytes) == VB_OK);
    EXPECT(balloon_save(&it->balloon, again, sizeof again) == VB_OK &&
           memcmp(bytes, again, sizeof again) == 0);
    EXPECT(balloon_ask_statistics(&it->balloon).chains == 1 &&
           used_index(it, VB_STATISTICS) == (uint16_t)(used + 1));
    EXPECT(last_used(it, VB_STATISTICS) == 3);
    name_pages(it, VB_INFLATE, (const uint32_t[]){700}, 1);
    EXPECT(balloon_notify(&it->balloon, VB_INFLATE).pages == 1);
}

/* No balloon continues of which any one queue has a part in the hole; the last of four places of a
 * queue has none there. */
static void no_queue_lies_in_a_hole(void)
{
    const uint64_t hole = HIGH_ADDRESS - 4096;
    struct balloon *balloon = &guest.balloon;
    for (uint32_t kind = 0; kind < VB_NO_KIND; kind++)
        for (unsigned part = 0; part < 4; part++) {
            uint8_t bytes[VB_STATE_BYTES];
            EXPECT(reach(5));
            EXPECT(vb_place(&balloon->state.device, kind, part == 0 ? hole : table_of(kind),
                            part == 1 ? hole : avail_of(kind), part == 2 ? hole : used_of(kind),
                            64) == VB_OK);
            EXPECT(balloon_save(balloon, bytes, sizeof bytes) == VB_OK);
            EXPECT(balloon_init(balloon, guest.regions, 2, SETTINGS) == VB_OK);
            EXPECT(balloon_restore(balloon, bytes, sizeof bytes) ==
                   (part < 3 ? VB_MISPLACED : VB_OK));
            EXPECT(balloon->state.device.status == (part < 3 ? 0 : 11));
        }
}

/* Memory that ends before a queue is accepted, and not saved until the driver resets the device, or
 * the queue stops. */
static void memory_may_end_before_a_queue(void)
{
    struct balloon *balloon = &guest.balloon;
    uint8_t bytes[VB_STATE_BYTES], untouched[VB_STATE_BYTES];
    memset(bytes, 0x5a, sizeof bytes);
    memcpy(untouched, bytes, sizeof bytes);
    for (int stops = 0; stops < 2; stops++) {
        struct balloon_result result;
        uint16_t next;
        EXPECT(reach(5));
        EXPECT(balloon_place(balloon, VB_INFLATE, HIGH_ADDRESS, HIGH_ADDRESS + 0x1000,
                             HIGH_ADDRESS + 0x2000, 64) == VB_OK);
        EXPECT(balloon_set_regions(balloon, guest.regions, 1) == VB_OK);
        EXPECT(balloon_save(balloon, bytes, sizeof bytes) == VB_IMPOSSIBLE &&
               memcmp(bytes, untouched, sizeof bytes) == 0);
        EXPECT(balloon_write_status(balloon, 15, &result) == 0 &&
               balloon_notify(balloon, VB_INFLATE).code == VB_MISPLACED);
        EXPECT(stops ? balloon_stop_queue(balloon, VB_INFLATE, &next) == VB_OK
                     : balloon_write_status(balloon, 0, &result) == 0);
        EXPECT(balloon_save(balloon, bytes, sizeof bytes) == VB_OK &&
               balloon_restore(balloon, bytes, sizeof bytes) == VB_OK);
        memcpy(bytes, untouched, sizeof bytes);
    }
}

int main(void)
{
    EXPECT(vb_version() == VB_VERSION_NUMBER);
    unsigned numbers[3];
    EXPECT(sscanf(VB_VERSION, "%u.%u.%u", &numbers[0], &numbers[1], &numbers[2]) == 3);
    EXPECT((numbers[0] << 16 | numbers[1] << 8 | numbers[2]) == VB_VERSION_NUMBER);
    make_memory(&guest, BALLOON_PRIVATE);
    saved_states_have_the_format();
    each_damaged_byte_is_refused();
    older_states_are_restored();
    impossible_devices_are_refused();
    impossible_devices_are_not_saved();
    a_balloon_goes_on();
    no_queue_lies_in_a_hole();
    memory_may_end_before_a_queue();
    any_restored_device_works();
    all_that_calls_lead_to_is_saved();
    free_memory(&guest);
    puts("saved: all passed");
    return 0;
}
