/* Random states: bytes with a right sum are refused, or a device that all calls work on; and what
 * calls lead to is saved. */
#include "saved.h"

enum { ROUNDS = 200000 };

static uint64_t seed = 88172645463325252;
static uint32_t chance(uint32_t below)
{
    seed ^= seed << 13;
    seed ^= seed >> 7;
    seed ^= seed << 17;
    return (uint32_t)((seed >> 16) % below);
}

static void all_calls_work(void)
{
    struct balloon_result result;
    uint8_t word[8];
    for (uint32_t kind = 0; kind <= VB_NO_KIND; kind++)
        balloon_notify(&guest.balloon, kind);
    balloon_ask_statistics(&guest.balloon);
    balloon_give_deflate(&guest.balloon);
    balloon_read_config(&guest.balloon, chance(9), word, sizeof word);
    balloon_place(&guest.balloon, chance(5), chance(1 << 24), chance(1 << 24), chance(1 << 24),
                  (uint16_t)chance(300));
    balloon_write_status(&guest.balloon, (uint8_t)chance(256), &result);
}

void any_restored_device_works(void)
{
    unsigned restored = 0;
    for (unsigned round = 0; round < ROUNDS; round++) {
        uint8_t bytes[VB_STATE_BYTES];
        EXPECT(reach(5 + chance(6)) && balloon_save(&guest.balloon, bytes, sizeof bytes) == VB_OK);
        for (uint32_t changes = 1 + chance(3); changes > 0; changes--) {
            size_t at = 24 + chance(SUM_AT - 24);
            bytes[at] = chance(2) ? (uint8_t)chance(256) : bytes[at] ^ (uint8_t)(1u << chance(8));
        }
        put_sum(bytes);
        if (balloon_restore(&guest.balloon, bytes, sizeof bytes) == VB_OK) {
            restored++;
            all_calls_work();
        }
    }
    EXPECT(restored > ROUNDS / 100 && restored < ROUNDS);
    printf("saved: %u of %u changed states were restored, and worked on\n", restored,
           (unsigned)ROUNDS);
}

/* Pages, or a buffer of one figure, from rings that restart with each life of the device. */
static void any_request(uint32_t kind)
{
    if (guest.balloon.state.device.status == 0) {
        for (uint32_t each = 0; each < VB_NO_KIND; each++)
            put(&guest, avail_of(each) + 2, guest.published[each] = 0, 2);
    } else if (kind == VB_STATISTICS || kind == VB_HINT) {
        put(&guest, buffer_of(kind), guest.balloon.state.device.round.last + (chance(4) == 0), 4);
        describe(&guest, kind, 0, buffer_of(kind), kind == VB_HINT ? 4 : 10, 0, 0);
        publish(&guest, kind, 0);
    } else {
        name_pages(&guest, kind, (const uint32_t[]){chance(3000), chance(3000)}, 2);
    }
}

/* Where the driver's rings are, or one of its addresses away; at the index that it published, or at
 * any. */
static VbQueueStart any_start(uint32_t kind)
{
    uint16_t next = chance(4) ? guest.published[kind] : (uint16_t)chance(65536);
    return (VbQueueStart){table_of(kind) + 8 * (chance(8) == 0), avail_of(kind), used_of(kind), 64,
                          next};
}

static void any_stop(uint32_t kind)
{
    uint16_t next;
    if (chance(8) == 0)
        balloon_forget_held(&guest.balloon, kind);
    else if (balloon_stop_queue(&guest.balloon, kind, &next) == VB_OK && chance(4))
        balloon_start_queue(
            &guest.balloon, kind,
            (VbQueueStart){table_of(kind), avail_of(kind), used_of(kind), 64, next});
}

static void any_round(struct balloon *balloon)
{
    uint32_t id;
    switch (chance(4)) {
    case 0:
        balloon_stop_hints(balloon);
        break;
    case 1:
        balloon_end_hints(balloon);
        break;
    default:
        balloon_begin_hints(balloon, &id);
        break;
    }
}

/* One random call of a driver, or of a host. */
static void any_step(void)
{
    static const uint8_t statuses[] = {0, 1, 3, 11, 15, 128, 129, 131, 139, 143, 79, 207};
    static const uint64_t features[] = {
        0, 1, 2, 0x30, 1ull << 32, 1ull << 32 | 2, 1ull << 32 | 0x2a, 1ull << 32 | 0x2f};
    struct balloon *balloon = &guest.balloon;
    struct balloon_result result;
    uint32_t kind = chance(VB_NO_KIND);
    switch (chance(13)) {
    case 0:
        balloon_write_status(balloon, statuses[chance(5) * (chance(4) > 0) + chance(2) * chance(8)],
                             &result);
        break;
    case 1:
        balloon_write_status(balloon, (uint8_t)(balloon->state.device.status | 1u << chance(8)),
                             &result);
        break;
    case 2:
        balloon_negotiate(balloon, features[chance(8)]);
        break;
    case 3:
    case 4:
        balloon_place(balloon, kind, table_of(kind), avail_of(kind), used_of(kind), 64);
        break;
    case 5:
        any_request(kind);
        break;
    case 6:
    case 7:
        balloon_notify(balloon, kind);
        break;
    case 8:
        chance(2) ? balloon_ask_statistics(balloon) : balloon_give_deflate(balloon);
        break;
    case 9:
        balloon_write_config(balloon, 4 * chance(5), (const uint8_t[]){(uint8_t)chance(3), 0, 0, 0},
                             4);
        break;
    case 10:
        balloon_start_queue(balloon, kind, any_start(kind));
        break;
    case 11:
        any_round(balloon);
        break;
    default:
        any_stop(kind);
        break;
    }
}

/* Whatever calls lead to is saved, and restored as it was. */
void all_that_calls_lead_to_is_saved(void)
{
    unsigned kinds[256] = {0}, held = 0, deflates = 0, rounds = 0;
    EXPECT(reach(0));
    for (unsigned round = 0; round < 5 * ROUNDS; round++) {
        uint8_t bytes[VB_STATE_BYTES];
        VbBalloon restored, *it = &guest.balloon.state;
        any_step();
        EXPECT(balloon_save(&guest.balloon, bytes, sizeof bytes) == VB_OK);
        EXPECT(vb_restore(&restored.device, &restored.held, bytes, sizeof bytes) == VB_OK);
        EXPECT(are_same(&restored.device, restored.held, &it->device, it->held));
        kinds[it->device.status]++;
        held += it->held.statistics > 0;
        deflates += it->held.deflate > 0;
        rounds += it->device.round.opened;
    }
    unsigned seen = 0;
    for (unsigned status = 0; status < 256; status++)
        seen += kinds[status] > 0;
    printf("saved: %u statuses, %u held buffers, %u held deflates and %u open rounds on the way\n",
           seen, held, deflates, rounds);
    EXPECT(seen == 12 && held > 0 && deflates > 0 && rounds > 0);
}
