/* The steps of a driver, by vb.h alone: settings, status, features, configuration, and where queues
 * are. */
#include "test.h"

static void settings_have_bounds(void)
{
    VbDevice device;
    VbSettings good = {.memory_end = 0, .offered = VERSION_1};
    EXPECT(vb_new(&device, good) == VB_OK);
    EXPECT(device.status == 0 && device.target == 0 && device.actual == 0 &&
           device.inflate.size == 0);
    VbSettings it = good;
    it.memory_end = (1ull << 44) - 4096;
    EXPECT(vb_new(&device, it) == VB_OK);
    it.memory_end = (1ull << 44) + 4096;
    EXPECT(vb_new(&device, it) == VB_BAD_ARGUMENT);
    it.memory_end = UINT64_MAX;
    EXPECT(vb_new(&device, it) == VB_BAD_ARGUMENT);
    it = good;
    it.offered = 0x27; /* without VERSION_1 */
    EXPECT(vb_new(&device, it) == VB_BAD_ARGUMENT);
    it.offered = VERSION_1 | VB_F_PAGE_POISON | VB_F_FREE_PAGE_HINT;
    EXPECT(vb_new(&device, it) == VB_OK);
    const uint64_t never[] = {1 << 6, 1 << 7, 1ull << 28, 1ull << 29, 1ull << 33, 1ull << 63};
    for (size_t i = 0; i < sizeof never / sizeof never[0]; i++) {
        it.offered = VERSION_1 | never[i];
        EXPECT(vb_new(&device, it) == VB_BAD_ARGUMENT);
    }
}

/* Linux on PCI: 0, 0, 1, 3, features, 11, four queues, 15; then it reads num_pages. Addresses as it
 * chose them. */
static void linux_starts_on_pci(void)
{
    VbDevice device;
    const uint64_t rings[] = {0x111a3000, 0x111a4000, 0x111a5000, 0x111a6000};
    const VbSettings settings = {.memory_end = 320ull * MIB, .offered = LINUX_FEATURES};
    EXPECT(vb_new(&device, settings) == VB_OK);
    vb_set_target(&device, 16384);
    EXPECT(vb_write_status(&device, 0) == 0 && vb_write_status(&device, 0) == 0);
    EXPECT(vb_write_status(&device, 1) == 0 && vb_write_status(&device, 3) == 0);
    EXPECT(vb_negotiate(&device, LINUX_FEATURES) == 0 && vb_write_status(&device, 11) == 0);
    for (uint32_t i = 0; i < 4; i++)
        EXPECT(vb_kind(&device, i) == i &&
               vb_place(&device, i, rings[i], rings[i] + 0x800, rings[i] + 0x940, 128) == VB_OK);
    EXPECT(vb_kind(&device, 4) == VB_NO_KIND && vb_write_status(&device, 15) == 0 &&
           device.status == 15);
    uint8_t word[4], told[4] = {0, 1, 0, 0};
    vb_read_config(&device, 0, word, 4);
    EXPECT(word[0] == 0 && word[1] == 0x40 && word[2] == 0 && word[3] == 0);
    EXPECT(vb_write_config(&device, 4, told, 4) == VB_OK && device.actual == 256);
    EXPECT(vb_write_status(&device, 0) == 0); /* rmmod */
    EXPECT(device.status == 0 && device.features == 0 && device.actual == 0 &&
           device.target == 16384);
    EXPECT(device.inflate.size == 0 && device.report.size == 0 &&
           device.settings.offered == LINUX_FEATURES);
}

/* User Mode Linux: queues of 256, each part on a page of its own, memory that doesn't begin at
  * 0. */
static void linux_starts_on_uml(void)
{
    VbDevice device;
    const VbSettings settings = {.memory_end = 256ull * MIB, .offered = LINUX_FEATURES};
    EXPECT(vb_new(&device, settings) == VB_OK);
    EXPECT(vb_write_status(&device, 1) == 0 && vb_write_status(&device, 3) == 0);
    EXPECT(vb_negotiate(&device, 1ull << 32 | 0x23) == 0);
    EXPECT(vb_negotiate(&device, LINUX_FEATURES) == 0); /* written again: the last write counts */
    EXPECT(device.features == LINUX_FEATURES && vb_write_status(&device, 11) == 0);
    EXPECT(vb_place(&device, VB_INFLATE, 0x19f8000, 0x19f9000, 0x19fa000, 256) == VB_OK);
    EXPECT(vb_place(&device, VB_REPORT, 0x1d18000, 0x1d19000, 0x1d1a000, 256) == VB_OK);
    EXPECT(vb_write_status(&device, 15) == 0);
    EXPECT(vb_write_status(&device, 139) == 1 &&
           vb_write_status(&device, 143) == 0); /* it gives up */
}

static void queues_are_numbered_without_gaps(void)
{
    const struct {
        uint64_t features;
        uint32_t kinds[5];
    } rows[] = {
        {0, {VB_INFLATE, VB_DEFLATE, VB_NO_KIND, VB_NO_KIND, VB_NO_KIND}},
        {STATS_VQ, {VB_INFLATE, VB_DEFLATE, VB_STATISTICS, VB_NO_KIND, VB_NO_KIND}},
        {REPORTING, {VB_INFLATE, VB_DEFLATE, VB_REPORT, VB_NO_KIND, VB_NO_KIND}},
        {STATS_VQ | REPORTING, {VB_INFLATE, VB_DEFLATE, VB_STATISTICS, VB_REPORT, VB_NO_KIND}},
    };
    for (size_t row = 0; row < 4; row++) {
        VbDevice device;
        const VbSettings settings = {.memory_end = MIB, .offered = LINUX_FEATURES};
        EXPECT(vb_new(&device, settings) == VB_OK && vb_write_status(&device, 1) == 0);
        EXPECT(vb_write_status(&device, 3) == 0 &&
               vb_negotiate(&device, VERSION_1 | rows[row].features) == 0);
        for (uint32_t number = 0; number < 5; number++)
            EXPECT(vb_kind(&device, number) == rows[row].kinds[number]);
        EXPECT(vb_kind(&device, UINT32_MAX) == VB_NO_KIND);
    }
}

static void status_is_refused(void)
{
    VbDevice device;
    VbSettings settings = {
        .memory_end = MIB, .offered = VERSION_1 | MUST_TELL_HOST, .needs_must_tell = 1};
    EXPECT(vb_new(&device, settings) == VB_OK);
    EXPECT(vb_negotiate(&device, VERSION_1) == 2);
    const uint8_t early[] = {2, 4, 8, 3, 15, 16, 32, 64, 65, 129};
    for (size_t i = 0; i < sizeof early; i++)
        EXPECT(vb_write_status(&device, early[i]) == 2 && device.status == 0);
    EXPECT(vb_write_status(&device, 1) == 0 && vb_write_status(&device, 1) == 0);
    EXPECT(vb_write_status(&device, 2) == 1 && vb_write_status(&device, 5) == 2 &&
           vb_write_status(&device, 9) == 2);
    EXPECT(vb_write_status(&device, 3) == 0 && vb_write_status(&device, 7) == 2);
    EXPECT(vb_negotiate(&device, 1ull << 40) == 3 &&
           vb_negotiate(&device, VERSION_1 | STATS_VQ) == 3);
    EXPECT(vb_negotiate(&device, VERSION_1) == 0 && vb_write_status(&device, 11) == 4);
    EXPECT(vb_negotiate(&device, MUST_TELL_HOST) == 0 && vb_write_status(&device, 11) == 5 &&
           device.status == 3);
    EXPECT(vb_negotiate(&device, VERSION_1 | MUST_TELL_HOST) == 0 &&
           vb_write_status(&device, 11) == 0);
    EXPECT(vb_negotiate(&device, VERSION_1) == 2 &&
           device.features == (VERSION_1 | MUST_TELL_HOST));
    EXPECT(vb_write_status(&device, 3) == 1 && vb_write_status(&device, 15) == 0);
    EXPECT(vb_write_status(&device, 15 | 64) == 2 && vb_write_status(&device, 15 | 128) == 0);
    EXPECT(vb_write_status(&device, 0) == 0 && vb_write_status(&device, 128) == 0);
    EXPECT(vb_write_status(&device, 129) == 2 && device.status == 128);
}

static void configuration_is_little_endian(void)
{
    VbDevice device;
    const VbSettings settings = {.memory_end = MIB, .offered = VERSION_1};
    const uint8_t actual[] = {0x11, 0x22, 0x33, 0x44},
                  all[] = {1, 2, 3, 4, 0x11, 0x22, 0x33, 0x44, 0, 0, 0, 0};
    uint8_t out[12];
    EXPECT(vb_new(&device, settings) == VB_OK);
    vb_set_target(&device, 0x04030201);
    EXPECT(vb_write_config(&device, 4, actual, 4) == VB_OK && device.actual == 0x44332211);
    for (uint32_t offset = 0; offset < 12; offset++) {
        memset(out, 0xee, sizeof out);
        vb_read_config(&device, offset, out, 12 - offset);
        EXPECT(memcmp(out, all + offset, 12 - offset) == 0);
    }
    memset(out, 0xee, sizeof out);
    vb_read_config(&device, UINT32_MAX, out, 12);
    for (int i = 0; i < 12; i++)
        EXPECT(out[i] == 0);
    vb_read_config(&device, 0, NULL, 0);
}

/* A driver may write actual and, where it is offered, poison_val: a write takes those that it
 * covers whole, as QEMU hands over all 16 bytes for each field. The bytes that would be at 4 and at
 * 12 of a write from 0 on are those of the fields. */
static void a_write_takes_the_fields_that_it_covers(bool offered)
{
    enum { NEITHER, ACTUAL, POISON, BOTH };
    const struct {
        uint32_t offset;
        size_t length;
        unsigned takes;
    } rows[] = {
        {0, 16, BOTH},
        {4, 12, BOTH},
        {3, 13, BOTH},
        {4, 13, BOTH},
        {0, 24, BOTH},
        {4, 4, ACTUAL},
        {0, 8, ACTUAL},
        {3, 6, ACTUAL},
        {4, 11, ACTUAL},
        {0, 15, ACTUAL},
        {12, 4, POISON},
        {12, 12, POISON},
        {5, 11, POISON},
        {8, 8, POISON},
        {11, 6, POISON},
        {0, 4, NEITHER},
        {0, 7, NEITHER},
        {4, 3, NEITHER},
        {5, 4, NEITHER},
        {5, 10, NEITHER},
        {8, 4, NEITHER},
        {8, 7, NEITHER},
        {12, 3, NEITHER},
        {13, 4, NEITHER},
        {13, 11, NEITHER},
        {16, 8, NEITHER},
        {0, 0, NEITHER},
        {4, 0, NEITHER},
        {12, 0, NEITHER},
        {UINT32_MAX - 3, 4, NEITHER},
        {UINT32_MAX, 24, NEITHER},
    };
    const uint8_t all[48] = {1, 2, 3,    4,    0x11, 0x22, 0x33, 0x44, 5, 6,
                             7, 8, 0xdd, 0xcc, 0xbb, 0xaa, 9,    10,   11};
    const uint8_t seven[] = {7, 0, 0, 0};
    for (size_t row = 0; row < sizeof rows / sizeof rows[0]; row++) {
        VbDevice device;
        const VbSettings settings = {.memory_end = MIB,
                                     .offered = VERSION_1 | (offered ? VB_F_PAGE_POISON : 0)};
        unsigned takes = rows[row].takes & (offered ? BOTH : ACTUAL);
        EXPECT(vb_new(&device, settings) == VB_OK &&
               vb_write_config(&device, 4, seven, 4) == VB_OK);
        EXPECT(vb_write_config(&device, 12, seven, 4) == (offered ? VB_OK : VB_BAD_ARGUMENT));
        uint32_t code = vb_write_config(&device, rows[row].offset, all + rows[row].offset % 24,
                                        rows[row].length);
        EXPECT(code == (takes == NEITHER ? VB_BAD_ARGUMENT : VB_OK));
        EXPECT(device.actual == (takes & ACTUAL ? 0x44332211 : 7));
        EXPECT(device.poison == (takes & POISON ? 0xaabbccdd : offered ? 7 : 0));
        EXPECT(device.target == 0 && device.status == 0 && device.features == 0);
    }
}

/* poison_val: 4 bytes at 12, which are there to read and to write where PAGE_POISON is offered
 * (VIRTIO 1.2, 5.5.4). */
static void poison_val_stands_at_12(bool offered)
{
    VbDevice device;
    const VbSettings settings = {.memory_end = MIB,
                                 .offered = VERSION_1 | (offered ? VB_F_PAGE_POISON : 0)};
    const uint8_t poison[] = {0xdd, 0xcc, 0xbb, 0xaa, 1};
    EXPECT(vb_new(&device, settings) == VB_OK && device.poison == 0);
    EXPECT(vb_write_config(&device, 12, poison, 4) == (offered ? VB_OK : VB_BAD_ARGUMENT));
    EXPECT(device.poison == (offered ? 0xaabbccdd : 0) && device.actual == 0 && device.target == 0);
    for (uint32_t offset = 0; offset < 20; offset++) {
        uint8_t byte = 0xee;
        vb_read_config(&device, offset, &byte, 1);
        EXPECT(byte == (offered && offset >= 12 && offset < 16 ? poison[offset - 12] : 0));
    }
    EXPECT(vb_write_status(&device, 1) == 0 && vb_write_status(&device, 3) == 0);
    EXPECT(vb_negotiate(&device, VERSION_1 | VB_F_PAGE_POISON) == (offered ? 0 : 3));
    EXPECT(vb_keeps_reports(&device) == offered && vb_write_status(&device, 0) == 0);
    EXPECT(device.poison == 0 && device.settings.offered == settings.offered &&
           vb_keeps_reports(&device) == 0);
}

static void places_are_refused(void)
{
    VbDevice device;
    const VbSettings settings = {.memory_end = MIB, .offered = LINUX_FEATURES};
    EXPECT(vb_new(&device, settings) == VB_OK && vb_write_status(&device, 1) == 0 &&
           vb_write_status(&device, 3) == 0);
    EXPECT(vb_negotiate(&device, VERSION_1) == 0 && vb_write_status(&device, 11) == 0);
    EXPECT(vb_place(&device, VB_NO_KIND, 0, 0, 0, 0) == VB_NO_QUEUE);
    EXPECT(vb_place(&device, VB_STATISTICS, 0x1000, 0x2000, 0x3000, 8) == VB_NO_QUEUE);
    EXPECT(vb_place(&device, VB_REPORT, 0x1000, 0x2000, 0x3000, 8) == VB_NO_QUEUE);
    const uint16_t sizes[] = {0, 3, 5, 6, 255, 257, 768, 1025, 2048, 32768, 65535};
    for (size_t i = 0; i < sizeof sizes / 2; i++)
        EXPECT(vb_place(&device, VB_INFLATE, 0x1000, 0x2000, 0x3000, sizes[i]) == VB_MISPLACED);
    EXPECT(vb_place(&device, VB_INFLATE, 0x1008, 0x2000, 0x3000, 8) == VB_MISPLACED);
    EXPECT(vb_place(&device, VB_INFLATE, 0x1000, 0x2001, 0x3000, 8) == VB_MISPLACED);
    EXPECT(vb_place(&device, VB_INFLATE, 0x1000, 0x2000, 0x3002, 8) == VB_MISPLACED);
    EXPECT(vb_place(&device, VB_INFLATE, MIB - 112, 0x2000, 0x3000, 8) == VB_MISPLACED);
    EXPECT(vb_place(&device, VB_INFLATE, 0x1000, MIB - 18, 0x3000, 8) == VB_MISPLACED);
    EXPECT(vb_place(&device, VB_INFLATE, 0x1000, 0x2000, MIB - 64, 8) == VB_MISPLACED);
    EXPECT(vb_place(&device, VB_INFLATE, UINT64_MAX - 15, 0x2000, 0x3000, 8) == VB_MISPLACED);
    EXPECT(device.inflate.size == 0);
    EXPECT(vb_place(&device, VB_INFLATE, MIB - 128, 0x2002, 0x3004, 8) == VB_OK);
    EXPECT(device.inflate.table == MIB - 128 && device.inflate.avail == 0x2002 &&
           device.inflate.used == 0x3004);
    EXPECT(device.inflate.size == 8 && device.inflate.next_avail == 0 &&
           device.inflate.next_used == 0);
    EXPECT(vb_place(&device, VB_DEFLATE, 0x1010, 0x2000, 0x3000, 2) == VB_OK);
    EXPECT(vb_write_status(&device, 15) == 0);
    EXPECT(vb_place(&device, VB_INFLATE, 0x1000, 0x2000, 0x3000, 8) == VB_BAD_ARGUMENT &&
           device.inflate.size == 8);
}

void test_steps(void)
{
    RUN(settings_have_bounds());
    RUN(linux_starts_on_pci());
    RUN(linux_starts_on_uml());
    RUN(queues_are_numbered_without_gaps());
    RUN(status_is_refused());
    RUN(configuration_is_little_endian());
    RUN(a_write_takes_the_fields_that_it_covers(true));
    RUN(a_write_takes_the_fields_that_it_covers(false));
    RUN(poison_val_stands_at_12(true));
    RUN(poison_val_stands_at_12(false));
    RUN(places_are_refused());
}
