/* What a driver writes and reads: any status, features, places and configuration. */
#include "any.h"

void call_driver(void)
{
    VbDevice before = any_device(), device = before, twin = before;
    uint32_t number = (uint32_t)any_number(), kind = (uint32_t)any_number();
    uint16_t size = (uint16_t)any_number();
    uint64_t table = any_number(), avail = any_number(), used = any_number(),
             features = once_in(2) ? any() : VERSION_1;
    uint8_t status = (uint8_t)any_number();
    device.status = twin.status = once_in(2) ? (uint8_t)any_number() : 3;
    EXPECT(vb_kind(&device, number) == reference_kind(&twin, number));
    EXPECT(vb_place(&device, kind, table, avail, used, size) ==
           reference_place(&twin, kind, table, avail, used, size));
    EXPECT(vb_negotiate(&device, features) == reference_negotiate(&twin, features) &&
           same(&device, &twin));
    device.settings.needs_must_tell = twin.settings.needs_must_tell = once_in(2);
    EXPECT(vb_write_status(&device, status) == reference_write_status(&twin, status) &&
           same(&device, &twin));
    vb_set_target(&device, kind);
    EXPECT(device.target == kind && (device.target = twin.target, same(&device, &twin)));
}

/* Rounds begin, stop and end; a refusal changes nothing. */
void call_hints(void)
{
    VbDevice device = any_device(), twin = device, before = device;
    uint32_t id = 7, other = 8, code = vb_begin_hints(&device, &id);
    EXPECT(code == reference_begin_hints(&twin, &other) && id == other && same(&device, &twin));
    EXPECT(code == VB_OK ? id >= 2 && id != before.round.last : id == 0 && same(&device, &before));
    EXPECT(vb_hints_open(&device) == reference_hints_open(&twin));
    if (once_in(2))
        vb_stop_hints(&device), reference_stop_hints(&twin);
    else
        vb_end_hints(&device), reference_end_hints(&twin);
    EXPECT(same(&device, &twin) && vb_hints_open(&device) == 0);
    answers[code]++;
}

/* Reads and writes of the configuration space: usually of a field, of all fields, or beside one. */
void call_config(void)
{
    VbDevice device = any_device(), twin = device;
    uint32_t offset = once_in(4) ? (uint32_t)any_number() : any() % 20;
    size_t length = once_in(2) ? any() % 32 : once_in(2) ? 16 : 4;
    uint8_t *bytes = any_bytes(0, length), *out = list_of(2, length), why[32];
    EXPECT(vb_write_config(&device, offset, bytes, length) ==
           reference_write_config(&twin, offset, bytes, length));
    EXPECT(same(&device, &twin) && vb_keeps_reports(&device) == reference_keeps_reports(&twin));
    vb_read_config(&device, offset, out, length);
    reference_read_config(&twin, offset, why, length);
    EXPECT(memcmp(out, why, length) == 0);
}
