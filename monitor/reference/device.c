/* Settings, status, features and configuration of vb.h in plain C. */
#include "reference.h"

uint64_t little(const uint8_t *bytes, int count)
{
    uint64_t value = 0;
    memcpy(&value, bytes, (size_t)count);
#if __BYTE_ORDER__ == __ORDER_BIG_ENDIAN__
    value = __builtin_bswap64(value);
#endif
    return value;
}

uint64_t page_count(const VbDevice *device)
{
    return device->settings.memory_end / PAGE;
}

/* How many page numbers a request has at most. */
uint64_t longest_request(const VbDevice *device)
{
    return page_count(device) > VB_LONGEST_REQUEST ? page_count(device) : VB_LONGEST_REQUEST;
}

bool are_impossible(const VbSettings *settings)
{
    return settings->memory_end >= MOST_MEMORY || (settings->offered & ~KNOWN) ||
           !(settings->offered & VERSION_1);
}

uint32_t vb_new(VbDevice *device, VbSettings settings)
{
    memset(device, 0, sizeof *device);
    if (are_impossible(&settings))
        return VB_BAD_ARGUMENT;
    device->settings = settings;
    return VB_OK;
}

void vb_set_target(VbDevice *device, uint32_t pages)
{
    device->target = pages;
}

static void reset(VbDevice *device)
{
    VbDevice fresh = {.settings = device->settings,
                      .target = device->target,
                      .round = {.last = device->round.last}};
    *device = fresh;
}

/* Whether these new bits don't follow on this status (VIRTIO 1.1, 2.1 and 3.1.1). */
static bool out_of_order(uint8_t status, uint8_t added)
{
    uint8_t steps = added & (ACKNOWLEDGE | DRIVER | FEATURES_OK | DRIVER_OK);
    return (steps & (steps - 1)) != 0 || (steps == DRIVER && !(status & ACKNOWLEDGE)) ||
           (steps == FEATURES_OK && !(status & DRIVER)) ||
           (steps == DRIVER_OK && !(status & FEATURES_OK)) || (added & (16 | 32 | NEEDS_RESET)) ||
           (steps && (added & FAILED)) || (steps && (status & (NEEDS_RESET | FAILED)));
}

uint32_t vb_write_status(VbDevice *device, uint8_t status)
{
    uint8_t added = status & ~device->status;
    if (status == 0) {
        reset(device);
        return 0;
    }
    if (device->status & ~status)
        return 1;
    if (out_of_order(device->status, added))
        return 2;
    if ((added & FEATURES_OK) && !(device->features & VERSION_1))
        return 5;
    if ((added & FEATURES_OK) && device->settings.needs_must_tell &&
        !(device->features & MUST_TELL_HOST))
        return 4;
    device->status = status;
    return 0;
}

uint32_t vb_negotiate(VbDevice *device, uint64_t features)
{
    if (device->status != (ACKNOWLEDGE | DRIVER))
        return 2;
    if (features & ~device->settings.offered)
        return 3;
    device->features = features;
    return 0;
}

void vb_read_config(const VbDevice *device, uint32_t offset, uint8_t *out, size_t length)
{
    uint32_t poison = device->settings.offered & VB_F_PAGE_POISON ? device->poison : 0;
    uint32_t id = device->settings.offered & VB_F_FREE_PAGE_HINT ? device->round.shown : 0;
    const uint32_t words[4] = {device->target, device->actual, id, poison};
    for (size_t i = 0; i < length; i++) {
        uint64_t at = (uint64_t)offset + i;
        out[i] = at < sizeof words ? (uint8_t)(words[at / 4] >> 8 * (at % 4)) : 0;
    }
}

/* Writes a field of 4 bytes where these bytes cover it whole. */
static bool write_field(uint32_t *field, uint32_t at, uint32_t offset, const uint8_t *bytes,
                        size_t length)
{
    if (at < offset || length < 4 || length - 4 < at - offset)
        return false;
    *field = (uint32_t)little(bytes + (at - offset), 4);
    return true;
}

uint32_t vb_write_config(VbDevice *device, uint32_t offset, const uint8_t *bytes, size_t length)
{
    bool actual = write_field(&device->actual, 4, offset, bytes, length);
    bool poison = (device->settings.offered & VB_F_PAGE_POISON) &&
                  write_field(&device->poison, 12, offset, bytes, length);
    return actual || poison ? VB_OK : VB_BAD_ARGUMENT;
}

uint32_t vb_keeps_reports(const VbDevice *device)
{
    return (device->features & VB_F_PAGE_POISON) && device->poison != 0;
}
