/*
 * The control area of a balloon's vhost-user backend: what vhost-user has no
 * message for, after the configuration (docs/LINUX.md of Bigvasta)
 *
 * SPDX-License-Identifier: GPL-2.0-or-later
 */

#include "qemu/osdep.h"
#include "qapi/error.h"
#include "qapi/visitor.h"
#include "qemu/error-report.h"
#if __has_include("hw/core/boards.h")
#include "hw/core/boards.h"
#else
#include "hw/boards.h"
#endif
#include "hw/mem/memory-device.h"
#include "exec/cpu-common.h"
#include "system/balloon.h"
#include "standard-headers/linux/vhost_types.h"
#include "standard-headers/linux/virtio_balloon.h"
#include "vhost-user-balloon.h"

#define AREA_NAME "VBCA"
#define AREA_VERSION 1
#define AREA_NAME_AT 16
#define AREA_VERSION_AT 20
#define AREA_BALLOONED_AT 28
#define AREA_REPORTS_AT 32
#define AREA_MODES_AT 40
#define AREA_FIGURE_COUNT_AT 44
#define AREA_FIGURES_AT 48
#define AREA_FIGURE_SIZE 10
#define AREA_MOST_FIGURES 16
#define AREA_GIVEN_AT (AREA_FIGURES_AT + AREA_MOST_FIGURES * AREA_FIGURE_SIZE)
#define AREA_PAGES_AT (AREA_GIVEN_AT + 4)
#define AREA_SIZE (AREA_PAGES_AT + 4)

#define AREA_HAS_LENDER 2

enum {
    AREA_ASK_STATISTICS = 1,
    AREA_KEEP_PAGES = 2,
};

static const char *const stat_names[] = {
    [VIRTIO_BALLOON_S_SWAP_IN] = "stat-swap-in",
    [VIRTIO_BALLOON_S_SWAP_OUT] = "stat-swap-out",
    [VIRTIO_BALLOON_S_MAJFLT] = "stat-major-faults",
    [VIRTIO_BALLOON_S_MINFLT] = "stat-minor-faults",
    [VIRTIO_BALLOON_S_MEMFREE] = "stat-free-memory",
    [VIRTIO_BALLOON_S_MEMTOT] = "stat-total-memory",
    [VIRTIO_BALLOON_S_AVAIL] = "stat-available-memory",
    [VIRTIO_BALLOON_S_CACHES] = "stat-disk-caches",
    [VIRTIO_BALLOON_S_HTLB_PGALLOC] = "stat-htlb-pgalloc",
    [VIRTIO_BALLOON_S_HTLB_PGFAIL] = "stat-htlb-pgfail",
    [VIRTIO_BALLOON_S_OOM_KILL] = "stat-oom-kills",
    [VIRTIO_BALLOON_S_ALLOC_STALL] = "stat-alloc-stalls",
    [VIRTIO_BALLOON_S_ASYNC_SCAN] = "stat-async-scans",
    [VIRTIO_BALLOON_S_DIRECT_SCAN] = "stat-direct-scans",
    [VIRTIO_BALLOON_S_ASYNC_RECLAIM] = "stat-async-reclaims",
    [VIRTIO_BALLOON_S_DIRECT_RECLAIM] = "stat-direct-reclaims",
};

/* Reads from the configuration's first byte on */
static bool area_read(VHostUserBalloon *b, uint8_t *bytes, uint32_t size,
                      Error **errp)
{
    memset(bytes, 0, size);
    if (!vub_balloon_is_connected(b)) {
        error_setg(errp, "the balloon's backend isn't connected");
        return false;
    }
    return vhost_dev_get_config(&VHOST_USER_BASE(b)->vhost_dev, bytes, size,
                                errp) == 0;
}

/* Writes in QEMU's own name */
static bool area_write(VHostUserBalloon *b, const void *bytes, uint32_t offset,
                       uint32_t size)
{
    return vub_balloon_is_connected(b) &&
           vhost_dev_set_config(&VHOST_USER_BASE(b)->vhost_dev, bytes, offset,
                                size, VHOST_SET_CONFIG_TYPE_MIGRATION) == 0;
}

static bool area_command(VHostUserBalloon *b, uint32_t command)
{
    uint8_t bytes[8];

    stl_le_p(bytes, AREA_VERSION);
    stl_le_p(bytes + 4, command);
    return area_write(b, bytes, AREA_VERSION_AT, sizeof(bytes));
}

bool vub_balloon_write_target(VHostUserBalloon *b)
{
    uint32_t pages = cpu_to_le32(b->target);

    return area_write(b, &pages, 0, sizeof(pages));
}

bool vub_balloon_read_given(VHostUserBalloon *b, Error **errp)
{
    uint8_t area[AREA_SIZE];

    if (!area_read(b, area, sizeof(area), errp)) {
        return false;
    }
    b->given = ldl_le_p(area + AREA_GIVEN_AT);
    b->pages = ldl_le_p(area + AREA_PAGES_AT);
    return true;
}

bool vub_balloon_ask_for_room(VHostUserBalloon *b)
{
    uint8_t bytes[8];

    stl_le_p(bytes, b->given);
    stl_le_p(bytes + 4, b->pages);
    return b->pages == 0 ||
           area_write(b, bytes, AREA_GIVEN_AT, sizeof(bytes));
}

bool vub_balloon_check_backend(VHostUserBalloon *b, Error **errp)
{
    uint64_t features = VHOST_USER_BASE(b)->vhost_dev.features;
    uint8_t area[AREA_SIZE];

    /* The base would end QEMU where there are none */
    if (!virtio_has_feature(features, VIRTIO_F_VERSION_1)) {
        error_setg(errp, "vhost-user-balloon: the backend lacks "
                   "VIRTIO_F_VERSION_1");
        return false;
    }
    if (!area_read(b, area, sizeof(area), errp)) {
        return false;
    }
    if (memcmp(area + AREA_NAME_AT, AREA_NAME, strlen(AREA_NAME)) ||
        ldl_le_p(area + AREA_VERSION_AT) != AREA_VERSION) {
        error_setg(errp, "vhost-user-balloon: the backend has no control area "
                   "of version %d: its vhost_user_balloon is older than that",
                   AREA_VERSION);
        return false;
    }
    memcpy(b->config, area, sizeof(b->config));
    b->has_lender = ldl_le_p(area + AREA_MODES_AT) & AREA_HAS_LENDER;
    if (b->keep_pages && !area_command(b, AREA_KEEP_PAGES)) {
        error_setg(errp, "vhost-user-balloon: RAM discard is disabled, and the "
                   "backend doesn't keep pages");
        return false;
    }
    return true;
}

/* The monitor's commands */

static ram_addr_t guest_ram_size(void)
{
    MachineState *machine = MACHINE(qdev_get_machine());

    return machine->ram_size +
           (machine->device_memory ? machine->device_memory->dimm_size : 0);
}

ram_addr_t vub_balloon_guest_size(uint32_t ballooned)
{
    return guest_ram_size() -
           ((ram_addr_t)ballooned << VIRTIO_BALLOON_PFN_SHIFT);
}

static void balloon_to_target(void *opaque, ram_addr_t target)
{
    VHostUserBalloon *b = opaque;
    ram_addr_t size = guest_ram_size();

    if (b->has_lender) {
        error_report("vhost-user-balloon: a lender alone sets the target");
        return;
    }
    b->target = (size - MIN(target, size)) >> VIRTIO_BALLOON_PFN_SHIFT;
    if (!vub_balloon_write_target(b)) {
        error_report("vhost-user-balloon: the backend doesn't take a target");
        return;
    }
    virtio_notify_config(VIRTIO_DEVICE(b));
}

static void balloon_stat(void *opaque, BalloonInfo *info)
{
    VHostUserBalloon *b = opaque;
    uint32_t ballooned = vub_balloon_actual(b);
    uint8_t area[AREA_SIZE];

    if (area_read(b, area, sizeof(area), NULL)) {
        ballooned = ldl_le_p(area + AREA_BALLOONED_AT);
    }
    info->actual = vub_balloon_guest_size(ballooned);
}

bool vub_balloon_add_handler(VHostUserBalloon *b)
{
    return qemu_add_balloon_handler(balloon_to_target, balloon_stat, b) == 0;
}

/* Statistics */

static void stats_poll(void *opaque)
{
    VHostUserBalloon *b = opaque;

    if (vhost_dev_is_started(&VHOST_USER_BASE(b)->vhost_dev)) {
        area_command(b, AREA_ASK_STATISTICS);
    }
    if (b->stats_poll_interval > 0) {
        timer_mod(b->stats_timer, qemu_clock_get_ms(QEMU_CLOCK_VIRTUAL) +
                  b->stats_poll_interval * 1000);
    }
}

static void stats_read(VHostUserBalloon *b, uint64_t *values, Error **errp)
{
    uint8_t area[AREA_SIZE];
    uint64_t count;
    uint32_t figures;

    memset(values, 0xff, sizeof(*values) * ARRAY_SIZE(stat_names));
    if (!area_read(b, area, sizeof(area), errp)) {
        return;
    }
    figures = MIN(ldl_le_p(area + AREA_FIGURE_COUNT_AT), AREA_MOST_FIGURES);
    for (uint32_t i = 0; i < figures; i++) {
        uint8_t *figure = area + AREA_FIGURES_AT + AREA_FIGURE_SIZE * i;
        uint16_t tag = lduw_le_p(figure);

        if (tag < ARRAY_SIZE(stat_names)) {
            values[tag] = ldq_le_p(figure + sizeof(tag));
        }
    }
    count = ldq_le_p(area + AREA_REPORTS_AT);
    if (count != b->stats_count) {
        b->stats_count = count;
        b->stats_last_update = g_get_real_time() / G_USEC_PER_SEC;
    }
}

static void stats_get_all(Object *obj, Visitor *v, const char *name,
                          void *opaque, Error **errp)
{
    VHostUserBalloon *b = VHOST_USER_BALLOON(obj);
    uint64_t values[ARRAY_SIZE(stat_names)];
    Error *err = NULL;
    bool ok;

    stats_read(b, values, &err);
    if (err) {
        error_propagate(errp, err);
        return;
    }
    if (!visit_start_struct(v, name, NULL, 0, errp)) {
        return;
    }
    ok = visit_type_int(v, "last-update", &b->stats_last_update, errp);
    if (ok && visit_start_struct(v, "stats", NULL, 0, errp)) {
        for (int i = 0; ok && i < ARRAY_SIZE(stat_names); i++) {
            ok = visit_type_uint64(v, stat_names[i], &values[i], errp);
        }
        ok = ok && visit_check_struct(v, errp);
        visit_end_struct(v, NULL);
        if (ok) {
            visit_check_struct(v, errp);
        }
    }
    visit_end_struct(v, NULL);
}

static void stats_get_poll_interval(Object *obj, Visitor *v, const char *name,
                                    void *opaque, Error **errp)
{
    visit_type_int(v, name, &VHOST_USER_BALLOON(obj)->stats_poll_interval,
                   errp);
}

static void stats_set_poll_interval(Object *obj, Visitor *v, const char *name,
                                    void *opaque, Error **errp)
{
    VHostUserBalloon *b = VHOST_USER_BALLOON(obj);
    int64_t value;

    if (!visit_type_int(v, name, &value, errp)) {
        return;
    }
    if (value < 0) {
        error_setg(errp, "timer value must be greater than zero");
        return;
    }
    if (value > UINT32_MAX) {
        error_setg(errp, "timer value is too big");
        return;
    }
    b->stats_poll_interval = value;
    timer_del(b->stats_timer);
    if (value > 0) {
        stats_poll(b);
    }
}

void vub_balloon_init_stats(VHostUserBalloon *b)
{
    Object *obj = OBJECT(b);

    b->stats_timer = timer_new_ms(QEMU_CLOCK_VIRTUAL, stats_poll, b);
    object_property_add(obj, "guest-stats", "guest statistics",
                        stats_get_all, NULL, NULL, NULL);
    object_property_add(obj, "guest-stats-polling-interval", "int",
                        stats_get_poll_interval, stats_set_poll_interval,
                        NULL, NULL);
}

void vub_balloon_free_stats(VHostUserBalloon *b)
{
    timer_free(b->stats_timer);
}
