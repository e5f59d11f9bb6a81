/*
 * A memory balloon (VIRTIO id 5) whose queues a vhost-user backend serves
 *
 * SPDX-License-Identifier: GPL-2.0-or-later
 */

#ifndef QEMU_VHOST_USER_BALLOON_H
#define QEMU_VHOST_USER_BALLOON_H

#include "hw/virtio/vhost-user-base.h"
#include "qemu/notify.h"
#include "qemu/timer.h"

#define TYPE_VHOST_USER_BALLOON "vhost-user-balloon"
OBJECT_DECLARE_SIMPLE_TYPE(VHostUserBalloon, VHOST_USER_BALLOON)

/*
 * From 10.1 on the class data of a type is constant, and a device says whether
 * it took a status
 */
#if QEMU_VERSION_MAJOR > 10 || \
    (QEMU_VERSION_MAJOR == 10 && QEMU_VERSION_MINOR > 0)
typedef const void *VHostUserBalloonClassData;
typedef int VHostUserBalloonTaken;
#else
typedef void *VHostUserBalloonClassData;
typedef void VHostUserBalloonTaken;
#endif

/* What the driver sees of the configuration, and where `actual` is in it */
#define VHOST_USER_BALLOON_CONFIG_SIZE 16
#define VHOST_USER_BALLOON_ACTUAL_AT 4

struct VHostUserBalloon {
    VHostUserBase parent_obj;

    QEMUTimer *stats_timer;
    int64_t stats_poll_interval;
    int64_t stats_last_update;
    uint64_t stats_count;       /* of the backend, when it was last read */

    NotifierWithReturn precopy_notifier;
    NotifierWithReturn migration_notifier;
    Error *migration_blocker;

    /* What a backend that reconnects is told */
    uint32_t target;
    bool keep_pages;
    bool is_closing;            /* its socket has, and it isn't stopped yet */
    QEMUBH *disconnect_bh;      /* by which it is stopped then */
    bool has_lender;            /* which alone sets the target */

    /* Of the guest's pages, those that stay given up while it migrates */
    uint32_t given;
    uint32_t pages;
    uint8_t config[VHOST_USER_BALLOON_CONFIG_SIZE];
};

/* The class that this device's is made of */
VirtioDeviceClass *vub_balloon_base_class(void);

static inline bool vub_balloon_is_connected(VHostUserBalloon *b)
{
    return VHOST_USER_BASE(b)->connected && !b->is_closing;
}

/* The driver's `actual`, as it was last seen */
static inline uint32_t vub_balloon_actual(VHostUserBalloon *b)
{
    return ldl_le_p(b->config + VHOST_USER_BALLOON_ACTUAL_AT);
}

/* vhost-user-balloon-control.c: the area after the backend's configuration */

/* Whether the backend is one that a balloon can have; and prepares it */
bool vub_balloon_check_backend(VHostUserBalloon *b, Error **errp);

/* Writes the device's target */
bool vub_balloon_write_target(VHostUserBalloon *b);

/* Reads what stays given up while the guest migrates; and asks for room for
 * the rest of a guest that comes, before any of its memory is there */
bool vub_balloon_read_given(VHostUserBalloon *b, Error **errp);
bool vub_balloon_ask_for_room(VHostUserBalloon *b);

/* The guest's bytes without those pages */
ram_addr_t vub_balloon_guest_size(uint32_t ballooned);

/* QMP balloon and query-balloon; false where there is such a handler */
bool vub_balloon_add_handler(VHostUserBalloon *b);

/* guest-stats and its polling */
void vub_balloon_init_stats(VHostUserBalloon *b);
void vub_balloon_free_stats(VHostUserBalloon *b);

/* vhost-user-balloon-connection.c: has a socket's events served, until it ends;
 * has nobody serve them; and a socket that isn't connected may wait for its
 * backend */
void vub_balloon_begin_connection(VHostUserBalloon *b);
void vub_balloon_end_connection(VHostUserBalloon *b);
void vub_balloon_ignore(VHostUserBalloon *b);
void vub_balloon_let_wait(VHostUserBalloon *b);

/* vhost-user-balloon-holes.c: holes of shared memory aren't read */
extern const VMStateInfo vub_balloon_holes_info;
void vub_balloon_add_notifiers(VHostUserBalloon *b);
void vub_balloon_remove_notifiers(VHostUserBalloon *b);

/* vhost-user-balloon-vmstate.c: of the device, and of the virtio device */
extern const VMStateDescription vub_balloon_vmstate;
extern const VMStateDescription vub_balloon_vmstate_virtio;

/* What goes before all memory */
extern const VMStateDescription vub_balloon_vmstate_comes;

#endif /* QEMU_VHOST_USER_BALLOON_H */
