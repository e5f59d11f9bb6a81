/*
 * A socket of a balloon's vhost-user backend that reconnects
 *
 * SPDX-License-Identifier: GPL-2.0-or-later
 */

#include "qemu/osdep.h"
#include "qapi/error.h"
#include "hw/virtio/virtio-bus.h"
#include "qemu/main-loop.h"
#include "standard-headers/linux/vhost_types.h"
#include "vhost-user-balloon.h"
#if QEMU_VERSION_MAJOR == 11 && QEMU_VERSION_MINOR == 0
#include "chardev/char-socket.h"
#include "qemu/yank.h"
#endif

static void balloon_event(void *opaque, QEMUChrEvent event);

/*
 * QEMU 11.0 ends by abort() where nobody is at the socket that it looks for
 * again: it takes out a function of yank's that it puts in only afterwards. So
 * a socket that isn't connected is no longer one of yank's.
 */
void vub_balloon_let_wait(VHostUserBalloon *b)
{
#if QEMU_VERSION_MAJOR == 11 && QEMU_VERSION_MINOR == 0
    Chardev *chr = VHOST_USER_BASE(b)->chardev.chr;
    SocketChardev *s = (SocketChardev *)
        object_dynamic_cast(OBJECT(chr), TYPE_CHARDEV_SOCKET);

    if (s && !s->sioc && s->registered_yank) {
        yank_unregister_instance(CHARDEV_YANK_INSTANCE(chr->label));
        s->registered_yank = false;
    }
#endif
}

static void balloon_listen(VHostUserBalloon *b)
{
    qemu_chr_fe_set_handlers(&VHOST_USER_BASE(b)->chardev, NULL, NULL,
                             balloon_event, NULL, b, NULL, true);
}

void vub_balloon_ignore(VHostUserBalloon *b)
{
    qemu_chr_fe_set_handlers(&VHOST_USER_BASE(b)->chardev, NULL, NULL, NULL,
                             NULL, NULL, NULL, false);
}

static int balloon_config_notifier(struct vhost_dev *dev)
{
    virtio_notify_config(dev->vdev);
    return 0;
}

static const VhostDevConfigOps balloon_config_ops = {
    .vhost_dev_config_notifier = balloon_config_notifier,
};

static void balloon_leave_backend(VHostUserBalloon *b)
{
    VHostUserBase *vub = VHOST_USER_BASE(b);
    VirtIODevice *vdev = VIRTIO_DEVICE(b);
    struct vhost_virtqueue *vqs = vub->vhost_dev.vqs;

    if (vub->connected) {
        /*
         * It was marked as stopped as the socket closed. It isn't yet, unless
         * that was amid its stop, or amid a start that failed.
         */
        vub->vhost_dev.started = vdev->vhost_started;
        vub_balloon_base_class()->set_status(vdev, 0);
        vub->connected = false;
        vhost_dev_cleanup(&vub->vhost_dev);
        g_free(vqs);
    }
    b->is_closing = false;
}

static void balloon_disconnect(void *opaque)
{
    balloon_leave_backend(opaque);
    balloon_listen(opaque);
}

/* A new process has none of the driver's words: neither a target nor `actual` */
static bool balloon_restore_backend(VHostUserBalloon *b, Error **errp)
{
    VHostUserBase *vub = VHOST_USER_BASE(b);
    VirtIODevice *vdev = VIRTIO_DEVICE(b);
    uint32_t actual = cpu_to_le32(vub_balloon_actual(b));

    if (vdev->guest_features & ~vub->vhost_dev.features) {
        error_setg(errp, "vhost-user-balloon: the backend that connects lacks "
                   "features of the driver");
        return false;
    }
    if (!b->has_lender && !vub_balloon_write_target(b)) {
        error_setg(errp, "vhost-user-balloon: the backend that connects "
                   "doesn't take a target");
        return false;
    }
    vub_balloon_base_class()->set_status(vdev, vdev->status);
    vhost_dev_set_config(&vub->vhost_dev, (uint8_t *)&actual,
                         VHOST_USER_BALLOON_ACTUAL_AT, sizeof(actual),
                         VHOST_SET_CONFIG_TYPE_FRONTEND);
    stl_le_p(b->config + VHOST_USER_BALLOON_ACTUAL_AT, le32_to_cpu(actual));
    virtio_notify_config(vdev);
    return true;
}

static bool balloon_connect(VHostUserBalloon *b, Error **errp)
{
    VHostUserBase *vub = VHOST_USER_BASE(b);
    uint32_t actual = vub_balloon_actual(b);
    struct vhost_virtqueue *vqs = g_new0(struct vhost_virtqueue, vub->num_vqs);
    bool ok;

    vub->vhost_dev.nvqs = vub->num_vqs;
    vub->vhost_dev.vqs = vqs;
    vhost_dev_set_config_notifier(&vub->vhost_dev, &balloon_config_ops);
    if (vhost_dev_init(&vub->vhost_dev, &vub->vhost_user,
                       VHOST_BACKEND_TYPE_USER, 0, errp) < 0) {
        g_free(vqs);
        return false;
    }
    vub->connected = true;
    ok = vub_balloon_check_backend(b, errp);
    stl_le_p(b->config + VHOST_USER_BALLOON_ACTUAL_AT, actual);
    return ok && balloon_restore_backend(b, errp);
}

static void balloon_event(void *opaque, QEMUChrEvent event)
{
    VHostUserBalloon *b = opaque;
    VHostUserBase *vub = VHOST_USER_BASE(b);
    Error *err = NULL;

    if (event == CHR_EVENT_OPENED && !vub->connected &&
        !balloon_connect(b, &err)) {
        error_report_err(err);
        qemu_chr_fe_disconnect(&vub->chardev);
    }
    if (event == CHR_EVENT_CLOSED) {
        vub_balloon_let_wait(b);
        b->is_closing = true;
        vub_balloon_ignore(b);
        /* Later, as a message may be amid, whose sender sees this */
        vub->vhost_dev.started = false;
        qemu_bh_schedule(b->disconnect_bh);
    }
}

void vub_balloon_begin_connection(VHostUserBalloon *b)
{
    b->disconnect_bh = qemu_bh_new(balloon_disconnect, b);
    balloon_listen(b);
}

void vub_balloon_end_connection(VHostUserBalloon *b)
{
    vub_balloon_ignore(b);
    qemu_bh_delete(b->disconnect_bh);
    if (b->is_closing) {
        balloon_leave_backend(b);
    }
}
