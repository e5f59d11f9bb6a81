/*
 * A memory balloon (VIRTIO id 5) whose queues a vhost-user backend serves
 *
 * QEMU keeps the control side: QMP balloon, query-balloon, BALLOON_CHANGE
 * and guest-stats, by the control area that the backend has after the
 * configuration. The guest migrates by VHOST_F_LOG_ALL and
 * VHOST_USER_PROTOCOL_F_DEVICE_STATE; what is in the balloon is a hole of
 * the shared memory's file, which isn't read, as a read would fill it.
 *
 * SPDX-License-Identifier: GPL-2.0-or-later
 */

#include "qemu/osdep.h"
#include "qapi/error.h"
#include "qapi/qapi-events-machine.h"
#if __has_include("hw/core/qdev-properties.h")
#include "hw/core/qdev-properties.h"
#include "hw/core/qdev-properties-system.h"
#else
#include "hw/qdev-properties.h"
#include "hw/qdev-properties-system.h"
#endif
#include "hw/virtio/virtio-bus.h"
#include "migration/blocker.h"
#include "migration/misc.h"
#include "migration/vmstate.h"
#if __has_include("system/memory.h")
#include "system/memory.h"
#else
#include "exec/memory.h"
#endif
#include "system/balloon.h"
#include "standard-headers/linux/vhost_types.h"
#include "standard-headers/linux/virtio_ids.h"
#include "vhost-user-balloon.h"

VirtioDeviceClass *vub_balloon_base_class(void)
{
    return VIRTIO_DEVICE_CLASS(object_class_by_name(TYPE_VHOST_USER_BASE));
}

/* The driver's view */

static uint64_t balloon_get_features(VirtIODevice *vdev, uint64_t requested,
                                     Error **errp)
{
    return vub_balloon_base_class()->get_features(vdev, requested, errp) &
           ~(1ULL << VHOST_F_LOG_ALL);
}

static void balloon_get_config(VirtIODevice *vdev, uint8_t *config)
{
    VHostUserBalloon *b = VHOST_USER_BALLOON(vdev);

    if (vub_balloon_is_connected(b)) {
        vub_balloon_base_class()->get_config(vdev, config);
        memcpy(b->config, config, sizeof(b->config));
    } else {
        memcpy(config, b->config, sizeof(b->config));
    }
}

static void balloon_set_config(VirtIODevice *vdev, const uint8_t *config)
{
    VHostUserBalloon *b = VHOST_USER_BALLOON(vdev);
    uint32_t before = vub_balloon_actual(b);
    uint32_t actual = ldl_le_p(config + VHOST_USER_BALLOON_ACTUAL_AT);

    memcpy(b->config, config, sizeof(b->config));
    if (vub_balloon_is_connected(b)) {
        vub_balloon_base_class()->set_config(vdev, config);
    }
    if (actual != before) {
        qapi_event_send_balloon_change(vub_balloon_guest_size(actual));
    }
}

static VHostUserBalloonTaken balloon_set_status(VirtIODevice *vdev,
                                                uint8_t status)
{
    if (vub_balloon_is_connected(VHOST_USER_BALLOON(vdev))) {
        return vub_balloon_base_class()->set_status(vdev, status);
    }
    return (VHostUserBalloonTaken) 0;
}

static struct vhost_dev *balloon_get_vhost(VirtIODevice *vdev)
{
    return &VHOST_USER_BASE(vdev)->vhost_dev;
}

/* The device's life */

static bool balloon_add(VHostUserBalloon *b, Error **errp)
{
    VHostUserBase *vub = VHOST_USER_BASE(b);

    /* While VFIO pins the guest's memory, nothing of it may be discarded */
    b->keep_pages = ram_block_discard_require(true) != 0;
    if (!vub_balloon_check_backend(b, errp)) {
        return false;
    }
    if (!vhost_supports_device_state(&vub->vhost_dev)) {
        error_setg(&b->migration_blocker, "vhost-user-balloon: the backend "
                   "lacks VHOST_USER_PROTOCOL_F_DEVICE_STATE");
        if (migrate_add_blocker(&b->migration_blocker, errp) < 0) {
            return false;
        }
    }
    if (!vub_balloon_add_handler(b)) {
        error_setg(errp, "Only one balloon device is supported");
        migrate_del_blocker(&b->migration_blocker);
        return false;
    }
    return true;
}

static void balloon_unrealize_base(DeviceState *dev)
{
    if (!VHOST_USER_BALLOON(dev)->keep_pages) {
        ram_block_discard_require(false);
    }
    vub_balloon_base_class()->unrealize(dev);
}

static void balloon_realize(DeviceState *dev, Error **errp)
{
    VHostUserBalloon *b = VHOST_USER_BALLOON(dev);
    VHostUserBase *vub = VHOST_USER_BASE(dev);
    Error *err = NULL;

    vub->virtio_id = VIRTIO_ID_BALLOON;
    vub->config_size = VHOST_USER_BALLOON_CONFIG_SIZE;
    /* A chardev that reconnects does so later, unless it is waited for */
    vub_balloon_let_wait(b);
    if (vub->chardev.chr &&
        qemu_chr_fe_wait_connected(&vub->chardev, errp) < 0) {
        return;
    }
    vub_balloon_base_class()->realize(dev, &err);
    if (err) {
        error_propagate(errp, err);
        return;
    }
    /* The base's handler would look at a device that isn't made */
    vub_balloon_ignore(b);
    if (!balloon_add(b, errp)) {
        balloon_unrealize_base(dev);
        return;
    }
    vmstate_register_any(VMSTATE_IF(b), &vub_balloon_vmstate_comes, b);
    vub_balloon_add_notifiers(b);
    vub_balloon_begin_connection(b);
}

static void balloon_unrealize(DeviceState *dev)
{
    VHostUserBalloon *b = VHOST_USER_BALLOON(dev);

    vub_balloon_remove_notifiers(b);
    vmstate_unregister(VMSTATE_IF(b), &vub_balloon_vmstate_comes, b);
    vub_balloon_end_connection(b);
    timer_del(b->stats_timer);
    qemu_remove_balloon_handler(b);
    migrate_del_blocker(&b->migration_blocker);
    balloon_unrealize_base(dev);
}

static void balloon_instance_init(Object *obj)
{
    vub_balloon_init_stats(VHOST_USER_BALLOON(obj));
}

static void balloon_instance_finalize(Object *obj)
{
    vub_balloon_free_stats(VHOST_USER_BALLOON(obj));
}

static const Property balloon_properties[] = {
    DEFINE_PROP_CHR("chardev", VHostUserBase, chardev),
    DEFINE_PROP_UINT32("queue-size", VHostUserBase, vq_size, 128),
    DEFINE_PROP_UINT32("num-queues", VHostUserBase, num_vqs, 5),
};

static void balloon_class_init(ObjectClass *klass,
                               VHostUserBalloonClassData data)
{
    DeviceClass *dc = DEVICE_CLASS(klass);
    VirtioDeviceClass *vdc = VIRTIO_DEVICE_CLASS(klass);

    dc->vmsd = &vub_balloon_vmstate;
    device_class_set_props(dc, balloon_properties);
    set_bit(DEVICE_CATEGORY_MISC, dc->categories);
    vdc->realize = balloon_realize;
    vdc->unrealize = balloon_unrealize;
    vdc->get_features = balloon_get_features;
    vdc->get_config = balloon_get_config;
    vdc->set_config = balloon_set_config;
    vdc->set_status = balloon_set_status;
    vdc->get_vhost = balloon_get_vhost;
    vdc->vmsd = &vub_balloon_vmstate_virtio;
}

static const TypeInfo balloon_info = {
    .name = TYPE_VHOST_USER_BALLOON,
    .parent = TYPE_VHOST_USER_BASE,
    .instance_size = sizeof(VHostUserBalloon),
    .instance_init = balloon_instance_init,
    .instance_finalize = balloon_instance_finalize,
    .class_init = balloon_class_init,
};

static void balloon_register_types(void)
{
    type_register_static(&balloon_info);
}

type_init(balloon_register_types)
