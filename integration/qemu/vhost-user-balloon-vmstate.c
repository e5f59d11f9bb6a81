/*
 * What of a balloon of vhost-user migrates with its guest
 *
 * SPDX-License-Identifier: GPL-2.0-or-later
 */

#include "qemu/osdep.h"
#include "qapi/error.h"
#include "qemu/error-report.h"
#include "migration/qemu-file-types.h"
#include "migration/vmstate.h"
#include "hw/virtio/virtio-bus.h"
#include "vhost-user-balloon.h"

static int balloon_put_backend(QEMUFile *f, void *pv, size_t size,
                               const VMStateField *field, JSONWriter *vmdesc)
{
    Error *err = NULL;
    int ret = vhost_save_backend_state(&VHOST_USER_BASE(pv)->vhost_dev, f,
                                       &err);

    if (ret < 0) {
        error_reportf_err(err, "vhost-user-balloon: the backend isn't saved: ");
    }
    return ret;
}

static int balloon_get_backend(QEMUFile *f, void *pv, size_t size,
                               const VMStateField *field)
{
    Error *err = NULL;
    int ret = vhost_load_backend_state(&VHOST_USER_BASE(pv)->vhost_dev, f,
                                       &err);

    if (ret < 0) {
        error_reportf_err(err,
                          "vhost-user-balloon: the backend isn't loaded: ");
    }
    return ret;
}

static int balloon_check_backend(void *opaque)
{
    VHostUserBase *vub = VHOST_USER_BASE(opaque);

    return vub_balloon_is_connected(opaque) &&
           vhost_supports_device_state(&vub->vhost_dev) ? 0 : -ENOTSUP;
}

static bool balloon_needed(void *opaque)
{
    return true;
}

static const VMStateInfo balloon_backend_info = {
    .name = "vhost-user-balloon backend",
    .get = balloon_get_backend,
    .put = balloon_put_backend,
};

static const VMStateDescription vmstate_balloon_backend = {
    .name = "vhost-user-balloon/backend",
    .version_id = 1,
    .minimum_version_id = 1,
    .needed = balloon_needed,
    .pre_load = balloon_check_backend,
    .pre_save = balloon_check_backend,
    .fields = (const VMStateField[]) {
        {
            .name = "backend",
            .info = &balloon_backend_info,
        },
        VMSTATE_END_OF_LIST()
    },
};

static const VMStateDescription vmstate_balloon_holes = {
    .name = "vhost-user-balloon/holes",
    .version_id = 1,
    .minimum_version_id = 1,
    .needed = balloon_needed,
    .fields = (const VMStateField[]) {
        {
            .name = "holes",
            .info = &vub_balloon_holes_info,
        },
        VMSTATE_END_OF_LIST()
    },
};

static int balloon_pre_save_comes(void *opaque)
{
    Error *err = NULL;

    if (!vub_balloon_read_given(opaque, &err)) {
        error_report_err(err);
        return -EIO;
    }
    return 0;
}

static int balloon_post_load_comes(void *opaque, int version_id)
{
    if (!vub_balloon_ask_for_room(opaque)) {
        error_report("vhost-user-balloon: the host has no room for the guest");
        return -ENOMEM;
    }
    return 0;
}

/*
 * How much memory comes at most, before any of it does. What is given up stays
 * so until the guest has arrived: its deflates wait.
 */
const VMStateDescription vub_balloon_vmstate_comes = {
    .name = "vhost-user-balloon/comes",
    .version_id = 1,
    .minimum_version_id = 1,
    .early_setup = true,
    .pre_save = balloon_pre_save_comes,
    .post_load = balloon_post_load_comes,
    .fields = (const VMStateField[]) {
        VMSTATE_UINT32(given, VHostUserBalloon),
        VMSTATE_UINT32(pages, VHostUserBalloon),
        VMSTATE_END_OF_LIST()
    },
};

/* What the device itself keeps is part of the virtio device's state */
const VMStateDescription vub_balloon_vmstate_virtio = {
    .name = "vhost-user-balloon/device",
    .version_id = 1,
    .minimum_version_id = 1,
    .fields = (const VMStateField[]) {
        VMSTATE_UINT32(target, VHostUserBalloon),
        VMSTATE_UINT8_ARRAY(config, VHostUserBalloon,
                            VHOST_USER_BALLOON_CONFIG_SIZE),
        VMSTATE_END_OF_LIST()
    },
};

const VMStateDescription vub_balloon_vmstate = {
    .name = "vhost-user-balloon",
    .version_id = 1,
    .minimum_version_id = 1,
    .fields = (const VMStateField[]) {
        VMSTATE_VIRTIO_DEVICE,
        VMSTATE_END_OF_LIST()
    },
    .subsections = (const VMStateDescription * const []) {
        &vmstate_balloon_backend,
        &vmstate_balloon_holes,
        NULL
    },
};
