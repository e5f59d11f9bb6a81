/*
 * vhost-user-balloon on PCI
 *
 * SPDX-License-Identifier: GPL-2.0-or-later
 */

#include "qemu/osdep.h"
#if __has_include("hw/core/qdev-properties.h")
#include "hw/core/qdev-properties.h"
#else
#include "hw/qdev-properties.h"
#endif
#include "hw/virtio/virtio-pci.h"
#include "vhost-user-balloon.h"

#define TYPE_VHOST_USER_BALLOON_PCI "vhost-user-balloon-pci-base"
OBJECT_DECLARE_SIMPLE_TYPE(VHostUserBalloonPCI, VHOST_USER_BALLOON_PCI)

struct VHostUserBalloonPCI {
    VirtIOPCIProxy parent_obj;
    VHostUserBalloon vdev;
};

static void balloon_pci_realize(VirtIOPCIProxy *proxy, Error **errp)
{
    VHostUserBalloonPCI *dev = VHOST_USER_BALLOON_PCI(proxy);

    /* A vector for each queue, and one for changes of the configuration */
    proxy->nvectors = dev->vdev.parent_obj.num_vqs + 1;
    qdev_realize(DEVICE(&dev->vdev), BUS(&proxy->bus), errp);
}

static void balloon_pci_class_init(ObjectClass *klass,
                                   VHostUserBalloonClassData data)
{
    DeviceClass *dc = DEVICE_CLASS(klass);
    VirtioPCIClass *k = VIRTIO_PCI_CLASS(klass);
    PCIDeviceClass *pcidev_k = PCI_DEVICE_CLASS(klass);

    k->realize = balloon_pci_realize;
    set_bit(DEVICE_CATEGORY_MISC, dc->categories);
    pcidev_k->vendor_id = PCI_VENDOR_ID_REDHAT_QUMRANET;
    pcidev_k->device_id = 0; /* by virtio-pci, from the virtio id */
    pcidev_k->class_id = PCI_CLASS_OTHERS;
}

static void balloon_pci_instance_init(Object *obj)
{
    VHostUserBalloonPCI *dev = VHOST_USER_BALLOON_PCI(obj);

    virtio_instance_init_common(obj, &dev->vdev, sizeof(dev->vdev),
                                TYPE_VHOST_USER_BALLOON);
    object_property_add_alias(obj, "guest-stats", OBJECT(&dev->vdev),
                              "guest-stats");
    object_property_add_alias(obj, "guest-stats-polling-interval",
                              OBJECT(&dev->vdev),
                              "guest-stats-polling-interval");
}

static const VirtioPCIDeviceTypeInfo balloon_pci_info = {
    .base_name = TYPE_VHOST_USER_BALLOON_PCI,
    .non_transitional_name = "vhost-user-balloon-pci",
    .instance_size = sizeof(VHostUserBalloonPCI),
    .instance_init = balloon_pci_instance_init,
    .class_init = balloon_pci_class_init,
};

static void balloon_pci_register(void)
{
    virtio_pci_types_register(&balloon_pci_info);
}

type_init(balloon_pci_register)
