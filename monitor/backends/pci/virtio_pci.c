#include "virtio_pci.h"

#include "../balloon/codes.h"

/* Where the parts of the registers begin, and the offsets in the first one. */
enum { NOTIFY_AT = 0x1000, ISR_AT = 0x2000, DEVICE_AT = 0x3000, PART = 0x1000, NOTIFY_STEP = 4 };
enum {
    OFFER_SELECT = 0,
    OFFERED = 4,
    ACCEPT_SELECT = 8,
    ACCEPTED = 12,
    MSIX = 16,
    NUMBER_OF_QUEUES = 18,
    STATUS = 20,
    GENERATION = 21,
    QUEUE_SELECT = 22,
    QUEUE_SIZE = 24,
    QUEUE_MSIX = 26,
    QUEUE_ENABLE = 28,
    QUEUE_NOTIFY = 30,
    QUEUE_PLACE = 32,
    QUEUE_PLACE_END = 56,
    COMMON_SIZE = 56,
};
enum { COMMON = 1, NOTIFY, ISR, DEVICE };
enum { FEATURES_OK = 8, NO_MSIX = 0xffff };

static VbDevice *device_of(const struct virtio_pci *pci)
{
    return &pci->backend->balloon.state.device;
}

/* A capability that says where a part of the registers is (4.1.4). */
static void capability(struct virtio_pci *pci, unsigned at, unsigned next, uint8_t type,
                       uint32_t offset, uint32_t size)
{
    uint8_t length = type == NOTIFY ? 20 : 16;
    uint8_t head[8] = {9, (uint8_t)next, length, type};
    memcpy(pci->configuration + at, head, sizeof head);
    memcpy(pci->configuration + at + 8, &offset, 4);
    memcpy(pci->configuration + at + 12, &size, 4);
    if (type == NOTIFY)
        pci->configuration[at + 16] = NOTIFY_STEP;
}

void pci_start(struct virtio_pci *pci, struct backend *backend)
{
    static const uint8_t device[12] = {0xf4, 0x1a, 0x45, 0x10, 0, 0, 0x10, 0, 1, 0, 0xff, 0};
    static const uint8_t subsystem[4] = {0xf4, 0x1a, 0x40, 0x11};
    pci->backend = backend;
    memcpy(pci->configuration, device, sizeof device);
    memcpy(pci->configuration + 0x2c, subsystem, sizeof subsystem);
    pci->configuration[0x34] = 0x40;
    pci->configuration[0x3d] = 1;
    capability(pci, 0x40, 0x50, COMMON, 0, COMMON_SIZE);
    capability(pci, 0x50, 0x64, NOTIFY, NOTIFY_AT, PART);
    capability(pci, 0x64, 0x74, ISR, ISR_AT, 4);
    capability(pci, 0x74, 0, DEVICE, DEVICE_AT, 16);
}

uint32_t pci_read_configuration(const struct virtio_pci *pci, uint32_t at, uint32_t length)
{
    uint32_t value = 0;
    if (length <= 4 && at <= PCI_CONFIGURATION - length)
        memcpy(&value, pci->configuration + at, length);
    return value;
}

/* Bytes of the command, of the base address, and of what a driver may note for itself. */
static bool is_writable(uint32_t at)
{
    return at == 4 || at == 5 || at == 0x0c || at == 0x0d || (at >= 0x10 && at < 0x14) ||
           at == 0x3c;
}

void pci_write_configuration(struct virtio_pci *pci, uint32_t at, uint32_t value, uint32_t length)
{
    for (uint32_t i = 0; length <= 4 && i < length; i++)
        if (is_writable(at + i))
            pci->configuration[at + i] = (uint8_t)(value >> 8 * i);
    memset(pci->configuration + 0x10, 0, 1);
    pci->configuration[0x11] &= (uint8_t) ~((BAR_SIZE - 1) >> 8);
}

/* The queue that is selected, or NULL. */
static struct pci_queue *selected(struct virtio_pci *pci)
{
    if (pci->queue_select < PCI_QUEUES && vb_kind(device_of(pci), pci->queue_select) < VB_NO_KIND)
        return &pci->queues[pci->queue_select];
    return NULL;
}

static uint64_t read_queue(struct virtio_pci *pci, uint64_t at)
{
    const struct pci_queue *queue = selected(pci);
    if (!queue)
        return 0;
    if (at >= QUEUE_PLACE && at < QUEUE_PLACE_END && at % 4 == 0)
        return (uint32_t)(queue->place[(at - QUEUE_PLACE) / 8] >> (at % 8 ? 32 : 0));
    switch (at) {
    case QUEUE_SIZE:
        return queue->size;
    case QUEUE_MSIX:
        return NO_MSIX;
    case QUEUE_ENABLE:
        return queue->enabled;
    case QUEUE_NOTIFY:
        return pci->queue_select;
    default:
        return 0;
    }
}

static uint64_t read_common(struct virtio_pci *pci, uint64_t at)
{
    uint64_t offered = device_of(pci)->settings.offered;
    switch (at) {
    case OFFER_SELECT:
        return pci->offer_select;
    case OFFERED:
        return pci->offer_select < 2 ? (uint32_t)(offered >> 32 * pci->offer_select) : 0;
    case ACCEPT_SELECT:
        return pci->accept_select;
    case ACCEPTED:
        return pci->accept_select < 2 ? pci->accepted[pci->accept_select] : 0;
    case MSIX:
        return NO_MSIX;
    case NUMBER_OF_QUEUES:
        return PCI_QUEUES;
    case STATUS:
        return device_of(pci)->status;
    case GENERATION:
        return pci->generation;
    case QUEUE_SELECT:
        return pci->queue_select;
    default:
        return read_queue(pci, at);
    }
}

uint64_t pci_read(struct virtio_pci *pci, uint64_t at, uint32_t length)
{
    uint64_t value = 0;
    if (at < COMMON_SIZE)
        return read_common(pci, at);
    if (at == ISR_AT)
        value = pci->isr, pci->isr = 0;
    if (at >= DEVICE_AT && length <= sizeof value)
        balloon_read_config(&pci->backend->balloon, (uint32_t)(at - DEVICE_AT), (uint8_t *)&value,
                            length);
    return value;
}

/* What a reset clears of what the driver wrote here. */
static void forget(struct virtio_pci *pci)
{
    memset(pci->queues, 0, sizeof pci->queues);
    for (unsigned i = 0; i < PCI_QUEUES; i++)
        pci->queues[i].size = OFFERED_SIZE;
    memset(pci->accepted, 0, sizeof pci->accepted);
    pci->backend->pending = 0;
}

/* The status looks at each queue once: what that leaves on one is served later. */
static void leave_more(struct virtio_pci *pci, const struct balloon_result *result)
{
    for (unsigned number = 0; result->more && number < PCI_QUEUES; number++)
        if (pci->queues[number].enabled)
            pci->backend->pending |= 1u << number;
}

/* The device's own status machine takes what the driver writes; what it refuses, the driver reads
 * back as unset. */
static bool write_status(struct virtio_pci *pci, uint8_t status)
{
    struct balloon_result result;
    uint64_t features = pci->accepted[0] | (uint64_t)pci->accepted[1] << 32;
    uint32_t answer = 0;
    if (status == 0)
        forget(pci);
    if ((status & FEATURES_OK) && !(device_of(pci)->status & FEATURES_OK))
        answer = balloon_negotiate(&pci->backend->balloon, features);
    if (answer == 0)
        answer = balloon_write_status(&pci->backend->balloon, status, &result);
    if (answer == 0) {
        leave_more(pci, &result);
        return backend_finish(pci->backend, VB_NO_KIND, &result);
    }
    remark(pci->backend, "the driver's status %u is refused: %s", status, status_words(answer));
    return true;
}

bool pci_reset(struct virtio_pci *pci)
{
    return write_status(pci, 0);
}

static bool enable(struct virtio_pci *pci, struct pci_queue *queue)
{
    uint32_t kind = vb_kind(device_of(pci), pci->queue_select);
    const uint64_t *place = queue->place;
    uint32_t code =
        balloon_place(&pci->backend->balloon, kind, place[0], place[1], place[2], queue->size);
    queue->enabled = code == VB_OK;
    return queue->enabled ||
           refuse("queue %u has no place: %s", pci->queue_select, answer_words(code));
}

static bool write_queue(struct virtio_pci *pci, uint64_t at, uint64_t value)
{
    struct pci_queue *queue = selected(pci);
    if (!queue || queue->enabled)
        return true;
    if (at == QUEUE_SIZE)
        queue->size = (uint16_t)value;
    if (at == QUEUE_ENABLE && value == 1)
        return enable(pci, queue);
    if (at >= QUEUE_PLACE && at < QUEUE_PLACE_END && at % 4 == 0) {
        uint64_t *place = &queue->place[(at - QUEUE_PLACE) / 8];
        unsigned shift = at % 8 ? 32 : 0;
        *place = (*place & ~(UINT64_C(0xffffffff) << shift)) | (uint64_t)(uint32_t)value << shift;
    }
    return true;
}

static bool write_common(struct virtio_pci *pci, uint64_t at, uint64_t value)
{
    switch (at) {
    case OFFER_SELECT:
        pci->offer_select = (uint32_t)value;
        return true;
    case ACCEPT_SELECT:
        pci->accept_select = (uint32_t)value;
        return true;
    case ACCEPTED:
        if (pci->accept_select < 2)
            pci->accepted[pci->accept_select] = (uint32_t)value;
        return true;
    case STATUS:
        return write_status(pci, (uint8_t)value);
    case QUEUE_SELECT:
        pci->queue_select = (uint16_t)value;
        return true;
    default:
        return write_queue(pci, at, value);
    }
}

static bool notify(struct virtio_pci *pci, uint64_t number)
{
    pci->backend->counters.kicks++;
    if (!(device_of(pci)->status & BALLOON_DRIVER_OK) || number >= PCI_QUEUES ||
        !pci->queues[number].enabled)
        return true;
    return backend_serve(pci->backend, (unsigned)number);
}

bool pci_is_kick(uint64_t at)
{
    return at >= NOTIFY_AT && at < NOTIFY_AT + PART;
}

bool pci_write(struct virtio_pci *pci, uint64_t at, uint64_t value, uint32_t length)
{
    if (at < COMMON_SIZE)
        return write_common(pci, at, value);
    if (pci_is_kick(at))
        return notify(pci, (at - NOTIFY_AT) / NOTIFY_STEP);
    if (at >= DEVICE_AT && length <= sizeof value)
        balloon_write_config(&pci->backend->balloon, (uint32_t)(at - DEVICE_AT),
                             (const uint8_t *)&value, length);
    return true;
}
