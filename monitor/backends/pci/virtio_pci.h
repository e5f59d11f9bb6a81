/* The registers of a balloon on PCI (VIRTIO 1.1, 4.1), whose driver writes them itself. */
#ifndef VIRTIO_PCI_H
#define VIRTIO_PCI_H
#include "../balloon/backend.h"

/* A driver is shown a queue of each kind. */
enum { BAR_SIZE = 0x4000, PCI_CONFIGURATION = 256, PCI_QUEUES = VB_NO_KIND, OFFERED_SIZE = 256 };

struct pci_queue {
    uint64_t place[3]; /* table, available ring, used ring */
    uint16_t size;
    bool enabled;
};

struct virtio_pci {
    struct backend *backend;
    uint8_t configuration[PCI_CONFIGURATION];
    uint8_t isr, generation;
    uint32_t offer_select, accept_select, accepted[2];
    uint16_t queue_select;
    struct pci_queue queues[PCI_QUEUES];
};

/* Fills the configuration space of a PCI function with nothing set. */
void pci_start(struct virtio_pci *pci, struct backend *backend);

/* Reads and writes of the configuration space, of 1, 2 or 4 bytes. */
uint32_t pci_read_configuration(const struct virtio_pci *pci, uint32_t at, uint32_t length);
void pci_write_configuration(struct virtio_pci *pci, uint32_t at, uint32_t value, uint32_t length);

/* Reads and writes of the registers; a write is false where the client can't be served any longer,
 * which is said. */
uint64_t pci_read(struct virtio_pci *pci, uint64_t at, uint32_t length);
bool pci_write(struct virtio_pci *pci, uint64_t at, uint64_t value, uint32_t length);

/* Whether a write there is a kick. */
bool pci_is_kick(uint64_t at);

/* The machine resets the device. */
bool pci_reset(struct virtio_pci *pci);

#endif
