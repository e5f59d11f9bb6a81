/* What a notice touches, as a list: all of memory is out of reach, so that each access faults, is
 * noted, is let through by one step of the processor, and is out of reach again. Included by
 * order.c alone. */
#ifndef ORDER_TOUCHES_H
#define ORDER_TOUCHES_H
#include <signal.h>
#include <ucontext.h>

enum { SIZE = 8, PAGES = 32, MOST_TOUCHES = 4096, TRAP_FLAG = 0x100, WRITE_FAULT = 2 };

/* The parts lie so that ring indices are on other pages than the entries. */
static const uint64_t AVAIL = 0x1ffc, USED = 0x6ffc, BUFFER = 0x8ffd, SET_AT = 0xa000, NAMED = 16,
                      BORDER = 0x5000;
static uint64_t table = 0x4000;

enum what {
    INDEX,
    ENTRY,
    DESCRIPTOR,
    BYTES,
    TOLD,
    FIGURES,
    ID,
    DISCARD,
    ELEMENT,
    USED_INDEX,
    FLAGS,
    FENCE,
    SET,
    OTHER
};
static const char *const WORDS[] = {"index",   "entry", "descriptor", "bytes",   "told",
                                    "figures", "id",    "discard",    "element", "used index",
                                    "flags",   "fence", "set",        "other"};

/* `number`: which entry, descriptor or word of an element, where a discard begins, the order of a
 * fence. */
static struct touch {
    enum what what;
    uint64_t number;
    bool write;
} touches[MOST_TOUCHES];
static uint32_t touch_count;
static uint64_t last_address;

static uint8_t *memory;
static struct balloon balloon;

static struct touch part_of(uint64_t address, bool write)
{
    if (address == AVAIL + 2)
        return (struct touch){INDEX, 0, write};
    if (address == AVAIL)
        return (struct touch){FLAGS, 0, write};
    if (address >= AVAIL + 4 && address < AVAIL + 4 + 2 * SIZE)
        return (struct touch){ENTRY, (address - AVAIL - 4) / 2, write};
    if (address >= table && address < table + 16 * SIZE)
        return (struct touch){DESCRIPTOR, (address - table) / 16, write};
    if (address >= BUFFER && address < BUFFER + VB_MAX_BYTES)
        return (struct touch){BYTES, 0, write};
    if (address >= SET_AT && address < SET_AT + 8)
        return (struct touch){SET, 0, false};
    if (address >= USED + 4 && address < USED + 4 + 8 * SIZE)
        return (struct touch){ELEMENT, (address - USED - 4) / 4, write};
    return (struct touch){address == USED + 2 ? USED_INDEX : OTHER,
                          address == USED + 2 ? 0 : address, write};
}

static void note(enum what what, uint64_t number, bool write)
{
    if (touch_count < MOST_TOUCHES)
        touches[touch_count++] = (struct touch){what, number, write};
}

/* Notes an access; the next bytes of what was touched last go on with it. */
static void note_access(uint64_t address, bool write)
{
    struct touch touch = part_of(address, write),
                 *last = touch_count ? &touches[touch_count - 1] : NULL;
    bool goes_on = last && (touch.what == BYTES || touch.what == DESCRIPTOR) &&
                   last->what == touch.what && last->number == touch.number && !write &&
                   address > last_address;
    last_address = address;
    if (!goes_on && !(last && last->what == SET && touch.what == SET))
        note(touch.what, touch.number, write);
}

#ifndef RUST_SHIM
static void note_fence(int order)
{
    note(FENCE, (uint64_t)order, false);
}
#endif

static void reach(int protection)
{
    if (mprotect(memory, PAGES * 4096, protection) != 0)
        _exit(1);
}

static void on_fault(int number, siginfo_t *fault, void *context)
{
    ucontext_t *user = context;
    uint64_t address = (uint64_t)((uint8_t *)fault->si_addr - memory);
    (void)number;
    if (address >= PAGES * 4096)
        _exit(2);
    note_access(address, user->uc_mcontext.gregs[REG_ERR] & WRITE_FAULT);
    reach(PROT_READ | PROT_WRITE);
    user->uc_mcontext.gregs[REG_EFL] |= TRAP_FLAG;
}

static void on_step(int number, siginfo_t *step, void *context)
{
    ucontext_t *user = context;
    (void)number, (void)step;
    reach(PROT_NONE);
    user->uc_mcontext.gregs[REG_EFL] &= ~TRAP_FLAG;
}
#endif
