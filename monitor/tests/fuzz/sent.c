#include "sent.h"
#include "../../backends/balloon/rings.h"

#include "script.h"

enum { TABLE = 8 };

static const uint64_t user_at[REGIONS] = {0x7f0000000000, 0x7f1000000000};

static void put(struct sent *sent, uint64_t number, unsigned bytes)
{
    memcpy(sent->body + sent->size, &number, bytes);
    sent->size += bytes;
}

static void put_region(struct sent *sent, unsigned region)
{
    const uint64_t numbers[] = {guest_at[region], REGION_BYTES, user_at[region], 0};
    memcpy(sent->body + sent->size, numbers, sizeof numbers);
    sent->size += sizeof numbers;
    sent->kinds[sent->files++] = region == 0 ? MEMORY : OTHER_MEMORY;
}

/* Where a queue is; now and then writes to its used ring are to be logged, there or elsewhere. */
static void put_addresses(struct sent *sent, unsigned queue, unsigned choice)
{
    uint64_t here = queue * (uint64_t)OF_QUEUE, at = user_at[0] + here, logs = choice % 4 == 3;
    uint64_t log = choice % 8 == 3 ? guest_at[0] + here + 2 * PAGE : 0;
    const uint64_t numbers[] = {queue | logs << 32, at, at + 2 * PAGE, at + PAGE, log};
    memcpy(sent->body, numbers, sizeof numbers);
    sent->size = sizeof numbers;
}

/* An event of a queue, of one kind or another, or none. */
static void put_event(struct sent *sent, unsigned queue, unsigned choice)
{
    enum { NO_FILE = 0x100, OF_EVENTS = 4 };
    static const uint8_t kinds[OF_EVENTS] = {EVENT, PIPE, SOCKET, NOTHING};
    bool none = choice % (OF_EVENTS + 1) == OF_EVENTS;
    put(sent, none ? queue | NO_FILE : queue, 8);
    if (!none)
        sent->kinds[sent->files++] = kinds[choice % (OF_EVENTS + 1)];
}

/* The words of a message that has one. */
static const uint64_t words[][4] = {
    [SET_FEATURES] = {0x140000027, 0x100000027, 0x140000024, UINT64_MAX},
    [SET_PROTOCOL_FEATURES] = {0x1e229, 0x4228, 0x1a229, 0x8000},
    [SET_STATUS] = {15, 0, 128, 0x100},
};

/* The second word of a message that names a queue. */
static const uint32_t states[][4] = {
    [SET_VRING_NUM] = {8, 1024, 3, 1025}, [SET_VRING_BASE] = {0, 1, 8, 0x10000},
    [GET_VRING_BASE] = {0, 0, 0, 0},      [SET_VRING_ENABLE] = {1, 0, 1, 2},
    [VRING_KICK] = {0, 0, 0, 0},
};

/* Bits of such a word that a process alone offers besides: what a guest needs to migrate. */
static uint64_t to_migrate(uint32_t request, unsigned choice)
{
    if (!client.migrates || choice >= 192)
        return 0;
    if (request == SET_PROTOCOL_FEATURES)
        return LOG_SHMFD_FEATURE | DEVICE_STATE_FEATURE;
    return request == SET_FEATURES && choice % 8 < 4 ? LOG_ALL : 0;
}

/* A log of writes, or a device that is saved or loaded. */
static void put_migration(struct sent *sent, unsigned choice)
{
    enum { SAVES = 0, LOADS = 1, OTHER_PHASE = 7, IS_NONE = 15, IS_WRONG = 14 };
    static const uint16_t sizes[] = {PAGE, 64, 32, 0}, offsets[] = {0, 0, PAGE, 8};
    bool loads = choice % 2 == LOADS;
    if (sent->request == SET_LOG_BASE) {
        put(sent, sizes[choice % 4], 8), put(sent, offsets[choice / 4 % 4], 8);
        sent->kinds[sent->files++] = choice / 16 == 15 ? NOTHING : LOG;
        return;
    }
    put(sent, loads ? LOADS : SAVES, 4), put(sent, choice / 2 % 8 == OTHER_PHASE, 4);
    if (choice / 16 == IS_NONE)
        sent->kinds[sent->files++] = NOTHING;
    else if (choice / 16 == IS_WRONG)
        sent->kinds[sent->files++] = loads ? BROKEN : FULL;
    else
        sent->kinds[sent->files++] = loads ? SOURCE : PIPE;
}

/* What a client writes in its own name: a command, a target, or what its guest comes with. */
static void put_own(struct sent *sent, unsigned choice)
{
    enum {
        COMMAND_AT = 20,
        COMES_AT = 208,
        OF_CLIENT = 1,
        COMMANDS = 5,
        ALL = 2 * PAGES_OF_REGION
    };
    static const uint32_t given[] = {0, 1, ALL, ALL + 1}, places[] = {0, COMMAND_AT, COMES_AT, 0};
    uint32_t words[][5] = {
        {COMMAND_AT, 8, OF_CLIENT, 1, choice % COMMANDS},
        {COMES_AT, 8, OF_CLIENT, given[choice / 4 % 4], ALL},
        {places[choice / 4 % 4], 4, OF_CLIENT, choice, 0},
        {COMMAND_AT, 8, OF_CLIENT, 2, 1},
    };
    memcpy(sent->body, words[choice % 4], sizeof words[0]);
    sent->size = choice % 4 == 2 ? sizeof words[0] - 4 : sizeof words[0];
}

/* A part of the configuration, and of the control area after it. */
static void put_config(struct sent *sent, unsigned choice)
{
    static const uint8_t sizes[] = {16, 4, 0, 200};
    unsigned at = choice / 4 % 4 * (choice < OWN ? 4 : PAGE / 64);
    const uint32_t head[] = {at, sizes[choice % 4], choice / 16};
    if (sent->request == SET_CONFIG && choice >= OWN) {
        put_own(sent, choice - OWN);
        return;
    }
    memcpy(sent->body, head, sizeof head);
    sent->size = (uint32_t)sizeof head + sizes[choice % 4];
    if (sent->request == SET_CONFIG)
        sent->body[sizeof head] = next_byte();
}

void sent_fill(struct sent *sent, unsigned queue, unsigned choice)
{
    uint32_t request = sent->request;
    if (request == SET_FEATURES || request == SET_PROTOCOL_FEATURES || request == SET_STATUS) {
        put(sent, words[request][choice % 4] | to_migrate(request, choice), 8);
    } else if (request == SET_LOG_BASE || request == SET_DEVICE_STATE_FD) {
        put_migration(sent, choice);
    } else if (request == SET_VRING_ADDR) {
        put_addresses(sent, queue, choice);
    } else if (request == SET_VRING_KICK || request == SET_VRING_CALL || request == SET_VRING_ERR) {
        put_event(sent, queue, choice);
    } else if (request == SET_MEM_TABLE) {
        put(sent, REGIONS, TABLE);
        put_region(sent, 0), put_region(sent, 1);
    } else if (request == ADD_MEM_REG || request == REM_MEM_REG) {
        put(sent, 0, TABLE);
        put_region(sent, choice % REGIONS);
        sent->files = request == ADD_MEM_REG;
    } else if (request == SET_BACKEND_REQ_FD) {
        sent->kinds[sent->files++] = choice % 4 == 0 ? SOCKET : PIPE;
    } else if (request == GET_CONFIG || request == SET_CONFIG) {
        put_config(sent, choice);
    } else if (request < sizeof states / sizeof states[0] &&
               (states[request][0] || request == VRING_KICK || request == GET_VRING_BASE ||
                request == SET_VRING_BASE)) {
        put(sent, queue | (uint64_t)states[request][choice % 4] << 32, 8);
    }
}

void sent_twist(struct sent *sent, unsigned how)
{
    enum { SHORT = 1, LONG, CHANGED, MORE_FILES, NO_FILES, FLAGS, ANY };
    unsigned at = how == CHANGED ? next_below(sent->size + 1) : 0;
    if (how == SHORT)
        sent->size = sent->size > 4 ? sent->size - 4 : sent->size;
    else if (how == LONG)
        sent->size += 8;
    else if (how == CHANGED)
        sent->body[at] = next_byte();
    else if (how == MORE_FILES)
        sent->files = next_below(MOST_FILES + 2);
    else if (how == NO_FILES)
        sent->files = 0;
    else if (how == FLAGS)
        sent->flags = next_byte();
    else if (how == ANY)
        sent->size = (uint32_t)next_bytes(sent->body, next_below(MOST_BODY / 2));
}
