#include "plans.h"

#include "client.h"
#include "script.h"
#include "sent.h"
#include "vb.h"

#include <poll.h>
#include <unistd.h>

/* QUEUES_USED: of a driver without hints. PAUSE: no message, for a turn of the process. */
enum { MOST_STEPS = 64, QUEUES_USED = 4, PAUSE = 0, SAVES = 0, LOADS = 1, SUM = 8 };

struct step {
    uint32_t request;
    unsigned queue, choice;
};

static struct {
    struct step steps[MOST_STEPS];
    unsigned count, at;
    uint8_t saved[MOST_SAVED];
    size_t length;
} plan;

void plans_clear(void)
{
    plan.count = plan.at = 0;
    plan.length = 0;
}

static void add(uint32_t request, unsigned queue, unsigned choice)
{
    if (plan.count < MOST_STEPS)
        plan.steps[plan.count++] = (struct step){request, queue, choice};
}

/* What a plan does other than usual, by the bits of its choice. */
enum {
    IN_BAND_LEFT_OUT = 1,
    OTHER_FEATURES = 2 | 4,
    MEMORY_ADDED = 8,
    WRITES_LOGGED = 16,
    LOG_SHORT = 32,
    UNUSED_LOG = 64,
    NO_MEMORY = 128
};
enum { AT_ONCE = 1, REGION_REMOVED = 2, NO_PIPE = 4, STAYS_STOPPED = 8 };

/* The client hands over all that a device needs before its queues. */
static void plan_device(unsigned choice)
{
    enum { NO_LOG_ALL = 4 };
    unsigned features = (choice & OTHER_FEATURES) / 2;
    add(SET_PROTOCOL_FEATURES, 0, choice & IN_BAND_LEFT_OUT ? 2 : 0);
    add(SET_BACKEND_REQ_FD, 0, 0);
    add(SET_FEATURES, 0, features | (choice & UNUSED_LOG ? NO_LOG_ALL : 0));
    if (choice & MEMORY_ADDED)
        add(ADD_MEM_REG, 0, 0), add(ADD_MEM_REG, 0, 1);
    else if (!(choice & NO_MEMORY))
        add(SET_MEM_TABLE, 0, 0);
    if (choice & WRITES_LOGGED)
        add(SET_LOG_BASE, 0, choice & LOG_SHORT ? 2 : 0);
}

/* It starts its queues, whose used rings are logged where the log is wanted. */
static void plan_queues(unsigned choice)
{
    bool logged = (choice & WRITES_LOGGED) && !(choice & IN_BAND_LEFT_OUT);
    for (unsigned queue = 0; queue < QUEUES_USED; queue++) {
        add(SET_VRING_NUM, queue, 0);
        add(SET_VRING_ADDR, queue, logged ? 3 : 0);
        add(SET_VRING_KICK, queue, 0);
        add(SET_VRING_CALL, queue, 0);
        add(SET_VRING_ENABLE, queue, 0);
    }
}

static void plan_each(uint32_t request)
{
    for (unsigned queue = 0; queue < QUEUES_USED; queue++)
        add(request, queue, 0);
}

static void plan_transfer(unsigned direction, unsigned choice)
{
    enum { IS_NO_PIPE = 240 };
    add(SET_DEVICE_STATE_FD, 0, direction | (choice & NO_PIPE ? IS_NO_PIPE : 0));
    if (!(choice & AT_ONCE))
        add(PAUSE, 0, 0);
    add(CHECK_DEVICE_STATE, 0, 0);
}

/* A client without memory has its guest come from another host: its device, and then its memory. */
static void plan_arrival(unsigned choice)
{
    enum { IS_COMER = OWN + 1 };
    add(SET_OWNER, 0, 0), add(SET_OWNER, 0, 0);
    add(SET_PROTOCOL_FEATURES, 0, 0);
    add(SET_CONFIG, 0, IS_COMER + choice / 64 * 4);
    plan_transfer(LOADS, choice);
    plan_device(choice & (OTHER_FEATURES | MEMORY_ADDED));
    plan_queues(0);
}

/* It stops its queues, saves the device, loads it again, and starts its queues. */
static void plan_migration(unsigned choice)
{
    plan_each(GET_VRING_BASE);
    plan_transfer(SAVES, choice);
    if (choice & REGION_REMOVED)
        add(REM_MEM_REG, 0, 1);
    plan_transfer(LOADS, choice);
    if (!(choice & STAYS_STOPPED))
        plan_each(SET_VRING_KICK);
}

void plan_begins(void)
{
    enum { STARTS, STOPS, RESTARTS, SAVES_IT, LOADS_IT, MIGRATES, PLANS, ARRIVES = 16 };
    unsigned what = next_below(PLANS), choice = next_byte();
    plan.count = plan.at = 0;
    if (what == STARTS)
        plan_device(choice), plan_queues(choice);
    else if (what == STOPS || what == RESTARTS)
        plan_each(what == STOPS ? GET_VRING_BASE : SET_VRING_KICK);
    else if (what == LOADS_IT && choice & ARRIVES)
        plan_arrival(choice);
    else if (what == SAVES_IT || what == LOADS_IT)
        plan_transfer(what == SAVES_IT ? SAVES : LOADS, choice);
    else
        plan_migration(choice);
}

bool plan_goes_on(void)
{
    if (plan.at == plan.count)
        return false;
    const struct step *step = &plan.steps[plan.at++];
    if (step->request != PAUSE)
        client_tells(step->request, step->queue, step->choice);
    return true;
}

/* Reads what was written into the last pipe that the client has handed over. */
static void collect(void)
{
    struct pollfd its = {client.others[1], POLLIN, 0};
    if (its.fd < 0 || poll(&its, 1, 0) <= 0 || !(its.revents & POLLIN))
        return;
    ssize_t got = read(its.fd, plan.saved, sizeof plan.saved);
    plan.length = got > 0 ? (size_t)got : plan.length;
}

/* FNV-1a with 64 bits (draft-eastlake-fnv), the sum at the end of a saved device. */
static void put_sum(uint8_t *bytes, size_t length)
{
    uint64_t sum = UINT64_C(14695981039346656037);
    for (size_t i = 0; i < length; i++)
        sum = (sum ^ bytes[i]) * UINT64_C(1099511628211);
    memcpy(bytes + length, &sum, sizeof sum);
}

/* Adds a word to the set of a saved device, without its sum. */
static size_t lengthen(uint8_t *bytes, size_t length)
{
    enum { LENGTH_AT = 12, WORDS_AT = 24, WORD = 8 };
    uint32_t numbers[2];
    if (length + WORD > MOST_SAVED)
        return length;
    memset(bytes + length - SUM, 0, WORD);
    memcpy(&numbers[0], bytes + LENGTH_AT, 4), memcpy(&numbers[1], bytes + WORDS_AT, 4);
    numbers[0] += WORD, numbers[1]++;
    memcpy(bytes + LENGTH_AT, &numbers[0], 4), memcpy(bytes + WORDS_AT, &numbers[1], 4);
    return length + WORD;
}

size_t saved_bytes(uint8_t to[MOST_SAVED])
{
    enum { CUT = 4, CHANGED, OF_STATE = 12, LONGER = 15, KINDS, STATE_AT = 32 };
    collect();
    memcpy(to, plan.saved, plan.length);
    unsigned how = next_below(KINDS);
    size_t length = plan.length, at = next_byte() | (size_t)next_byte() << 8;
    if (length < STATE_AT + VB_STATE_BYTES + SUM || how < CUT)
        return length;
    if (how == CUT)
        return at % length;
    if (how == LONGER)
        length = lengthen(to, length);
    to[at % length] ^= next_byte();
    if (how >= OF_STATE)
        put_sum(to + STATE_AT, VB_STATE_BYTES - SUM);
    if (how > CHANGED)
        put_sum(to, length - SUM);
    return length;
}
