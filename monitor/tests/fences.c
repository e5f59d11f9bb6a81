/* Fences of balloon.h: a driver that asks for interrupts while the device gives a chain back loses
 * none (VIRTIO 1.1, 2.6.7).
 *
 *     fences [ROUNDS]
 *
 * In each round a processor of its own kicks one chain, clears the flag that says it wants no
 * interrupt, and after a full fence looks whether the chain was used. Either it sees that, or the
 * device has seen the flag cleared and interrupts. A device that reads the flag before its index is
 * written loses some of a million. Where the two wait for a processor between rounds, SECONDS end
 * what is left: there are fewer rounds, and none fails. */
#include "shim.h"
#include <pthread.h>
#include <stdio.h>
#include <stdlib.h>
#include <time.h>

enum { SECONDS = 60 };
enum {
    MEMORY = 1 << 20,
    TABLE = 0x10000,
    AVAIL = 0x11000,
    USED = 0x12000,
    BUFFER = 0x13000,
    SIZE = 2,
    NO_INTERRUPT = 1
};

static struct balloon balloon;
static uint8_t *memory;
static volatile uint64_t rounds = 1000000;
static uint64_t lost, told;
static volatile int interrupted;

/* How far each side has come: the driver begins a round, the device has served it, the driver has
 * looked. */
static volatile uint64_t begun, served, looked;

static volatile uint16_t *word_at(uint64_t address)
{
    return (volatile uint16_t *)(void *)(memory + address);
}

/* Waits until the other side has come as far. */
static void await(const volatile uint64_t *place, uint64_t round)
{
    for (unsigned turn = 1; __atomic_load_n(place, __ATOMIC_ACQUIRE) < round; turn++)
        if (turn % 4096 == 0)
            sched_yield();
}

/* Makes the chain available, whose one descriptor names one page. */
static void publish(uint64_t round)
{
    *word_at(AVAIL) = NO_INTERRUPT;
    *word_at(AVAIL + 4 + 2 * ((round - 1) % SIZE)) = 0;
    __atomic_thread_fence(__ATOMIC_RELEASE);
    *word_at(AVAIL + 2) = (uint16_t)round;
}

/* A random time, from none to about twice what a notice takes. */
static void linger(uint64_t *chance)
{
    *chance = *chance * UINT64_C(6364136223846793005) + 1442695040888963407;
    for (volatile unsigned left = (unsigned)(*chance >> 33) % 1500; left > 0; left--)
        continue;
}

/* Whether the rounds have taken too long; asked now and then. */
static int is_late(uint64_t round, time_t begin)
{
    return round % 64 == 0 && time(NULL) - begin > SECONDS;
}

static void *drive(void *unused)
{
    uint64_t chance = 1;
    const time_t begin = time(NULL);
    for (uint64_t round = 1; round <= rounds; round++) {
        if (is_late(round, begin))
            rounds = round;
        publish(round);
        __atomic_store_n(&begun, round, __ATOMIC_RELEASE);
        linger(&chance);
        *word_at(AVAIL) = 0;
        __atomic_thread_fence(__ATOMIC_SEQ_CST);
        int seen = *word_at(USED + 2) == (uint16_t)round;
        await(&served, round);
        lost += !seen && !interrupted;
        told += !seen;
        __atomic_store_n(&looked, round, __ATOMIC_RELEASE);
    }
    return unused;
}

/* The device's side: a notice for each round. */
static int serve(void)
{
    for (uint64_t round = 1; round <= rounds; round++) {
        await(&begun, round);
        struct balloon_result result = balloon_notify(&balloon, VB_DEFLATE);
        if (result.chains != 1)
            return fprintf(stderr, "round %llu: %u chains, code %u\n", (unsigned long long)round,
                           result.chains, result.code),
                   1;
        interrupted = result.interrupts != 0;
        __atomic_store_n(&served, round, __ATOMIC_RELEASE);
        await(&looked, round);
    }
    return 0;
}

static int start(void)
{
    const uint64_t feature = UINT64_C(1) << 32 | 1;
    static struct balloon_region region;
    VbSettings settings;
    struct balloon_result result;
    memset(&settings, 0, sizeof settings);
    settings.offered = feature;
    settings.skips_bad_pages = 1;
    memory =
        (uint8_t *)mmap(NULL, MEMORY, PROT_READ | PROT_WRITE, MAP_PRIVATE | MAP_ANONYMOUS, -1, 0);
    region.length = MEMORY, region.host = memory, region.fd = BALLOON_PRIVATE;
    uint32_t refused =
        balloon_init(&balloon, &region, 1, settings) | balloon_write_status(&balloon, 1, &result) |
        balloon_write_status(&balloon, 3, &result) | balloon_negotiate(&balloon, feature) |
        balloon_write_status(&balloon, 11, &result) |
        balloon_place(&balloon, VB_DEFLATE, TABLE, AVAIL, USED, SIZE) |
        balloon_write_status(&balloon, 15, &result);
    const uint64_t descriptor[] = {BUFFER, 4};
    memcpy(memory + TABLE, descriptor, sizeof descriptor);
    memory[BUFFER] = 64;
    return refused != 0;
}

int main(int count, char **words)
{
    pthread_t driver;
    if (count > 1)
        rounds = strtoull(words[1], NULL, 10);
    if (start() || pthread_create(&driver, NULL, drive, NULL))
        return fputs("fences: the device doesn't start\n", stderr), 1;
    if (serve())
        return 1;
    pthread_join(driver, NULL);
    printf("fences: %llu rounds, %llu in which the driver waits for an interrupt, %llu interrupts "
           "lost\n",
           (unsigned long long)rounds, (unsigned long long)told, (unsigned long long)lost);
    return lost != 0;
}
