/* An input of a fuzzer as a script: its bytes say what is done, one after the other. */
#ifndef SCRIPT_H
#define SCRIPT_H
#include <stdbool.h>
#include <stddef.h>
#include <stdint.h>
#include <string.h>

extern struct script {
    const uint8_t *at, *end;
} script;

static inline bool script_goes_on(void)
{
    return script.at < script.end;
}

/* The next byte; 0 after the last one. */
static inline uint8_t next_byte(void)
{
    return script_goes_on() ? *script.at++ : 0;
}

/* The next byte, as a number below `most`. */
static inline unsigned next_below(unsigned most)
{
    return next_byte() % most;
}

static inline uint32_t next_u32(void)
{
    uint8_t bytes[4] = {next_byte(), next_byte(), next_byte(), next_byte()};
    return bytes[0] | (uint32_t)bytes[1] << 8 | (uint32_t)bytes[2] << 16 | (uint32_t)bytes[3] << 24;
}

/* Copies at most `most` of the bytes that follow; returns how many. */
static inline size_t next_bytes(void *to, size_t most)
{
    size_t left = (size_t)(script.end - script.at), count = left < most ? left : most;
    memcpy(to, script.at, count);
    script.at += count;
    return count;
}

/* Ends the fuzzer where what has to hold doesn't. */
static inline void demand(bool holds)
{
    if (!holds)
        __builtin_trap();
}

#endif
