/* The configuration, as the driver reads and writes it, and after it an area for the client's own
 * use (docs/LINUX.md, "The control area"): what vhost-user has no message for. */
#include "handlers.h"

#include <inttypes.h>

enum { HEAD_OF_CONFIG = 12 };

/* Whose write of the configuration it is; rust-vmm's frontend says 1 of a driver's. */
enum { OF_CLIENT = 1 };

/* Where things are in the area, whose first byte follows the driver's configuration. */
enum {
    NAME_AT = 16,
    VERSION_AT = 20,
    TARGET_AT = 24,
    BALLOONED_AT = 28,
    REPORTS_AT = 32,
    MODES_AT = 40,
    FIGURE_COUNT_AT = 44,
    FIGURES_AT = 48,
    FIGURE_BYTES = 10,
    GIVEN_AT = FIGURES_AT + MOST_TAGS * FIGURE_BYTES,
    PAGES_AT = GIVEN_AT + 4,
    AREA_END = PAGES_AT + 4
};

/* Modes: KEEPS_PAGES is the client's to choose; HAS_LENDER: a lender alone sets the target, and has
 * pages discarded. */
enum { AREA_VERSION = 1, KEEPS_PAGES = 1, HAS_LENDER = 2 };

/* Commands, each written with the version. */
enum { ASK_STATISTICS = 1, KEEP_PAGES = 2, DISCARD_PAGES = 3, COMMAND_BYTES = 8 };

/* Whether the message has room for the bytes that it says. */
static bool has_bytes(const struct message *message, uint32_t size)
{
    bool has = size == message->size - HEAD_OF_CONFIG;
    if (!has)
        refuse("%u bytes of the configuration, in a message with %u", size,
               message->size - HEAD_OF_CONFIG);
    return has;
}

static void put_u32(uint8_t *bytes, unsigned at, uint32_t number)
{
    memcpy(bytes + at, &number, sizeof number);
}

static void put_figures(const struct backend *backend, uint8_t area[AREA_END])
{
    put_u32(area, FIGURE_COUNT_AT, backend->figure_count);
    for (uint32_t i = 0; i < backend->figure_count; i++) {
        uint8_t *to = area + FIGURES_AT + (size_t)i * FIGURE_BYTES;
        memcpy(to, &backend->figures[i].tag, sizeof backend->figures[i].tag);
        memcpy(to + sizeof backend->figures[i].tag, &backend->figures[i].value,
               sizeof backend->figures[i].value);
    }
}

/* The area, after the driver's configuration. */
static void put_area(const struct backend *backend, uint8_t area[AREA_END])
{
    static const uint8_t name[] = {'V', 'B', 'C', 'A'};
    const VbDevice *device = &backend->balloon.state.device;
    memcpy(area + NAME_AT, name, sizeof name);
    put_u32(area, VERSION_AT, AREA_VERSION);
    put_u32(area, TARGET_AT, device->target);
    put_u32(area, BALLOONED_AT, backend->told.goes_on ? backend->told.actual : device->actual);
    memcpy(area + REPORTS_AT, &backend->counters.statistics, sizeof(uint64_t));
    put_u32(area, MODES_AT,
            (backend->balloon.keeps_pages ? KEEPS_PAGES : 0) |
                (backend->options->is_lent ? HAS_LENDER : 0));
    put_figures(backend, area);
    put_u32(area, GIVEN_AT, backend->options->holds ? backend_given(backend) : 0);
    put_u32(area, PAGES_AT, (uint32_t)memory_pages(&backend->memory));
}

enum outcome get_config(struct backend *backend, struct message *message)
{
    uint8_t body[MOST_BODY], area[AREA_END] = {0};
    uint32_t offset = message_u32(message, 0), size = message_u32(message, 4);
    if (!has_bytes(message, size))
        return STOP;
    memcpy(body, message->body, HEAD_OF_CONFIG);
    balloon_read_config(&backend->balloon, offset, body + HEAD_OF_CONFIG, size);
    put_area(backend, area);
    for (uint64_t at = offset; at < (uint64_t)offset + size && at < AREA_END; at++)
        if (at >= NAME_AT)
            body[HEAD_OF_CONFIG + at - offset] = area[at];
    return answer_bytes(backend, message, body, HEAD_OF_CONFIG + size);
}

/* The client's own target: it notifies the driver itself. */
static enum outcome take_target(struct backend *backend, const uint8_t *bytes)
{
    uint32_t pages;
    memcpy(&pages, bytes, sizeof pages);
    balloon_set_target(&backend->balloon, pages);
    backend->seen = backend->balloon.state.device.actual;
    return DONE;
}

/* Refuses what a lender alone has control of. */
static enum outcome refuse_control(struct backend *backend)
{
    remark(backend, "the lender alone has control of the balloon");
    return FAILED;
}

/* Obeys a command of the area's version. */
static enum outcome obey(struct backend *backend, uint32_t version, uint32_t command)
{
    bool asked;
    if (version == AREA_VERSION && command == ASK_STATISTICS)
        return backend_ask(backend, &asked) ? DONE : STOP;
    if (version == AREA_VERSION && (command == KEEP_PAGES || command == DISCARD_PAGES)) {
        if (backend->options->is_lent)
            return refuse_control(backend);
        backend->balloon.keeps_pages = command == KEEP_PAGES || backend->options->keep;
        return DONE;
    }
    remark(backend, "command %" PRIu32 " of version %" PRIu32 " of the control area is unknown",
           command, version);
    return FAILED;
}

/* The client's guest of `pages` pages comes from another host, with `given` of them given up. A
 * client that has handed memory over has its guest already. */
static enum outcome take_comer(struct backend *backend, uint32_t given, uint32_t pages)
{
    if (backend->memory.count > 0 || !backend->comes)
        return DONE;
    if (given > pages)
        return refuse("a guest that comes with %" PRIu32 " pages given up, of %" PRIu32, given,
                      pages),
               STOP;
    backend->comes_with = given;
    return backend->comes(backend, pages, given) ? DONE : STOP;
}

/* What the client writes in its own name. */
static enum outcome take_own(struct backend *backend, uint32_t offset, const uint8_t *bytes,
                             uint32_t size)
{
    uint32_t words[2];
    bool is_target = offset == 0 && size == sizeof words[0];
    bool is_command = offset == VERSION_AT && size == COMMAND_BYTES;
    bool is_comer = offset == GIVEN_AT && size == AREA_END - GIVEN_AT;
    if (!is_target && !is_command && !is_comer) {
        remark(backend, "no control area: a write of %" PRIu32 " bytes at %" PRIu32, size, offset);
        return FAILED;
    }
    if (is_target)
        return backend->options->is_lent ? refuse_control(backend) : take_target(backend, bytes);
    memcpy(words, bytes, sizeof words);
    return is_comer ? take_comer(backend, words[0], words[1]) : obey(backend, words[0], words[1]);
}

/* Whether it is a write of the driver's fields alone, of which the client's own has none. */
static bool is_of_driver(uint32_t offset, uint32_t size)
{
    return offset >= ACTUAL_AT && (uint64_t)offset + size <= NAME_AT;
}

enum outcome set_config(struct backend *backend, struct message *message)
{
    uint32_t offset = message_u32(message, 0), size = message_u32(message, 4);
    if (!has_bytes(message, size))
        return STOP;
    const uint8_t *bytes = message->body + HEAD_OF_CONFIG;
    if (message_u32(message, 8) == OF_CLIENT && !is_of_driver(offset, size))
        return take_own(backend, offset, bytes, size);
    return balloon_write_config(&backend->balloon, offset, bytes, size) == VB_OK ? DONE : FAILED;
}
