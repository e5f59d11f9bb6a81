/* Messages of the guest's memory: a table of it, or a region at a time. */
#include "handlers.h"

enum { PLACE_OF_REGION = 8 };

/* The device has these regions from now on; false where no device can, or where a queue has lost
 * its memory. */
static bool use(struct backend *backend)
{
    struct balloon *balloon = &backend->balloon;
    if (backend->memory.count == 0)
        balloon->region_count = 0;
    else if (balloon_set_regions(balloon, backend->memory.regions, backend->memory.count) != VB_OK)
        return refuse("the guest's memory ends too far up");
    return rings_hold(backend) && (!backend->admit || backend->admit(backend));
}

bool slots_forget(struct backend *backend)
{
    bool had = backend->memory.count > 0;
    memory_clear(&backend->memory);
    return !had || use(backend);
}

enum outcome set_mem_table(struct backend *backend, struct message *message)
{
    struct files *files = &message->files;
    struct region_place place;
    unsigned count = message_u32(message, 0);
    if (count == 0 || count != files->count ||
        message->size < PLACE_OF_REGION + count * sizeof place)
        return refuse("a memory table of %u regions with %u files", count, files->count), STOP;
    memory_clear(&backend->memory);
    files->count = 0;
    bool good = true;
    for (unsigned i = 0; i < count; i++) {
        memcpy(&place, message->body + PLACE_OF_REGION + i * sizeof place, sizeof place);
        good = memory_add(&backend->memory, place, files->numbers[i]) && good;
    }
    if (!good)
        return refuse("the guest's memory can't be mapped"), STOP;
    return use(backend) ? DONE : STOP;
}

enum outcome get_max_mem_slots(struct backend *backend, struct message *message)
{
    return answer_u64(backend, message, MOST_REGIONS);
}

static struct region_place place_of(const struct message *message)
{
    struct region_place place;
    memcpy(&place, message->body + PLACE_OF_REGION, sizeof place);
    return place;
}

enum outcome add_mem_reg(struct backend *backend, struct message *message)
{
    if (!memory_add(&backend->memory, place_of(message),
                    message->files.numbers[--message->files.count]))
        return refuse("a region of the guest's memory can't be mapped"), STOP;
    return use(backend) ? DONE : STOP;
}

enum outcome rem_mem_reg(struct backend *backend, struct message *message)
{
    if (!memory_remove(&backend->memory, place_of(message)))
        return refuse("there is no such region to be removed"), STOP;
    return use(backend) ? DONE : STOP;
}
