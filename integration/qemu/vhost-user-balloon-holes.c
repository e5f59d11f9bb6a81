/*
 * Holes of a guest's shared memory: what a balloon's backend has discarded
 *
 * A hole reads as zeros, and QEMU's read would fill it. So holes aren't sent
 * as a guest migrates or is saved; in their place one map of them goes with
 * the device: what the other side has there is older, and is discarded. A
 * snapshot in the background would read all of them.
 *
 * SPDX-License-Identifier: GPL-2.0-or-later
 */

#include "qemu/osdep.h"
#include "qapi/error.h"
#include "qemu/error-report.h"
#include "exec/cpu-common.h"
#include "migration/misc.h"
#include "migration/qemu-file-types.h"
#include "migration/vmstate.h"
#if __has_include("system/ramblock.h")
#include "system/memory.h"
#include "system/ramblock.h"
#else
#include "exec/memory.h"
#include "exec/ramblock.h"
#endif
#include "vhost-user-balloon.h"

/* It was renamed in 11.0 */
#if QEMU_VERSION_MAJOR > 10
#define MIG_EVENT_AT_SETUP MIG_EVENT_SETUP
#else
#define MIG_EVENT_AT_SETUP MIG_EVENT_PRECOPY_SETUP
#endif

/* Bytes of a block from `start` on and before `end` */
typedef struct Extent {
    off_t start;
    off_t end;
} Extent;

static off_t block_end(RAMBlock *rb)
{
    return qemu_ram_get_used_length(rb);
}

/* Where memory begins that has frames, at or after `at` */
static off_t seek_data(RAMBlock *rb, off_t at)
{
    off_t base = rb->fd_offset;
    off_t found = lseek(qemu_ram_get_fd(rb), base + at, SEEK_DATA);

    if (found < 0) {
        /* A file system that doesn't know is one without holes */
        return errno == ENXIO ? block_end(rb) : at;
    }
    return MIN(found - base, block_end(rb));
}

/* Where memory begins that has none, at or after `at` */
static off_t seek_hole(RAMBlock *rb, off_t at)
{
    off_t base = rb->fd_offset;
    off_t found = lseek(qemu_ram_get_fd(rb), base + at, SEEK_HOLE);

    return found < 0 ? block_end(rb) : MIN(found - base, block_end(rb));
}

/* The first hole of whole pages after the end of this one */
static bool next_hole(RAMBlock *rb, Extent *hole)
{
    size_t page = qemu_real_host_page_size();
    off_t at = hole->end;

    while (at < block_end(rb)) {
        off_t start = seek_hole(rb, at);

        at = start < block_end(rb) ? seek_data(rb, start) : start;
        hole->start = QEMU_ALIGN_UP(start, page);
        hole->end = QEMU_ALIGN_DOWN(at, page);
        if (hole->start < hole->end) {
            return true;
        }
    }
    return false;
}

/* The first stretch of data after the end of this one, before `end` */
static bool next_data(RAMBlock *rb, Extent *data, off_t end)
{
    data->start = seek_data(rb, data->end);
    if (data->start >= end) {
        return false;
    }
    data->end = MIN(seek_hole(rb, data->start), end);
    return true;
}

static bool may_have_holes(RAMBlock *rb)
{
    return qemu_ram_get_fd(rb) >= 0 && qemu_ram_is_shared(rb) &&
           qemu_ram_is_migratable(rb);
}

/*
 * The bits of a hole are cleared after it was found, so a write meanwhile may
 * be lost with them: what isn't a hole any longer is dirty again.
 */
static int skip_holes(RAMBlock *rb, void *opaque)
{
    Extent hole = { 0, 0 };

    if (!may_have_holes(rb) || !rb->bmap) {
        return 0;
    }
    while (next_hole(rb, &hole)) {
        Extent data = { hole.start, hole.start };

        qemu_guest_free_page_hint(rb->host + hole.start,
                                  hole.end - hole.start);
        while (next_data(rb, &data, hole.end)) {
            memory_region_set_dirty(rb->mr, data.start,
                                    data.end - data.start);
        }
    }
    return 0;
}

static int precopy_notify_holes(NotifierWithReturn *n, void *data,
                                Error **errp)
{
    PrecopyNotifyData *notice = data;

    if (notice->reason == PRECOPY_NOTIFY_AFTER_BITMAP_SYNC) {
        qemu_ram_foreach_block(skip_holes, NULL);
    }
    return 0;
}

/* It is of memory that is written, and discarded, only after its begin */
static int refuse_background(NotifierWithReturn *n, MigrationEvent *e,
                             Error **errp)
{
    if (e->type != MIG_EVENT_AT_SETUP || !migrate_background_snapshot()) {
        return 0;
    }
    error_setg(errp, "vhost-user-balloon: its backend writes and discards "
               "memory, which a background snapshot doesn't see");
    return -ENOTSUP;
}

void vub_balloon_add_notifiers(VHostUserBalloon *b)
{
    b->precopy_notifier.notify = precopy_notify_holes;
    precopy_add_notifier(&b->precopy_notifier);
    migration_add_notifier(&b->migration_notifier, refuse_background);
}

void vub_balloon_remove_notifiers(VHostUserBalloon *b)
{
    migration_remove_notifier(&b->migration_notifier);
    precopy_remove_notifier(&b->precopy_notifier);
}

/*
 * The map of a block: its name with its length before it, the size of a page,
 * how many pages there are, and a bit for each, in words of 8 bytes that are
 * little-endian. A name of no length ends all.
 */

static size_t map_bytes(uint64_t pages)
{
    return DIV_ROUND_UP(pages, 64) * sizeof(uint64_t);
}

static int put_block(RAMBlock *rb, void *opaque)
{
    QEMUFile *f = opaque;
    const char *name = qemu_ram_get_idstr(rb);
    size_t page = qemu_real_host_page_size();
    uint64_t pages = block_end(rb) / page;
    g_autofree uint8_t *map = NULL;
    Extent hole = { 0, 0 };

    if (!may_have_holes(rb)) {
        return 0;
    }
    map = g_malloc0(map_bytes(pages));
    while (next_hole(rb, &hole)) {
        for (uint64_t i = hole.start / page; i < hole.end / page; i++) {
            map[i / 8] |= 1 << i % 8;
        }
    }
    qemu_put_byte(f, strlen(name));
    qemu_put_buffer(f, (const uint8_t *)name, strlen(name));
    qemu_put_be32(f, page);
    qemu_put_be64(f, pages);
    qemu_put_buffer(f, map, map_bytes(pages));
    return 0;
}

static int put_holes(QEMUFile *f, void *pv, size_t size,
                     const VMStateField *field, JSONWriter *vmdesc)
{
    qemu_ram_foreach_block(put_block, f);
    qemu_put_byte(f, 0);
    return 0;
}

/*
 * Has this read as zeros; of pages that are large their parts are cleared, and
 * all of pages that may not be discarded
 */
static int clear(RAMBlock *rb, Extent old)
{
    off_t start = QEMU_ALIGN_UP(old.start, rb->page_size);
    off_t end = QEMU_ALIGN_DOWN(old.end, rb->page_size);

    if (start >= end || ram_block_discard_is_disabled()) {
        memset(rb->host + old.start, 0, old.end - old.start);
        return 0;
    }
    memset(rb->host + old.start, 0, start - old.start);
    memset(rb->host + end, 0, old.end - end);
    return ram_block_discard_range(rb, start, end - start);
}

/* Whatever lies in a hole of the source is older than that */
static int clear_hole(RAMBlock *rb, Extent hole)
{
    Extent data = { hole.start, hole.start };
    int ret = 0;

    while (ret == 0 && next_data(rb, &data, hole.end)) {
        ret = clear(rb, data);
    }
    return ret;
}

static bool is_set(const uint8_t *map, uint64_t bit)
{
    return map[bit / 8] >> bit % 8 & 1;
}

static int clear_holes(RAMBlock *rb, const uint8_t *map, uint64_t pages,
                       size_t page)
{
    int ret = 0;

    for (uint64_t at = 0; ret == 0 && at < pages; at++) {
        uint64_t first = at;

        while (at < pages && is_set(map, at)) {
            at++;
        }
        if (at > first) {
            ret = clear_hole(rb, (Extent) { first * page, at * page });
        }
    }
    return ret;
}

static int get_block(QEMUFile *f, const char *name)
{
    RAMBlock *rb = qemu_ram_block_by_name(name);
    uint32_t page = qemu_get_be32(f);
    uint64_t pages = qemu_get_be64(f);
    g_autofree uint8_t *map = NULL;

    if (!rb || page == 0 || page % qemu_real_host_page_size() ||
        pages != block_end(rb) / page) {
        error_report("vhost-user-balloon: no map of the holes of %s", name);
        return -EINVAL;
    }
    map = g_malloc0(map_bytes(pages));
    if (qemu_get_buffer(f, map, map_bytes(pages)) != map_bytes(pages)) {
        return -EIO;
    }
    return clear_holes(rb, map, pages, page);
}

static int get_holes(QEMUFile *f, void *pv, size_t size,
                     const VMStateField *field)
{
    char name[256];
    int ret = 0;

    while (ret == 0 && qemu_get_counted_string(f, name)) {
        ret = get_block(f, name);
    }
    return ret;
}

const VMStateInfo vub_balloon_holes_info = {
    .name = "vhost-user-balloon holes",
    .get = get_holes,
    .put = put_holes,
};
