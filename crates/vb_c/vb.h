/* Bigvasta: what a traditional memory balloon device (VIRTIO 1.1, 5.5) decides, proved for any
 * bytes.
 *
 * The library keeps nothing: a device is one plain struct in the caller's memory, which may be
 * copied, and which calls alone write; vb_save makes bytes of it that another version or machine
 * reads. It allocates nothing, touches no guest memory and discards nothing: it answers what is to
 * be done, and reads what the caller has read or copied. Any argument gets an answer or a named
 * refusal, but that a pointer with a length must point to that many elements (or the length is 0),
 * and that one call at a time works on a device. Numbers of pages count pages of 4096 bytes from
 * the start of guest memory. */
#ifndef VB_H
#define VB_H
#include <stddef.h>
#include <stdint.h>

/* The version of this header. Until 1.0.0 the second number changes with each change that a caller
 * may have to follow, else the third one. vb_version says the library's: it has to be
 * VB_VERSION_NUMBER, or to differ in the third number alone. */
#define VB_VERSION "0.4.0"
#define VB_VERSION_NUMBER 0x000400u
/* VB_VERSION_NUMBER: 65536 times the first number, 256 times the second, and the third */

#include "vb_types.h" /* and vb_numbers.h: codes, limits and bits */

#ifdef __cplusplus
extern "C" {
#endif

/* The version of the library, as VB_VERSION_NUMBER. */
uint32_t vb_version(void);
/* Makes a device that waits for its driver. VB_OK or VB_BAD_ARGUMENT. */
uint32_t vb_new(VbDevice *device, VbSettings settings);
/* Sets the balloon's target to `pages` pages: send the driver a configuration change
 * notification. */
void vb_set_target(VbDevice *device, uint32_t pages);
/* The driver writes the status register: 0 accepted (a write of 0 resets: features, actual,
 * poison_val and all places are gone, and STOP is shown), or, tested in this order, 1 clears a bit,
 * 2 out of order, 5 VERSION_1 missing, 4 MUST_TELL_HOST missing; then nothing is changed. At
 * DRIVER_OK look at each queue once: Linux tells its first statistics buffer before. */
uint32_t vb_write_status(VbDevice *device, uint8_t status);
/* The driver writes its features (again: the last write counts): 0 accepted, 2 not at status 3, 3
 * not offered. */
uint32_t vb_negotiate(VbDevice *device, uint64_t features);
/* The kind of the queue of this number: they are numbered without gaps, by the negotiated features,
 * or by those of a driver. */
uint32_t vb_kind(const VbDevice *device, uint32_t number);
uint32_t vb_kind_of(uint64_t features, uint32_t number);
/* Gives a queue its place, after vb_negotiate: VB_OK; VB_NO_QUEUE for no kind; VB_BAD_ARGUMENT once
 * DRIVER_OK is set; VB_NO_QUEUE where the negotiated features leave it out; VB_MISPLACED where size
 * is no power of two from 1 to 1024, or a part isn't aligned (16, 2, 4) or doesn't end within
 * memory. A chain has at most VB_MAX_PIECES descriptors, however many its queue has: a longer one
 * is refused as longer than the queue (3). */
uint32_t vb_place(VbDevice *device, uint32_t kind, uint64_t table, uint64_t avail, uint64_t used,
                  uint16_t size);
/* Reads or writes bytes of the configuration space (VIRTIO 1.2, 5.5.4), little-endian: num_pages at
 * 0, actual at 4, free_page_hint_cmd_id at 8 where FREE_PAGE_HINT is offered, and poison_val at 12
 * where PAGE_POISON is. All other bytes read as 0. A write of any length at any offset writes
 * actual, and poison_val where that is offered, each where it covers all 4 of its bytes, as QEMU
 * hands over all 16 for each field; other bytes are ignored. VB_OK; or VB_BAD_ARGUMENT where it
 * covers neither: nothing is changed. */
void vb_read_config(const VbDevice *device, uint32_t offset, uint8_t *out, size_t length);
uint32_t vb_write_config(VbDevice *device, uint32_t offset, const uint8_t *bytes, size_t length);
/* 1 where the pages of a report keep what is in them: the driver negotiated PAGE_POISON, and
 * poison_val isn't 0. A notice doesn't ask for such pages to be discarded, since they would read as
 * zeros. Else 0. */
uint32_t vb_keeps_reports(const VbDevice *device);

/* ---- rounds of free page hints (VIRTIO 1.2, 5.5.6.6). After each of the first three calls, send
 * the driver a configuration change notification. Pages that come while no round is open are told
 * as skipped, and left alone. What the driver writes to a page overrides its hint, and it may write
 * before the device sees that: Linux takes hinted pages back whenever its memory runs out. */
/* Begins a round, in place of one that is on: `id` gets its id, 2 or up, and never that of the
 * round before. VB_OK; or refused as is said at the end, and then nothing is changed, and `id` is
 * 0. */
uint32_t vb_begin_hints(VbDevice *device, uint32_t *id);
/* Shows STOP, at any time: the driver hints no more, and may keep what it hinted; or DONE, and it
 * takes that back. */
void vb_stop_hints(VbDevice *device);
void vb_end_hints(VbDevice *device);
/* 1 where a round is open: its id was read since it began, no other one was since, and nothing
 * ended it. Else 0. */
uint32_t vb_hints_open(const VbDevice *device);

/* ---- notices over the memory of a running guest vb_begin says what is to be done first. While
 * `what` isn't 0, do each thing whose bit it has, in the order of the bits, and call vb_go_on with
 * the answer, the word that was read (a number, whose lower byte comes first; else any). Places are
 * of the regions that the calls get: the same from begin to end, but after a pause. No bound is to
 * be tested, and no sum made. The guest may write to its memory meanwhile.
 *     for (vb_begin(&notice, &balloon, regions, count, &room, kind, chains, pages, keeps);
 *     notice.what;
 *          vb_go_on(&notice, &balloon, regions, count, &room, answer))
 *         answer = perform(&notice, &room);
 */

/* The driver kicked the queue of this kind, or may have: it is served, at most `chains` chains, and
 * none once `pages` pages were named; a number that is skipped counts as one. Where `keeps` isn't
 * 0, no page is discarded: what is named is told, and stays. The available index is read once,
 * first of all: what the driver publishes later waits for its next kick, which it owes, as the
 * device never asks for none (VIRTIO 1.1, 2.6.10). Nothing is done (VB_NOTHING) while a chain of
 * this queue is held. All three answer `what`. A request has any multiple of 4 bytes, up to one
 * number for each page of memory, and up to VB_LONGEST_REQUEST numbers however small memory is;
 * else rule 8. It is served in portions of 256 numbers: each is told (VB_TELL_PAGES), and its pages
 * are discarded, before the next one is copied. The chain is given back once, after its last
 * portion. Where a later portion breaks a rule, the earlier ones stay told and discarded, and the
 * chain isn't given back. Once `pages` numbers were told the notice pauses between two portions
 * (VB_PAUSE), and may tell as many again then; regions may change meanwhile. After a reset, a start
 * or a stop of its queue, or a restore, begin another one instead: it serves the chain from its
 * first number on. So does one that begins all the same. With holds_deflates a notice of deflates
 * ends with its first request, whose pages are told, and whose chain is held. A chain of hints has
 * an id, 4 bytes that the device reads (else rule 8), which is told (VB_TELL_ID); or pages as a
 * report's, which in an open round are told, and discarded where the settings say discards_hints
 * and a report's would be. */
uint32_t vb_begin(VbNotice *notice, VbBalloon *balloon, const VbRegion *regions, size_t count,
                  VbRoom *room, uint32_t kind, uint32_t chains, uint32_t pages, uint32_t keeps);
/* Gives the chain that is held back: new statistics are asked for (5.5.6.3), or a deflate is
 * granted (5.5.6), whose pages leave the set before; look at its queue again then. VB_NO_QUEUE for
 * no kind; VB_NOTHING where none is held; as is said at the end, VB_BAD_ARGUMENT for a head that is
 * no descriptor; VB_BROKEN where the used ring lies in a hole. Then it is held still; with VB_OK no
 * longer. */
uint32_t vb_give_held(VbNotice *notice, VbBalloon *balloon, const VbRegion *regions, size_t count,
                      VbRoom *room, uint32_t kind);
/* VB_OK where a chain is held, and `pages` gets how many it names; VB_NOTHING where none is,
 * VB_NO_QUEUE for no kind, and 0. */
uint32_t vb_held(const VbBalloon *balloon, uint32_t kind, uint32_t *pages);
/* What is to be done next, once that was done which was to be done. A notice that the calls didn't
 * make may end as VB_BAD_ARGUMENT. The balloon may be called between two steps: where its driver
 * reset it or wrote another status since, or the notice's queue was placed, started, stopped,
 * restored or served by another notice, the notice ends as VB_STALE, and no access is to be made.
 * Either time nothing else is changed. Hints whose round isn't open any longer aren't discarded
 * further, and their chain is given back. */
uint32_t vb_go_on(VbNotice *notice, VbBalloon *balloon, const VbRegion *regions, size_t count,
                  VbRoom *room, uint16_t answer);
/* After a call on the balloon within a step: the bits of `what` that are still to be done. 0 where
 * vb_go_on will answer VB_STALE; all but VB_DISCARD where hints were named whose round isn't open
 * any longer; else `what`. */
uint32_t vb_recheck(const VbNotice *notice, const VbBalloon *balloon);

/* vb_new over these regions: where settings.memory_end is 0, memory ends with the last of them. The
 * balloon holds no chain. VB_OK; or VB_BAD_ARGUMENT where a region isn't as VbRegion says, or
 * vb_new refuses, and then nothing is changed. */
uint32_t vb_new_over(VbBalloon *balloon, VbSettings settings, const VbRegion *regions,
                     size_t count);
/* These regions are guest memory from now on, and it ends where the last of them does. Refused as
 * vb_new_over is. A queue that lies past the end is VB_MISPLACED, and vb_save refuses, until the
 * driver resets the device or the queue stops. */
uint32_t vb_set_regions(VbBalloon *balloon, const VbRegion *regions, size_t count);
/* vb_place over these regions: also VB_MISPLACED where a part of the queue lies in a hole. */
uint32_t vb_place_over(VbBalloon *balloon, const VbRegion *regions, size_t count, uint32_t kind,
                       VbQueuePlace at);
/* For a backend or a migration: starts a queue over these regions at `at.next`, in place of what it
 * was before. The chains before that index were given back, and none is taken; what is held of the
 * queue is forgotten. It may start from FEATURES_OK on, when a driver sets its queues up
 * (VIRTIO 1.1, 3.1.1), also beside queues that run. VB_OK, or refused as is said at the end
 * (VB_MISPLACED as by vb_place_over), and then nothing is changed. */
uint32_t vb_start_queue(VbBalloon *balloon, const VbRegion *regions, size_t count, uint32_t kind,
                        VbQueueStart at);
/* Stops a queue, at any status: it has no place any longer, and what is held of it is forgotten.
 * `next` gets the index at which it was: where it starts there, a chain that was taken and not
 * given back, as one that was held, is available again. VB_OK; VB_NO_QUEUE for no kind;
 * VB_MISPLACED where it has no place; then nothing is changed, and `next` is 0. */
uint32_t vb_stop_queue(VbBalloon *balloon, uint32_t kind, uint16_t *next);
/* Forgets the chain that is held, which isn't given back: VB_OK; VB_NOTHING where none is;
 * VB_NO_QUEUE for no kind. */
uint32_t vb_forget_held(VbBalloon *balloon, uint32_t kind);
/* vb_write_status, and `then` gets what is to be done then: bits VB_LOOK, each queue is to be
 * looked at (vb_begin), and VB_EMPTY, the set of ballooned pages is empty now. 0 where it is
 * refused. A reset forgets what is held. */
uint32_t vb_set_status(VbBalloon *balloon, uint8_t status, uint32_t *then);
/* vb_restore over these regions: also VB_MISPLACED, with nothing changed, where memory ends
 * elsewhere or a queue has a part in a hole. */
uint32_t vb_restore_over(VbBalloon *balloon, const VbRegion *regions, size_t count,
                         const uint8_t *bytes, size_t length);
/* 1 where the driver may be told of a change of configuration: DRIVER_OK is set. Else 0. */
uint32_t vb_may_tell(const VbDevice *device);

/* Puts the device into the front of `out`, as VB_STATE_BYTES bytes that vb_restore takes:
 * little-endian numbers of a format with a version, a length and a checksum (docs/INTEGRATION.md
 * has it). `held` is the balloon's, or zeros. VB_OK; VB_BAD_LENGTH where there is less room;
 * VB_IMPOSSIBLE where no calls lead to such a device: a struct that was written to, memory that
 * ends before a queue (vb_set_regions), or a held chain that is none of its queue, or a deflate
 * without holds_deflates or of more pages than memory has and than VB_LONGEST_REQUEST. Then nothing
 * is changed. */
uint32_t vb_save(const VbDevice *device, VbHeld held, uint8_t *out, size_t room);
/* Makes `device` and `held` those that were saved as these bytes. VB_OK, or, tested in this order,
 * VB_BAD_LENGTH where there are fewer than 16; VB_NOT_A_STATE; VB_OTHER_VERSION; VB_BAD_LENGTH;
 * VB_BAD_SUM; VB_IMPOSSIBLE. Then nothing is changed. What is restored is just what vb_save made of
 * it; or the 200 bytes of version 3, whose devices have no hints; or the 191 bytes of version 2,
 * whose devices hold no deflates either. */
uint32_t vb_restore(VbDevice *device, VbHeld *held, const uint8_t *bytes, size_t length);

/* The set of the pages in the balloon, for a monitor that wants to know them: words of its own,
 * where page p is bit p % 64 of word p / 64. Zeros are the empty set, and so it is again once the
 * driver resets the device. */

/* Once pages are told (VB_TELL_PAGES): puts the pages of the runs into the set (VB_INFLATE), or
 * takes them out (VB_DEFLATE). `pages`: how many that changed; one that is named twice, or was so
 * before, counts no more than once. VB_OK; VB_NO_QUEUE for another kind; VB_BAD_ARGUMENT where a
 * page of any run is past the last word's, and then nothing is changed. */
VbMarked vb_mark(uint32_t kind, const VbRun *runs, size_t count, uint64_t *set, size_t words);
/* Takes the pages of one set out of another, as those of a deflate that is granted, which waited in
 * a set of their own: `count` words of it. Answers how many pages left the other set. */
uint64_t vb_unmark(const uint64_t *pages, size_t count, uint64_t *set, size_t words);
/* 1 where the page is in the set, else 0, as for each page past the last word's. */
uint32_t vb_is_ballooned(const uint64_t *set, size_t words, uint32_t page);
/* How many pages are in the set: all words are looked at. */
uint64_t vb_count_ballooned(const uint64_t *set, size_t words);
/* Of a part that a notice says to discard (VB_DISCARD), what goes back to a machine whose pages
 * that back this region have `page_size` bytes: a large page goes once each of its pages of 4096
 * bytes is the part's, or was given up before. That the set says, where the driver agreed to
 * MUST_TELL_HOST; else it may use a page of the set, which doesn't count. `cut`: the large pages
 * that go of those that the part has a page of, more than the part or fewer. `waiting`: its pages
 * that aren't among them, and go with the last one of their large page. All wait, and `cut` is
 * empty, where page_size is no power of two from 4096 to 1 GiB; where the region doesn't begin and
 * end at pages of this size, in memory and in its file; or where the part isn't whole pages of 4096
 * bytes of it. */
VbLarge vb_large_pages(const VbDevice *device, const VbRegion *region, uint64_t page_size,
                       const VbCut *part, const uint64_t *set, size_t words);

/* Refusals of the calls on a device or a balloon are tested in this order: VB_NO_QUEUE for a kind
 * that the call isn't for, VB_BAD_ARGUMENT, VB_NOT_READY, VB_NEEDS_RESET, VB_NO_QUEUE for a
 * feature, VB_MISPLACED; then VB_BROKEN, VB_NOTHING or VB_OK. */
#ifdef __cplusplus
}
#endif
#endif
