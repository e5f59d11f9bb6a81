/* Bigvasta: a host's lender as one step. An event goes in, and out comes what each guest may use,
 * which deflate is granted and which target each guest has. A part of the library of vb.h.
 *
 * Each guest has a process, as vhost_user_balloon is one. It holds back each deflate request, each
 * reset and the start of its guest until the lender grants them: all three are deflates, and each
 * has a number. It reports what it is at a moment (VbReport), and obeys targets and grants. The
 * caller keeps a VbSeat for each guest, in an array: what the lender knows of it. A guest is its
 * place there; zeros are a place without a guest. The library keeps nothing. Any numbers may be
 * passed, also in a VbSeat: each call answers. Of the bytes between fields nothing is read, and
 * nothing is said. The laws of crates/vb_host hold where vb_host_step and
 * vb_host_happen alone write a seat.
 *
 * After each step, of each guest by its last report, as often and as late as the caller wants:
 *
 *     its limit by the kernel     is to be vb_seat_lent: it may be lowered to that at once
 *     vb_seat_due_target          its target is sent, with its number: `target`, `target_number`
 *     vb_seat_due_grant           the grant is sent, with its number (`granted`), once the limit in
 *                                 force is at least vb_seat_lent
 *
 * A process obeys a target unless it has received one of a higher number, and a grant where it
 * holds the deflate of this number. Messages may be late, come again, or be lost.
 */
#ifndef VB_HOST_H
#define VB_HOST_H
#include "vb.h"
#include "vb_host_types.h"

#ifdef __cplusplus
extern "C" {
#endif

/* The layout of both headers: another number for each change of a struct or an event. A caller
 * that begins compares it with what the library says, and continues where both are the same: the
 * library can't see which header its caller was built with. */
#define VB_HOST_VERSION 2u
uint32_t vb_host_version(void);

/* One step: the event; then grants until none is possible, first those that lend nothing more, from
 * the lowest place, then that of the first that waits, while there is room; then the target of each
 * guest, in the order of their places with the room that those before leave. VB_OK, also where the
 * event has no effect; VB_BAD_ARGUMENT where its kind is none of VB_HEARS .. VB_DEFERS, and then
 * nothing changes. */
uint32_t vb_host_step(VbHost *host, VbSeat *seats, size_t count, const VbHostEvent *event);
/* An event alone, with no grant and no target after it: where many events happen at once, all but
 * the last one. Answers as vb_host_step does. */
uint32_t vb_host_happen(VbHost *host, VbSeat *seats, size_t count, const VbHostEvent *event);

/* How many frames are lent to a guest: its limit. Less than 2^33; 32 bits are enough where `pages`
 * and `outside` are less than 2^32 together, as they are unless VB_TAKES_OVER brings more. */
uint64_t vb_seat_lent(const VbSeat *seat);
/* How many more a grant of its deflate would lend; 0 where it doesn't wait. */
uint32_t vb_seat_asked(const VbSeat *seat);
/* 1 where a deflate of it waits, else 0. */
uint32_t vb_seat_waits(const VbSeat *seat);
/* 1 where two seats say the same, else 0. After a step, a report or a takeover (VB_HEARS,
 * VB_TAKES_OVER) that leaves its seat the same, as vb_host_happen on a copy of that seat alone
 * shows, needs no other step. */
uint32_t vb_seat_same(const VbSeat *seat, const VbSeat *other);
/* 1 where its process hasn't received its last target, by its last report, else 0. */
uint32_t vb_seat_due_target(const VbSeat *seat, const VbReport *report);
/* 1 where its process holds a deflate that was granted, by its last report, else 0. */
uint32_t vb_seat_due_grant(const VbSeat *seat, const VbReport *report);
/* What a message says at this time, in milliseconds. A deflate that was granted stays what its
 * process asks for as long as that holds it; else a reset that takes any page comes first, then
 * room for a guest that wasn't let in, then a deflate. A target counts as received once a report
 * after the order that followed it has that target; and as read where `read` says so, or where
 * reads aren't seen and it was received 3 seconds ago. No more is outside than was, and was taken
 * away since, but for what has left the balloon. */
VbReading vb_seat_read(const VbSeat *seat, const VbExchange *exchange, const VbMessage *message,
                       uint64_t now);
/* The exchange once that message is noted: an ask that is another than before, by its kind or by
 * the process's own number of it, is the next one. To be noted before the message is read. */
VbExchange vb_seat_note(const VbSeat *seat, const VbExchange *exchange, const VbMessage *message,
                        uint64_t now);

/* The report by which VB_TAKES_OVER follows a guest that isn't strict (VB_HOLDS_NOTHING), with
 * these pages of its memory and this target: it has what its message says, and any target at once.
 * No more is outside than was, and was taken away. */
VbReport vb_seat_follow(const VbSeat *seat, const VbMessage *message, uint32_t pages,
                        uint32_t target);

/* How its target follows what was decided: by steps of its part for the time that has passed, and
 * of a page at least, while nobody needs pages and files hold no more than the budget; else at
 * once. A strict guest that wasn't let in keeps what is wanted of it, and one whose driver isn't
 * there is lent no page by a target. */
VbPace vb_seat_pace(const VbSeat *seat, const VbAim *aim);

/* How many frames are lent to all guests together (2^64 - 1 where it is more). */
uint64_t vb_host_owed(const VbSeat *seats, size_t count);
/* The least budget with which all that wait proceed, once those that don't wait have in their
 * balloons what is wanted there, and the drivers have read that: then one more step leaves nobody
 * waiting, and with one page less, or more, somebody still waits who asks for a page (2^64 - 1
 * where it is more). */
uint64_t vb_host_least_budget(const VbSeat *seats, size_t count);
/* How many frames of the budget are neither lent nor waited for. */
uint32_t vb_host_room(const VbHost *host, const VbSeat *seats, size_t count);
/* The place of the guest that waits first, of two with one turn in one line the lower; SIZE_MAX
 * where no guest waits. */
size_t vb_host_first(const VbSeat *seats, size_t count);

/* Since when a host stands still, by what was noted at the look before: to be noted at each look,
 * and after each step that follows one. A time is kept while what it is of stays as it was. */
VbStand vb_host_stand(const VbSeat *seats, size_t count, const VbStand *stand, uint64_t now);
/* The event by which it is helped then: to be followed by vb_host_step, and by another look at
 * once. None while a guest is awaited. A guest that has been at the head for as long as the host is
 * patient, with another after it, lets others pass, once it is preferred no longer. Else, once
 * nothing has moved for a second: on a host that is short the guest that waits first is preferred,
 * and nobody on another one; then it is lent from the overdraft, where that is possible. */
VbRelief vb_host_relief(const VbHost *host, const VbSeat *seats, size_t count, const VbStand *stand,
                        const VbLook *look);

#ifdef __cplusplus
}
#endif
#endif
