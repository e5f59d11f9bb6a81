/* How the target of a guest of 60 pages follows what was decided, where targets grow by all its
 * pages in 4 seconds. */
#include "seats.h"
#include <string.h>

/* 20 pages are wanted in its balloon, and are there. 50 are to be, and a second has passed. */
static VbSeat seat_of_60(void)
{
    VbSeat seat = {.pages = 60, .ballooned = 20, .least_target = 20, .target = 20, .wanted = 20};
    seat.target_number = seat.deflates = seat.granted = 1;
    return seat;
}

static const struct {
    const char *what;
    VbAim aim;
    VbPace pace;
} paces[] = {
    {"15 pages in a second", {50, 1, 1, 4, 0, 100, 400, 1000}, {50, 35, 1, 0}},
    {"a page at least", {50, 1, 1, 4, 0, 100, 400, 1}, {50, 21, 1, 0}},
    {"none, as no time has passed", {50, 1, 1, 4, 0, 100, 400, 0}, {50, 20, 1, 0}},
    {"one less than all", {50, 1, 1, 4, 0, 100, 400, 1999}, {50, 49, 1, 0}},
    {"all", {50, 1, 1, 4, 0, 100, 400, 2000}, {50, 50, 1, 0}},
    {"all at once", {50, 1, 1, 0, 0, 100, 400, 1000}, {50, 50, 0, 0}},
    {"all, as somebody waits", {50, 1, 1, 4, 1, 100, 400, 1000}, {50, 50, 1, 0}},
    {"all, as the host is above its budget", {50, 1, 1, 4, 0, 100, 401, 1000}, {50, 50, 1, 0}},
    {"less, which is lent at once", {9, 1, 1, 4, 0, 100, 400, 1000}, {9, 9, 0, 1}},
    {"less of who isn't strict", {9, 0, 1, 4, 0, 100, 400, 1000}, {9, 9, 0, 0}},
    {"what it gave, as its driver isn't there", {9, 1, 0, 4, 0, 100, 400, 0}, {20, 20, 0, 1}},
    {"not of who isn't strict", {9, 0, 0, 4, 0, 100, 400, 0}, {9, 9, 0, 0}},
    {"the greatest time", {50, 1, 1, 4, 0, 100, 400, UINT64_MAX}, {50, 50, 1, 0}},
};

void check_paces(void)
{
    VbSeat seat = seat_of_60();
    for (size_t i = 0; i < sizeof paces / sizeof *paces; i++) {
        VbPace pace = vb_seat_pace(&seat, &paces[i].aim);
        expect(!memcmp(&pace, &paces[i].pace, sizeof pace), paces[i].what);
    }
    VbAim aim = paces[0].aim;
    seat.target_number = 0;
    expect(vb_seat_pace(&seat, &aim).now == 15, "it was sent no target");
    seat.granted = 0;
    expect(vb_seat_pace(&seat, &aim).all == 20, "one that comes does so with what is wanted");
    aim.strict = 0;
    expect(vb_seat_pace(&seat, &aim).all == 50, "one that isn't strict has all that was decided");
    expect(vb_seat_pace(&seat, &aim).now == 1, "it has no page that has room: a page at least");
}
