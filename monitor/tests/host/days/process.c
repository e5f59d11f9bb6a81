/* A guest's process, as a lender knows it: it obeys orders, serves its queues, and reports. */
#define _GNU_SOURCE
#include "days.h"

#include <stdio.h>
#include <string.h>
#include <sys/socket.h>
#include <sys/stat.h>
#include <sys/un.h>
#include <unistd.h>

/* Microseconds between two reports that nobody asked for; and in which a guest answers a question
 * before the process does. */
enum { NEWS_EVERY = 10 * MILLISECOND, ANSWERS_IN = 100 * MILLISECOND };

enum { FREE_MEMORY = 4, AVAILABLE_MEMORY = 6, ALLOC_STALLS = 11, PAGE_KIB = 4 };

static void turn(struct guest *guest);

static void has_turn(struct guest *guest)
{
    if (guest->turns)
        return;
    guest->turns = true;
    soon(guest, turn);
}

static void begin_wait(struct wait *wait)
{
    *wait = (struct wait){true, day->now};
}

static void send_report(struct guest *guest, uint64_t number)
{
    struct lending_message *report = &guest->report;
    report->kind = TELL_REPORT;
    report->number = number;
    report->serial++;
    report->pages = guest->pages;
    report->target = guest->target;
    report->obeyed = guest->read_target + 1;
    report->held_kib = (uint64_t)(guest->pages - report->ballooned) * PAGE_KIB;
    lending_send(guest->channel, report);
    if (report->counters.statistics != guest->statistics)
        guest->unanswered = 0;
    guest->statistics = report->counters.statistics;
    guest->news = false;
    if (number == 0)
        guest->reports_at = day->now + NEWS_EVERY;
}

/* What it tells: memory in bytes. */
static void set_figures(const struct guest *guest, struct lending_message *report)
{
    const struct reclaims *its = &guest->reclaims;
    const uint64_t reclaims[] = {its->async_scanned, its->scanned, its->async_reclaimed,
                                 its->reclaimed};
    VbStatistic *next = report->figures;
    *next++ = (VbStatistic){FREE_MEMORY, (uint64_t)driver_free(guest) * BALLOON_PAGE};
    *next++ = (VbStatistic){AVAILABLE_MEMORY, (uint64_t)driver_spare(guest) * BALLOON_PAGE};
    *next++ = (VbStatistic){ALLOC_STALLS, its->stalls};
    for (unsigned i = 0; i < sizeof reclaims / sizeof reclaims[0]; i++)
        *next++ = (VbStatistic){(uint16_t)(ALLOC_STALLS + 1 + i), reclaims[i] * BALLOON_PAGE};
    report->figure_count = (uint32_t)(next - report->figures);
}

/* The guest has told its figures. */
static void tell_figures(struct guest *guest)
{
    struct lending_message *report = &guest->report;
    set_figures(guest, report);
    report->counters.statistics++;
    report->ballooned_then = report->ballooned;
    report->taken_since = false;
    guest->answers_until = day->now;
    guest->news = true;
    has_turn(guest);
}

static void set_target(struct guest *guest, uint32_t pages)
{
    guest->target = pages;
    guest->reminded = guest->report.ballooned;
    driver_is_told(guest);
}

static void remind(struct guest *guest)
{
    const struct lending_message *report = &guest->report;
    if (report->ballooned != guest->target && report->ballooned == guest->reminded)
        driver_is_told(guest);
    guest->reminded = report->ballooned;
}

static void look(struct guest *guest, const struct lending_message *order)
{
    if (!order->asks || !guest->report.ready) {
        send_report(guest, order->number);
        return;
    }
    if (guest->answers != 0)
        send_report(guest, guest->answers);
    guest->answers = order->number;
    guest->unanswered++;
    guest->answers_until = day->now + ANSWERS_IN;
    soon(guest, tell_figures);
    later(guest, turn, ANSWERS_IN);
}

/* The pages of the deflate that is held leave the balloon. Those below each target that its driver
 * may obey were taken unasked. */
static void give(struct guest *guest, const struct lending_message *order)
{
    struct lending_message *report = &guest->report;
    if (report->held_pages == 0 || order->wait != report->held_wait)
        return;
    uint32_t least = smaller(guest->target, guest->read_target),
             before = smaller(report->ballooned, least);
    report->ballooned -= report->held_pages;
    report->held_pages = 0;
    if (report->ballooned < before) {
        report->counters.taken += before - report->ballooned;
        report->taken_since = true;
        report->ballooned_then = report->ballooned;
    }
    guest->held.waits = false;
    guest->news = true;
    guest->reports_at = 0;
    soon(guest, driver_deflated);
}

/* What was in the balloon may be had. */
static void admit(struct guest *guest, const struct lending_message *order)
{
    struct lending_message *report = &guest->report;
    if (report->waits != WAIT_RESET || order->wait != report->wait)
        return;
    report->waits = WAIT_NOTHING;
    report->ballooned = 0;
    guest->reset.waits = false;
    guest->news = true;
    driver_begins(guest);
}

static void obey(struct guest *guest, const struct lending_message *order)
{
    if (order->kind == ORDER_LOOK)
        look(guest, order);
    if (order->kind == ORDER_REMIND)
        remind(guest);
    if (order->kind == ORDER_TARGET)
        set_target(guest, order->target);
    if (order->kind == ORDER_GRANT)
        give(guest, order);
    if (order->kind == ORDER_ADMIT)
        admit(guest, order);
}

/* Serves an inflate, and holds a deflate. */
static void serve(struct guest *guest)
{
    struct lending_message *report = &guest->report;
    if (guest->inflates > 0) {
        report->ballooned += guest->inflates;
        guest->inflates = 0;
        guest->news = true;
        soon(guest, driver_inflated);
    }
    if (guest->deflates > 0 && report->held_pages == 0) {
        report->held_pages = guest->deflates;
        report->held_wait++;
        guest->deflates = 0;
        begin_wait(&guest->held);
        guest->news = true;
        guest->reports_at = 0;
    }
}

static void turn(struct guest *guest)
{
    struct lending_message order;
    bool ended;
    guest->turns = false;
    while (guest->channel >= 0 && lending_read(guest->channel, &order, 1, &ended) > 0)
        obey(guest, &order);
    serve(guest);
    if (guest->answers != 0 && day->now >= guest->answers_until) {
        uint64_t number = guest->answers;
        guest->answers = 0;
        send_report(guest, number);
    }
    if (!guest->news)
        return;
    if (day->now >= guest->reports_at)
        send_report(guest, 0);
    else if (!guest->turns) {
        guest->turns = true;
        later(guest, turn, guest->reports_at - day->now);
    }
}

void process_is_read(struct guest *guest)
{
    guest->news |= guest->read_target != guest->target;
    guest->read_target = guest->target;
    has_turn(guest);
}

void process_kicked(struct guest *guest)
{
    has_turn(guest);
}

void process_hears(struct guest *guest, bool may_be_sent)
{
    if (may_be_sent && guest->channel < 0) {
        guest->channel = accept4(guest->listener, NULL, NULL, SOCK_NONBLOCK);
        guest->news |= guest->channel >= 0;
        guest->answers = 0;
    }
    if (guest->channel >= 0 && (guest->news || guest->orders.count > 0))
        has_turn(guest);
}

void process_reset(struct guest *guest)
{
    struct lending_message *report = &guest->report;
    report->ready = false;
    report->held_pages = guest->inflates = guest->deflates = 0;
    guest->held.waits = guest->turns = false;
    guest->answers = 0;
    guest->news = true;
    if (report->ballooned == 0) {
        driver_begins(guest);
        return;
    }
    report->waits = WAIT_RESET;
    report->wanted = report->ballooned;
    report->wait++;
    guest->reports_at = 0;
    begin_wait(&guest->reset);
    has_turn(guest);
}

void process_is_alone(struct guest *guest)
{
    if (guest->channel >= 0)
        close(guest->channel);
    guest->channel = -1;
    guest->told = guest->target;
    mail_forget(guest);
}

void process_begins(struct guest *guest, const char *folder)
{
    struct sockaddr_un address = {.sun_family = AF_UNIX};
    snprintf(address.sun_path, sizeof address.sun_path, "%s/.channels", folder);
    mkdir(address.sun_path, S_IRWXU);
    snprintf(address.sun_path, sizeof address.sun_path, "%s/.channels/guest-%u", folder,
             guest->number + 1);
    guest->channel = -1;
    guest->listener = socket(AF_UNIX, SOCK_SEQPACKET | SOCK_NONBLOCK, 0);
    if (bind(guest->listener, (struct sockaddr *)&address, sizeof address) ||
        listen(guest->listener, 1))
        town_ends("no socket for a guest", guest);
    guest->target = guest->read_target = guest->balloon;
    guest->report = (struct lending_message){
        .holds = true, .ready = true, .ballooned = guest->balloon, .actual = guest->balloon};
}
