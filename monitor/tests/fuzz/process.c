#include "process.h"

#include "script.h"

#include <sys/socket.h>
#include <unistd.h>

/* One more of what a report says is as the script has it. */
static void change_report(struct lending_message *report)
{
    uint32_t *const numbers[] = {&report->pages,      &report->wanted, &report->ballooned,
                                 &report->held_pages, &report->target, &report->obeyed};
    uint32_t *const words[] = {&report->ready,     &report->waits, &report->taken_since,
                               &report->has_terms, &report->holds, &report->status};
    unsigned what = next_below(16), value = next_byte();
    bool is_wild = value >= 250;
    if (what == 0 && value < 200)
        report->pages =
            report->pages > 0 ? value % report->pages : 0; /* more, and its service ends */
    else if (what == 0 && !is_wild) /* but for what was outside of its slots */
        report->pages += report->outside % 64, report->outside = 0;
    else if (what == 10)
        report->holds ^= is_wild;
    else if (what < 6)
        *numbers[what] = is_wild ? next_u32() : value;
    else if (what < 12)
        *words[what - 6] = is_wild ? 3 : value % 3;
    else if (what == 12)
        report->wait += value % 3 != 1, report->held_wait += value % 3 != 2;
    else if (what == 13)
        report->terms = (struct kept_terms){value % 64, value, value % 3, value % 2},
        report->migration = is_wild ? MIGRATES_IN + 1 : value % 3;
    else if (what == 14)
        report->counters.statistics++,
            report->figures[0] =
                (VbStatistic){.tag = 4 + value % 3, .value = value * UINT64_C(4096)},
            report->figures[1] = (VbStatistic){.tag = value % 17, .value = value};
    else
        report->counters.taken += value,
            report->held_kib = is_wild ? (uint64_t)next_u32() << 32 : value * 4;
    report->figure_count = what == 14 ? value % 40 : report->figure_count;
}

void process_tells(struct process *process, uint64_t number)
{
    struct lending_message *report = &process->report, other;
    for (unsigned changes = next_below(4); changes > 0; changes--)
        change_report(report);
    unsigned kind = next_byte();
    report->number = kind % 2 ? number + (kind % 16 == 15) : 0;
    other = *report;
    if (kind < 200) {
        lending_send(process->channel, report);
        return;
    }
    other.kind = kind % 16;
    next_bytes(other.words, 16);
    other.version = LENDING_VERSION + (kind == 254);
    send(process->channel, &other, kind == 255 ? next_byte() : sizeof other,
         MSG_DONTWAIT | MSG_NOSIGNAL);
}

void process_hears(struct process *process)
{
    struct lending_message order;
    bool ended;
    while (process->channel >= 0 && lending_read(process->channel, &order, 1, &ended) > 0) {
        demand(order.kind >= ORDER_LOOK && order.kind <= ORDER_LEAVE);
        if (order.kind == ORDER_ADMIT || order.kind == ORDER_REFUSE)
            process->answered = order.wait;
        if (order.kind == ORDER_GRANT)
            process->granted = order.wait;
        if (process->order_count < MOST_ORDERS)
            process->orders[process->order_count++] = order;
    }
}

static void obey(struct lending_message *report, const struct lending_message *order)
{
    if (order->kind == ORDER_TARGET)
        report->target = order->target;
    if (order->kind == ORDER_ADMIT && report->waits == WAIT_ROOM && order->wait == report->wait)
        report->pages = report->wanted;
    if (order->kind == ORDER_ADMIT || order->kind == ORDER_REFUSE)
        report->waits = WAIT_NOTHING;
    if (order->kind == ORDER_GRANT && order->wait == report->held_wait) {
        report->ballooned -=
            report->held_pages < report->ballooned ? report->held_pages : report->ballooned;
        report->held_pages = 0;
    }
}

void process_obeys(struct process *process)
{
    for (unsigned i = 0; i < process->order_count; i++)
        obey(&process->report, &process->orders[i]);
    process->order_count = 0;
}

/* Its channel can't be read then. */
void process_goes(struct process *process)
{
    struct lending_message none;
    bool ended = false;
    if (process->channel >= 0)
        close(process->channel);
    process->channel = -1;
    demand(lending_read(process->channel, &none, 1, &ended) == 0 && ended);
}
