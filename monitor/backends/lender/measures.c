#include "measures.h"

const double duration_bounds[DURATION_BOUNDS] = {0.001, 0.005, 0.02, 0.1, 0.5, 2, 10};

static struct measures measures;

const struct measures *measures_see(void)
{
    return &measures;
}

const char *gone_reason_word(enum gone_reason reason)
{
    static const char *const words[] = {[GONE_LEFT] = "left",
                                        [GONE_REFUSED] = "refused",
                                        [GONE_REMOVED] = "removed",
                                        [GONE_DIED] = "died"};
    return words[reason];
}

static void add(struct durations *durations, double seconds)
{
    unsigned bound = 0;
    while (bound < DURATION_BOUNDS && seconds > duration_bounds[bound])
        bound++;
    durations->counts[bound]++;
    durations->sum += seconds;
}

void measure_wait(enum wait_end how, double seconds)
{
    if (how == WAS_GRANTED)
        add(&measures.waits, seconds);
    else
        measures.ungranted[how]++;
}

void measure_decision(double seconds)
{
    add(&measures.decisions, seconds);
}

void measure_turn(double seconds, double processor)
{
    add(&measures.turns, seconds);
    add(&measures.processor, processor);
}

void measure_above(double seconds)
{
    measures.above += seconds;
}

void measure_gone(enum gone_reason reason)
{
    measures.gone[reason]++;
}
