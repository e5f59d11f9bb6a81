/* A guest's process of a lender that is fuzzed: what it reports, which a script says, and what it
 * has heard. */
#ifndef FUZZ_PROCESS_H
#define FUZZ_PROCESS_H
#include "../../backends/channel/message.h"

/* Orders that a process has heard and not obeyed yet, at most. */
enum { MOST_ORDERS = 64 };

struct process {
    int channel; /* its end; -1: there is none */
    struct lending_message report;
    struct lending_message orders[MOST_ORDERS];
    unsigned order_count;
    uint32_t answered, granted; /* the last wait that was answered, and the last deflate that was
                                   granted, by their numbers */
};

/* It reports what it is, after some changes, and answers this order to look; or says something
 * else. */
void process_tells(struct process *process, uint64_t number);

/* It hears its orders; and obeys those that it has heard. */
void process_hears(struct process *process);
void process_obeys(struct process *process);

void process_goes(struct process *process);

#endif
