/* A guest's process without a lender, fuzzed: its guest may migrate, and its client has control. */
#ifndef ALONE_H
#define ALONE_H
#include <stdbool.h>

struct backend;

/* Makes its control pipe, which is standard input from then on. */
void alone_begins(void);

/* Runs the process by the rest of the script, as the first byte says. */
void alone_runs(unsigned kind);

/* Whether it runs; and what comes before each of its turns. */
bool alone_is_there(void);
void alone_acts(void);

/* As many pages are counted as the set of the balloon has. */
void check_set(const struct backend *backend);

#endif
