/* The files that were opened since a script began: the client's, the lender's and the process's, of
 * which what is kept for the next one names each. */
#ifndef OPENED_H
#define OPENED_H
struct kept;

/* A script begins: what is open now counts no longer. */
void opened_begin(void);

/* Demands that somebody has each file, but where a message has more than it may have. */
void opened_check(const struct kept *kept, int lender);

/* Closes those that nobody has, as a keeper does before the next process begins. */
void opened_close_others(const struct kept *kept, int lender);

/* Closes all, as the end of a process does. */
void opened_close_all(void);

#endif
