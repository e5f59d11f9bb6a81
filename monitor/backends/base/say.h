/* What is said on standard error: whole lines, of which each client has only some in a second. How
 * severe each is: levels.h. */
#ifndef SAY_H
#define SAY_H
#include <stdbool.h>
#include <stdint.h>

/* Whose lines they are. */
struct speaker {
    const char *name; /* NULL where there is one client alone */
    int64_t second;   /* in which `lines` were said */
    unsigned lines;
};

/* Whose client is served just now, for what is said of it. */
extern struct speaker *speaker;

/* Somebody is served, and then nobody by name. */
void speaker_begins(struct speaker *whose);
void speaker_ends(void);

/* Lines that are said of a client in a second; one more says that others are left out. A program of
 * many clients says some of its own beside them. */
extern unsigned most_lines;
extern bool says_for_many;

/* What is said. */
enum saying { SAY_REFUSED, SAY_REMARK, SAY_GONE, SAY_FAULT, SAY_NEWS };

/* Where words go, in place of standard error, if there is such a hook. */
extern void (*say_through)(enum saying saying, const char *words);

/* Lines that nobody read in time: writes to standard error don't wait. */
extern uint64_t lines_dropped;

/* Says why the client isn't served any longer; returns false. */
bool refuse(const char *format, ...) __attribute__((format(printf, 1, 2)));

/* Says something while all continues. */
void complain(const char *format, ...) __attribute__((format(printf, 1, 2)));

/* Says that a client has gone. */
void say_gone(void);

/* Says what somebody has to mend, of the program's own; returns false. */
bool say_fault(const char *format, ...) __attribute__((format(printf, 1, 2)));

/* Says something that is as it should be. */
void say_news(const char *format, ...) __attribute__((format(printf, 1, 2)));

#endif
