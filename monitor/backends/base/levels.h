/* How severe what is said is, as syslog(3) numbers it: what is said at all, and how journald learns
 * of it. */
#ifndef LEVELS_H
#define LEVELS_H
#include <stdbool.h>
#include <stdint.h>

enum level { LEVEL_ERROR = 3, LEVEL_WARNING, LEVEL_NOTICE, LEVEL_INFO, LEVEL_DEBUG };

/* The least severe level that is said: LEVEL_INFO, until another one is asked for. */
void say_level(int least);
bool level_is_said(enum level level);

/* What a line of this level begins with: where standard error is journald's, its number in angle
 * brackets (sd-daemon(3)), else nothing. */
const char *level_prefix(enum level level);

#endif
