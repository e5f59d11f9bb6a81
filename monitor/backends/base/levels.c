#include "levels.h"

#include <stdio.h>
#include <stdlib.h>
#include <string.h>
#include <sys/stat.h>
#include <unistd.h>

static int least_said = LEVEL_INFO;

void say_level(int least)
{
    least_said = least;
}

bool level_is_said(enum level level)
{
    return (int)level <= least_said;
}

/* Whether standard error is the stream that journald has given to this process: JOURNAL_STREAM
 * names its device and its file. */
static bool is_journal(void)
{
    const char *stream = getenv("JOURNAL_STREAM");
    char name[64];
    struct stat its;
    if (!stream || fstat(STDERR_FILENO, &its))
        return false;
    snprintf(name, sizeof name, "%ju:%ju", (uintmax_t)its.st_dev, (uintmax_t)its.st_ino);
    return !strcmp(stream, name);
}

const char *level_prefix(enum level level)
{
    static const char *const prefixes[] = {[LEVEL_ERROR] = "<3>",
                                           [LEVEL_WARNING] = "<4>",
                                           [LEVEL_NOTICE] = "<5>",
                                           [LEVEL_INFO] = "<6>",
                                           [LEVEL_DEBUG] = "<7>"};
    static int journal = -1;
    if (journal < 0)
        journal = is_journal();
    return journal ? prefixes[level] : "";
}
