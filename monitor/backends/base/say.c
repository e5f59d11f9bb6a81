#include "say.h"

#include "levels.h"
#include "process.h"

#include <stdarg.h>
#include <stdio.h>
#include <string.h>
#include <time.h>
#include <unistd.h>

enum { MOST_BYTES = 512, MOST_LINES = 20 };

static struct speaker nobody;
struct speaker *speaker = &nobody;
unsigned most_lines = MOST_LINES;
bool says_for_many;
void (*say_through)(enum saying saying, const char *words);
uint64_t lines_dropped;

void speaker_begins(struct speaker *whose)
{
    speaker = whose;
}

void speaker_ends(void)
{
    speaker = &nobody;
}

/* The lines of the speaker's in a second. */
static unsigned most(void)
{
    return says_for_many && speaker == &nobody && most_lines < MOST_LINES ? MOST_LINES : most_lines;
}

/* Whether one more line may be said in this second. */
static bool may_speak(void)
{
    struct timespec time;
    clock_gettime(CLOCK_MONOTONIC, &time);
    if (time.tv_sec != speaker->second)
        speaker->lines = 0;
    speaker->second = time.tv_sec;
    return speaker->lines++ < most();
}

static enum level level_of(enum saying saying)
{
    static const enum level levels[] = {[SAY_REFUSED] = LEVEL_NOTICE,
                                        [SAY_REMARK] = LEVEL_WARNING,
                                        [SAY_GONE] = LEVEL_INFO,
                                        [SAY_FAULT] = LEVEL_ERROR,
                                        [SAY_NEWS] = LEVEL_INFO};
    return levels[saying];
}

/* Says a line: how it begins, whose it is, and the words; what is too long is cut. */
static void say(enum saying saying, const char *begin, const char *between, const char *words)
{
    char line[MOST_BYTES];
    if (say_through) {
        say_through(saying, words);
        return;
    }
    const char *name = speaker->name ? speaker->name : "", *prefix = level_prefix(level_of(saying));
    if (!level_is_said(level_of(saying)))
        return;
    if (may_speak())
        snprintf(line, sizeof line - 1, "%s%s%s%s%s", prefix, begin, name, between, words);
    else if (speaker->lines == most() + 1)
        snprintf(line, sizeof line - 1, "%s%s%sfurther lines of this second are left out", prefix,
                 name, *name ? ": " : "");
    else
        return;
    strcat(line, "\n");
    if (file_put(STDERR_FILENO, line, strlen(line)) != (ssize_t)strlen(line))
        lines_dropped++;
}

bool refuse(const char *format, ...)
{
    char line[MOST_BYTES];
    va_list words;
    va_start(words, format);
    vsnprintf(line, sizeof line, format, words);
    va_end(words);
    say(SAY_REFUSED, speaker->name ? "refused " : "refused", ": ", line);
    return false;
}

void complain(const char *format, ...)
{
    char line[MOST_BYTES];
    va_list words;
    va_start(words, format);
    vsnprintf(line, sizeof line, format, words);
    va_end(words);
    say(SAY_REMARK, "", speaker->name ? ": " : "", line);
}

void say_gone(void)
{
    say(SAY_GONE, "gone ", "", "");
}

bool say_fault(const char *format, ...)
{
    char line[MOST_BYTES];
    va_list words;
    va_start(words, format);
    vsnprintf(line, sizeof line, format, words);
    va_end(words);
    say(SAY_FAULT, "", speaker->name ? ": " : "", line);
    return false;
}

void say_news(const char *format, ...)
{
    char line[MOST_BYTES];
    va_list words;
    va_start(words, format);
    vsnprintf(line, sizeof line, format, words);
    va_end(words);
    say(SAY_NEWS, "", speaker->name ? ": " : "", line);
}
