/* Numbers of lines and of command lines. */
#ifndef NUMBERS_H
#define NUMBERS_H
#include <stdbool.h>
#include <stdint.h>

/* Reads a word of digits, of base 10, or of base 16 with 0x before them or without; false where it
 * is another word, or where the number is more than `most`. */
bool read_number(const char *word, int base, uint64_t most, uint64_t *number);

/* Reads a size into pages: a number with K, M, G or T, in whole pages, under 16T; or 0. False where
 * it is none: then nothing has changed. */
bool read_size(const char *word, uint32_t *pages);

/* A size by the largest unit of which it is a whole number. */
enum { MOST_SIZE_TEXT = 24 };
const char *size_text(uint64_t pages, char text[MOST_SIZE_TEXT]);

/* A feature: the driver takes no page of the balloon into use before it has told. */
enum { MUST_TELL_HOST = 1 };

/* What a device offers where nothing is said: MUST_TELL_HOST, STATS_VQ, DEFLATE_ON_OOM, REPORTING
 * and VERSION_1. */
#define USUAL_FEATURES UINT64_C(0x100000027)

/* The most lines of a second that an option says. */
enum { MOST_SAID = INT32_MAX };

/* Words of options (options.h): features into a uint64_t; how many lines are said of a client in a
 * second, into an unsigned; the number of a layout, into a uint64_t; any word. */
bool read_features(const char *word, void *at);
bool read_lines(const char *word, void *at);
bool read_layout(const char *word, void *at);
bool read_word(const char *word, void *at);

#endif
