/* Command lines, by getopt_long(3): one table has all options of a program. */
#ifndef OPTIONS_H
#define OPTIONS_H
#include <stdbool.h>

/* An option: a flag, one that is answered whatever else there is, or one whose word is read. A
 * table ends by one without a name. */
struct option_row {
    const char *name;                         /* without its dashes */
    bool *flag;                               /* what it sets; or NULL */
    const char *answer;                       /* what is printed; or NULL */
    bool (*read)(const char *word, void *at); /* reads its word; false where that is wrong */
    void *at;
};

/* What a command line comes to: its options were read; it was answered; or it is wrong, and the
 * words that are were said. */
enum command_line { LINE_READ, LINE_ANSWERED, LINE_WRONG };

/* Reads a command line, with one word besides the options at most, which is then in `*word`. */
enum command_line options_read(int count, char **words, const struct option_row *rows,
                               const char **word);

#endif
