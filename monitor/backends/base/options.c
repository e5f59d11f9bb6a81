#include "options.h"

#include <getopt.h>
#include <stdio.h>

/* Rows of a table with its end; what getopt_long() answers for the first one. */
enum { MOST_ROWS = 40, FIRST = 256 };

static void fill(struct option options[MOST_ROWS], const struct option_row *rows)
{
    int count = 0;
    for (; count < MOST_ROWS - 1 && rows[count].name; count++)
        options[count] =
            (struct option){rows[count].name, rows[count].read ? required_argument : no_argument,
                            NULL, FIRST + count};
    options[count] = (struct option){0};
}

/* The option that is next, or NULL: it is wrong, which is said where `opterr` is set. False at the
 * end of the options. */
static bool next(int count, char **words, const struct option *options,
                 const struct option_row *rows, const struct option_row **row)
{
    int found = getopt_long(count, words, "", options, NULL);
    *row = found >= FIRST ? &rows[found - FIRST] : NULL;
    return found != -1;
}

/* Takes an option; false where its word is wrong, which is said. */
static bool take(const struct option_row *row)
{
    if (row->flag)
        return *row->flag = true;
    if (row->read(optarg, row->at))
        return true;
    fprintf(stderr, "--%s: %s can't be taken\n", row->name, optarg);
    return false;
}

enum command_line options_read(int count, char **words, const struct option_row *rows,
                               const char **word)
{
    struct option options[MOST_ROWS];
    const struct option_row *row;
    bool good = true;
    fill(options, rows);
    opterr = optind = 0;
    while (next(count, words, options, rows, &row))
        if (row && row->answer)
            return puts(row->answer), LINE_ANSWERED;
    opterr = 1, optind = 0;
    while (good && next(count, words, options, rows, &row))
        good = row && take(row);
    if (good && optind < count)
        *word = words[optind++];
    return good && optind == count ? LINE_READ : LINE_WRONG;
}
