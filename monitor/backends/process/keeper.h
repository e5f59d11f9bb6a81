/* The keeper of a guest: a process that keeps the files of its client while the one that serves it
 * goes, and starts another one on the same client. Both share a table of files (CLONE_FILES), and a
 * memfd (kept.h). The keeper waits; it reads nothing, and maps nothing of the guest's. */
#ifndef KEEPER_H
#define KEEPER_H
#include "../balloon/backend.h"

/* Takes the client that a lender has a process started for, or the one that is kept, and has it
 * served until it goes; returns the program's status. `words` are those of the command line. */
int keeper_run(const struct options *options, char **words);

#endif
