/* The numbers that the library returns, in words. */
#ifndef CODES_H
#define CODES_H
#include <stdint.h>

/* A rule of VB_BROKEN. */
const char *rule_words(uint32_t rule);

/* A code of vb.h: its name, and what it means. */
const char *answer_words(uint32_t code);

/* Why a write of the status or of the features is refused. */
const char *status_words(uint32_t answer);

#endif
