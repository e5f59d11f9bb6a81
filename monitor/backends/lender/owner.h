/* Whose client a guest's is: one user's, whose socket it is then where the lender may give it
 * away. */
#ifndef OWNER_H
#define OWNER_H
#include <stdint.h>

/* In place of a user: the client is of any that reaches the socket. */
#define ANY_USER UINT32_MAX

/* Reads a user's name or number, or `none`; NULL, or what should be there: then nothing has
 * changed. */
const char *owner_read(const char *words, uint32_t *user);

/* Makes a socket of the lender's the user's alone. Where the lender may not (CAP_CHOWN), and for
 * ANY_USER, it is the group's. */
void owner_give(const char *path, uint32_t user);

#endif
