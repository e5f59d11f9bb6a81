/* The status of a host as text, which is sent to each client that asks. */
#ifndef CONTROL_STATUS_H
#define CONTROL_STATUS_H
#include "control.h"

/* Asks for the fields of a status, all of one moment; whether they are whole. Where they are to be
 * made, their first part is made here: after a change that a client asked for; and else as long as
 * that takes a small part of the time, but not for who has waited for them. Their text stays until
 * the next call; NULL: there is no memory. */
bool status_ask(struct control *control, const struct host *host, bool waited);

/* Makes the next part of a status that isn't whole: for CONTROL_SECONDS, and of one guest at
 * least. */
void status_go_on(struct made_status *status);

void status_forget(struct made_status *status);

#endif
