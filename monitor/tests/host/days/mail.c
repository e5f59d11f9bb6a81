/* What the lender and the guests' processes say to each other, in the memory of the day: of the
 * sockets between them it is known by that who has come and gone, and nothing is asked of the
 * kernel for a message. */
#define _GNU_SOURCE
#include "days.h"

#include <poll.h>
#include <stdlib.h>
#include <string.h>
#include <sys/socket.h>
#include <sys/un.h>
#include <unistd.h>

/* Files of a lender: more than it has. */
enum { MOST_FILES = 1024 };

/* Whose channel each file of this lender is; NULL: none, as far as it is known. */
static struct guest *ends[MOST_FILES];

static struct guest *guest_of(int file)
{
    return file >= 0 && file < MOST_FILES ? ends[file] : NULL;
}

/* The guest whose own end this is; NULL: it is the lender's. */
static struct guest *guest_with(int file)
{
    for (unsigned i = 0; i < day->size; i++)
        if (day->guests[i].channel == file)
            return &day->guests[i];
    return NULL;
}

static bool put(struct mail *mail, const struct lending_message *message)
{
    if (mail->count == MOST_MAIL)
        return false;
    mail->messages[(mail->first + mail->count++) % MOST_MAIL] = *message;
    return true;
}

static bool take(struct mail *mail, struct lending_message *message)
{
    if (mail->count == 0)
        return false;
    *message = mail->messages[mail->first];
    mail->first = (mail->first + 1) % MOST_MAIL;
    mail->count--;
    return true;
}

void mail_forget(struct guest *guest)
{
    guest->orders.count = guest->reports.count = 0;
}

int mail_came(struct pollfd *files, size_t number)
{
    int came = 0;
    for (size_t i = 0; i < number; i++) {
        const struct guest *its = guest_of(files[i].fd);
        files[i].revents = its && its->reports.count > 0 ? POLLIN : 0;
        came += files[i].revents != 0;
    }
    return came;
}

bool __wrap_lending_send(int channel, struct lending_message *message);
unsigned __wrap_lending_read(int channel, struct lending_message messages[], unsigned most,
                             bool *ended);
pid_t __real_process_peer(int channel);
pid_t __wrap_process_peer(int channel);
int __wrap_lending_read_from(int channel, struct lending_message *message, pid_t *sender);

/* The lender asks who is at the other end of a channel: the guest whose name that end has. */
pid_t __wrap_process_peer(int channel)
{
    struct sockaddr_un other = {.sun_family = AF_UNSPEC};
    socklen_t size = sizeof other;
    const char *name = NULL;
    if (getpeername(channel, (struct sockaddr *)&other, &size) == 0)
        name = strrchr(other.sun_path, '-');
    unsigned long number = name ? strtoul(name + 1, NULL, 10) : 0;
    if (number == 0 || number > day->size || channel >= MOST_FILES)
        town_ends("isn't at the end of a channel that the lender has", day->guests);
    ends[channel] = &day->guests[number - 1];
    return __real_process_peer(channel);
}

/* Whether a message finds no room, as on some days one of `loses` does. */
static bool is_lost(void)
{
    return day->plan.loses > 0 && chance(1, day->plan.loses) == 1;
}

bool __wrap_lending_send(int channel, struct lending_message *message)
{
    struct guest *own = guest_with(channel), *other = guest_of(channel);
    message->version = LENDING_VERSION;
    if (other && !own)
        town_hears(other, message);
    return channel >= 0 && !is_lost() && put(own ? &own->reports : &other->orders, message);
}

unsigned __wrap_lending_read(int channel, struct lending_message messages[], unsigned most,
                             bool *ended)
{
    struct guest *own = guest_with(channel);
    unsigned count = 0;
    *ended = false;
    while (count < most && take(&own->orders, &messages[count]))
        count++;
    return count;
}

int __wrap_lending_read_from(int channel, struct lending_message *message, pid_t *sender)
{
    struct guest *guest = guest_of(channel);
    bool came = take(&guest->reports, message);
    *sender = getpid();
    if (came)
        town_is_heard(guest, message);
    return came;
}
