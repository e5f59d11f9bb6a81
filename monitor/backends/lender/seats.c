/* Who is served, and where: a socket for each guest of the host. */
#include "places.h"
#include "view.h"

#include <signal.h>
#include <stdlib.h>
#include <sys/pidfd.h>
#include <sys/socket.h>
#include <sys/un.h>
#include <sys/wait.h>
#include <unistd.h>

/* Milliseconds in which the process of a guest that was removed ends; and where the lender ends. */
enum { ENDS_IN = 5000, LEAVES_IN = 1000 };

bool seat_is_taken(const struct seat *seat)
{
    return seat->here && !seat->gone;
}

bool seat_is_ready(const struct seat *seat)
{
    return seat_is_taken(seat) && seat->report.ready;
}

bool seat_answers(const struct seat *seat)
{
    return seat->known && seat->silent <= SILENT_AFTER;
}

bool seat_reports(const struct seat *seat)
{
    return !seat_is_taken(seat) || seat->asked_at == 0 ||
           loop_now() - seat->asked_at <= SILENT_AFTER * seat->host->period;
}

struct seat *seat_of(const struct host *host, const char *name)
{
    for (unsigned i = 0; i < host->count; i++)
        if (!strcmp(host->seats[i]->name, name))
            return host->seats[i];
    return NULL;
}

void seat_clear(struct seat *seat)
{
    seat_ends_wait(seat);
    memset(&seat->report, 0, sizeof seat->report);
    seat->free = seat->available = seat->ballooned_then = seat->target = seat->silent = 0;
    seat->known = seat->tells_available = seat->gone = seat->refused = seat->adopts = seat->holds =
        false;
    seat->heard = seat->taken = seat->number = seat->lost = 0;
    seat->heard_at = seat->paused_until = seat->asked_at = seat->waits_since = 0;
    seat->serving = 0;
    seat->pressure = (VbPressure){0};
    seat->inflates_to = 0;
    seat->still = (struct stillness){0};
    seat->moved_at = seat->passed_over = 0;
    seat->exchange = (VbExchange){0};
    seat->granted_asks = seat->granted = 0;
    seat->cooperates = true;
    seat->reserves = false;
    limit_forget(seat);
}

/* Makes a seat's socket; false where it can't, with errno. */
static bool listen_at(struct seat *seat)
{
    struct sockaddr_un address = {.sun_family = AF_UNIX};
    strcpy(address.sun_path, seat->path);
    remove_socket(seat->path);
    seat->listener = socket(AF_UNIX, SOCK_STREAM | SOCK_CLOEXEC | SOCK_NONBLOCK, 0);
    if (seat->listener < 0)
        return false;
    if (!bind(seat->listener, (struct sockaddr *)&address, sizeof address) &&
        !listen(seat->listener, 1))
        return owner_give(seat->path, seat->terms.user), true;
    int why = errno;
    file_close(seat->listener);
    return errno = why, false;
}

void seat_free(struct seat *seat)
{
    if (seat->channel >= 0)
        file_close(seat->channel);
    if (seat->process_file >= 0)
        file_close(seat->process_file);
    free(seat);
}

/* Names a seat and its two sockets; false where a path is too long. */
static bool name_seat(struct seat *seat, const char *name)
{
    const char *folder = seat->host->folder;
    strcpy(seat->name, name);
    seat->speaker.name = seat->teller.name = seat->name;
    return snprintf(seat->path, sizeof seat->path, "%s/%s", folder, name) < MOST_PATH &&
           snprintf(seat->later_path, sizeof seat->later_path, "/proc/self/fd/%d/%s",
                    seat->host->channels, name) < MOST_PATH;
}

const char *terms_fault(const struct guest_terms *terms, const char **term)
{
    *term = "least";
    if (terms->least > terms->most)
        return "its least is more than its most";
    *term = "start";
    if (terms->start == UINT32_MAX)
        return NULL;
    if (terms->start > terms->most)
        return "its start is more than its most";
    return terms->limit.kind == LIMIT_NONE ? "a start is for a guest that has a limit" : NULL;
}

bool seat_has_path(const char *folder, const char *name)
{
    return strlen(folder) + strlen("/") + strlen(name) < MOST_PATH;
}

const char *seat_fault(const struct host *host, const char *name)
{
    static char full[64];
    if (!is_name(name) || seat_of(host, name))
        return "a name has 1 to 31 letters, digits, - and _, and no other guest has it";
    if (host->count < host->most)
        return NULL;
    snprintf(full, sizeof full, "the host has its %u guests: --guests", host->most);
    return full;
}

const char *seat_add(struct host *host, const char *name, const struct guest_terms *terms)
{
    const char *fault = seat_fault(host, name);
    if (fault)
        return fault;
    struct seat *seat = calloc(1, sizeof *seat);
    if (!seat)
        return strerror(ENOMEM);
    seat->host = host;
    seat->terms = *terms;
    seat->channel = seat->process_file = seat->writer.channel = -1;
    bool named = name_seat(seat, name);
    if (!named || !listen_at(seat)) {
        int why = errno;
        free(seat);
        return strerror(named ? why : ENAMETOOLONG);
    }
    place_begin(seat);
    seat->cooperates = true;
    host->seats[host->count++] = seat;
    seat_take_over(seat);
    return NULL;
}

/* A process that has a listening socket and a client alone, and ends once the other end of a pipe
 * is closed; nobody waits for it. */
static void keep_alone(int listener, int client, int pipe)
{
    char byte;
    if (fork() != 0)
        _exit(0);
    dup2(listener, STDOUT_FILENO);
    dup2(client, STDERR_FILENO);
    dup2(pipe, STDIN_FILENO);
    close_range(STDERR_FILENO + 1, ~0U, 0);
    _exit(read(STDIN_FILENO, &byte, 1) != 0);
}

/* Closes both, with what a client has sent, which may take long: so another process closes them
 * last. */
static void close_with_client(int listener, int client)
{
    int ends[2];
    pid_t child = -1;
    if (!pipe2(ends, O_CLOEXEC)) {
        child = fork();
        if (child == 0)
            keep_alone(listener, client, ends[0]);
        file_close(ends[0]);
    }
    if (child > 0)
        waitpid(child, NULL, 0);
    file_close(client);
    file_close(listener);
    if (child >= 0)
        file_close(ends[1]);
}

/* Closes a socket where clients wait, after which none can come. */
static void close_listener(int listener)
{
    shutdown(listener, SHUT_RD);
    int client = accept4(listener, NULL, NULL, SOCK_CLOEXEC);
    if (client >= 0)
        close_with_client(listener, client);
    else
        file_close(listener);
}

const char *seat_remove(struct host *host, struct seat *seat)
{
    unsigned number = 0;
    if (seat->here && host->leaving_count == host->most)
        return "as many guests are leaving as there may be: --guests";
    while (host->seats[number] != seat)
        number++;
    host->count--;
    host->comes = host->comes == seat ? NULL : host->comes;
    memmove(host->seats + number, host->seats + number + 1,
            (host->count - number) * sizeof host->seats[0]);
    remove_socket(seat->path);
    remove_socket(seat->later_path);
    folder_forget(host, seat->name);
    limit_end(seat);
    close_listener(seat->listener);
    seat->listener = -1;
    if (!seat->here) {
        seat_free(seat);
        return NULL;
    }
    seat_leave(seat);
    seat->leaves_until = loop_now() + ENDS_IN;
    host->leaving[host->leaving_count++] = seat;
    return NULL;
}

/* Waits until a guest's process has ended, or until then; whether it has. */
static bool has_ended(const struct seat *seat, int64_t end)
{
    struct pollfd its = {seat->process_file, POLLIN, 0};
    int64_t left = end - loop_now();
    bool ended = poll(&its, 1, left > 0 ? (int)left : 0) > 0;
    if (ended)
        waitpid(seat->process, NULL, WNOHANG);
    return ended;
}

/* Ends the processes of guests that were removed, which have a moment for it: a later lender knows
 * nothing of them. */
static void end_leaving(const struct host *host)
{
    int64_t end = loop_now() + LEAVES_IN;
    for (unsigned i = 0; i < host->leaving_count; i++) {
        const struct seat *seat = host->leaving[i];
        if (seat->process_file < 0 || has_ended(seat, end))
            continue;
        complain("%s doesn't end, and is killed", seat->name);
        pidfd_send_signal(seat->process_file, SIGKILL, NULL, 0);
    }
}

/* Waits a moment for those that were killed: the next program of this process knows none. */
static void reap_leaving(const struct host *host)
{
    int64_t end = loop_now() + LEAVES_IN;
    for (unsigned i = 0; i < host->leaving_count; i++)
        if (host->leaving[i]->process_file >= 0)
            has_ended(host->leaving[i], end);
}

void host_end(struct host *host)
{
    bool live_on = host->leaves || host->upgrades;
    while (!live_on && host->count > 0 && !seat_remove(host, host->seats[0]))
        continue;
    end_leaving(host);
    if (host->upgrades)
        reap_leaving(host);
    if (!live_on)
        folder_leave(host);
}

/* ---- what its places say */

uint32_t seat_pages(const struct seat *seat)
{
    return place_of(seat)->granted > 0 ? place_of(seat)->pages : 0;
}

uint32_t seat_frames(const struct seat *seat)
{
    return seat_pages(seat) + place_of(seat)->outside;
}

uint32_t seat_told(const struct seat *seat)
{
    return place_of(seat)->target_number > 0 ? place_of(seat)->target : 0;
}

const VbSeat *added_place_of(const struct seat *seat)
{
    static const VbSeat none;
    return seat->added == NO_PLACE ? &none : &seat->host->places[seat->added];
}

uint32_t seat_lent(const struct seat *seat)
{
    return vb_seat_lent(place_of(seat)) + vb_seat_lent(added_place_of(seat));
}

uint32_t seat_asked(const struct seat *seat)
{
    return vb_seat_asked(place_of(seat)) + vb_seat_asked(added_place_of(seat));
}

uint64_t places_owed(const struct host *host)
{
    return vb_host_owed(host->places, host->place_count);
}

bool places_wait(const struct host *host)
{
    return vb_host_first(host->places, host->place_count) != SIZE_MAX;
}
