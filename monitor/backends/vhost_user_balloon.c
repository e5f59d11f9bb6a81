/* A memory balloon for one guest, as a vhost-user backend: for QEMU's generic device, for the
 * virtio_uml driver of User Mode Linux, and for any other client of that protocol.
 *
 *     vhost_user_balloon SOCKET [--features HEX] [--strict] [--keep] [--hints] [--discard-hints]
 *     [--events] [--state FILE] [--lines N]
 *     vhost_user_balloon --socket-path SOCKET ..    the same; but the end of standard input doesn't
 *                                                   end it
 *     vhost_user_balloon --fd FD ..                 of an open socket, of the client's or where it
 *                                                   comes
 *
 * It makes the socket, says `listening`, and serves the client that comes, until that one goes
 * (status 0) or breaks a rule (status 1, and one line on standard error that says which). Standard
 * input is the control pipe, each line is answered by one on standard output:
 *
 *     target PAGES    the balloon's target, in pages of 4096 bytes
 *     counters        names and numbers: target, actual, what the memory's files hold on the host,
 *                     what was served
 *     ask             ask the guest for new statistics
 *     statistics      how often the guest told them, and what it said last
 *     hint start      begin a round of free page hints (VIRTIO 1.2, 5.5.6.6), in place of one that
 *                     is on: its id is answered
 *     hint stop       the driver is to hint no more, and may keep what it hinted
 *     hint done       the driver may use again what it hinted
 *     quit            end; so do the end of the input, and the signals SIGTERM, SIGINT and SIGHUP
 *
 * --features: what the device offers (100000027: MUST_TELL_HOST, STATS_VQ, DEFLATE_ON_OOM,
 * REPORTING, VERSION_1). --strict: a page number past the end breaks a rule, in place of being
 * skipped. --keep: the host keeps all memory. --hints: and FREE_PAGE_HINT. --discard-hints: pages
 * that are hinted are discarded, else they are counted alone. --events: notifications as messages
 * aren't offered, so a client uses events. --state: the device is kept in this file, and a backend
 * that finds one there resumes with its target and its `actual`. --lines: what is said in a second
 * at most (20). --help, --version and --print-capabilities are answered.
 */
#include "balloon/backend.h"
#include "balloon/state.h"
#include "base/options.h"
#include "process/keeper.h"
#include "process/kept.h"
#include "process/marks.h"
#include "vhost/conventions.h"
#include "vhost/inbox.h"

#include <errno.h>
#include <stdio.h>
#include <sys/socket.h>
#include <sys/stat.h>
#include <sys/un.h>
#include <unistd.h>

/* The client's next message, as far as it is there; and the pages in its guest's balloon. */
static struct inbox inbox;
static uint64_t set[MOST_SET / 64];
static struct marks marks = {.set = set};

/* Removes the socket of an earlier backend, and nothing else. */
static void remove_socket(const char *path)
{
    struct stat file;
    if (!lstat(path, &file) && S_ISSOCK(file.st_mode))
        unlink(path);
}

/* Makes the socket where the client comes; -1 where it can't. */
static int listener_of(const char *path)
{
    struct sockaddr_un address = {.sun_family = AF_UNIX};
    if (strlen(path) >= sizeof address.sun_path)
        return errno = ENAMETOOLONG, -1;
    strcpy(address.sun_path, path);
    remove_socket(path);
    int listener = socket(AF_UNIX, SOCK_STREAM | SOCK_CLOEXEC | SOCK_NONBLOCK, 0);
    if (listener >= 0 &&
        (bind(listener, (struct sockaddr *)&address, sizeof address) || listen(listener, 1))) {
        int why = errno;
        close(listener);
        return errno = why, -1;
    }
    return listener;
}

/* Nobody else may come. */
static void stop_listening(struct backend *backend)
{
    if (backend->options->client)
        remove_socket(backend->options->client);
    file_close(backend->listener);
    backend->listener = -1;
}

/* A client may have gone again before it is taken; where there is no room for its file, it waits
 * for a while. */
static void accept_client(struct backend *backend)
{
    backend->socket = accept4(backend->listener, NULL, NULL, SOCK_CLOEXEC | SOCK_NONBLOCK);
    if (backend->socket >= 0) {
        stop_listening(backend);
        return;
    }
    backend->rests = errno != EAGAIN && errno != ECONNABORTED && errno != EINTR;
    if (backend->rests)
        complain("a client can't be taken: %s", strerror(errno));
}

/* Serves the client's next message, if it is there whole: 1; 0 where the client has gone; -1 where
 * it can't be served any longer. */
static int serve(struct backend *backend)
{
    if (backend->socket < 0)
        return accept_client(backend), 1;
    enum stream_state state = inbox_read(backend->socket, &inbox);
    if (state == STREAM_WAITS || state == STREAM_GONE)
        return state == STREAM_WAITS;
    if (state == STREAM_WRONG)
        return refuse("the client's bytes are no message"), -1;
    bool served = message_serve(backend, &inbox.message);
    inbox_next(&inbox);
    if (served)
        return 1;
    return backend->gone ? 0 : -1;
}

/* The hook for the memory that a client hands over: a set for its pages, unless it ends too far up
 * for one. */
static bool admit(struct backend *backend)
{
    if (!marks_follow(backend, &marks,
                      backend->balloon.state.device.settings.memory_end / BALLOON_PAGE))
        backend->balloon.ballooned = NULL;
    return true;
}

static const char help[] =
    "vhost_user_balloon SOCKET | --socket-path SOCKET | --fd FD [--features HEX] [--strict] "
    "[--keep] [--hints]\n"
    "                   [--discard-hints] [--events] [--state FILE] [--lines N]\n"
    "vhost_user_balloon --print-capabilities | --help | --version";

/* What the command line says of the client: one of its socket, the socket's path, and the socket's
 * file. */
struct where {
    const char *socket, *path;
    int file; /* -1: none */
};

static enum command_line read_words(int count, char **words, struct options *options,
                                    struct where *where)
{
    const struct option_row rows[] = {BACKEND_OPTIONS(options),
                                      {"socket-path", .read = read_word, .at = &where->path},
                                      {"fd", .read = read_socket, .at = &where->file},
                                      {"print-capabilities", .answer = CAPABILITIES},
                                      {"help", .answer = help},
                                      {"version", .answer = "vhost_user_balloon " VB_VERSION},
                                      {0}};
    enum command_line line = options_read(count, words, rows, &where->socket);
    int said = (where->socket != NULL) + (where->path != NULL) + (where->file >= 0);
    options->client = where->path ? where->path : where->socket;
    options->lives_on = !where->socket;
    return line == LINE_READ && said != 1 && !options->layout ? LINE_WRONG : line;
}

/* Takes the client's socket, or the one where it comes: by its number, or by making it. False where
 * it can't. */
static bool take_socket(struct backend *backend, int given)
{
    bool listens = given < 0 || socket_listens(given);
    int file = given < 0 ? listener_of(backend->options->client) : given;
    *(listens ? &backend->listener : &backend->socket) = file;
    return file >= 0;
}

int main(int count, char **words)
{
    static struct backend backend;
    static struct options options = {.features = USUAL_FEATURES};
    struct where where = {.file = -1};
    process_begin();
    enum command_line line = read_words(count, words, &options, &where);
    if (line == LINE_WRONG)
        fprintf(stderr, "%s\n", help);
    if (line != LINE_READ)
        return line == LINE_WRONG ? 2 : 0;
    if (options.layout)
        return options.layout != KEPT_LAYOUT;
    if (options.is_lent)
        return keeper_run(&options, words);
    process_allow_files(FILES_OF_PROCESS + FILES_OF_CLIENT);
    if (!backend_start(&backend, &options) || !state_load(&backend))
        return 2;
    backend.tell = client_tell;
    backend.admit = admit;
    if (take_socket(&backend, where.file)) {
        puts("listening");
        int status = backend_run(&backend, serve);
        backend_leave(&backend);
        if (backend.socket < 0)
            stop_listening(&backend);
        if (backend.socket >= 0 || backend.ended)
            return status;
        errno = ECANCELED; /* the control pipe has ended */
    }
    fprintf(stderr, "vhost_user_balloon: %s: %s\n", options.client ? options.client : "--fd",
            strerror(errno));
    return 2;
}
