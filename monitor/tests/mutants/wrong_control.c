/* Hosts whose control socket, configuration or service is wrong on purpose: tools/test control has
 * to find each, by one test of its own. The linker puts these functions before those of the same
 * names, and the environment's CONTROL_WRONG names the one that it is:
 *
 *     any-field         a field that a request doesn't have is ignored, and whatever is in a field
 *                       is taken
 *     no-id             an answer doesn't repeat its request's id
 *     no-limit          a line without an end is waited for, however long it is
 *     waits-for-ever    a client that leaves too much unread stays
 *     all-lost          decisions that aren't kept any longer aren't counted as lost
 *     no-events         who follows the host is told of nothing
 *     open-socket       anybody may connect to the control sockets
 *     changes-by-status a client of the socket that only shows the host may change it
 *     any-word          whatever is after a key of the configuration is taken
 *     half-a-file       what is right in a wrong configuration is done
 *     moves             what can't change while the host runs changes
 *     deaf              a configuration isn't read again
 *     not-ready         the service manager isn't told that the host is ready
 *     no-watchdog       nor that it lives
 *     forgets-socket    nor given the control socket to keep
 *     no-utf-8          a guest's state has a name that JSON can't have
 */
#include "../../backends/control/answers.h"
#include "../../backends/control/client.h"
#include "../../backends/control/events.h"
#include "../../backends/control/fields.h"
#include "../../backends/control/requests.h"
#include "../../backends/control/socket.h"
#include "../../backends/base/process.h"
#include "../../backends/lender/journal.h"
#include "../../backends/lender/view.h"
#include "../../backends/settings/config.h"
#include "../../backends/settings/config_words.h"
#include "../../backends/base/notify.h"

#include <stdlib.h>
#include <string.h>

static bool is(const char *name)
{
    const char *wrong = getenv("CONTROL_WRONG");
    return wrong && !strcmp(wrong, name);
}

/* Declares the right function and the one in its place. */
#define WRAPPED(type, name, ...)                                                                   \
    type __real_##name(__VA_ARGS__);                                                               \
    type __wrap_##name(__VA_ARGS__)

WRAPPED(json_t *, fields_refusal, const json_t *request, const struct field fields[MOST_FIELDS])
{
    return is("any-field") ? NULL : __real_fields_refusal(request, fields);
}

WRAPPED(json_t *, request_answer, struct control *control, struct control_client *client,
        struct host *host, const char *line, size_t length)
{
    json_t *answer = __real_request_answer(control, client, host, line, length);
    if (is("no-id"))
        json_object_del(answer, "id");
    return answer;
}

WRAPPED(struct control_client *, client_new, int socket, enum control_rights rights)
{
    return __real_client_new(socket, is("changes-by-status") ? MAY_CHANGE : rights);
}

WRAPPED(bool, client_line_is_too_long, const struct control_client *client)
{
    return !is("no-limit") && __real_client_line_is_too_long(client);
}

WRAPPED(bool, client_is_served, const struct control_client *client)
{
    return is("waits-for-ever") ? !client->gone : __real_client_is_served(client);
}

WRAPPED(uint64_t, journal_begin, const struct host *host)
{
    return is("all-lost") ? 0 : __real_journal_begin(host);
}

WRAPPED(void, events_look, struct control *control, const struct host *host)
{
    if (!is("no-events"))
        __real_events_look(control, host);
}

WRAPPED(int, socket_listen, const struct control_options *options)
{
    struct control_options its = *options;
    its.mode = is("open-socket") ? 0666 : its.mode;
    return __real_socket_listen(&its);
}

WRAPPED(const char *, word_read, enum word_kind kind, const char *word, void *at)
{
    const char *wanted = __real_word_read(kind, word, at);
    return is("any-word") ? NULL : wanted;
}

WRAPPED(bool, config_read, const char *path, struct config *config)
{
    return __real_config_read(path, config) || is("half-a-file");
}

WRAPPED(bool, config_stays, const struct config *old, const struct config *new,
        const char **section, const char **key)
{
    return __real_config_stays(old, new, section, key) || is("moves");
}

WRAPPED(bool, process_took_reload, int file)
{
    return __real_process_took_reload(file) && !is("deaf");
}

WRAPPED(const char *, guest_state_word, enum guest_state state)
{
    return is("no-utf-8") ? "\xff" : __real_guest_state_word(state);
}

WRAPPED(void, notify_ready, void)
{
    if (!is("not-ready"))
        __real_notify_ready();
}

WRAPPED(void, notify_lives, const char *status)
{
    if (!is("no-watchdog"))
        __real_notify_lives(status);
}

WRAPPED(void, notify_keep, const char *name, int file)
{
    if (!is("forgets-socket"))
        __real_notify_keep(name, file);
}
