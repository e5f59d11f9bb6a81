#include "service.h"

#include "../base/notify.h"
#include "../base/process.h"
#include "../base/say.h"
#include "../lender/host.h"

#include <errno.h>
#include <grp.h>
#include <inttypes.h>
#include <stdio.h>
#include <stdlib.h>
#include <string.h>
#include <unistd.h>

/* Milliseconds between two looks for what followers of events are told, and after a look that had
 * no time for all; and between two words for the service manager's status at most. */
enum { LOOK_EVERY = 100, GO_ON_AFTER = 5, STATUS_EVERY = 5000 };

void service_defaults(struct service *service)
{
    service->hangup = -1;
    settings_defaults(&service->settings);
}

/* The number of a group; false where there is none of that name. */
static bool group_of(const char *name, gid_t *group)
{
    const struct group *found = getgrnam(name);
    if (found)
        *group = found->gr_gid;
    return found;
}

bool read_config(const char *word, void *at)
{
    return settings_read(at, word);
}

bool read_shown_word(const char *word, void *at)
{
    return word_is_shown(word) && read_word(word, at);
}

bool read_path(const char *word, void *at)
{
    char path[MOST_CONFIG_WORD];
    return !word_read(WORD_PATH, word, path) && read_word(word, at);
}

bool read_socket_path(const char *word, void *at)
{
    return !word_read(WORD_PATH, word, at);
}

bool read_socket_mode(const char *word, void *at)
{
    return !word_read(WORD_MODE, word, at);
}

bool read_socket_group(const char *word, void *at)
{
    return !word_read(WORD_GROUP, word, at);
}

bool read_log_level(const char *word, void *at)
{
    return config_level(word, at);
}

/* A word for the service manager. */
static void tell_manager(struct service *service, const struct host *host)
{
    char status[128];
    struct host_view view;
    host_see(host, &view);
    snprintf(status, sizeof status, "%u guests, %" PRIu64 " of %" PRIu32 " MiB held, %u wait",
             view.guests, view.held_kib / 1024, view.budget / 256, view.waiting);
    notify_lives(status);
    service->word = loop_now() + service->every;
}

/* A look that is due is before what clients ask for, however late this turn is: so followers hear
 * of what was before it. */
static void look(struct service *service)
{
    if (loop_now() < service->look)
        return;
    control_look(&service->control, service->settings.host);
    service->look = loop_now() + (service->control.is_behind ? GO_ON_AFTER : LOOK_EVERY);
}

static int serve_clients(void *context, int file)
{
    struct service *service = context;
    (void)file;
    look(service);
    control_serve(&service->control, service->settings.host);
    return LOOP_GOES_ON;
}

static int take_hangup(void *context, int file)
{
    struct service *service = context;
    static struct config before;
    const struct author nobody = {0};
    if (!process_took_reload(file))
        return LOOP_GOES_ON;
    look(service);
    settings_see(&service->settings, &before);
    settings_reload(&service->settings);
    settings_note(&service->settings, &before, &nobody);
    return LOOP_GOES_ON;
}

static void waits(void *context, struct loop *loop)
{
    struct service *service = context;
    loop_wait_for(loop, service->control.waits, POLLIN, serve_clients, service);
    loop_wait_for(loop, service->hangup, POLLIN, take_hangup, service);
    if (control_has_clients(&service->control))
        loop_wait_until(loop, service->look);
    if (service->every > 0)
        loop_wait_until(loop, service->word);
}

static int turn(void *context)
{
    struct service *service = context;
    look(service);
    control_go_on(&service->control);
    if (service->every > 0 && loop_now() >= service->word)
        tell_manager(service, service->settings.host);
    return LOOP_GOES_ON;
}

/* Where a control socket is, unless that was said: in the host's folder, by its word; and whether a
 * service manager has kept it. */
static bool find_socket(struct service *service, enum control_rights rights, const char *folder)
{
    const char *word = control_socket_word(rights);
    struct config_socket *its = &service->settings.sockets[rights];
    struct control_options *options = &service->sockets[rights];
    if (!*its->path &&
        snprintf(its->path, sizeof its->path, "%s/.%s", folder, word) >= (int)sizeof its->path)
        return say_fault("%s/.%s: %s", folder, word, strerror(ENAMETOOLONG));
    *options = (struct control_options){.path = its->path,
                                        .mode = its->mode,
                                        .group = (gid_t)-1,
                                        .listener = notify_socket(word),
                                        .stays = getenv("NOTIFY_SOCKET") != NULL};
    return !*its->group || group_of(its->group, &options->group) ||
           say_fault("%s: there is no such group", its->group);
}

/* Milliseconds between two words for the service manager; 0: there is none. */
static int64_t words_every(void)
{
    int64_t wanted = notify_every();
    if (wanted > 0 && wanted < STATUS_EVERY)
        return wanted;
    return getenv("NOTIFY_SOCKET") ? STATUS_EVERY : 0;
}

/* Has the service manager keep a control socket, in place of the one that it has handed over. */
static void keep_socket(const struct service *service, enum control_rights rights)
{
    int handed = service->sockets[rights].listener, its = service->control.sockets[rights].listener;
    if (handed >= 0 && handed != its)
        notify_forget(control_socket_word(rights));
    notify_keep(control_socket_word(rights), its);
}

bool service_begin(struct service *service, struct host *host, const char *folder)
{
    struct settings *settings = &service->settings;
    most_unread = (size_t)host->most * UNREAD_OF_GUEST;
    for (unsigned i = 0; i < CONTROL_SOCKETS; i++)
        if (!find_socket(service, i, folder))
            return false;
    if (!settings_are_apart(settings->sockets[MAY_CHANGE].path, settings->sockets[MAY_LOOK].path))
        return false;
    service->hangup = settings->file ? process_reload() : -1;
    if ((settings->file && service->hangup < 0) ||
        !control_open(&service->control, service->sockets) || !settings_apply(settings, host))
        return false;
    for (unsigned i = 0; i < CONTROL_SOCKETS; i++)
        keep_socket(service, i);
    service->every = words_every();
    service->control.settings = settings;
    host->service = (struct loop_part){service, waits, turn};
    return true;
}

void service_hand_on(const struct service *service)
{
    int listeners[CONTROL_SOCKETS];
    const char *names[CONTROL_SOCKETS];
    for (unsigned i = 0; i < CONTROL_SOCKETS; i++) {
        listeners[i] = service->control.sockets[i].listener;
        names[i] = control_socket_word(i);
    }
    notify_hand_on(listeners, names, CONTROL_SOCKETS);
}

void service_end(struct service *service)
{
    notify_ends();
    control_close(&service->control);
    if (service->hangup >= 0)
        file_close(service->hangup);
}
