/* What makes the host a service: its configuration, its control socket, and what its service
 * manager is told. */
#ifndef SERVICE_H
#define SERVICE_H
#include "../control/control.h"
#include "../settings/settings.h"

struct service {
    struct settings settings;
    const char *checks; /* a file that is to be checked alone; NULL: none */
    struct control control;
    struct control_options sockets[CONTROL_SOCKETS];
    int hangup;         /* has something to read once SIGHUP has come; -1: none */
    int64_t look, word; /* when the control sockets and the service manager want their next turn, by
                           loop_now() */
    int64_t every; /* milliseconds between two words for the service manager; 0: it wants none */
};

/* The options of a service, as rows of a table (options.h). A configuration is read at once, and
 * its faults are said. Options that come after --config are before what the file says; those before
 * it are for what it doesn't say. */
#define SOCKET_OPTIONS(its, rights, word)                                                          \
    {word, .read = read_socket_path, .at = (its)->settings.options.sockets[rights].path},          \
        {word "-mode", .read = read_socket_mode,                                                   \
         .at = &(its)->settings.options.sockets[rights].mode},                                     \
    {                                                                                              \
        word "-group", .read = read_socket_group,                                                  \
                       .at = (its)->settings.options.sockets[rights].group                         \
    }
#define SERVICE_OPTIONS(its)                                                                       \
    {"config", .read = read_config, .at = &(its)->settings},                                       \
        {"state", .read = read_shown_word, .at = &(its)->settings.state},                          \
        {"check", .read = read_word, .at = &(its)->checks},                                        \
        SOCKET_OPTIONS(its, MAY_CHANGE, "control"), SOCKET_OPTIONS(its, MAY_LOOK, "status"),       \
    {                                                                                              \
        "log-level", .read = read_log_level, .at = &(its)->settings.options.level                  \
    }

bool read_config(const char *word, void *at);
bool read_shown_word(const char *word, void *at);
bool read_path(const char *word, void *at);
bool read_socket_path(const char *word, void *at);
bool read_socket_mode(const char *word, void *at);
bool read_socket_group(const char *word, void *at);
bool read_log_level(const char *word, void *at);

/* As no option was read yet. */
void service_defaults(struct service *service);

/* Opens the control sockets of a host whose folder this is, adds the guests of the configuration,
 * and takes part in the host's loop; false where it can't, which is said. */
bool service_begin(struct service *service, struct host *host, const char *folder);

/* The process is to become another program of the host: that one finds the control sockets where
 * they are, as after a service manager. */
void service_hand_on(const struct service *service);

/* The host ends: the service manager is told, clients of the control sockets are dropped. */
void service_end(struct service *service);

#endif
