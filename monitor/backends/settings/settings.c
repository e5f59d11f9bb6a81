#include "settings.h"

#include "apply.h"
#include "config_text.h"

#include "../base/levels.h"
#include "../base/notify.h"
#include "../base/say.h"
#include "../lender/host.h"

#include <errno.h>
#include <stdio.h>
#include <string.h>

/* Bytes of a fault in an answer; the mode of a control socket of which nothing is said. */
enum { MOST_FAULT = 256, USUAL_MODE = 0660 };

/* Nothing is said. */
static void unsay(struct host_options *options)
{
    *options = (struct host_options){.level = UINT32_MAX, .lines = UINT32_MAX};
    for (unsigned i = 0; i < CONTROL_SOCKETS; i++)
        options->sockets[i].mode = UINT32_MAX;
}

void settings_defaults(struct settings *settings)
{
    config_clear(&settings->config), config_clear(&settings->usual);
    unsay(&settings->options), unsay(&settings->before);
}

/* What is said of a control socket, where nothing else is. */
static void fill_socket(struct config_socket *socket, const struct config_socket *its)
{
    if (!socket->path[0])
        strcpy(socket->path, its->path);
    if (!socket->group[0])
        strcpy(socket->group, its->group);
    if (socket->mode == UINT32_MAX)
        socket->mode = its->mode;
}

/* The same of all of them. */
static void fill(struct host_options *options, const struct host_options *others)
{
    for (unsigned i = 0; i < CONTROL_SOCKETS; i++)
        fill_socket(&options->sockets[i], &others->sockets[i]);
    if (options->level == UINT32_MAX)
        options->level = others->level;
    if (options->lines == UINT32_MAX)
        options->lines = others->lines;
}

/* How much is said from now on, where that is said. */
static void speak(struct settings *settings, uint32_t level, uint32_t lines)
{
    if (lines != UINT32_MAX)
        most_lines = lines;
    if (level != UINT32_MAX)
        settings->level = level;
    say_level((int)settings->level);
}

void settings_take(struct settings *settings)
{
    const struct config *config = &settings->config;
    struct host_options files = {.level = config->level, .lines = config->lines},
                        usual = {.level = LEVEL_INFO, .lines = most_lines}, all = settings->options,
                        without = settings->options;
    memcpy(files.sockets, config->fixed.sockets, sizeof files.sockets);
    usual.sockets[MAY_CHANGE].mode = usual.sockets[MAY_LOOK].mode = USUAL_MODE;
    fill(&all, &files), fill(&all, &settings->before), fill(&all, &usual);
    fill(&without, &settings->before), fill(&without, &usual);
    settings->usual.level = without.level, settings->usual.lines = without.lines;
    settings->usual.says |= UINT32_C(1) << KEY_LEVEL | UINT32_C(1) << KEY_LINES;
    memcpy(settings->sockets, all.sockets, sizeof all.sockets);
    speak(settings, all.level, all.lines);
}

bool settings_read(struct settings *settings, const char *file)
{
    settings->file = file;
    fill(&settings->options, &settings->before);
    settings->before = settings->options;
    unsay(&settings->options);
    return config_read(file, &settings->config);
}

/* The first fault that is said while the configuration is read. */
static char first_fault[MOST_FAULT];

static void keep_first(enum saying saying, const char *words)
{
    say_through = NULL;
    if (saying == SAY_FAULT && !*first_fault)
        snprintf(first_fault, sizeof first_fault, "%s", words);
    if (saying == SAY_FAULT)
        say_fault("%s", words);
    else
        say_news("%s", words);
    say_through = keep_first;
}

/* What is to be by a file that is read again: what it says; what is so without a file of what the
 * old one said and it doesn't; and what was changed beside it. */
static void put_whole(const struct settings *settings, const struct config *config,
                      struct config *whole)
{
    const struct config *usual = &settings->usual;
    uint32_t gone = settings->config.says & ~config->says & usual->says;
    config_copy(whole, config);
    for (unsigned i = 0; i < CONFIG_KEYS; i++)
        if (config_says(gone, i))
            key_copy(&config_keys[i], whole, usual);
    whole->says |= gone;
    changes_put_over(&settings->changes, whole);
}

static bool lacks_budget(const char *file)
{
    return say_fault("%s: budget of [host]: it isn't said: what all guests may hold together, as "
                     "budget = 8G",
                     file);
}

/* Whether a configuration can take the place of the old one; else says why not. */
static bool can_replace(const struct settings *settings, const struct config *config)
{
    const char *section, *key;
    static struct config whole;
    put_whole(settings, config, &whole);
    if (settings->config.budget != UINT32_MAX && whole.budget == UINT32_MAX)
        return lacks_budget(settings->file);
    if (!apply_fits(settings->file, &whole, settings->host))
        return false;
    return config_stays(&settings->config, config, &section, &key) ||
           say_fault("%s: %s of [%s] can't change while the host runs: the old configuration stays",
                     settings->file, key, section);
}

static void take_again(struct settings *settings)
{
    static struct config config, whole;
    if (!config_read(settings->file, &config) || !can_replace(settings, &config)) {
        say_fault("%s: the old configuration stays", settings->file);
        return;
    }
    put_whole(settings, &config, &whole);
    config_copy(&settings->config, &config);
    speak(settings, whole.level, whole.lines);
    apply_sizes(settings->file, settings->host, &whole);
    apply_guests(settings->file, &whole, &config, settings->host);
    say_news("%s: read again", settings->file);
}

const char *settings_reload(struct settings *settings)
{
    if (!settings->file)
        return "the host has no configuration file (--config)";
    notify_reloads();
    *first_fault = 0;
    say_through = keep_first;
    take_again(settings);
    say_through = NULL;
    notify_ready();
    return *first_fault ? first_fault : NULL;
}

/* Whether a file says what a host can't do without, where that wasn't said before. */
static bool is_enough(const char *file, const struct config *config, const struct host *host)
{
    bool good = host->folder || config->fixed.folder[0] ||
                say_fault("%s: folder of [host]: it isn't said: where the sockets are", file);
    return (host->budget > 0 || config->budget != UINT32_MAX || lacks_budget(file)) && good;
}

bool settings_are_apart(const char *one, const char *other)
{
    return strcmp(one, other) != 0 ||
           say_fault("%s: [control] and [status] have the same socket", one);
}

/* Whether the control sockets may be where a configuration says; or an option, or in the folder. */
static bool sockets_fit(const struct settings *settings, const struct config *config,
                        const char *folder)
{
    static const enum config_key keys[] = {KEY_CONTROL_SOCKET, KEY_STATUS_SOCKET};
    char paths[CONTROL_SOCKETS][2 * MOST_CONFIG_WORD];
    bool good = true;
    for (unsigned i = 0; i < CONTROL_SOCKETS; i++) {
        const char *own = settings->options.sockets[i].path, *files = config->fixed.sockets[i].path;
        if (*own || *files)
            strcpy(paths[i], *files ? files : own);
        else
            snprintf(paths[i], sizeof paths[i], "%.*s/.%s", MOST_CONFIG_WORD, folder,
                     config_keys[keys[i]].section);
        good &=
            strlen(paths[i]) < MOST_PATH || say_fault("%s: %s", paths[i], strerror(ENAMETOOLONG));
    }
    return settings_are_apart(paths[MAY_CHANGE], paths[MAY_LOOK]) && good;
}

bool settings_check(const struct settings *settings, const char *file, const struct host *host)
{
    static struct config config;
    static struct changes changes;
    if (!config_read(file, &config))
        return false;
    changes_open(&changes, settings->state, false);
    changes_put_over(&changes, &config);
    if (host->budget > 0 && !config_says(changes.lasting.says, KEY_BUDGET))
        config.budget = host->budget;
    if (host->lends.overdraft != UINT32_MAX)
        config.overdraft = host->lends.overdraft;
    if (host->machine.lowest != UINT32_MAX)
        config.lowest_budget = host->machine.lowest;
    return is_enough(file, &config, host) &&
           sockets_fit(settings, &config, host->folder ? host->folder : config.fixed.folder) &&
           apply_fits(file, &config, host);
}

/* The configuration with what was changed. */
static const struct config *whole(const struct settings *settings)
{
    static struct config all;
    config_copy(&all, &settings->config);
    changes_put_over(&settings->changes, &all);
    return &all;
}

void settings_see(const struct settings *settings, struct config *seen)
{
    struct config *all = seen;
    const struct config *said = whole(settings);
    apply_see(settings->host, all);
    memcpy(all->fixed.sockets, settings->sockets, sizeof settings->sockets);
    all->lines = most_lines;
    all->level = settings->level;
    all->says |= UINT32_C(1) << KEY_CONTROL_SOCKET | UINT32_C(1) << KEY_CONTROL_MODE |
                 UINT32_C(1) << KEY_STATUS_SOCKET | UINT32_C(1) << KEY_STATUS_MODE |
                 UINT32_C(1) << KEY_LEVEL | UINT32_C(1) << KEY_LINES | said->says;
    if (settings->sockets[MAY_CHANGE].group[0])
        all->says |= UINT32_C(1) << KEY_CONTROL_GROUP;
    if (settings->sockets[MAY_LOOK].group[0])
        all->says |= UINT32_C(1) << KEY_STATUS_GROUP;
}

char *settings_text(const struct settings *settings)
{
    static struct config seen;
    settings_see(settings, &seen);
    return config_text(&seen);
}

void settings_recall(struct settings *settings, struct host *host)
{
    changes_open(&settings->changes, settings->state, true);
    const struct config *lasting = &settings->changes.lasting;
    if (config_says(lasting->says, KEY_BUDGET))
        host->budget = lasting->budget;
    if (config_says(lasting->says, KEY_FLOOR))
        host->floor = lasting->floor;
}

bool settings_apply(struct settings *settings, struct host *host)
{
    settings->host = host;
    apply_room(whole(settings), host);
    return apply_guests(settings->file, whole(settings), &settings->config, host);
}

void settings_note(struct settings *settings, const struct config *before,
                   const struct author *author)
{
    static struct config after;
    settings_see(settings, &after);
    audit_compare(&settings->audit, before, &after, author);
}
