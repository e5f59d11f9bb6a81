#include "differs.h"

#include "parts.h"

#include "../settings/config_text.h"
#include "../settings/settings.h"

/* A key of the host's, or of a guest of this name. */
static json_t *difference(const struct key *key, const char *guest, const void *files,
                          const void *now, bool lasts)
{
    char in_file[MOST_KEY_TEXT], is[MOST_KEY_TEXT];
    return json_pack("{s:s?, s:s, s:s, s:s, s:b}", "guest", guest, "key", key->name, "file",
                     key_text(key, files, in_file), "now", key_text(key, now, is), "lasts", lasts);
}

static json_t *removed(const char *guest, bool lasts)
{
    return json_pack("{s:s, s:s, s:s, s:s, s:b}", "guest", guest, "key", "removed", "file", "no",
                     "now", "yes", "lasts", lasts);
}

static json_t *differs_of_guest(json_t *found, const struct config_guest *files,
                                const struct config_guest *now, const struct config_guest *lasting)
{
    if (!now)
        return part_append(found, removed(files->name, lasting && lasting->removed));
    for (unsigned i = 0; i < GUEST_KEYS; i++)
        if (config_says(files->says, i) && !key_is_same(&guest_keys[i], files, now))
            found = part_append(found, difference(&guest_keys[i], files->name, files, now,
                                                  lasting && config_says(lasting->says, i)));
    return found;
}

json_t *answer_differs(const struct settings *settings)
{
    static struct config now;
    const struct config *file = &settings->config;
    struct config *lasting = (struct config *)&settings->changes.lasting;
    json_t *found = json_array();
    settings_see(settings, &now);
    for (unsigned i = 0; i < CONFIG_KEYS; i++)
        if (config_says(file->says, i) && !key_is_same(&config_keys[i], file, &now))
            found = part_append(found, difference(&config_keys[i], NULL, file, &now,
                                                  config_says(lasting->says, i)));
    for (unsigned i = 0; i < file->count; i++) {
        const char *name = file->guests[i].name;
        found = differs_of_guest(found, &file->guests[i], config_guest_of(&now, name),
                                 config_guest_of(lasting, name));
    }
    return found;
}
