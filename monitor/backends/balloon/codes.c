#include "codes.h"

#include <stddef.h>

/* Returns the words of a number; of one that has none, of a later library, that it isn't known. */
static const char *words_of(const char *const *words, size_t count, uint32_t number)
{
    return number < count && words[number] ? words[number] : "a number that isn't known";
}

const char *rule_words(uint32_t rule)
{
    static const char *const words[] = {
        /* clang-format off */
        /* tools/list-codes: rules, from here */
        [1] = "the head is no descriptor of the queue",
        [2] = "a next field names no descriptor of the queue",
        [3] = "the chain is longer than the queue",
        [4] = "an indirect descriptor",
        [5] = "a piece has the wrong direction",
        [6] = "a buffer is out of guest memory",
        [7] = "the available index has jumped",
        [8] = "a length that the queue doesn't take",
        [9] = "no such page",
        [10] = "a reserved page",
        /* tools/list-codes: rules, to here */
        /* clang-format on */
    };
    return words_of(words, sizeof words / sizeof words[0], rule);
}

const char *answer_words(uint32_t code)
{
    static const char *const words[] = {
        /* clang-format off */
        /* tools/list-codes: answers, from here */
        [0] = "VB_OK: what was asked for is done",
        [1] = "VB_NOTHING: no chain is available",
        [2] = "VB_BROKEN: the guest's bytes break a rule (`rule`); DEVICE_NEEDS_RESET is set "
            "now",
        [3] = "VB_NOT_READY: DRIVER_OK isn't set (vb_start_queue: FEATURES_OK isn't), or FAILED"
            " is",
        [4] = "VB_NEEDS_RESET: a rule was broken before",
        [5] = "VB_NO_QUEUE: no queue of that kind, or not with the negotiated features",
        [6] = "VB_MISPLACED: the queue has no place",
        [7] = "VB_BAD_ARGUMENT: an argument out of range (settings, regions, a page), or too "
            "little room",
        [8] = "VB_SHORT: the guests can't spare enough (`vb_policy_decide`)",
        [9] = "VB_BAD_LENGTH: of a saved state: more or fewer bytes than it has (`vb_save`: "
            "less room)",
        [10] = "VB_NOT_A_STATE: the bytes don't begin as a saved state does",
        [11] = "VB_OTHER_VERSION: of the format of saved states",
        [12] = "VB_BAD_SUM: the bytes aren't those that were saved",
        [13] = "VB_IMPOSSIBLE: no calls lead to a device like that",
        [14] = "VB_STALE: amid the notice its device was reset, or its queue moved or used",
        /* tools/list-codes: answers, to here */
        /* clang-format on */
    };
    return words_of(words, sizeof words / sizeof words[0], code);
}

const char *status_words(uint32_t answer)
{
    static const char *const words[] = {
        [1] = "it clears a bit",
        [2] = "it is out of order",
        [3] = "a feature that isn't offered",
        [4] = "MUST_TELL_HOST is missing",
        [5] = "VERSION_1 is missing",
    };
    return words_of(words, sizeof words / sizeof words[0], answer);
}
