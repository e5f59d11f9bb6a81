/* The things of balloon.h that have a fence, each as a function of its own: tools/check-fences
 * looks at their code. */
#include "balloon.h"

/* The available index, and after the acquire fence the entry. */
uint32_t takes(struct balloon *balloon, struct balloon_result *result);
uint32_t takes(struct balloon *balloon, struct balloon_result *result)
{
    return (uint32_t)balloon_perform(balloon, VB_READ, result) +
           balloon_perform(balloon, VB_ACQUIRE | VB_READ, result);
}

/* A used element's numbers, and after the release fence its index. */
void gives(const struct balloon *balloon);
void gives(const struct balloon *balloon)
{
    balloon_give_back(balloon);
}

/* The flags, after the full fence. */
uint32_t asks(struct balloon *balloon, struct balloon_result *result);
uint32_t asks(struct balloon *balloon, struct balloon_result *result)
{
    return balloon_perform(balloon, VB_FULL_FENCE | VB_READ, result);
}
