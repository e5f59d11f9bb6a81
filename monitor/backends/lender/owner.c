/* A user by its words, and the socket of its guest. */
#include "owner.h"

#include "../base/numbers.h"

#include <pwd.h>
#include <string.h>
#include <sys/stat.h>
#include <unistd.h>

/* The modes of a socket: of one user, and of a group as far as the lender's mask goes. */
enum { OF_USER = 0600, OF_GROUP = 0777 };

const char *owner_read(const char *words, uint32_t *user)
{
    uint64_t number = ANY_USER;
    bool is_number = read_number(words, 10, ANY_USER - 1, &number);
    const struct passwd *found = is_number || !strcmp(words, "none") ? NULL : getpwnam(words);
    if (!is_number && !found && strcmp(words, "none") != 0)
        return "a user of this machine, a user's number, or none";
    *user = found ? found->pw_uid : is_number ? (uint32_t)number : ANY_USER;
    return NULL;
}

/* Only its owner may change the mode of a file, which is the lender until then. */
void owner_give(const char *path, uint32_t user)
{
    mode_t mask = umask(0);
    umask(mask);
    if (lchown(path, geteuid(), (gid_t)-1))
        return;
    bool given = user != ANY_USER && !chmod(path, OF_USER) && !lchown(path, user, (gid_t)-1);
    if (!given)
        chmod(path, OF_GROUP & ~mask);
}
