/*
 * What makes vhost-user-balloon a module that is preloaded into a QEMU which
 * was built without it
 *
 * SPDX-License-Identifier: GPL-2.0-or-later
 */

#include "qemu/osdep.h"
#include "qapi/qapi-commands-control.h"
#include "qemu/module.h"

/* The layout of a device is that of the headers: their first two numbers */
static void preloaded_check_version(void)
{
    VersionInfo *version = qmp_query_version(NULL);

    if (version->qemu->major != QEMU_VERSION_MAJOR ||
        version->qemu->minor != QEMU_VERSION_MINOR) {
        fprintf(stderr, "vhost-user-balloon was built for QEMU %d.%d, and this "
                "is %" PRId64 ".%" PRId64 "\n", QEMU_VERSION_MAJOR,
                QEMU_VERSION_MINOR, version->qemu->major,
                version->qemu->minor);
        exit(2);
    }
    qapi_free_VersionInfo(version);
}

/* Programs that QEMU starts have no room for it */
static void __attribute__((constructor)) preloaded_begin(void)
{
    unsetenv("LD_PRELOAD");
}

type_init(preloaded_check_version)
