#include "notify.h"

#include <fcntl.h>
#include <stdio.h>
#include <stdlib.h>
#include <string.h>
#include <sys/socket.h>
#include <systemd/sd-daemon.h>
#include <time.h>
#include <unistd.h>

/* Files that are handed on at most, and bytes of their names. */
enum { MOST_HANDED_ON = 4, MOST_FDS_WORDS = 128 };

int64_t notify_every(void)
{
    uint64_t microseconds;
    return sd_watchdog_enabled(0, &microseconds) > 0 ? (int64_t)(microseconds / 2000) : 0;
}

void notify_ready(void)
{
    sd_notify(0, "READY=1");
}

void notify_reloads(void)
{
    struct timespec time;
    clock_gettime(CLOCK_MONOTONIC, &time);
    long long microseconds = time.tv_sec * 1000000LL + time.tv_nsec / 1000;
    sd_notifyf(0, "RELOADING=1\nMONOTONIC_USEC=%lld", microseconds);
}

void notify_ends(void)
{
    sd_notify(0, "STOPPING=1");
}

void notify_lives(const char *status)
{
    sd_notifyf(0, "WATCHDOG=1\nSTATUS=%s", status);
}

void notify_keep(const char *name, int file)
{
    char words[64] = "FDSTORE=1\nFDNAME=";
    if (strlen(name) < sizeof words - strlen(words))
        sd_pid_notify_with_fds(0, 0, strcat(words, name), &file, 1);
}

void notify_forget(const char *name)
{
    sd_notifyf(0, "FDSTOREREMOVE=1\nFDNAME=%s", name);
}

/* Files are moved up first, so that none is written over. */
void notify_hand_on(const int *files, const char *const *names, unsigned count)
{
    char words[3][MOST_FDS_WORDS] = {"", "", ""};
    int moved[MOST_HANDED_ON];
    for (unsigned i = 0; i < count && i < MOST_HANDED_ON; i++) {
        moved[i] = fcntl(files[i], F_DUPFD_CLOEXEC, SD_LISTEN_FDS_START + MOST_HANDED_ON);
        snprintf(words[0] + strlen(words[0]), sizeof words[0] - strlen(words[0]), "%s%s",
                 i > 0 ? ":" : "", names[i]);
    }
    for (unsigned i = 0; i < count && i < MOST_HANDED_ON; i++)
        dup2(moved[i], SD_LISTEN_FDS_START + (int)i);
    snprintf(words[1], sizeof words[1], "%d", (int)getpid());
    snprintf(words[2], sizeof words[2], "%u", count);
    setenv("LISTEN_FDNAMES", words[0], 1);
    setenv("LISTEN_PID", words[1], 1);
    setenv("LISTEN_FDS", words[2], 1);
}

int notify_socket(const char *name)
{
    char **names = NULL;
    int count = sd_listen_fds_with_names(0, &names), found = -1;
    for (int i = 0; i < count; i++) {
        if (found < 0 && !strcmp(names[i], name) &&
            sd_is_socket(SD_LISTEN_FDS_START + i, AF_UNIX, SOCK_STREAM, 1) > 0)
            found = SD_LISTEN_FDS_START + i;
        free(names[i]);
    }
    free(names);
    return found;
}
