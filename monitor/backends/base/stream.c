#include "stream.h"

#include "process.h"

#include <errno.h>
#include <string.h>
#include <sys/socket.h>
#include <unistd.h>

static bool has_file(const struct files *files, int file)
{
    for (unsigned i = 0; i < files->count; i++)
        if (files->numbers[i] == file)
            return true;
    return false;
}

/* Keeps the files of one part of what came beside the bytes. Those for which there is no room stay
 * open: who sends more files than that isn't served any longer. */
static void keep_files(struct files *files, const struct cmsghdr *part)
{
    size_t count = (part->cmsg_len - CMSG_LEN(0)) / sizeof(int);
    const unsigned char *data = CMSG_DATA(part);
    for (size_t i = 0; i < count && i < MOST_FILES; i++) {
        int file;
        memcpy(&file, data + i * sizeof file, sizeof file);
        if (has_file(files, file))
            continue;
        if (files->count < MOST_FILES)
            files->numbers[files->count++] = file;
        else
            files->lost = true;
    }
}

void files_take(struct files *files)
{
    struct msghdr *header = &files->beside.header;
    header->msg_control = files->beside.control;
    if (header->msg_controllen > sizeof files->beside.control)
        header->msg_controllen = 0;
    files->lost |= (header->msg_flags & MSG_CTRUNC) != 0;
    for (struct cmsghdr *it = CMSG_FIRSTHDR(header); it; it = CMSG_NXTHDR(header, it))
        if (it->cmsg_level == SOL_SOCKET && it->cmsg_type == SCM_RIGHTS)
            keep_files(files, it);
}

enum stream_state stream_some(int socket, struct iovec parts[], size_t count, struct beside *beside,
                              size_t *came)
{
    ssize_t got;
    do {
        beside->header = (struct msghdr){.msg_iov = parts,
                                         .msg_iovlen = count,
                                         .msg_control = beside->control,
                                         .msg_controllen = sizeof beside->control};
        got = recvmsg(socket, &beside->header, MSG_CMSG_CLOEXEC | MSG_DONTWAIT);
    } while (got < 0 && errno == EINTR);
    *came = got > 0 ? (size_t)got : 0;
    if (got > 0)
        return STREAM_WHOLE;
    if (got == 0 || errno == ECONNRESET)
        return STREAM_GONE;
    return errno == EAGAIN || errno == EWOULDBLOCK ? STREAM_WAITS : STREAM_WRONG;
}

enum stream_state stream_fill(int socket, void *to, size_t length, size_t *got, struct files *files)
{
    enum stream_state state = STREAM_WHOLE;
    while (*got < length && state == STREAM_WHOLE) {
        struct iovec part = {(uint8_t *)to + *got, length - *got};
        size_t came;
        state = stream_some(socket, &part, 1, &files->beside, &came);
        if (state == STREAM_WHOLE)
            files_take(files);
        *got += came;
    }
    return state;
}

void files_close(struct files *files)
{
    for (unsigned i = 0; i < files->count; i++)
        file_close(files->numbers[i]);
    files->count = 0;
    files->lost = false;
}
