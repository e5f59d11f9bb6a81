/* Standard input and standard output of a lender: lines that are obeyed one by one, and answers
 * that nobody has to read. */
#include "host.h"

#include <stdlib.h>
#include <unistd.h>

enum { MOST_LINE = 255 };

void input_read(struct input *input)
{
    ssize_t got =
        read(STDIN_FILENO, input->bytes + input->length, sizeof input->bytes - input->length);
    if (got > 0)
        input->length += (size_t)got;
    else
        input->ended = got == 0 || errno != EINTR;
}

/* Takes the next whole line; false where there is none yet. In place of a line that is too long, or
 * that has a byte 0, it is empty. */
static bool take_line(struct input *input, char line[MOST_LINE + 1])
{
    char *end = memchr(input->bytes, '\n', input->length);
    if (!end) {
        input->cut |= input->length == sizeof input->bytes;
        input->length = input->cut ? 0 : input->length;
        return false;
    }
    size_t length = (size_t)(end - input->bytes);
    bool good = !input->cut && length <= MOST_LINE && !memchr(input->bytes, 0, length);
    memcpy(line, input->bytes, good ? length : 0);
    line[good ? length : 0] = 0;
    input->cut = false;
    input->length -= length + 1;
    memmove(input->bytes, end + 1, input->length);
    return true;
}

bool input_obey(struct host *host)
{
    char line[MOST_LINE + 1];
    while (!*host->question.line && answers_were_read(&host->answers) &&
           take_line(&host->input, line)) {
        if (!host_line(host, line))
            return false;
        answers_send(&host->answers);
        if (host->news)
            policy_decide(host);
    }
    return true;
}

bool answers_begin(struct answers *answers)
{
    answers->out = open_memstream(&answers->bytes, &answers->length);
    return answers->out;
}

void answers_send(struct answers *answers)
{
    fflush(answers->out);
    while (answers->sent < answers->length) {
        ssize_t put = file_put(STDOUT_FILENO, answers->bytes + answers->sent,
                               answers->length - answers->sent);
        if (put < 0 && errno == EPIPE)
            put = (ssize_t)(answers->length - answers->sent); /* nobody will read it */
        if (put <= 0)
            return;
        answers->sent += (size_t)put;
    }
    rewind(answers->out);
    fflush(answers->out);
    answers->sent = answers->length = 0;
}

bool answers_were_read(const struct answers *answers)
{
    return answers->sent == answers->length;
}
