#include "notes.h"

#include "parts.h"

json_t *answer_note(const struct audit *audit, uint64_t number)
{
    const struct note *note = &audit->notes[number % MOST_NOTES];
    const char *by = *note->author.by ? note->author.by : NULL,
               *guest = *note->guest ? note->guest : NULL;
    int process = note->author.process == NO_NUMBER ? 0 : (int)note->author.process;
    return json_pack("{s:I, s:f, s:f, s:s*, s:s, s:s, s:s, s:I, s:i, s:s*}", "change",
                     (json_int_t)number, "seconds", (double)note->at / 1000, "time",
                     part_time(note->at), "guest", guest, "key", note->key, "was", note->was, "is",
                     note->is, "user", (json_int_t)note->author.user, "process", process, "by", by);
}

json_t *answer_notes(const struct audit *audit, uint64_t since, uint64_t limit)
{
    uint64_t kept = audit_begin(audit), next = since > kept ? since : kept,
             lost = since < kept ? kept - since : 0;
    json_t *changes = json_array();
    for (; changes && next < audit->count && json_array_size(changes) < limit; next++)
        changes = part_append(changes, answer_note(audit, next));
    next = next < audit->count ? next : audit->count;
    return json_pack("{s:b, s:o, s:I, s:I}", "ok", 1, "changes", changes, "next", (json_int_t)next,
                     "lost", (json_int_t)lost);
}
