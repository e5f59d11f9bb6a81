/* Which guests migrate, as their processes report it, and since when. */
#include "places.h"

const char *migration_word(const struct lending_message *report)
{
    static const char *const words[] = {
        [MIGRATES_NOT] = "none", [MIGRATES_OUT] = "outgoing", [MIGRATES_IN] = "incoming"};
    return words[report->migration];
}

/* Says that a migration begins or has ended: a client may have that said as often as it likes, so
 * it takes none of the lender's own lines. */
static void say_migration(struct seat *seat, const struct lending_message *report)
{
    double seconds = (double)(loop_now() - seat->migrates_since) / 1000;
    speaker_begins(&seat->teller);
    if (report->migration == MIGRATES_NOT)
        say_news("its migration (%s) has ended after %.1f seconds", migration_word(&seat->report),
                 seconds);
    else
        say_news("its migration (%s) begins", migration_word(report));
    speaker_begins(&seat->speaker);
}

void seat_migrates(struct seat *seat, const struct lending_message *report)
{
    if (report->migration == seat->report.migration)
        return;
    say_migration(seat, report);
    seat->migrates_since = loop_now();
}
