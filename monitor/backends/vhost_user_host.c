/* The lender of a host of many guests: it lends them more memory than it has, and their balloons
 * give back what is missing.
 *
 *     vhost_user_host FOLDER --budget MIB [--guests N] [--floor MIB] [--period MS] [--step N]
 *                     [--strict]
 *                     [--strict-pages] [--events] [--features HEX] [--lines N] [--program PATH]
 *                     [--no-sandbox] [--end-with-lender] [--config FILE] [--state FOLDER]
 *                     [--check FILE] [--control PATH]
 *                     [--control-mode OCTAL] [--control-group NAME] [--status PATH]
 *                     [--status-mode OCTAL] [--status-group NAME] [--log-level WORD]
 *                     [--patience SECONDS] [--on-short PATH]
 *
 * It says `ready`, and starts a process for each client that comes, which serves its balloon:
 * vhost_user_balloon, beside this program or at --program. It obeys lines of its standard input,
 * whose end is no line. Each is answered by a line on standard output, or by one that says how many
 * follow. Where MIB or PAGES is, a size may be, as 8G:
 *
 *     add NAME [TERMS]    a guest may come to the socket FOLDER/NAME, and again once it has gone
 *     terms NAME TERMS    its terms are these from now on: least=MIB, most=MIB, priority=NUMBER,
 *                         weight=NUMBER,
 *                         strict=0 or 1, overhead=MIB, limit=cgroup:PATH or limit=tmpfs:MOUNT,
 *                         user=NAME or NUMBER, memory=MIB, start=MIB
 *     remove NAME         its service ends
 *     budget MIB          the host is to hold no more than this
 *     floor MIB           what each guest keeps free
 *     guests              each guest's names and numbers: pages, held_kib, ballooned, target, free,
 *                         spare, ..
 *     counters            the same for all together: looks, looks above the budget, the peak, ..
 *     log                 the decisions since the last `log`: the needs, the targets and why
 *     NAME target PAGES   for one guest, as vhost_user_balloon takes them; the target stays while
 *                         it serves
 *     NAME counters, NAME ask, NAME statistics
 *     leave               the lender ends alone: guests and their processes live on, and the next
 *                         lender of the folder takes them over
 *     quit                end, and all guests' service; so do the signals SIGTERM and SIGINT, and
 *                         without --config SIGHUP
 *
 * Each period (200 ms) it counts what the guests' files hold, and asks each for its statistics.
 * Targets are decided by vb_policy_decide of the library. A guest that breaks a rule or goes ends
 * alone: a line on standard error says so. A guest whose memory has no room beside the others is
 * refused.
 *
 * `bigvasta` speaks to it by its control socket, FOLDER/.control (--control), and by one that only
 * shows the host, FOLDER/.status (--status): docs/CONTROL.md. --config: a file that says the same,
 * and the guests; SIGHUP has it read again. --check: says what is wrong in such a file, and does
 * nothing else: the status is 0 where a host would start by it, else 1.
 * --state: a folder where what bigvasta changes lasts, and is before what the file says.
 * --log-level: error, warning, notice, info (as it is) or
 * debug.
 *
 * --guests: how many guests there may be (64), 1024 at most.
 * --reserve: percent of its pages that each guest keeps of its page cache as long as others have
 * any (5).
 * --overdraft: pages above the budget that are lent where all guests wait for each other (0).
 * --on-short: a command that is run with two words, the guest of the lowest priority and the MiB
 * that are missing, once the guests couldn't give that for --patience seconds (10).
 * --cost: milliseconds that a client costs its seat, which may owe a minute (2000; 0: clients come
 * as they like).
 * --floor: what each guest keeps free (12 MiB). --step: a target grows by one part in N of the
 * guest in a second, while the host is within its budget (8; 0: at once). --strict: guests'
 * deflates and resets wait for their grant, and so do newcomers. --strict-pages: a page number past
 * the end breaks a rule. --features, --events, --lines: as for vhost_user_balloon. --no-sandbox:
 * guests' processes may make any system call. --end-with-lender: the kernel ends them with the
 * lender.
 * --leave: signals end the lender alone, as the line `leave` does: a service that restarts takes
 * its guests over.
 */
#include "base/notify.h"
#include "base/options.h"
#include "lender/host.h"
#include "service/service.h"
#include "settings/config_keys.h"

#include <unistd.h>

enum {
    PERIOD = 200,
    FLOOR_MIB = 12,
    RESERVE = 5, /* percent */
    STEP = 8,
    PATIENCE = 10,
    COST = 2000,
    FILES_OF_LENDER = 32,
    FILES_OF_SEAT = 4
};

/* A size, or a number of mebibytes, as pages. */
static bool read_mebibytes(const char *word, void *at)
{
    uint64_t number;
    if (!read_number(word, 10, UINT32_MAX / PAGES_PER_MIB, &number))
        return read_size(word, at);
    *(uint32_t *)at = (uint32_t)number * PAGES_PER_MIB;
    return true;
}

/* The largest number says that there is none. */
static bool read_number_of(const char *word, void *at)
{
    uint64_t number;
    bool read = read_number(word, 10, UINT32_MAX - 1, &number);
    *(uint32_t *)at = read ? (uint32_t)number : *(uint32_t *)at;
    return read;
}

/* A size, or a number of pages. */
static bool read_pages(const char *word, void *at)
{
    return read_number_of(word, at) || read_size(word, at);
}

static bool read_percent(const char *word, void *at)
{
    return !word_read(WORD_PERCENT, word, at);
}

static bool read_period(const char *word, void *at)
{
    uint32_t period;
    bool read = !word_read(WORD_MILLISECONDS, word, &period);
    *(int64_t *)at = read ? period : *(int64_t *)at;
    return read;
}

static bool read_guests(const char *word, void *at)
{
    uint64_t number;
    bool read = read_number(word, 10, MOST_GUESTS, &number) && number > 0;
    *(unsigned *)at = read ? (unsigned)number : *(unsigned *)at;
    return read;
}

static bool read_patience(const char *word, void *at)
{
    return !word_read(WORD_SECONDS, word, at);
}

/* What the file says, where the command line doesn't say it. */
static void take_config(struct host *host, const struct config *config)
{
    if (!host->folder && config->fixed.folder[0])
        host->folder = config->fixed.folder;
    if (host->budget == 0 && config->budget != UINT32_MAX)
        host->budget = config->budget;
    if (host->machine.keep == UINT32_MAX)
        host->machine.keep = config->keep != UINT32_MAX ? config->keep : 0;
    if (host->machine.lowest == UINT32_MAX)
        host->machine.lowest = config->lowest_budget != UINT32_MAX ? config->lowest_budget : 0;
    if (host->lends.overdraft == UINT32_MAX)
        host->lends.overdraft = config->overdraft != UINT32_MAX ? config->overdraft : 0;
    if (host->floor == UINT32_MAX)
        host->floor = config->floor != UINT32_MAX ? config->floor : FLOOR_MIB * PAGES_PER_MIB;
    if (host->patience == 0)
        host->patience = config->patience != UINT32_MAX ? config->patience : PATIENCE;
    if (!host->on_short && config->on_short[0])
        host->on_short = config->on_short;
    if (host->reserve == UINT32_MAX)
        host->reserve = config->reserve != UINT32_MAX ? config->reserve : RESERVE;
    if (host->step == UINT32_MAX)
        host->step = config->step != UINT32_MAX ? config->step : STEP;
    host->strict |= config->strict;
    if (host->period == 0)
        host->period = config->fixed.period > 0 ? config->fixed.period : PERIOD;
}

/* What is so of keys of which a file says nothing: as the command line says, or as usual. */
static void note_usual(const struct host *host, struct config *usual)
{
    static struct config none;
    static struct host without;
    config_clear(&none);
    without = *host;
    take_config(&without, &none);
    usual->keep = without.machine.keep, usual->lowest_budget = without.machine.lowest;
    usual->overdraft = without.lends.overdraft, usual->floor = without.floor;
    usual->patience = without.patience, usual->reserve = without.reserve;
    usual->step = without.step, usual->strict = without.strict;
    usual->says |=
        UINT32_C(1) << KEY_KEEP | UINT32_C(1) << KEY_LOWEST_BUDGET | UINT32_C(1) << KEY_OVERDRAFT |
        UINT32_C(1) << KEY_FLOOR | UINT32_C(1) << KEY_PATIENCE | UINT32_C(1) << KEY_RESERVE |
        UINT32_C(1) << KEY_STEP | UINT32_C(1) << KEY_STRICT | UINT32_C(1) << KEY_ON_SHORT;
    if (without.on_short && strlen(without.on_short) < MOST_CONFIG_WORD)
        strcpy(usual->on_short, without.on_short);
    if (without.budget == 0)
        return;
    usual->budget = without.budget;
    usual->says |= UINT32_C(1) << KEY_BUDGET;
}

static const char help[] =
    "vhost_user_host FOLDER --budget MIB [--guests N] [--keep MIB] [--lowest-budget MIB] "
    "[--machine FOLDER] "
    "[--floor MIB] [--period MS] [--step N] "
    "[--reserve PERCENT] [--overdraft PAGES] [--patience SECONDS] [--on-short PATH] [--cost MS] "
    "[--strict] [--strict-pages] [--events] "
    "[--features HEX] [--lines N] [--program PATH] [--no-sandbox] [--end-with-lender] [--leave]\n"
    "                [--config FILE] [--state FOLDER] [--check FILE] [--control PATH] "
    "[--control-mode OCTAL] "
    "[--control-group "
    "NAME] [--status PATH] [--status-mode OCTAL] "
    "[--status-group NAME] [--log-level WORD]";

static enum command_line read_words(struct host *host, struct service *service, int count,
                                    char **words)
{
    const struct option_row rows[] = {
        {"budget", .read = read_mebibytes, .at = &host->budget},
        {"guests", .read = read_guests, .at = &host->most},
        {"keep", .read = read_mebibytes, .at = &host->machine.keep},
        {"lowest-budget", .read = read_mebibytes, .at = &host->machine.lowest},
        {"machine", .read = read_word, .at = &host->machine.folder},
        {"floor", .read = read_mebibytes, .at = &host->floor},
        {"step", .read = read_number_of, .at = &host->step},
        {"reserve", .read = read_percent, .at = &host->reserve},
        {"overdraft", .read = read_pages, .at = &host->lends.overdraft},
        {"patience", .read = read_patience, .at = &host->patience},
        {"on-short", .read = read_path, .at = &host->on_short},
        {"period", .read = read_period, .at = &host->period},
        {"cost", .read = read_number_of, .at = &host->cost},
        {"features", .read = read_features, .at = &host->features},
        {"lines", .read = read_lines, .at = &service->settings.options.lines},
        {"program", .read = read_word, .at = &host->program},
        {"strict", .flag = &host->strict},
        {"strict-pages", .flag = &host->strict_pages},
        {"events", .flag = &host->events},
        {"no-sandbox", .flag = &host->no_sandbox},
        {"end-with-lender", .flag = &host->end_with_lender},
        {"leave", .flag = &host->leaves},
        SERVICE_OPTIONS(service),
        {"help", .answer = help},
        {"version", .answer = "vhost_user_host " VB_VERSION},
        {0}};
    host->features = USUAL_FEATURES;
    host->most = USUAL_GUESTS;
    host->cost = COST;
    host->step = host->floor = host->reserve = host->lends.overdraft = UINT32_MAX;
    host->machine.keep = host->machine.lowest = UINT32_MAX;
    service_defaults(service);
    enum command_line line = options_read(count, words, rows, &host->folder);
    if (service->checks)
        return line;
    settings_take(&service->settings);
    note_usual(host, &service->settings.usual);
    take_config(host, &service->settings.config);
    if (line == LINE_READ)
        settings_recall(&service->settings, host);
    host->frames = host->budget;
    return line == LINE_READ && !(host->folder && host->budget > 0) ? LINE_WRONG : line;
}

/* This program, and that of guests' processes: beside this one, where none is named. False where it
 * isn't there, which is said. */
static bool find_program(struct host *host)
{
    static char path[4096], itself[sizeof path];
    ssize_t length = readlink("/proc/self/exe", path, sizeof path - sizeof "vhost_user_balloon");
    char *end = length > 0 ? memrchr(path, '/', (size_t)length) : NULL;
    if (end) {
        host->itself = strcpy(itself, path);
        strcpy(end + 1, "vhost_user_balloon");
        host->program = host->program ? host->program : path;
    }
    if (host->itself && host->program && !access(host->program, X_OK))
        return true;
    complain("%s: %s", host->program ? host->program : "vhost_user_balloon", strerror(errno));
    return false;
}

/* Whether the folder can be shown; else says so. */
static bool can_be_shown(const char *folder)
{
    return word_is_shown(folder) || say_fault("the path of the folder isn't UTF-8");
}

/* Whether a device can offer these features. */
static bool can_offer(uint64_t features)
{
    VbDevice device;
    return vb_new(&device, (VbSettings){.offered = features}) == VB_OK ||
           refuse("the device can't offer the features 0x%llx", (unsigned long long)features);
}

/* The library has seats as this program was built with them. */
static bool can_seat(void)
{
    return vb_host_version() == VB_HOST_VERSION ||
           refuse("the library has layout %u of vb_host.h, and not %u", vb_host_version(),
                  VB_HOST_VERSION);
}

/* Becomes the program that is there now, which takes guests over as they are; comes back with a
 * status where that can't run after all. */
static int become(const struct host *host, const struct service *service, char **words)
{
    service_hand_on(service);
    execv(host->itself, words);
    complain("%s: %s", host->itself, strerror(errno));
    return 2;
}

/* Whether its overdraft and the least of its budget may be as large; says why not. */
static bool can_lend(struct host *host)
{
    const char *fault = host_set_overdraft(host, host->lends.overdraft);
    if (fault)
        complain("overdraft: %s", fault);
    else if (host->machine.lowest > host->budget)
        complain("lowest_budget: %s", fault = "more than the budget");
    return !fault;
}

int main(int count, char **words)
{
    static struct host host;
    static struct service service;
    if (count == 3 && !strcmp(words[1], writer_word))
        return limit_writer_run(STDIN_FILENO);
    host.shortage.command = -1;
    says_for_many = true;
    process_begin();
    enum command_line line = read_words(&host, &service, count, words);
    if (line == LINE_WRONG)
        fprintf(stderr, "%s\n", help);
    if (line != LINE_READ)
        return line == LINE_WRONG ? 2 : 0;
    if (service.checks)
        return !settings_check(&service.settings, service.checks, &host);
    process_allow_files(FILES_OF_LENDER + host.most * FILES_OF_SEAT +
                        CONTROL_SOCKETS * MOST_CONTROL_CLIENTS);
    if (!host_make_tables(&host, host.most) || !can_seat() || !can_lend(&host) ||
        !folder_whole(&host) || !can_be_shown(host.folder) || !can_offer(host.features) ||
        !find_program(&host) || !folder_lock(&host) || !answers_begin(&host.answers))
        return 2;
    if (!folder_take_over(&host) || !service_begin(&service, &host, host.folder))
        return 2;
    host.end = process_end();
    if (host.end < 0 || !machine_begin(&host))
        return 2;
    notify_ready();
    fputs("ready\n", host.answers.out);
    answers_send(&host.answers);
    host_run(&host);
    if (!host.upgrades)
        service_end(&service);
    host_end(&host);
    return host.upgrades ? become(&host, &service, words) : 0;
}
