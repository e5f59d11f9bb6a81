#define main daemon_main
#include "../../backends/vhost_user_balloon.c"
#undef main

#include "alone.h"
#include "client.h"
#include "plans.h"
#include "script.h"

#include <fcntl.h>
#include <stddef.h>

/* Turns that are left at the end: each message that was sent takes one. */
enum { MOST_LEFT = 16 };

static struct backend alone;
static struct options options;
static bool is_there;
static unsigned left; /* turns since the script's end */
static int pipe_in, end_file = -1;

int __real_process_end(void);
int __wrap_process_end(void);

int __wrap_process_end(void)
{
    return end_file = __real_process_end();
}

void alone_begins(void)
{
    int ends[2];
    demand(!pipe2(ends, O_CLOEXEC | O_NONBLOCK) && dup2(ends[0], STDIN_FILENO) == STDIN_FILENO);
    close(ends[0]);
    pipe_in = ends[1];
    demand(freopen("/dev/null", "w", stdout) != NULL);
}

/* A line of the control pipe. */
static void owner_says(void)
{
    static const char *const lines[] = {
        "target 3\n",   "target 99\n", "ask\n",       "counters\n", "statistics\n",
        "hint start\n", "hint stop\n", "hint done\n", "target x\n", "\n"};
    const char *line = lines[next_below(sizeof lines / sizeof lines[0])];
    demand(write(pipe_in, line, strlen(line)) == (ssize_t)strlen(line));
}

void check_set(const struct backend *backend)
{
    const struct balloon *balloon = &backend->balloon;
    if (balloon->ballooned)
        demand(vb_count_ballooned(balloon->ballooned, balloon->ballooned_words) ==
               backend->ballooned);
}

bool alone_is_there(void)
{
    return is_there;
}

void alone_acts(void)
{
    static void (*const acts[])(void) = {
        client_sends, client_sends, client_posts,   client_posts, client_scribbles,
        owner_says,   client_kicks, client_babbles, plan_begins,  plan_begins};
    check_set(&alone);
    if (plan_goes_on())
        return;
    if (script_goes_on()) {
        acts[next_below(sizeof acts / sizeof acts[0])]();
        return;
    }
    client_ends();
    demand(left++ < MOST_LEFT);
}

static void drop(enum saying saying, const char *words)
{
    (void)saying, (void)words;
}

/* Nothing is left of the client before. */
static void forget(void)
{
    char line[64];
    memset(&inbox, 0, sizeof inbox);
    memset(set, 0,
           alone.balloon.ballooned ? alone.balloon.ballooned_words * sizeof set[0] : sizeof set);
    marks.span_count = 0;
    while (read(STDIN_FILENO, line, sizeof line) > 0)
        continue;
}

void alone_runs(unsigned kind)
{
    plans_clear();
    options = (struct options){.features = UINT64_C(1) << 32 | 0x27,
                               .keep = kind & 1,
                               .strict = kind & 2,
                               .events = kind & 4,
                               .hints = kind & 8,
                               .discards_hints = kind & 16,
                               .lives_on = true};
    memset(&alone, 0, sizeof alone);
    process_is_shut = false;
    say_through = drop;
    demand(backend_start(&alone, &options));
    alone.tell = client_tell;
    alone.admit = admit;
    alone.socket = client_comes();
    client.migrates = true;
    is_there = true, left = 0;
    backend_run(&alone, serve);
    is_there = false;
    inbox_close(&inbox);
    backend_leave(&alone);
    file_close(alone.socket), file_close(end_file);
    client_goes();
    forget();
}
