/* Parts of private memory are discarded by one call where the kernel takes it, and each alone where
 * it doesn't. */
#include "test.h"
#include <linux/filter.h>
#include <linux/seccomp.h>
#include <sys/prctl.h>
#include <sys/syscall.h>
#include <sys/wait.h>

enum { SOME = 3, MANY = 250 };

static const uint32_t SCATTERED[SOME] = {700, 710, 720};

/* Whether this machine's kernel takes parts of a process's own memory together. */
static bool takes_together(void)
{
    char *page = mmap(NULL, 4096, PROT_READ | PROT_WRITE, MAP_PRIVATE | MAP_ANONYMOUS, -1, 0);
    const struct iovec part = {page, 4096};
    return balloon_drop_all(&part, 1) == 4096 && munmap(page, 4096) == 0;
}

/* Pages of the guest get bytes, and are put into its balloon by one request. */
static struct balloon_result put_in(struct guest *guest, const uint32_t *pages, uint32_t count)
{
    for (uint32_t i = 0; i < count; i++)
        memset(at(guest, pages[i] * 4096ull), 1, 4096);
    name_pages(guest, VB_INFLATE, pages, count);
    return balloon_notify(&guest->balloon, VB_INFLATE);
}

/* No page of these has its bytes any longer, and those between still have theirs. */
static bool are_gone(const struct guest *guest, const uint32_t *pages, uint32_t count)
{
    bool all = true;
    for (uint32_t i = 0; i < count; i++)
        all &= !resident(guest, pages[i]) && *at(guest, pages[i] * 4096ull) == 0;
    return all;
}

/* One call for all: no part is discarded alone. */
static void parts_go_together(void)
{
    static struct guest guest;
    uint32_t pages[MANY], alone;
    start(&guest, BALLOON_PRIVATE, REFUSES, LINUX_FEATURES, 4);
    for (uint32_t i = 0; i < MANY; i++)
        pages[i] = 700 + 2 * i;
    *at(&guest, 701 * 4096) = 1;
    alone = advices;
    struct balloon_result result = put_in(&guest, pages, MANY);
    bool is_one = takes_together();
    EXPECT(result.discarded == MANY && result.kept == 0 && are_gone(&guest, pages, MANY) &&
           *at(&guest, 701 * 4096) == 1);
    EXPECT(guest.balloon.discards_apart == !is_one && advices == alone + (is_one ? 0 : MANY));
    alone = advices;
    result = put_in(&guest, pages, 1);
    EXPECT(result.discarded == 1 && advices == alone + 1 && are_gone(&guest, pages, 1));
    free_memory(&guest);
}

/* What the kernel doesn't take whole is tried alone: its reason is told, and what comes after it is
 * discarded. (The compiler's checks leave out mlock(2).) */
static void a_part_may_fail(void)
{
    static struct guest guest;
    start(&guest, BALLOON_PRIVATE, REFUSES, LINUX_FEATURES, 4);
    EXPECT(syscall(SYS_mlock, at(&guest, SCATTERED[1] * 4096ull), 4096) == 0);
    struct balloon_result result = put_in(&guest, SCATTERED, SOME);
    EXPECT(result.discarded == 2 && result.kept == 1 && result.error == EINVAL);
    EXPECT(guest.balloon.discards_apart && are_gone(&guest, SCATTERED, 1) &&
           are_gone(&guest, SCATTERED + 2, 1) && *at(&guest, SCATTERED[1] * 4096ull) == 1);
    free_memory(&guest);
}

/* Only private memory of small pages goes together, and what comes first of a request. */
static void other_parts_go_alone(void)
{
    static struct guest guest;
    uint32_t alone;
    start(&guest, 0, REFUSES, LINUX_FEATURES, 4);
    struct balloon_result result = put_in(&guest, SCATTERED, SOME);
    EXPECT(result.discarded == SOME && !guest.balloon.discards_apart);
    free_memory(&guest);
    start(&guest, BALLOON_PRIVATE, REFUSES, LINUX_FEATURES, 4);
    guest.regions[0].page_size = 2 << 20;
    alone = advices;
    result = put_in(&guest, SCATTERED, SOME);
    EXPECT(result.discarded == 0 && result.waiting == SOME && advices == alone);
    free_memory(&guest);
}

/* The kernel's answer to each call of this number, from now on. */
static void have_answered(long number, uint32_t answer)
{
    struct sock_filter code[] = {
        BPF_STMT(BPF_LD | BPF_W | BPF_ABS, offsetof(struct seccomp_data, nr)),
        BPF_JUMP(BPF_JMP | BPF_JEQ | BPF_K, (uint32_t)number, 0, 1),
        BPF_STMT(BPF_RET | BPF_K, answer), BPF_STMT(BPF_RET | BPF_K, SECCOMP_RET_ALLOW)};
    struct sock_fprog filter = {sizeof code / sizeof code[0], code};
    EXPECT(prctl(PR_SET_NO_NEW_PRIVS, 1, 0, 0, 0) == 0 &&
           prctl(PR_SET_SECCOMP, SECCOMP_MODE_FILTER, &filter) == 0);
}

/* In a process of its own: the call gets an error once, and isn't made again. */
static void be_refused(long number, int error)
{
    static struct guest guest;
    uint32_t alone = advices;
    start(&guest, BALLOON_PRIVATE, REFUSES, LINUX_FEATURES, 4);
    have_answered(number, SECCOMP_RET_ERRNO | (uint32_t)error);
    struct balloon_result result = put_in(&guest, SCATTERED, SOME);
    EXPECT(result.discarded == SOME && result.kept == 0 && result.error == 0 &&
           are_gone(&guest, SCATTERED, SOME) && advices == alone + SOME);
    have_answered(number, SECCOMP_RET_KILL_PROCESS);
    result = put_in(&guest, SCATTERED, SOME);
    EXPECT(result.discarded == SOME && are_gone(&guest, SCATTERED, SOME));
}

static void a_kernel_may_refuse(long number, int error)
{
    int status;
    pid_t child = fork();
    if (child == 0) {
        be_refused(number, error);
        _exit(0);
    }
    EXPECT(waitpid(child, &status, 0) == child && status == 0);
}

void test_together(void)
{
    RUN(parts_go_together());
    RUN(a_part_may_fail());
    RUN(other_parts_go_alone());
    RUN(a_kernel_may_refuse(SYS_process_madvise, EINVAL));
    RUN(a_kernel_may_refuse(SYS_process_madvise, EPERM));
    RUN(a_kernel_may_refuse(SYS_process_madvise, ENOSYS));
    RUN(a_kernel_may_refuse(SYS_pidfd_open, ENOSYS));
}
