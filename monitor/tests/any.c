/* Any argument gets an answer: devices, lists and lengths at random, each list at the end of a page
 * after which nothing is mapped. A refusal changes nothing, a broken rule the status alone, and
 * where vb.h says what the answer is, it is the plain implementation's.
 *
 *     any [CALLS]
 */
#include "any/any.h"

enum { CALLS = 1000000 };

int main(int count, char **words)
{
    void (*const calls[])(void) = {call_driver, call_config, call_hints, call_mark,
                                   call_over,   call_notice, call_large};
    enum { KINDS = sizeof calls / sizeof *calls };
    unsigned long long most = count > 1 ? strtoull(words[1], NULL, 10) : CALLS;
    make_arenas();
    for (unsigned long long i = 0; i < most; i++)
        calls[i % KINDS]();
    printf("ok  %llu calls of any arguments; answers by code:", most);
    for (int code = VB_OK; code <= VB_BAD_ARGUMENT; code++) {
        printf(" %llu", (unsigned long long)answers[code]);
        EXPECT(answers[code] > most / 1000);
    }
    EXPECT(went > most / 1000);
    puts("");
    return 0;
}
