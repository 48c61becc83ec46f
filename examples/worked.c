/* The worked case of document 01, from C: engine 0 asks engine 1, which replies; then engine 0 installs the handlers it asked with, and its
 * scope ends. Prints what the program handover prints (examples/worked.txt).
 *
 *     gcc -Wall -Wextra -Werror -Iinclude examples/worked.c target/staticlib/libcabinet.a -o target/worked && target/worked
 */
#include "sock.h"

#include <stdio.h>
#include <string.h>

/* Engine 0: a scope around solicit(operation 1), which asks the engine that variable 1 names. Engine 1: a scope around request(operation 1).
 * Both messages have one value; the two words 1 of each process are the counts of its variables. */
static const uint16_t processes[2][8] = {
    {0x5800, 0x0000, 0x0000, 0x5020, 0x0880, 0x0001, 0x0001, 0x0000},
    {0x5800, 0x0000, 0x0000, 0x4020, 0x0000, 0x0001, 0x0001, 0x0000},
};

static const struct sock_move moves[] = {
    {0, 3, 1, 3, 0}, /* the solicit meets the request: serial 1 */
    {1, 3, 0, 3, 0}, /* the executor, its body nil, replies to the waiter */
    {1, 3, 0, 3, 0}, /* again: nothing is left there that moves */
    {0, 3, 0, 0, 0}, /* what was the waiter installs its list */
    {0, 0, 0, 0, 0}, /* the scope, its body nil, ends */
};

/* Word n, word issued, then for each engine 32 values of two words and its process; answers how many words there are. */
static size_t start(uint8_t *config)
{
    size_t at = sock_put(config, sock_put(config, 0, 2), 0);
    for (int engine = 0; engine < 2; engine++) {
        for (int variable = 0; variable < SOCK_VARIABLES; variable++)
            at = sock_put_value(config, at, engine == 0 && variable == 1);
        for (int word = 0; word < 8; word++)
            at = sock_put(config, at, processes[engine][word]);
    }
    return at;
}

int main(void)
{
    static uint8_t config[SOCK_BYTES], next[SOCK_BYTES];
    size_t words = start(config);

    struct sock_check_answer begins = sock_test_start(config, sock_bytes(words));
    printf("start %d\n", begins.number);
    if (begins.number != SOCK_ACCEPTED)
        return 1;

    for (size_t i = 0; i < sizeof moves / sizeof *moves; i++) {
        struct sock_step_answer answer = sock_take_step(moves[i], config, sock_bytes(words), next, sizeof next);
        printf("%d %d %d %d %d\n", (int)i + 1, answer.number, answer.kind, answer.serial, answer.fault);
        if (answer.number == SOCK_ACCEPTED) {
            words = answer.length;
            memcpy(config, next, sock_bytes(words));
        }
    }
    printf("end %d\n", (int)words);
    return 0;
}
