/* Translates the start in an input of the program handover, a planners' start, by the library's call; the steps stay as they are. Standard input
 * becomes standard output. Status 0: translated; 1: the start was refused, and the number is all that is written; 2: it cannot be read or written. An
 * input too short for its start is refused with 1, as handover does. */
#include "sock.h"

#include <stdio.h>

static int refused(unsigned number)
{
    return printf("%u\n", number) < 0 || fflush(stdout) != 0 ? 2 : 1;
}

int main(void)
{
    static uint8_t head[2], config[SOCK_BYTES], start[SOCK_BYTES], buffer[4096];
    size_t length, got;
    struct sock_plan_answer laid;
    got = fread(head, 1, sizeof head, stdin);
    length = sock_bytes(sock_get(head, 0));
    if (got == sizeof head && length <= sizeof config)
        got = fread(config, 1, length, stdin);
    else
        got = length + 1;
    if (ferror(stdin))
        return 2;
    if (got != length)
        return refused(SOCK_UNREADABLE);
    laid = sock_lay_out(config, length, start, sizeof start);
    if (laid.number != SOCK_ACCEPTED)
        return refused(laid.number);
    sock_put(head, 0, laid.length);
    length = sock_bytes(laid.length);
    if (fwrite(head, 1, sizeof head, stdout) != sizeof head || fwrite(start, 1, length, stdout) != length)
        return 2;
    while ((got = fread(buffer, 1, sizeof buffer, stdin)) > 0)
        if (fwrite(buffer, 1, got, stdout) != got)
            return 2;
    return ferror(stdin) || fflush(stdout) != 0 ? 2 : 0;
}
