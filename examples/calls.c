/* Each call once, on a configuration in the middle of a run: engine 0 waits for the reply to request 1, and engine 1 has nothing left to do
 * but to reply. Prints examples/calls.txt. Built like examples/worked.c.
 */
#include "sock.h"

#include <stdio.h>

/* Scope 1 around a waiter, and scope 1 around an executor with nil body. Behind the serial 1 stands the count of variables, 1: the reply has
 * one value. */
static const uint16_t processes[2][8] = {
    {0x5820, 0x0000, 0x0000, 0x8800, 0x1000, 0x0001, 0x0001, 0x0000},
    {0x5820, 0x0000, 0x0000, 0x8000, 0x0000, 0x0001, 0x0001, 0x0000},
};

/* Two engines, one serial issued, all values 0. Answers how many words there are. */
static size_t middle(uint8_t *config)
{
    size_t at = sock_put(config, sock_put(config, 0, 2), 1);
    for (int engine = 0; engine < 2; engine++) {
        for (int variable = 0; variable < SOCK_VARIABLES; variable++)
            at = sock_put_value(config, at, 0);
        for (int word = 0; word < 8; word++)
            at = sock_put(config, at, processes[engine][word]);
    }
    return at;
}

int main(void)
{
    static uint8_t config[SOCK_BYTES], out[SOCK_BYTES];
    size_t length = sock_bytes(middle(config));

    printf("readable: %s\n", sock_word(sock_test_readable(config, length).number));
    printf("as a start: %s\n", sock_word(sock_test_start(config, length).number));

    struct sock_ends_answer ends = sock_count_ends(config, length, 1);
    printf("serial 1: %d, %d waiting, %d working\n", ends.number, ends.waiters, ends.workers);

    struct sock_process_answer process = sock_find_process(config, length, 1);
    printf("engine 1's process: %u words from word %u on\n", (unsigned)process.count, (unsigned)process.first);

    /* Would engine 1's root stand in the way of a throw beside it? Three processes are enabled, the scope, the executor and its nil body. */
    struct sock_pending_answer pending = sock_find_pending(1, 0, config, length);
    printf("engine 1, from its root: %s, %u enabled\n", pending.found ? "pending" : "nothing pending", (unsigned)pending.count);

    /* The executor in engine 1 replies to the waiter in engine 0; both stand three words into their engines' processes. What it sends is
     * its variable 0, here a level that was just measured. */
    sock_put_value(config, sock_variable(process, 0), 4812);
    struct sock_move reply = {1, 3, 0, 3, 0};
    struct sock_step_answer answer = sock_take_step(reply, config, length, out, sizeof out);
    printf("step: %s, kind %d, serial %d, fault %d, %d words\n", sock_word(answer.number), answer.kind, answer.serial, answer.fault,
           answer.length);
    process = sock_find_process(out, sock_bytes(answer.length), 0);
    printf("engine 0's variable 0: %lu\n", (unsigned long)sock_get_value(out, sock_variable(process, 0)));

    answer = sock_take_step(reply, config, length, out, sock_bytes(138));
    printf("the same, with room for 138 words: %s\n", sock_word(answer.number));
    answer = sock_take_step(reply, config, length, config, sizeof config);
    printf("the same, over the configuration: %s\n", sock_word(answer.number));

    /* The same in the swing bridge cabinet, which reads 2,048 words: what it writes is what the large one would write. */
    static uint8_t out_small[SOCK_BYTES_SMALL];
    answer = sock_take_step_small(reply, config, length, out_small, sizeof out_small);
    printf("the same, in the small cabinet: %s, %d words\n", sock_word(answer.number), answer.length);
    printf("readable there: %s\n", sock_word(sock_test_readable_small(out_small, sock_bytes(answer.length)).number));

    /* An index of open requests, here written by hand, since W is no start: serial 1 is open, and the reply takes it out. */
    static uint8_t index[SOCK_INDEX_BYTES], journal[SOCK_JOURNAL_BYTES];
    printf("begun with it: %s\n", sock_word(sock_start_index(config, length, index, sizeof index).number));
    sock_put(index, sock_put(index, 0, 1), 1);
    printf("open: %d, the oldest %d", sock_count_open(index, sizeof index).serials, sock_find_oldest(index, sizeof index).serial);
    sock_follow_step(reply, config, length, out, sizeof out, journal, sizeof journal, index, sizeof index);
    printf(", then %d\n", sock_count_open(index, sizeof index).serials);

    /* A pump joins as engine 2, its values 0, with a scope around nil. It may not leave before that has ended. */
    static uint8_t pump[2 * (SOCK_VALUE_WORDS + 4)], wider[SOCK_BYTES];
    sock_put(pump, SOCK_VALUE_WORDS, 0x5820);
    struct sock_house_answer house = sock_let_in(config, length, pump, sizeof pump, wider, sizeof wider);
    printf("a pump joins: %s, %d engines, %d words\n", sock_word(house.number), sock_get(wider, 0), house.length);
    printf("it leaves: %s", sock_word(sock_let_go(wider, sock_bytes(house.length), out, sizeof out).number));
    struct sock_move ended = {2, 0, 0, 0, 0};
    answer = sock_take_step(ended, wider, sock_bytes(house.length), out, sizeof out);
    house = sock_let_go(out, sock_bytes(answer.length), wider, sizeof wider);
    printf(", then %s, %d words\n", sock_word(house.number), house.length);

    /* A planners' start: one engine, a fixed scope named 1 with nil handlers around throw 2. It becomes a scope that installs them and then throws. */
    static uint8_t plan[2 * 71];
    sock_put(plan, 0, 1);
    sock_put(plan, sock_put(plan, 66, 0x9820) + 3, 0x6840);
    struct sock_plan_answer laid = sock_lay_out(plan, sizeof plan, out, sizeof out);
    printf("a plan: %s, %d words", sock_word(laid.number), laid.length);
    printf(", as a start: %s\n", sock_word(sock_test_start(out, sock_bytes(laid.length)).number));
    /* Can request 1 be brought home? By the keeper of engine 1 in one move; the keeper of engine 0 passes, and the river can do nothing else. */
    static uint16_t scratch[SOCK_KEEPER_WORDS];
    struct sock_keeper_answer played = sock_play(config, length, 1 << 1, 1, 1, scratch, sizeof scratch);
    printf("keeper of engine 1, one move: %s, by engine %d's position %d\n", played.outcome == SOCK_YES ? "yes" : "no", played.move.engine,
           played.move.position);
    played = sock_play(config, length, 1 << 0, 1, 1, scratch, sizeof scratch);
    printf("keeper of engine 0, one move: %s", played.outcome == SOCK_NO ? "no" : "yes");
    played = sock_play(config, length, 1 << 0, 1, 2, scratch, sizeof scratch);
    printf(", two: %s\n", played.outcome == SOCK_YES_BY_PASS ? "yes, by a pass" : "no");

    /* What engines 2 and 7 owe: two replies of 1 litre at 1 cent per 1,000 litres, each a cent, and one of 1,000 litres at 250. */
    static uint8_t rates[SOCK_RATE_BYTES], replies[3 * SOCK_REPLY_BYTES];
    static const uint32_t list[9] = {5, 2, 1, 5, 2, 1, 6, 7, 1000};
    for (size_t operation = 0; operation < 64; operation++)
        sock_put_value(rates, 2 * operation, operation == 6 ? 250 : 1);
    for (size_t number = 0; number < 9; number++)
        sock_put_value(replies, 2 * number, list[number]);
    struct sock_bill_answer bill = sock_charge(rates, replies, 3);
    printf("bill: %s, engine 2 owes %llu, engine 7 owes %llu\n", sock_word(bill.number), (unsigned long long)bill.totals[2],
           (unsigned long long)bill.totals[7]);

    /* Faults among the last two accepted steps: two of operation 5, then a step without a fault, which pushes the first of them out. */
    static uint8_t window[SOCK_WINDOW_BYTES];
    struct sock_step_answer fault = {SOCK_ACCEPTED, SOCK_NOTICE, 1, 1, 139};
    sock_hand_on(2, fault, 5, window, sizeof window);
    sock_hand_on(2, fault, 5, window, sizeof window);
    printf("faults of operation 5: %d", sock_count_faults(5, window, sizeof window).faults);
    fault.fault = 0;
    sock_hand_on(2, fault, 5, window, sizeof window);
    printf(", then %d\n", sock_count_faults(5, window, sizeof window).faults);

    /* The raw call, which a program in another language makes: one number that holds all. */
    printf("packed: %016llx\n", (unsigned long long)sock_step(1, 3, 0, 3, 0, config, length, out, sizeof out));
    return 0;
}
