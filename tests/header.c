/* What include/sock.h adds to the library's calls: words and values, the inline calls beside the raw ones, overlap, null pointers, the
 * version. Ends with 1 and a line for each that is not as the header says. Compiled as C and as C++ by tests/examples.sh.
 */
#include "sock.h"

#include <stdio.h>
#include <string.h>

static int failures;

static void check(int holds, const char *what)
{
    if (!holds) {
        fprintf(stderr, "header: %s\n", what);
        failures++;
    }
}

static const uint16_t processes[2][8] = {
    {0x5800, 0x0000, 0x0000, 0x5020, 0x0880, 0x0001, 0x0001, 0x0000},
    {0x5800, 0x0000, 0x0000, 0x4020, 0x0000, 0x0001, 0x0001, 0x0000},
};
static const struct sock_move ask = {0, 3, 1, 3, 0};
static uint8_t config[SOCK_BYTES], out[SOCK_BYTES], before[SOCK_BYTES];

/* Engine 0's variable 1 is 1, the engine that it asks; each other value is one that no other variable has. */
static uint32_t value_of(uint32_t engine, uint32_t variable)
{
    return engine == 0 && variable == 1 ? 1 : (32 * engine + variable) << 16 | variable;
}

/* The worked case's start, with these values; answers how many words there are. */
static size_t start(void)
{
    size_t at = sock_put(config, sock_put(config, 0, 2), 0);
    for (unsigned engine = 0; engine < 2; engine++) {
        for (unsigned variable = 0; variable < SOCK_VARIABLES; variable++)
            at = sock_put_value(config, at, value_of(engine, variable));
        for (int word = 0; word < 8; word++)
            at = sock_put(config, at, processes[engine][word]);
    }
    return at;
}

/* So many comps in pars, from this word on; answers where the next one goes. */
static size_t balanced(uint8_t *words, size_t at, size_t comps)
{
    if (comps == 1)
        return sock_put(words, at, 0x7000);
    at = balanced(words, sock_put(words, at, 0x1800), comps / 2);
    return balanced(words, at, comps - comps / 2);
}

static void words_and_values(size_t words)
{
    uint8_t bytes[6] = {0xff, 0xff, 0xff, 0xff, 0xff, 0xff};
    check(words == 146 && sock_bytes(words) == 292, "words put one after the other");
    check(sock_put(bytes, 1, 0x1234) == 2 && memcmp(bytes, "\xff\xff\x12\x34\xff\xff", 6) == 0, "a word, the high byte first");
    check(sock_get(bytes, 1) == 0x1234 && sock_get(bytes, 0) == 0xffff, "a word read");
    check(sock_put_value(bytes, 0, 0x89abcdef) == 2 && memcmp(bytes, "\x89\xab\xcd\xef\xff\xff", 6) == 0, "a value, the high word first");
    check(sock_get_value(bytes, 0) == 0x89abcdef && sock_get_value(bytes, 1) == 0xcdefffff, "a value read");
    for (uint16_t engine = 0; engine < 2; engine++) {
        struct sock_process_answer process = sock_find_process(config, sock_bytes(words), engine);
        check(process.count == 8 && sock_get(config, process.first) == 0x5800, "a process found");
        for (unsigned variable = 0; variable < SOCK_VARIABLES; variable++)
            check(sock_get_value(config, sock_variable(process, variable)) == value_of(engine, variable), "an engine's variable");
    }
}

static void inline_and_raw(size_t length)
{
    struct sock_step_answer taken = sock_take_step(ask, config, length, out, sizeof out);
    uint64_t raw = sock_step(0, 3, 1, 3, 0, config, length, out, sizeof out);
    check(raw == 0x000a000000010092, "the raw step");
    check(taken.number == sock_number(raw) && taken.kind == SOCK_SOLICIT && taken.kind == sock_kind(raw), "number and kind");
    check(taken.serial == 1 && sock_serial(raw) == 1 && taken.fault == 0 && sock_fault(raw) == 0, "serial and fault");
    check(taken.length == 146 && sock_length(raw) == 146, "length");

    struct sock_ends_answer ends = sock_count_ends(out, sock_bytes(taken.length), 1);
    raw = sock_ends(out, sock_bytes(taken.length), 1);
    check(ends.number == SOCK_ACCEPTED && ends.waiters == 1 && ends.workers == 1, "ends");
    check(sock_number(raw) == SOCK_ACCEPTED && sock_waiters(raw) == 1 && sock_workers(raw) == 1, "the raw ends");
    check(sock_count_ends(out, sock_bytes(taken.length), 2).number == SOCK_UNKNOWN_SERIAL, "ends of an unknown serial");
    check(sock_find_process(config, length, 2).count == 0 && sock_process(config, length, 2) == 0, "no such engine");

    check(sock_test_start(config, length).number == SOCK_ACCEPTED && sock_check_start(config, length) == 0, "a start");
    check(sock_test_start(out, sock_bytes(taken.length)).number == SOCK_NOT_FRESH, "no start");
    check(sock_test_readable(out, sock_bytes(taken.length)).number == SOCK_ACCEPTED, "readable");
    check(sock_test_readable(config, length - 1).number == SOCK_UNREADABLE, "odd length");
    check(strcmp(sock_word(sock_check_readable(config, length - 1)), "unreadable") == 0, "the word for a raw answer");
    check(strcmp(sock_word(12), "unknown serial") == 0 && strcmp(sock_word(13), "not decimal") == 0 && strcmp(sock_word(24), "") == 0, "words at the end of their table");
    check(strcmp(sock_word(15), "journal doesn't match") == 0 && strcmp(sock_word(16), "journal short") == 0, "words about journals");
    check(strcmp(sock_word(SOCK_OVERLAP), "overlap") == 0, "the word for overlap");
}

static void overlap(size_t length)
{
    struct sock_step_answer taken;
    check(!sock_overlap(config, 2, config + 2, 2) && !sock_overlap(config + 2, 2, config, 2), "side by side");
    check(sock_overlap(config, 3, config + 2, 2) && sock_overlap(config + 2, 2, config, 3), "one byte in common");
    check(sock_overlap(config, 9, config + 3, 1) && sock_overlap(config + 3, 1, config, 9), "one in the other");
    check(!sock_overlap(config, 0, config, 4) && !sock_overlap(config, 4, config, 0), "nothing overlaps no bytes");
    memcpy(before, config, sizeof config);
    taken = sock_take_step(ask, config, length, config + length - 1, sizeof config - length);
    check(taken.number == SOCK_OVERLAP && taken.kind == SOCK_NIL, "overlap is refused");
    check(taken.serial == 0 && taken.fault == 0 && taken.length == 0, "the other fields of a refusal are 0");
    check(memcmp(before, config, sizeof config) == 0, "a refusal changes no byte");
    taken = sock_take_step(ask, config, length, config + length, sizeof config - length);
    check(taken.number == SOCK_ACCEPTED && taken.length == 146, "an output right behind the configuration");
    check(memcmp(before, config, length) == 0, "the configuration stays");
}

static void journals(size_t length)
{
    static uint8_t journal[SOCK_JOURNAL_BYTES], back[SOCK_BYTES];
    struct sock_step_answer taken = sock_note_step(ask, config, length, out, sizeof out, journal, sizeof journal);
    uint64_t raw = sock_step_journal(0, 3, 1, 3, 0, config, length, out, sizeof out, journal, sizeof journal);
    check(raw == 0x000a000000010092 && taken.number == SOCK_ACCEPTED && taken.length == 146, "a step with a journal");
    check(sock_get(journal, 0) == length / 2 && sock_get(journal, 1) == 146, "its journal begins with the two lengths");
    struct sock_back_answer went = sock_go_back(out, sock_bytes(146), journal, sizeof journal, back, sizeof back);
    raw = sock_take_back(out, sock_bytes(146), journal, sizeof journal, back, sizeof back);
    check(went.number == SOCK_ACCEPTED && went.length == length / 2 && raw == length / 2, "the step taken back");
    check(memcmp(back, config, length) == 0, "taking back gives the earlier configuration");
    check(sock_go_back(out, sock_bytes(146), journal, 6, back, sizeof back).number == SOCK_UNMATCHED, "a journal that is cut");
    check(sock_note_step(ask, config, length, out, sizeof out, journal, 7).number == SOCK_JOURNAL_SHORT, "a journal that is short");
    check(sock_note_step(ask, config, length, out, sizeof out, out, 8).number == SOCK_OVERLAP, "a journal in the output");
    check(sock_go_back(out, sock_bytes(146), journal, sizeof journal, journal, 2).number == SOCK_OVERLAP, "an output in the journal");
}

/* A pump joins as engine 2, ends, and leaves. */
static void engines(size_t length)
{
    static uint8_t pump[2 * (SOCK_VALUE_WORDS + 4)], wider[SOCK_BYTES], idle[SOCK_BYTES];
    static uint8_t crowd[SOCK_NEWCOMER_WORDS * 2 + 2];
    struct sock_move ends = {2, 0, 0, 0, 0};
    size_t at = SOCK_VALUE_WORDS;
    sock_put_value(pump, 62, 0x01020304);
    sock_put(pump, sock_put(pump, sock_put(pump, sock_put(pump, at, 0x5820), 0), 0), 0);
    struct sock_house_answer came = sock_let_in(config, length, pump, sizeof pump, wider, sizeof wider);
    uint64_t raw = sock_join(config, length, pump, sizeof pump, wider, sizeof wider);
    check(came.number == SOCK_ACCEPTED && came.length == length / 2 + 68 && raw == length / 2 + 68, "a pump joins");
    check(sock_get(wider, 0) == 3 && sock_get(wider, 1) == 0 && memcmp(wider + 4, config + 4, length - 4) == 0, "behind the others");
    struct sock_process_answer process = sock_find_process(wider, sock_bytes(came.length), 2);
    check(process.count == 4 && sock_get_value(wider, sock_variable(process, 31)) == 0x01020304, "with its values");
    check(sock_let_go(wider, sock_bytes(came.length), out, sizeof out).number == SOCK_STILL_AT_WORK, "it is still at work");
    check(sock_let_in(config, length, pump, sizeof pump - 1, out, sizeof out).number == SOCK_NOT_FRESH, "an odd newcomer");
    check(sock_let_in(config, length, pump, sizeof pump - 2, out, sizeof out).number == SOCK_NOT_FRESH, "a newcomer that is cut");
    check(sock_let_in(config, length, crowd, sizeof crowd, out, sizeof out).number == SOCK_LONG, "a newcomer that is not read");
    check(sock_let_in(config, length, pump, sizeof pump, out, sock_bytes(came.length) - 1).number == SOCK_SHORT_PAPER, "short paper");
    check(sock_let_in(config, length, pump, sizeof pump, pump, 2).number == SOCK_OVERLAP, "an output in the newcomer");
    struct sock_step_answer taken = sock_take_step(ends, wider, sock_bytes(came.length), idle, sizeof idle);
    check(taken.number == SOCK_ACCEPTED && taken.kind == SOCK_SCOPE, "it ends");
    struct sock_house_answer went = sock_let_go(idle, sock_bytes(taken.length), out, sizeof out);
    raw = sock_leave(idle, sock_bytes(taken.length), out, sizeof out);
    check(went.number == SOCK_ACCEPTED && went.length == length / 2 && raw == length / 2, "it leaves");
    check(memcmp(out, config, length) == 0, "and all is as before it came");
    check(sock_let_go(idle, sock_bytes(taken.length), idle, 2).number == SOCK_OVERLAP, "an output in the configuration");
    check(sock_join(NULL, 0, NULL, 0, NULL, 0) == (uint64_t)SOCK_UNREADABLE << 56, "nothing to join");
    check(sock_leave(NULL, 0, NULL, 0) == (uint64_t)SOCK_UNREADABLE << 56, "nothing to leave");
    check(strcmp(sock_word(21), "house full") == 0 && strcmp(sock_word(22), "still at work") == 0, "words about engines");
}

/* A fixed scope around nil becomes a scope that installs its handlers. */
static void plans(void)
{
    static uint8_t plan[2 * 71], start[SOCK_BYTES];
    memset(plan, 0, sizeof plan);
    sock_put(plan, 0, 1);
    sock_put(plan, 66, SOCK_FIXED_SCOPE << 11 | 5 << 5);
    struct sock_plan_answer laid = sock_lay_out(plan, sizeof plan, start, sizeof start);
    uint64_t raw = sock_translate(plan, sizeof plan, start, sizeof start);
    check(laid.number == SOCK_ACCEPTED && laid.length == 81 && raw == 81, "a plan translated");
    check(sock_test_start(start, sock_bytes(81)).number == SOCK_ACCEPTED, "into a start");
    check(sock_get(start, 66) == (SOCK_SCOPE << 11 | 5 << 5) && sock_get(start, 69) == SOCK_SEQ << 11, "a scope with a seq");
    check(sock_test_readable(plan, sizeof plan).number == SOCK_UNREADABLE, "no other call reads a plan");
    check(sock_lay_out(start, sock_bytes(81), out, sizeof out).length == 81 && memcmp(start, out, 162) == 0, "the same once more");
    check(sock_lay_out(plan, sizeof plan, start, 161).number == SOCK_SHORT_PAPER, "short paper for a plan");
    check(sock_lay_out(plan, sizeof plan - 1, start, sizeof start).number == SOCK_UNREADABLE, "an odd plan");
    check(sock_lay_out(plan, sizeof plan, plan, 2).number == SOCK_OVERLAP, "an output in the plan");
    sock_put(plan, 68, SOCK_CH << 11);
    check(sock_lay_out(plan, sizeof plan, start, sizeof start).number == SOCK_FIXED_CH, "cH in a fixed scope");
    check(sock_translate(NULL, 0, NULL, 0) == (uint64_t)SOCK_UNREADABLE << 56, "nothing to translate");
    check(strcmp(sock_word(14), "cH in a fixed scope") == 0, "the word about plans");
}

/* Keeper against the river, once the solicit is made: the reply is the keeper's first move, or the river's only one. */
static void keeper(size_t length)
{
    static uint16_t scratch[SOCK_KEEPER_WORDS];
    struct sock_step_answer taken = sock_take_step(ask, config, length, out, sizeof out);
    size_t asked = sock_bytes(taken.length);
    struct sock_keeper_answer played = sock_play(out, asked, 2, 1, 1, scratch, sizeof scratch);
    uint64_t raw = sock_keeper(out, asked, 2, 1, 1, scratch, sizeof scratch);
    check(SOCK_KEEPER_WORDS == 57344 && sizeof scratch == SOCK_KEEPER_BYTES, "words of scratch");
    check(sock_keeper_words(out, asked, 2, 1, 1, scratch, SOCK_KEEPER_WORDS) == raw, "the scratch counted in words");
    check(played.number == SOCK_ACCEPTED && played.outcome == SOCK_YES && raw == 0x0001000020030003, "brought home by a reply");
    check(played.move.engine == 1 && played.move.position == 3 && played.move.second == 0, "the move shown");
    check(played.move.second_position == 3 && played.move.branch == 0, "and the other end");
    check(sock_play(out, asked, 1, 1, 1, scratch, sizeof scratch).outcome == SOCK_NO, "not within one move");
    played = sock_play(out, asked, 1, 1, 2, scratch, sizeof scratch);
    check(played.outcome == SOCK_YES_BY_PASS && played.move.engine == 0 && played.move.position == 0, "by a pass");
    check(sock_play(out, asked, 2, 2, 7, scratch, 0).number == SOCK_UNKNOWN_SERIAL, "a serial that was not issued");
    check(sock_play(out, asked, 2, 1, 7, scratch, 0).number == SOCK_TOO_MANY_MOVES, "seven moves");
    check(sock_play(out, asked, 2, 1, 6, scratch, SOCK_KEEPER_BYTES - 1).number == SOCK_SHORT_PAPER, "scratch that is short");
    check(sock_play((const uint8_t *)scratch, asked, 2, 1, 6, scratch, 1).number == SOCK_OVERLAP, "a scratch in the configuration");
    check(sock_keeper(NULL, 0, 0, 0, 0, NULL, 0) == (uint64_t)SOCK_UNREADABLE << 56, "nothing to play");
    check(strcmp(sock_word(23), "too many moves") == 0, "the word about moves");
}

/* An index over a solicit, taken back. */
static void indexes(size_t length)
{
    static uint8_t index[SOCK_INDEX_BYTES], journal[SOCK_JOURNAL_BYTES], back[SOCK_BYTES];
    struct sock_step_answer taken;
    struct sock_back_answer went;
    memset(index, 7, sizeof index);
    check(SOCK_INDEX_BYTES == 4098, "bytes of an index");
    check(sock_count_open(index, sizeof index).number == SOCK_INDEX_SHORT, "an index that was not begun");
    check(sock_start_index(config, length, index, sizeof index - 1).number == SOCK_INDEX_SHORT, "an index that is short");
    check(sock_start_index(config, length - 1, index, sizeof index).number == SOCK_UNREADABLE, "an index begun with an odd length");
    check(sock_start_index(config, length, config, 2).number == SOCK_OVERLAP, "an index in the configuration");
    check(sock_begin_index(config, length, index, sizeof index) == 0 && sock_get(index, 0) == 0 && sock_get(index, 2048) == 0, "an index begun");
    check(sock_count_open(index, sizeof index).serials == 0 && sock_find_oldest(index, sizeof index).serial == 0, "none is open");
    taken = sock_follow_step(ask, config, length, out, sizeof out, journal, sizeof journal, index, sizeof index);
    check(taken.number == SOCK_ACCEPTED && taken.serial == 1 && taken.length == 146, "a step that an index follows");
    check(sock_count_open(index, sizeof index).serials == 1 && sock_find_oldest(index, sizeof index).serial == 1, "its serial is open");
    check(sock_open_count(index, sizeof index) == 1 && sock_told(sock_oldest(index, sizeof index)) == 1, "the raw questions");
    check(sock_follow_step(ask, config, length, out, sizeof out, journal, sizeof journal, index, 4096).number == SOCK_INDEX_SHORT, "a word short");
    check(sock_follow_step(ask, config, length, out, sizeof out, journal, sizeof journal, out, 8).number == SOCK_OVERLAP, "an index in the output");
    went = sock_follow_back(out, sock_bytes(146), journal, sizeof journal, back, sizeof back, index, sizeof index);
    check(went.number == SOCK_ACCEPTED && went.length == length / 2 && memcmp(back, config, length) == 0, "taken back");
    check(sock_open_count(index, sizeof index) == 0, "none is open any more");
    check(sock_follow_back(out, sock_bytes(146), journal, sizeof journal, back, sizeof back, journal, 2).number == SOCK_OVERLAP, "an index in the journal");
    check(sock_step_indexed(0, 3, 1, 3, 0, NULL, 0, NULL, 0, NULL, 0, NULL, 0) == (uint64_t)SOCK_INDEX_SHORT << 56, "nothing lent");
    check(sock_take_back_indexed(NULL, 0, NULL, 0, NULL, 0, index, sizeof index) == (uint64_t)SOCK_UNREADABLE << 56, "nothing to take back");
    check(sock_oldest(NULL, 0) == (uint64_t)SOCK_INDEX_SHORT << 56 && strcmp(sock_word(17), "index short") == 0, "no index");
}

/* The swing bridge cabinet's calls: alike inside its figures, and configurations of as many words as it reads, and of two more. */
static void small_cabinet(size_t length)
{
    static uint8_t journal[SOCK_JOURNAL_BYTES_SMALL], full[SOCK_BYTES];
    struct sock_step_answer taken = sock_take_step_small(ask, config, length, out, SOCK_BYTES_SMALL);
    size_t at;
    check(SOCK_BYTES_SMALL == 4096 && SOCK_JOURNAL_BYTES_SMALL == 8196, "bytes of the small cabinet");
    check(sock_step_small(0, 3, 1, 3, 0, config, length, out, SOCK_BYTES_SMALL) == 0x000a000000010092, "the raw step");
    check(taken.number == SOCK_ACCEPTED && taken.kind == SOCK_SOLICIT && taken.serial == 1 && taken.length == 146, "the small step");
    taken = sock_note_step_small(ask, config, length, out, sizeof out, journal, sizeof journal);
    check(taken.number == SOCK_ACCEPTED && sock_get(journal, 0) == length / 2, "the small step with a journal");
    check(sock_step_journal_small(0, 3, 1, 3, 0, config, length, out, sizeof out, journal, 6) == (uint64_t)SOCK_JOURNAL_SHORT << 56, "a journal that is short");
    check(sock_go_back(out, sock_bytes(146), journal, sizeof journal, full, sizeof full).number == SOCK_ACCEPTED, "taken back by the large cabinet");
    check(memcmp(full, config, length) == 0, "to the earlier configuration");
    check(sock_take_step_small(ask, config, length, config, 2).number == SOCK_OVERLAP, "an output in the configuration");
    check(sock_note_step_small(ask, config, length, out, sizeof out, out, 8).number == SOCK_OVERLAP, "a journal in the output");
    check(sock_test_start_small(config, length).number == SOCK_ACCEPTED && sock_check_start_small(config, length) == 0, "a start");
    check(sock_check_start_small(out, sock_bytes(146)) == SOCK_NOT_FRESH && sock_check_readable_small(NULL, 0) == SOCK_UNREADABLE, "no starts");
    /* One engine, a scope around pars of comps: 69 words and an odd count. */
    for (size_t words = SOCK_WORDS_SMALL; words <= SOCK_WORDS_SMALL + 2; words += 2) {
        size_t pairs = (words - 70) / 2;
        memset(full, 0, sizeof full);
        sock_put(full, 0, 1);
        at = sock_put(full, 66, 0x5800) + 2;
        at = balanced(full, at, pairs + 1);
        check(at == 2 * pairs + 70, "words of pars");
        check(sock_test_readable(full, sock_bytes(at)).number == SOCK_ACCEPTED, "readable in the large cabinet");
        check(sock_test_readable_small(full, sock_bytes(at)).number == (at <= SOCK_WORDS_SMALL ? SOCK_ACCEPTED : SOCK_UNREADABLE), "in the small one");
    }
}

static void null_pointers(size_t length)
{
    check(sock_check_readable(NULL, 0) == 1 && sock_check_start(NULL, 0) == 1, "checks of nothing");
    check(sock_number(sock_ends(NULL, 0, 1)) == SOCK_UNREADABLE && sock_process(NULL, 0, 0) == 0, "ends and process of nothing");
    check(sock_step(0, 3, 1, 3, 0, NULL, 0, out, sizeof out) == (uint64_t)SOCK_UNREADABLE << 56, "a step from nothing");
    check(sock_step(0, 3, 1, 3, 0, config, length, NULL, 0) == (uint64_t)SOCK_SHORT_PAPER << 56, "a step to nothing");
    check(sock_step(0, 3, 1, 3, 0, NULL, 0, NULL, 0) == (uint64_t)SOCK_UNREADABLE << 56, "a step from nothing to nothing");
    check(sock_take_step(ask, NULL, 0, NULL, 0).number == SOCK_UNREADABLE, "the same, inline");
}

/* The greatest charge of one reply, whose total has more than 32 bits, and what a refusal leaves. */
static void bills(void)
{
    static uint8_t rates[SOCK_RATE_BYTES], reply[SOCK_REPLY_BYTES];
    struct sock_bill_answer bill;
    check(sock_charge(rates, NULL, 0).number == SOCK_ACCEPTED, "a bill of no replies");
    sock_put_value(rates, 2 * 9, 1000000);
    sock_put_value(reply, 0, 9);
    sock_put_value(reply, 2, 5);
    sock_put_value(reply, 4, 0xffffffff);
    bill = sock_charge(rates, reply, 1);
    check(bill.number == SOCK_ACCEPTED && bill.totals[5] == 4294967295000u && bill.totals[4] == 0, "the greatest charge");
    check(sock_charge(rates, reply, SOCK_REPLIES + 1).number == SOCK_LIST_UNFIT, "more replies than a bill takes");
    sock_put_value(reply, 2, 8);
    bill = sock_charge(rates, reply, 1);
    check(bill.number == SOCK_LIST_UNFIT && bill.totals[5] == 0, "an engine that is none");
    sock_put_value(rates, 0, 1000001);
    check(sock_charge(rates, reply, 1).number == SOCK_RATE_TOO_HIGH, "a rate too high, before all else");
    check(sock_charge(rates, reply, SOCK_REPLIES + 1).number == SOCK_RATE_TOO_HIGH, "the same, with more replies than a bill takes");
    check(sock_charge(rates, reply, SIZE_MAX).number == SOCK_RATE_TOO_HIGH, "the same, with as many as there are numbers");
    check(strcmp(sock_word(19), "rate too high") == 0 && *sock_word(24) == 0, "the words of numbers");
}

/* A throw beside an inst: refused, and the call says by what. */
static void pending(void)
{
    static const uint16_t root[7] = {0x5800, 0x0000, 0x0000, 0x1800, 0x6000, 0x0000, 0x6800};
    static uint8_t beside[SOCK_BYTES];
    const struct sock_move throw_it = {0, 6, 0, 0, 0};
    size_t at = sock_put(beside, sock_put(beside, 0, 1), 0);
    struct sock_pending_answer found;
    for (unsigned variable = 0; variable < SOCK_VARIABLES; variable++)
        at = sock_put_value(beside, at, 0);
    for (int word = 0; word < 7; word++)
        at = sock_put(beside, at, root[word]);
    found = sock_find_pending(0, 0, beside, sock_bytes(at));
    check(found.number == SOCK_ACCEPTED && found.found == 1 && found.count == 3, "a pending process in the root");
    found = sock_find_pending(0, 6, beside, sock_bytes(at));
    check(found.number == SOCK_ACCEPTED && found.found == 0 && found.count == 1, "none in a throw");
    check(sock_pending(0, 4, beside, sock_bytes(at)) == 0x0001000000000001, "the raw answer");
    check(sock_take_step(throw_it, beside, sock_bytes(at), out, sizeof out).number == SOCK_INSTALLING, "the throw is refused");
    found = sock_find_pending(0, 5, beside, sock_bytes(at));
    check(found.number == SOCK_NOBODY_THERE && found.found == 0 && found.count == 0, "nobody there");
    check(sock_find_pending(0, 0, beside, sock_bytes(at) - 1).number == SOCK_UNREADABLE, "a search in an odd length");
    check(sock_pending(0, 0, NULL, 0) == (uint64_t)SOCK_UNREADABLE << 56, "a search in nothing");
}

static void windows(void)
{
    static uint8_t window[SOCK_WINDOW_BYTES];
    struct sock_step_answer step = {SOCK_ACCEPTED, SOCK_NOTICE, 1, 1, 139};
    check(SOCK_WINDOW_BYTES == 2178, "a window's bytes");
    check(sock_hand_on(SOCK_WINDOW_WIDEST, step, 63, window, sizeof window) == SOCK_ACCEPTED, "a fault handed on");
    check(sock_count_faults(63, window, sizeof window).faults == 1 && sock_get(window, 64) == 1, "it is counted");
    step.number = SOCK_NO_FIT;
    check(sock_hand_on(SOCK_WINDOW_WIDEST, step, 63, window, sizeof window) == SOCK_ACCEPTED, "a refused step handed on");
    check(sock_count_faults(63, window, sizeof window).faults == 1 && sock_get(window, 64) == 1, "it is not");
    check(sock_hand_on(SOCK_WINDOW_WIDEST + 1, step, 63, window, sizeof window) == SOCK_WINDOW_WIDTH, "a width that is none");
    check(sock_count_faults(64, window, sizeof window).number == SOCK_WINDOW_WIDTH, "an operation that is none");
    check(sock_count_faults(0, NULL, 0).number == SOCK_WINDOW_WIDTH, "no window");
}

static void version(void)
{
    char text[32];
    sprintf(text, "%d.%d.%d", SOCK_VERSION_MAJOR, SOCK_VERSION_MINOR, SOCK_VERSION_PATCH);
    check(strcmp(text, SOCK_VERSION) == 0, "the version's numbers and its text");
}

int main(void)
{
    size_t words = start();
    words_and_values(words);
    inline_and_raw(sock_bytes(words));
    overlap(sock_bytes(words));
    journals(sock_bytes(words));
    indexes(sock_bytes(words));
    engines(sock_bytes(words));
    plans();
    keeper(sock_bytes(words));
    small_cabinet(sock_bytes(words));
    null_pointers(sock_bytes(words));
    bills();
    pending();
    windows();
    version();
    return failures != 0;
}
