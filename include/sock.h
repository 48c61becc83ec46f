/* SOCK engines in a lock cabinet: the calls on bytes, for C and C++.
 *
 * A configuration is a row of 16-bit words, each two bytes, the high byte first; docs/FORMAT.md says what the words mean. It has at most
 * 8,192 words (16,384 bytes), and 2,048 in the swing bridge cabinet, whose calls end in _small. Every call answers for all bytes and numbers: nothing has to be checked before. A configuration of odd length
 * is unreadable.
 *
 * A message carries one to four values. Up to version 3 it carried one, and no counts of variables stood in a configuration; such inputs of
 * the program handover are rewritten by `bin/handover --rewrite`, and docs/FORMAT.md says where the counts go.
 *
 * There are two layers. The raw calls (sock_step, sock_ends, ..) are what the library exports: they answer one packed number, and each has
 * accessors that take it apart. The inline calls (sock_take_step, sock_count_ends, ..) make the same calls and answer a struct of their
 * own, so that the compiler tells one answer from another.
 *
 * Platform. x86-64 Linux, with its usual calling convention. Link with libcabinet.a, which `tools/build-library` writes to
 * target/staticlib. It is position-independent and needs three functions from outside: memcpy, memmove and memset.
 *
 * Memory. No call allocates, keeps a pointer or reads or writes outside what it is lent, and the library has no variables of its own. A
 * length may be 0; the pointer is then not followed, and may be null. With any other length it must point to so many bytes. Lent memory
 * may stand at any address. A configuration is only read. The output of a step must not overlap it, not by one byte: the proofs take the
 * two to be apart. sock_step cannot see an overlap and its answer then means nothing; sock_take_step refuses it (SOCK_OVERLAP). The same
 * holds of a journal and of an index: none of configuration, output, journal and index may overlap another. And of a bill's totals, which must
 * not overlap its rates or replies. A window is changed in place by sock_window_next and only read by sock_window_count; an index is changed
 * in place by the calls that follow steps with it, and only read by its two questions.
 *
 * Threads and signals. Every call may be made from any thread and from a signal handler, also while another call is under way. Two
 * calls may read one configuration at the same time; nobody may write to it, or touch an output, until the call has returned.
 *
 * Stack. A call needs at most SOCK_STACK bytes, one that ends in _small at most SOCK_STACK_SMALL, on the stack of its thread or of the signal
 * handler (sigaltstack). Two need more: sock_translate, which is for the planning office and not for a cabinet, at most SOCK_STACK_PLAN, and
 * sock_keeper at most SOCK_STACK_KEEPER.
 */
#ifndef SOCK_H
#define SOCK_H

#include <stddef.h>
#include <stdint.h>

#ifdef __cplusplus
extern "C" {
#endif

/* This header's version. The first number rises when a call, an answer or the format changes, the second when something is added. */
#define SOCK_VERSION_MAJOR 4
#define SOCK_VERSION_MINOR 8
#define SOCK_VERSION_PATCH 4
#define SOCK_VERSION "4.8.4"

/* The most words and bytes that a configuration has. */
#define SOCK_WORDS 8192
#define SOCK_BYTES (2 * SOCK_WORDS)

/* The same in the swing bridge cabinet. Its depth is 32, the large one's 64. */
#define SOCK_WORDS_SMALL 2048
#define SOCK_BYTES_SMALL (2 * SOCK_WORDS_SMALL)

/* The most engines that a configuration has, and the variables and the words of their values that each of them has. */
#define SOCK_ENGINES 8
#define SOCK_VARIABLES 32
#define SOCK_VALUE_WORDS (2 * SOCK_VARIABLES)

/* The words and bytes of an index of open requests, and the most serials of one that is in order. */
#define SOCK_INDEX_WORDS 2049
#define SOCK_INDEX_BYTES (2 * SOCK_INDEX_WORDS)
#define SOCK_INDEX_MOST 2047

/* The operations, the widest window, and the words and bytes of a window. */
#define SOCK_OPERATIONS 64
#define SOCK_WINDOW_WIDEST 1024
#define SOCK_WINDOW_WORDS (SOCK_OPERATIONS + 1 + SOCK_WINDOW_WIDEST)
#define SOCK_WINDOW_BYTES (2 * SOCK_WINDOW_WORDS)

/* Bytes of stack that are enough for any call but the two that follow, for any of the swing bridge cabinet's, for sock_translate, and for
 * sock_keeper. The most that a call was seen to use is below three quarters of it, which is tested. */
#define SOCK_STACK 262144
#define SOCK_STACK_SMALL 114688
#define SOCK_STACK_PLAN 307200
#define SOCK_STACK_KEEPER 409600

/* What a call answers: a result (0), or why there is none. */
enum sock_number {
    SOCK_ACCEPTED = 0,
    SOCK_UNREADABLE = 1,      /* the configuration is not readable */
    SOCK_NOBODY_THERE = 2,    /* no such engine, or no enabled process begins at the position */
    SOCK_NO_MOVE = 3,         /* the process cannot move, or moves alone and a second field or branch is not 0 */
    SOCK_NO_PARTNER = 4,      /* as 2, for the second engine and position */
    SOCK_NO_FIT = 5,          /* the two do not fit each other (also by how many values), or the branch does not */
    SOCK_INSTALLING = 6,      /* the fault meets a side that cannot be killed yet */
    SOCK_SERIALS_SPENT = 7,   /* a solicit when 65,535 serials are issued */
    SOCK_DEEP = 8,            /* the result would be deeper than 64, in the swing bridge cabinet than 32 */
    SOCK_LONG = 9,            /* the result would be longer than 8,192 words, in the swing bridge cabinet than 2,048 */
    SOCK_SHORT_PAPER = 10,    /* the output is shorter than the result */
    SOCK_NOT_FRESH = 11,      /* start check, translating, beginning an index: readable, but not a start; joining: the newcomer is not readable and fresh */
    SOCK_UNKNOWN_SERIAL = 12, /* ends: the serial is 0 or above issued */
    SOCK_NOT_DECIMAL = 13,    /* assign, if or while: an operand of a decimal operator has a digit above 9; after 5 and before 6 */
    SOCK_FIXED_CH = 14,       /* translating: cH stands free in one of a fixed scope's own handlers; after 1 and before 11 */
    SOCK_UNMATCHED = 15,      /* taking back: the journal is cut or does not match, or what it restores is not readable */
    SOCK_JOURNAL_SHORT = 16,  /* step with a journal: the journal lent is shorter than this step's; after 10 */
    SOCK_INDEX_SHORT = 17,    /* index: fewer than 2,049 words, or, once begun, not in order; before all others */
    SOCK_WINDOW_WIDTH = 18,   /* window: a width that is not 1 to 1,024, an operation above 63, or a window that no run gives */
    SOCK_RATE_TOO_HIGH = 19,  /* bill: a rate is above 1,000,000, or the rates are not 256 bytes */
    SOCK_LIST_UNFIT = 20,     /* bill: list cut or too long, operation above 63 or engine above 7; or totals of fewer than 64 bytes */
    SOCK_HOUSE_FULL = 21,     /* joining: there are eight engines; after 1 */
    SOCK_STILL_AT_WORK = 22,  /* leaving: the last engine is the only one, its process is not nil, or an end elsewhere names it; after 1 */
    SOCK_TOO_MANY_MOVES = 23, /* keeper against the river: more than 6 moves; after 12 */
    SOCK_OVERLAP = 255        /* inline calls that write: what was lent overlaps, so no call was made */
};

/* The nineteen kinds of process, the first 5 bits of a head, and the planners' one. */
enum sock_kind {
    SOCK_NIL = 0,
    SOCK_ASSIGN = 1,
    SOCK_SEQ = 2,
    SOCK_PAR = 3,
    SOCK_IF = 4,
    SOCK_WHILE = 5,
    SOCK_CHOICE = 6,
    SOCK_ONE_WAY = 7,
    SOCK_REQUEST = 8,
    SOCK_NOTIFY = 9,
    SOCK_SOLICIT = 10,
    SOCK_SCOPE = 11,
    SOCK_INST = 12,
    SOCK_THROW = 13,
    SOCK_COMP = 14,
    SOCK_CH = 15,
    SOCK_EXECUTOR = 16,
    SOCK_WAITER = 17,
    SOCK_NOTICE = 18,
    SOCK_FIXED_SCOPE = 19 /* in a planners' start only: sock_translate takes it, every other call refuses it */
};

/* The keeper's word for a number, as documents 01 and 02 have it; "accepted" for 0. Takes what any call or accessor gives as number. */
static inline const char *sock_word(unsigned number)
{
    switch (number) {
    case SOCK_ACCEPTED: return "accepted";
    case SOCK_UNREADABLE: return "unreadable";
    case SOCK_NOBODY_THERE: return "nobody there";
    case SOCK_NO_MOVE: return "no move";
    case SOCK_NO_PARTNER: return "no partner";
    case SOCK_NO_FIT: return "no fit";
    case SOCK_INSTALLING: return "installing";
    case SOCK_SERIALS_SPENT: return "serials spent";
    case SOCK_DEEP: return "deep";
    case SOCK_LONG: return "long";
    case SOCK_SHORT_PAPER: return "short paper";
    case SOCK_NOT_FRESH: return "not fresh";
    case SOCK_UNKNOWN_SERIAL: return "unknown serial";
    case SOCK_NOT_DECIMAL: return "not decimal";
    case SOCK_FIXED_CH: return "cH in a fixed scope";
    case SOCK_UNMATCHED: return "journal doesn't match";
    case SOCK_JOURNAL_SHORT: return "journal short";
    case SOCK_INDEX_SHORT: return "index short";
    case SOCK_WINDOW_WIDTH: return "window width";
    case SOCK_RATE_TOO_HIGH: return "rate too high";
    case SOCK_LIST_UNFIT: return "list cut or too long, operation above 63 or engine above 7";
    case SOCK_HOUSE_FULL: return "house full";
    case SOCK_STILL_AT_WORK: return "still at work";
    case SOCK_TOO_MANY_MOVES: return "too many moves";
    case SOCK_OVERLAP: return "overlap";
    default: return "";
    }
}

/* ---- Words and values of a configuration, counted in words from its start. They test nothing: the words have to be there. ---- */

/* How many bytes so many words are. */
static inline size_t sock_bytes(size_t words) { return 2 * words; }

/* A word. */
static inline uint16_t sock_get(const uint8_t *config, size_t word)
{
    return (uint16_t)((unsigned)config[2 * word] << 8 | config[2 * word + 1]);
}

/* Writes a word; answers where the next one goes. */
static inline size_t sock_put(uint8_t *config, size_t word, uint16_t content)
{
    config[2 * word] = (uint8_t)(content >> 8);
    config[2 * word + 1] = (uint8_t)(content & 0xff);
    return word + 1;
}

/* A value, which is two words, the high one first. The operator less of expressions reads values with sign, in two's complement: 0xffffffff
 * is -1. Decimal sum and decimal difference read them as eight digits of four bits. All else takes them as they are. */
static inline uint32_t sock_get_value(const uint8_t *config, size_t word)
{
    return (uint32_t)sock_get(config, word) << 16 | sock_get(config, word + 1);
}

/* Writes a value; answers where the next word goes. */
static inline size_t sock_put_value(uint8_t *config, size_t word, uint32_t value)
{
    return sock_put(config, sock_put(config, word, (uint16_t)(value >> 16)), (uint16_t)(value & 0xffff));
}

/* ---- Step: from one configuration to the next. ----
 *
 * `engine` and `position` name the process that moves: the engine, and the process's first word counted from the start of its engine's
 * process. A process that sends needs a receiver, named by `second` and `second_position`, and `branch` chooses a branch of a choice (from
 * 1); all three are 0 for a process that moves alone, and `branch` is 0 for a receiver that is not a choice.
 *
 * Accepted: the next configuration stands in the first words of `out`, as many as the answer's length says; the bytes behind keep what
 * they were. Refused: no byte of `out` has changed, and all fields of the answer but the number are 0. An output has room for half its
 * bytes in words, rounded down. Refusals 1 to 5, 13, 6 to 10, the first that applies.
 *
 * The engines of a step are `engine` and, where the process that moves sends (SOCK_NOTIFY, SOCK_SOLICIT, SOCK_EXECUTOR, SOCK_NOTICE), `second`.
 * An accepted step changes no word of the values or the process of any other engine. Two steps with no engine in common, not both
 * SOCK_SOLICIT, may change places: if both orders are accepted, they end in the same words, and each step answers the same kind, serial and
 * fault in both. If only one order is accepted, it is for the length of what stands between the two: the other order's first step is
 * refused with SOCK_LONG or SOCK_SHORT_PAPER, or its second with SOCK_SHORT_PAPER where that output is shorter than the result.
 */
uint64_t sock_step(uint16_t engine, uint16_t position, uint16_t second, uint16_t second_position, uint16_t branch,
                   const uint8_t *config, size_t config_length, uint8_t *out, size_t out_length);

/* The parts of sock_step's answer. */
static inline enum sock_number sock_number(uint64_t answer) { return (enum sock_number)(answer >> 56); }  /* sock_ends's and sock_pending's too */
static inline enum sock_kind sock_kind(uint64_t answer) { return (enum sock_kind)(answer >> 48 & 0xff); } /* of the process that moved */
static inline int sock_fault(uint64_t answer) { return (int)(answer >> 40 & 0xff); }                      /* 1: a fault was delivered */
static inline uint16_t sock_serial(uint64_t answer) { return (uint16_t)(answer >> 16 & 0xffff); }         /* issued or delivered, else 0 */
static inline uint16_t sock_length(uint64_t answer) { return (uint16_t)(answer & 0xffff); }               /* words of the result */

/* The numbers of a step. */
struct sock_move {
    uint16_t engine, position, second, second_position, branch;
};

struct sock_step_answer {
    enum sock_number number;
    enum sock_kind kind; /* of the process that moved */
    int fault;           /* 1: a fault was delivered */
    uint16_t serial;     /* issued or delivered, else 0 */
    uint16_t length;     /* words of the result */
};

/* Whether two pieces of memory have a byte in common. */
static inline int sock_overlap(const uint8_t *one, size_t one_length, const uint8_t *other, size_t other_length)
{
    uintptr_t a = (uintptr_t)one, b = (uintptr_t)other;
    if (one_length == 0 || other_length == 0)
        return 0;
    return a < b ? b - a < one_length : a - b < other_length;
}

/* A step's packed answer taken apart. */
static inline struct sock_step_answer sock_step_parts(uint64_t answer)
{
    struct sock_step_answer taken = {sock_number(answer), sock_kind(answer), sock_fault(answer), sock_serial(answer), sock_length(answer)};
    return taken;
}

/* The answer where what was lent overlaps. */
static inline struct sock_step_answer sock_step_overlaps(void)
{
    struct sock_step_answer taken = {SOCK_OVERLAP, SOCK_NIL, 0, 0, 0};
    return taken;
}

/* The step; SOCK_OVERLAP, before all others, where output and configuration overlap. */
static inline struct sock_step_answer sock_take_step(struct sock_move move, const uint8_t *config, size_t config_length,
                                                     uint8_t *out, size_t out_length)
{
    if (sock_overlap(config, config_length, out, out_length))
        return sock_step_overlaps();
    return sock_step_parts(sock_step(move.engine, move.position, move.second, move.second_position, move.branch, config, config_length,
                                     out, out_length));
}

/* ---- Step with a journal: the step, and what it takes to go back. ----
 *
 * As sock_step, and it fills `journal`: old length, new length, count of first words alike, count of last words alike after those, the old
 * words between, the new ones. A journal of SOCK_JOURNAL_ENOUGH words is enough for every step. SOCK_JOURNAL_SHORT, after all others, if the
 * journal lent has fewer words (half its bytes, rounded down) than this step's. A refusal changes no byte of output and journal; bytes behind
 * the journal's words keep what they were. The answer's parts are sock_step's.
 */
#define SOCK_JOURNAL_ENOUGH 16386
#define SOCK_JOURNAL_BYTES (2 * SOCK_JOURNAL_ENOUGH)
uint64_t sock_step_journal(uint16_t engine, uint16_t position, uint16_t second, uint16_t second_position, uint16_t branch,
                           const uint8_t *config, size_t config_length, uint8_t *out, size_t out_length, uint8_t *journal,
                           size_t journal_length);

/* The step with a journal; SOCK_OVERLAP, before all others, where two of configuration, output and journal overlap. */
static inline struct sock_step_answer sock_note_step(struct sock_move move, const uint8_t *config, size_t config_length,
                                                     uint8_t *out, size_t out_length, uint8_t *journal, size_t journal_length)
{
    if (sock_overlap(config, config_length, out, out_length) || sock_overlap(config, config_length, journal, journal_length) ||
        sock_overlap(out, out_length, journal, journal_length))
        return sock_step_overlaps();
    return sock_step_parts(sock_step_journal(move.engine, move.position, move.second, move.second_position, move.branch, config,
                                             config_length, out, out_length, journal, journal_length));
}

/* ---- Taking back: from what a step left, by its journal, to what was before. ----
 *
 * Accepted: the earlier configuration stands in the first words of `out`, as many as the answer's length says. Several steps go back in
 * reverse, each by its own journal; take no other, for words alike are not compared, and a journal of another step may match. What is lent
 * beyond a journal's end is not part of it. SOCK_UNREADABLE, SOCK_UNMATCHED, SOCK_SHORT_PAPER: no byte of `out` has changed.
 */
uint64_t sock_take_back(const uint8_t *config, size_t config_length, const uint8_t *journal, size_t journal_length, uint8_t *out,
                        size_t out_length);

struct sock_back_answer {
    enum sock_number number;
    uint16_t length; /* words of the earlier configuration */
};

/* Taking back; SOCK_OVERLAP, before all others, where the output overlaps configuration or journal. */
static inline struct sock_back_answer sock_go_back(const uint8_t *config, size_t config_length, const uint8_t *journal,
                                                   size_t journal_length, uint8_t *out, size_t out_length)
{
    struct sock_back_answer taken = {SOCK_OVERLAP, 0};
    uint64_t answer;
    if (sock_overlap(config, config_length, out, out_length) || sock_overlap(journal, journal_length, out, out_length))
        return taken;
    answer = sock_take_back(config, config_length, journal, journal_length, out, out_length);
    taken.number = sock_number(answer);
    taken.length = sock_length(answer);
    return taken;
}

/* ---- Joining and leaving: engines come as the next number, and the last one goes. ----
 *
 * `newcomer` is SOCK_VALUE_WORDS words of values and a process: a scope that has not begun, with no end in it and nothing behind it. Accepted: `out`
 * holds the configuration with one engine more, the newcomer's words at its end. SOCK_UNREADABLE, SOCK_HOUSE_FULL, SOCK_NOT_FRESH (also
 * for an odd length), SOCK_LONG, SOCK_SHORT_PAPER. A newcomer of more than 2 * SOCK_NEWCOMER_WORDS bytes is not read, and SOCK_LONG.
 *
 * The last engine may leave once its process is nil: `out` then holds the configuration without it. SOCK_UNREADABLE, SOCK_STILL_AT_WORK,
 * SOCK_SHORT_PAPER. In a run from a start the two ends of a request name each other, so nothing names an engine whose process is nil; in
 * other words that are readable something may.
 *
 * The answer is a number and a length, as taking back's; a refusal changes no byte of `out`, and bytes past the length stay. Numbers are used
 * again: a variable that holds 1 reaches whoever is engine 1 when the step is made, and SOCK_NO_PARTNER is the answer while nobody is.
 * A joining or a leaving is not taken back, and no step before it is any more: its journal may match, and what it restores means nothing.
 * An index of open requests stays right; these calls need none.
 */
#define SOCK_NEWCOMER_WORDS 16384
uint64_t sock_join(const uint8_t *config, size_t config_length, const uint8_t *newcomer, size_t newcomer_length, uint8_t *out,
                   size_t out_length);
uint64_t sock_leave(const uint8_t *config, size_t config_length, uint8_t *out, size_t out_length);

struct sock_house_answer {
    enum sock_number number;
    uint16_t length; /* words of the result */
};

/* Joining; SOCK_OVERLAP, before all others, where the output overlaps configuration or newcomer. */
static inline struct sock_house_answer sock_let_in(const uint8_t *config, size_t config_length, const uint8_t *newcomer,
                                                   size_t newcomer_length, uint8_t *out, size_t out_length)
{
    struct sock_house_answer came = {SOCK_OVERLAP, 0};
    uint64_t answer;
    if (sock_overlap(config, config_length, out, out_length) || sock_overlap(newcomer, newcomer_length, out, out_length))
        return came;
    answer = sock_join(config, config_length, newcomer, newcomer_length, out, out_length);
    came.number = sock_number(answer);
    came.length = sock_length(answer);
    return came;
}

/* Leaving; SOCK_OVERLAP, before all others, where output and configuration overlap. */
static inline struct sock_house_answer sock_let_go(const uint8_t *config, size_t config_length, uint8_t *out, size_t out_length)
{
    struct sock_house_answer went = {SOCK_OVERLAP, 0};
    uint64_t answer;
    if (sock_overlap(config, config_length, out, out_length))
        return went;
    answer = sock_leave(config, config_length, out, out_length);
    went.number = sock_number(answer);
    went.length = sock_length(answer);
    return went;
}

/* ---- Planners' starts ----
 *
 * `config` is a start in which fixed scopes, kind 19, may stand wherever an unmarked scope may: scopes with all their handlers given
 * beforehand (docs/FORMAT.md). Accepted: `out`, which must not overlap it, holds the start that it is translated into, in which each of them
 * is a scope that installs its handlers. SOCK_UNREADABLE (also for an odd length), SOCK_FIXED_CH, SOCK_NOT_FRESH; SOCK_DEEP, SOCK_LONG and
 * SOCK_SHORT_PAPER for what it becomes. The answer is a number and a length, as taking back's; a refusal changes no byte of `out`, and bytes
 * past the length stay. A start without fixed scopes comes out as it is.
 */
uint64_t sock_translate(const uint8_t *config, size_t config_length, uint8_t *out, size_t out_length);

struct sock_plan_answer {
    enum sock_number number;
    uint16_t length; /* words of the start */
};

/* Translating; SOCK_OVERLAP, before all others, where output and configuration overlap. */
static inline struct sock_plan_answer sock_lay_out(const uint8_t *config, size_t config_length, uint8_t *out, size_t out_length)
{
    struct sock_plan_answer laid = {SOCK_OVERLAP, 0};
    uint64_t answer;
    if (sock_overlap(config, config_length, out, out_length))
        return laid;
    answer = sock_translate(config, config_length, out, out_length);
    laid.number = sock_number(answer);
    laid.length = sock_length(answer);
    return laid;
}

/* ---- Keeper against the river: whether a request can be brought home. ----
 *
 * Keeper and river move in turn, the keeper first. A move is any step accepted with SOCK_WORDS words of output whose first engine is of the mover's
 * side; a side without one passes, which counts. The answer is yes exactly if the keeper can force, for every play of the river, that the
 * serial is delivered within `k` moves (0 to SOCK_KEEPER_MOVES), the first time by a reply and not a fault. A yes shows one first move, or a pass,
 * that keeps this; k 0 is a no, and so is a serial whose ends are gone or do not name each other. A yes within k moves is a yes within k + 1.
 *
 * Bit e of `engines` is 1 where engine e is the keeper's; all others are the river's. `scratch` has SOCK_KEEPER_BYTES at least, half of them in
 * words, and begins where a uint16_t may (malloc's memory does, and an array of uint16_t); it must not overlap the configuration. What it holds
 * afterwards means nothing; a refusal changes no byte of it. sock_keeper_words is the same with its scratch counted in words.
 * SOCK_UNREADABLE, SOCK_UNKNOWN_SERIAL (0 or above issued), SOCK_TOO_MANY_MOVES, SOCK_SHORT_PAPER (scratch), in this order.
 *
 * Time. The worst case grows as the number of moves to the power k, and one configuration may have millions of moves: such a call does not end
 * in a time that anyone waits for. Games of some 650 words with 7 to 13 moves took at most 0.3 ms each for k 6 (docs/changes/m.md). Where there are more
 * moves, ask for a small k first and for one more while the answer is no.
 */
#define SOCK_KEEPER_MOVES 6
#define SOCK_KEEPER_WORDS (7 * SOCK_WORDS)
#define SOCK_KEEPER_BYTES (2 * SOCK_KEEPER_WORDS)
uint64_t sock_keeper_words(const uint8_t *config, size_t config_length, uint8_t engines, uint16_t serial, uint16_t k, uint16_t *scratch,
                           size_t scratch_words);

static inline uint64_t sock_keeper(const uint8_t *config, size_t config_length, uint8_t engines, uint16_t serial, uint16_t k, void *scratch,
                                   size_t scratch_length)
{
    return sock_keeper_words(config, config_length, engines, serial, k, (uint16_t *)scratch, scratch_length / 2);
}

/* No; yes by the move shown; yes by a pass, the keeper's first, since he has no move. */
enum sock_outcome { SOCK_NO = 0, SOCK_YES = 1, SOCK_YES_BY_PASS = 2 };

/* Parts of the answer; its number is sock_number's. The move is all zeros but for SOCK_YES. */
static inline enum sock_outcome sock_outcome_of(uint64_t played) { return (enum sock_outcome)(played >> 48 & 0xff); }
static inline struct sock_move sock_move_of(uint64_t played)
{
    struct sock_move move;
    move.engine = (uint16_t)(played >> 29 & 7);
    move.position = (uint16_t)(played >> 16 & 0x1fff);
    move.second = (uint16_t)(played >> 13 & 7);
    move.second_position = (uint16_t)(played & 0x1fff);
    move.branch = (uint16_t)(played >> 32 & 0xff);
    return move;
}

struct sock_keeper_answer {
    enum sock_number number;
    enum sock_outcome outcome;
    struct sock_move move;
};

/* SOCK_OVERLAP, before all others, where scratch and configuration overlap. */
static inline struct sock_keeper_answer sock_play(const uint8_t *config, size_t config_length, uint8_t engines, uint16_t serial, uint16_t k,
                                                  void *scratch, size_t scratch_length)
{
    struct sock_keeper_answer played = {SOCK_OVERLAP, SOCK_NO, {0, 0, 0, 0, 0}};
    uint64_t answer;
    if (sock_overlap(config, config_length, (const uint8_t *)scratch, scratch_length))
        return played;
    answer = sock_keeper(config, config_length, engines, serial, k, scratch, scratch_length);
    played.number = sock_number(answer);
    played.outcome = sock_outcome_of(answer);
    played.move = sock_move_of(answer);
    return played;
}

/* ---- Index of open requests: how many serials are open, and the oldest one, without reading the engines. ----
 *
 * An index is SOCK_INDEX_BYTES bytes: the count, the open serials strictly rising, none 0, then zeros; words of two bytes, the high byte first.
 * Bytes past these stay. sock_begin_index begins it, empty, with the start of a run, whatever stood there. Lend it to every step and every
 * taking back from then on and let nobody else write it: it lists the serials that have a waiter, as a reading of the whole configuration
 * would.
 *
 * sock_step_indexed is sock_step_journal: an accepted solicit puts its serial in, a delivery takes it out, where it is not so already.
 * sock_take_back_indexed is sock_take_back: an accepted one lists anew the serials of the waiters in what it restored.
 *
 * SOCK_INDEX_SHORT, before all others: fewer than 2,049 words (half the bytes, rounded down) are lent or, but for sock_begin_index, they are not
 * of that form with at most SOCK_INDEX_MOST serials. 2,047 are in order, and an accepted solicit may make them 2,048, which the next call
 * refuses; a run so followed never comes to that. Then the refusals of the call without an index; those of sock_begin_index
 * are sock_check_start's. A refusal changes no byte of anything.
 */
uint8_t sock_begin_index(const uint8_t *config, size_t config_length, uint8_t *index, size_t index_length);
uint64_t sock_step_indexed(uint16_t engine, uint16_t position, uint16_t second, uint16_t second_position, uint16_t branch,
                           const uint8_t *config, size_t config_length, uint8_t *out, size_t out_length, uint8_t *journal,
                           size_t journal_length, uint8_t *index, size_t index_length);
uint64_t sock_take_back_indexed(const uint8_t *config, size_t config_length, const uint8_t *journal, size_t journal_length, uint8_t *out,
                                size_t out_length, uint8_t *index, size_t index_length);

/* The two questions: how many serials are open, and the oldest of them, 0 if none is. SOCK_INDEX_SHORT. */
uint64_t sock_open_count(const uint8_t *index, size_t index_length);
uint64_t sock_oldest(const uint8_t *index, size_t index_length);

/* A part of both answers; their number is sock_number's. */
static inline uint16_t sock_told(uint64_t asked) { return (uint16_t)(asked & 0xffff); }

/* The step that the index follows; SOCK_OVERLAP, before all others, where two of configuration, output, journal and index overlap. */
static inline struct sock_step_answer sock_follow_step(struct sock_move move, const uint8_t *config, size_t config_length, uint8_t *out,
                                                       size_t out_length, uint8_t *journal, size_t journal_length, uint8_t *index,
                                                       size_t index_length)
{
    if (sock_overlap(config, config_length, out, out_length) || sock_overlap(config, config_length, journal, journal_length) ||
        sock_overlap(out, out_length, journal, journal_length) || sock_overlap(config, config_length, index, index_length) ||
        sock_overlap(out, out_length, index, index_length) || sock_overlap(journal, journal_length, index, index_length))
        return sock_step_overlaps();
    return sock_step_parts(sock_step_indexed(move.engine, move.position, move.second, move.second_position, move.branch, config,
                                             config_length, out, out_length, journal, journal_length, index, index_length));
}

/* Taking back; SOCK_OVERLAP, before all others, where output or index overlaps what else is lent. */
static inline struct sock_back_answer sock_follow_back(const uint8_t *config, size_t config_length, const uint8_t *journal,
                                                       size_t journal_length, uint8_t *out, size_t out_length, uint8_t *index,
                                                       size_t index_length)
{
    struct sock_back_answer taken = {SOCK_OVERLAP, 0};
    uint64_t answer;
    if (sock_overlap(config, config_length, out, out_length) || sock_overlap(journal, journal_length, out, out_length) ||
        sock_overlap(config, config_length, index, index_length) || sock_overlap(journal, journal_length, index, index_length) ||
        sock_overlap(out, out_length, index, index_length))
        return taken;
    answer = sock_take_back_indexed(config, config_length, journal, journal_length, out, out_length, index, index_length);
    taken.number = sock_number(answer);
    taken.length = sock_length(answer);
    return taken;
}

struct sock_open_answer {
    enum sock_number number;
    uint16_t serials; /* how many are open; 0 in a refusal */
};

struct sock_oldest_answer {
    enum sock_number number;
    uint16_t serial; /* 0 if none is open, and in a refusal */
};

static inline struct sock_open_answer sock_count_open(const uint8_t *index, size_t index_length)
{
    uint64_t asked = sock_open_count(index, index_length);
    struct sock_open_answer open = {sock_number(asked), sock_told(asked)};
    return open;
}

static inline struct sock_oldest_answer sock_find_oldest(const uint8_t *index, size_t index_length)
{
    uint64_t asked = sock_oldest(index, index_length);
    struct sock_oldest_answer oldest = {sock_number(asked), sock_told(asked)};
    return oldest;
}

/* ---- Start check: may a run begin here? 0, SOCK_UNREADABLE or SOCK_NOT_FRESH. From a start every request keeps exactly one reply. ---- */
uint8_t sock_check_start(const uint8_t *config, size_t config_length);

/* ---- Readable check: 0 or SOCK_UNREADABLE. ---- */
uint8_t sock_check_readable(const uint8_t *config, size_t config_length);

struct sock_check_answer {
    enum sock_number number;
};

static inline struct sock_check_answer sock_test_start(const uint8_t *config, size_t config_length)
{
    struct sock_check_answer tested = {(enum sock_number)sock_check_start(config, config_length)};
    return tested;
}

static inline struct sock_check_answer sock_test_readable(const uint8_t *config, size_t config_length)
{
    struct sock_check_answer tested = {(enum sock_number)sock_check_readable(config, config_length)};
    return tested;
}

/* An index begun with a start; SOCK_OVERLAP, before all others, where it overlaps the configuration. */
static inline struct sock_check_answer sock_start_index(const uint8_t *config, size_t config_length, uint8_t *index, size_t index_length)
{
    struct sock_check_answer begun = {SOCK_OVERLAP};
    if (!sock_overlap(config, config_length, index, index_length))
        begun.number = (enum sock_number)sock_begin_index(config, config_length, index, index_length);
    return begun;
}

/* ---- The swing bridge cabinet: the step and the two checks at smaller figures. ----
 *
 * It has 2,048 words and depth 32, needs less stack (SOCK_STACK_SMALL), and shares configurations with the large one: what either writes the
 * other may read. A configuration beyond either figure is SOCK_UNREADABLE, a result beyond them SOCK_DEEP or SOCK_LONG, depth first. Else all
 * is as in the calls without _small: it accepts exactly where the large one, lent the same, accepts with input and result inside these
 * figures, and gives the same answer and words. What it has taken sock_take_back takes back. A finished request can be delivered here while
 * this cabinet reads the configuration. SOCK_JOURNAL_ENOUGH_SMALL words of journal are enough for every step.
 */
#define SOCK_JOURNAL_ENOUGH_SMALL 4098
#define SOCK_JOURNAL_BYTES_SMALL (2 * SOCK_JOURNAL_ENOUGH_SMALL)
uint64_t sock_step_small(uint16_t engine, uint16_t position, uint16_t second, uint16_t second_position, uint16_t branch,
                         const uint8_t *config, size_t config_length, uint8_t *out, size_t out_length);
uint64_t sock_step_journal_small(uint16_t engine, uint16_t position, uint16_t second, uint16_t second_position, uint16_t branch,
                                 const uint8_t *config, size_t config_length, uint8_t *out, size_t out_length, uint8_t *journal,
                                 size_t journal_length);
uint8_t sock_check_start_small(const uint8_t *config, size_t config_length);
uint8_t sock_check_readable_small(const uint8_t *config, size_t config_length);

/* As sock_take_step, sock_note_step, sock_test_start and sock_test_readable. */
static inline struct sock_step_answer sock_take_step_small(struct sock_move move, const uint8_t *config, size_t config_length,
                                                           uint8_t *out, size_t out_length)
{
    if (sock_overlap(config, config_length, out, out_length))
        return sock_step_overlaps();
    return sock_step_parts(sock_step_small(move.engine, move.position, move.second, move.second_position, move.branch, config,
                                           config_length, out, out_length));
}

static inline struct sock_step_answer sock_note_step_small(struct sock_move move, const uint8_t *config, size_t config_length,
                                                           uint8_t *out, size_t out_length, uint8_t *journal, size_t journal_length)
{
    if (sock_overlap(config, config_length, out, out_length) || sock_overlap(config, config_length, journal, journal_length) ||
        sock_overlap(out, out_length, journal, journal_length))
        return sock_step_overlaps();
    return sock_step_parts(sock_step_journal_small(move.engine, move.position, move.second, move.second_position, move.branch, config,
                                                   config_length, out, out_length, journal, journal_length));
}

static inline struct sock_check_answer sock_test_start_small(const uint8_t *config, size_t config_length)
{
    struct sock_check_answer tested = {(enum sock_number)sock_check_start_small(config, config_length)};
    return tested;
}

static inline struct sock_check_answer sock_test_readable_small(const uint8_t *config, size_t config_length)
{
    struct sock_check_answer tested = {(enum sock_number)sock_check_readable_small(config, config_length)};
    return tested;
}

/* ---- Ends: how many waiters, and how many executors and notices, a serial has. SOCK_UNREADABLE, or SOCK_UNKNOWN_SERIAL. ---- */
uint64_t sock_ends(const uint8_t *config, size_t config_length, uint16_t serial);

/* The parts of sock_ends's answer; its number is sock_number's. */
static inline uint16_t sock_waiters(uint64_t ends) { return (uint16_t)(ends >> 16 & 0xffff); }
static inline uint16_t sock_workers(uint64_t ends) { return (uint16_t)(ends & 0xffff); }

struct sock_ends_answer {
    enum sock_number number;
    uint16_t waiters;
    uint16_t workers; /* executors and notices */
};

static inline struct sock_ends_answer sock_count_ends(const uint8_t *config, size_t config_length, uint16_t serial)
{
    uint64_t ends = sock_ends(config, config_length, serial);
    struct sock_ends_answer counted = {sock_number(ends), sock_waiters(ends), sock_workers(ends)};
    return counted;
}

/* ---- Process of an engine: which part of the configuration it is; empty if unreadable or if there is no such engine. ---- */
uint64_t sock_process(const uint8_t *config, size_t config_length, uint16_t engine);

/* The parts of sock_process's answer, in words from the configuration's start. It has no number: a count of 0 says that there is none. */
static inline uint32_t sock_first(uint64_t process) { return (uint32_t)(process >> 32); }
static inline uint32_t sock_count(uint64_t process) { return (uint32_t)(process & 0xffffffff); }

struct sock_process_answer {
    uint32_t first; /* where it begins */
    uint32_t count; /* its words; 0 if there is none */
};

static inline struct sock_process_answer sock_find_process(const uint8_t *config, size_t config_length, uint16_t engine)
{
    uint64_t process = sock_process(config, config_length, engine);
    struct sock_process_answer found = {sock_first(process), sock_count(process)};
    return found;
}

/* Where the value of an engine's variable (0 to 31) stands, for sock_get_value and sock_put_value: the values stand right before the
 * process. There has to be one, so its count is not 0. */
static inline size_t sock_variable(struct sock_process_answer process, unsigned variable)
{
    return (size_t)process.first - SOCK_VALUE_WORDS + 2 * (size_t)variable;
}

/* ---- Pending: what stands in the way of a throw. ----
 *
 * A fault that climbs out of a side of a par kills the other side, and is refused (SOCK_INSTALLING) while that holds a pending process: an
 * enabled inst, or an enabled scope that is no zombie and has nil body. This call searches the enabled process that `engine` and `position`
 * name, as for a step, and all that is enabled in it, in the order of their words, itself first. It ends at the first pending one and says
 * whether there is one and how many enabled processes were met up to and including it; all of them if there is none. SOCK_UNREADABLE, then
 * SOCK_NOBODY_THERE.
 */
uint64_t sock_pending(uint16_t engine, uint16_t position, const uint8_t *config, size_t config_length);

/* The parts of sock_pending's answer; its number is sock_number's. */
static inline int sock_found(uint64_t pending) { return (int)(pending >> 48 & 0xff); }
static inline uint32_t sock_met(uint64_t pending) { return (uint32_t)(pending & 0xffffffff); }

struct sock_pending_answer {
    enum sock_number number;
    int found;      /* 1: there is a pending process */
    uint32_t count; /* enabled processes up to and including it, all if there is none */
};

static inline struct sock_pending_answer sock_find_pending(uint16_t engine, uint16_t position, const uint8_t *config,
                                                           size_t config_length)
{
    uint64_t pending = sock_pending(engine, position, config, config_length);
    struct sock_pending_answer found = {sock_number(pending), sock_found(pending), sock_met(pending)};
    return found;
}

/* ---- Bill: what the eight client engines owe for water, in cents. ----
 *
 * Numbers have the high byte first. `rates` has 64 numbers of four bytes: for each operation the cents per 1,000 litres, at most 1,000,000.
 * `replies` has three numbers of four bytes for each delivered reply: operation, client engine, litres (without sign). A reply is charged
 * litres times rate divided by 1,000, rounded up to a cent.
 *
 * 0: `totals` begins with eight numbers of eight bytes, each the sum of that engine's charges; the bytes behind keep what they were. An
 * empty list gives eight zeros. SOCK_RATE_TOO_HIGH, also for a rate that no reply uses; then SOCK_LIST_UNFIT: no byte of `totals` has
 * changed.
 */
#define SOCK_REPLIES 65535
#define SOCK_RATE_BYTES 256
#define SOCK_REPLY_BYTES 12
#define SOCK_TOTAL_BYTES 64
uint8_t sock_bill(const uint8_t *rates, size_t rates_length, const uint8_t *replies, size_t replies_length, uint8_t *totals,
                  size_t totals_length);

struct sock_bill_answer {
    enum sock_number number;
    uint64_t totals[SOCK_ENGINES]; /* cents, by client engine; all 0 in a refusal */
};

/* The bill of `count` replies by a whole tariff of SOCK_RATE_BYTES. */
static inline struct sock_bill_answer sock_charge(const uint8_t *rates, const uint8_t *replies, size_t count)
{
    struct sock_bill_answer bill = {SOCK_LIST_UNFIT, {0, 0, 0, 0, 0, 0, 0, 0}};
    uint8_t totals[SOCK_TOTAL_BYTES];
    size_t engine, byte;
    /* The rates are looked at first also where there are too many replies, of which then none is read. */
    size_t lent = count > SOCK_REPLIES ? 0 : count;
    enum sock_number number = (enum sock_number)sock_bill(rates, SOCK_RATE_BYTES, replies, SOCK_REPLY_BYTES * lent, totals, sizeof totals);
    if (number == SOCK_ACCEPTED && lent < count)
        return bill;
    bill.number = number;
    if (number != SOCK_ACCEPTED)
        return bill;
    for (engine = 0; engine < SOCK_ENGINES; engine++)
        for (byte = 0; byte < 8; byte++)
            bill.totals[engine] = bill.totals[engine] << 8 | totals[8 * engine + byte];
    return bill;
}

/* ---- Window: how often each operation ended in a fault, over the last accepted steps. ----
 *
 * A window is SOCK_WINDOW_BYTES bytes: 64 counts, how many entries there are, 1,024 entries, the oldest first (0, or the operation plus 1
 * where a fault was delivered), zeros behind; words of two bytes, the high byte first. Begin with all bytes 0 and hand each answer of
 * sock_step on, with the operation concerned. Bytes past the window's stay.
 *
 * `width` is how many accepted steps the window looks back, 1 to 1,024. It is not stored: the counts are those of the last `width` accepted
 * steps if every answer since the window was empty was handed on with the same width. A wider one takes a window over as it is; a narrower
 * one refuses it if it holds more.
 *
 * `number` and `fault` are the answer's. An answer with a number other than 0 leaves the window as it was. An accepted one enters and, once
 * `width` are held, pushes the oldest out; it counts for its operation if its fault is 1.
 *
 * 0; or SOCK_WINDOW_WIDTH, and no byte has changed: the width is not 1 to 1,024, the operation is above 63, or the window is one that no
 * run of this width gives (also if there are too few bytes). That is tried first, also where the answer was refused.
 */
uint8_t sock_window_next(uint16_t width, uint8_t number, uint8_t fault, uint16_t operation, uint8_t *window, size_t window_length);

/* ---- Faults of an operation in a window. SOCK_WINDOW_WIDTH: an operation above 63, or a window that no run of width 1,024 gives. ---- */
uint64_t sock_window_count(uint16_t operation, const uint8_t *window, size_t window_length);

/* A part of sock_window_count's answer; its number is sock_number's. */
static inline uint16_t sock_faults(uint64_t counted) { return (uint16_t)(counted & 0xffff); }

struct sock_window_answer {
    enum sock_number number;
    uint16_t faults; /* 0 in a refusal */
};

/* Hands the answer of a step on. One that sock_take_step refused for overlap was no step: it leaves the window as it was. */
static inline enum sock_number sock_hand_on(uint16_t width, struct sock_step_answer step, uint16_t operation,
                                            uint8_t *window, size_t window_length)
{
    return (enum sock_number)sock_window_next(width, (uint8_t)step.number, (uint8_t)step.fault, operation, window, window_length);
}

static inline struct sock_window_answer sock_count_faults(uint16_t operation, const uint8_t *window, size_t window_length)
{
    uint64_t counted = sock_window_count(operation, window, window_length);
    struct sock_window_answer faults = {sock_number(counted), sock_faults(counted)};
    return faults;
}

#ifdef __cplusplus
}
#endif

#endif
