/*
 * The timetable engine, as C functions over the caller's memory.
 *
 * Link libtimetable (x86-64 Linux): ./prove builds it, and 'make install' puts
 * it where pkg-config finds it as 'timetable'. Each function is proved to do
 * what its comment says for input of any content and length: it never traps,
 * never runs on, keeps nothing between calls and allocates nothing.
 * timetable.hpp has the same operations for C++.
 *
 * What every function answers, but for timetable_idle_step, which refuses
 * nothing and returns nothing. The result is 0 if the call is accepted, and
 * else the number of the first refusal below, in the order in which the
 * function's comment lists them. On a refusal *value is what the refusal
 * gives, and no other output changes. Inputs, which are const, never change.
 *
 *   no.  when                                                  *value
 *    1   a number is cut short, overlong or too large          offset of its first byte
 *    2   a value is outside its limit                          offset of its first byte
 *    3   a reference to nothing, or a list not ascending       offset of its first byte
 *    4   a counted list is longer than 255                     offset of the constraint's kind
 *    5   lo is above hi, or above the list's length, or        offset of the constraint's kind
 *        shortest above longest
 *    6   bytes are left over                                   offset of the first
 *    7   the bound is above 4,095                              the bound
 *    8   the formula has more than 8,000,000 variables         0
 *    9   an output or a store is too short for the formula     0
 *   10   a timetable or model has the wrong length             length wanted
 *   11   a timetable or model has a byte above 1               offset of the first
 *   12   not a timetable                                       first event that breaks it, from 1
 *   13   a model makes a hard clause false                     lowest id of such a clause
 *   14   a proof's step is misformed                           step, from 1
 *   15   a hint or deletion names a clause that is not live    step
 *   16   a hint, or the ending of the hints, breaks the rule   step
 *   17   a clause that is not empty does not fit the stores    step
 *   18   a proof has no empty clause, or bytes after it        steps read
 *   19   both events of a precedence are one                   offset of the constraint's kind
 *   20   a solver's text has a line of another kind, a         its offset in the text
 *        literal out of range or malformed, or a number
 *        after the 0
 *   21   a variable is missing in a solver's text, or given    lowest such variable, from 1
 *        twice
 *   22   a count, period or window of a calendar breaks its    offset of its first byte; for
 *        rules, or there are more than 125 periods or none     all periods that of the 0
 *
 * What every caller owes. A slice is a pointer and the number of its elements;
 * the pointer is good for that many elements. A pointer to an output is good
 * for one number. No pointer is null (that of an empty slice may be any other
 * pointer), each is aligned for its type, and an output overlaps neither an
 * input nor another output.
 *
 * Threads. Any number of threads may call at once, as long as no two lend the
 * same output or store; inputs may be shared.
 *
 * Stacks. The functions need 1 MiB of stack. A first thread has more on every
 * usual system, but further threads may have less unless they ask for it (128
 * KiB with musl): see pthread_attr_setstacksize.
 */
#ifndef TIMETABLE_H
#define TIMETABLE_H

#include <stddef.h>
#include <stdint.h>

#ifdef __cplusplus
extern "C" {
#endif

/* The version of the library and of this header. */
#define TIMETABLE_VERSION "0.1.0"

/* The refusals by name. */
enum timetable_refusal {
    TIMETABLE_ACCEPTED = 0,
    TIMETABLE_BAD_NUMBER = 1,
    TIMETABLE_OUTSIDE_LIMIT = 2,
    TIMETABLE_BAD_REFERENCE = 3,
    TIMETABLE_LIST_TOO_LONG = 4,
    TIMETABLE_BAD_BOUNDS = 5,
    TIMETABLE_BYTES_LEFT = 6,
    TIMETABLE_BOUND_TOO_HIGH = 7,
    TIMETABLE_TOO_MANY_VARIABLES = 8,
    TIMETABLE_TOO_SHORT = 9,
    TIMETABLE_WRONG_LENGTH = 10,
    TIMETABLE_ABOVE_ONE = 11,
    TIMETABLE_NOT_A_TIMETABLE = 12,
    TIMETABLE_CLAUSE_FALSE = 13,
    TIMETABLE_BAD_STEP = 14,
    TIMETABLE_NOT_LIVE = 15,
    TIMETABLE_BAD_HINT = 16,
    TIMETABLE_CLAUSE_TOO_LONG = 17,
    TIMETABLE_BAD_END = 18,
    TIMETABLE_SAME_EVENT = 19,
    TIMETABLE_BAD_SOLVER_TEXT = 20,
    TIMETABLE_NOT_GIVEN_ONCE = 21,
    TIMETABLE_BAD_CALENDAR = 22
};

/* The limits of an instance. */
#define TIMETABLE_MOST_TIMES 125
#define TIMETABLE_MOST_EVENTS 1024
#define TIMETABLE_MOST_RESOURCES 99
/* Of the groups that are written out; windows are groups too. */
#define TIMETABLE_MOST_GROUPS 1024
#define TIMETABLE_MOST_CONSTRAINTS 4096
#define TIMETABLE_LARGEST_WEIGHT 1000
/* Of a constraint's lo and hi. */
#define TIMETABLE_LARGEST_BOUND_OF_COUNT 255
/* Of a precedence's lo and hi. */
#define TIMETABLE_LARGEST_GAP 124
#define TIMETABLE_LONGEST_LIST 255

/* The limits of a calendar: its days, a day's periods, a day's minutes. */
#define TIMETABLE_DAYS 7
#define TIMETABLE_MOST_PERIODS 24
#define TIMETABLE_LAST_MINUTE 1440
#define TIMETABLE_MOST_WINDOWS 1024

/* The limits of a check's bound and of a formula. */
#define TIMETABLE_LARGEST_BOUND 4095
#define TIMETABLE_MOST_VARIABLES 8000000

/*
 * Reads an instance file. It gives the number of times, or a 0 and a calendar:
 * for each of seven days a count and its periods, each a start and an end in
 * minutes, which the times number day by day. After its time groups stand the
 * windows of a calendar, a count and each: a day from 1 to 7, from and to. A
 * window is the group of that day's periods that start at from or later and end
 * at to or earlier; windows are numbered on from the time groups.
 * Refusals: 1 to 6, 19 and 22, by their places in the file, 19 before 5; 22 in
 * place of 2 inside calendar and windows, and for the number of all periods
 * after the last day.
 * Accepted: *times, *events, *resources, *groups and *constraints are how many
 * of each the instance has, with the periods of a calendar as times and windows
 * among the groups; *value is left alone.
 */
uint32_t timetable_read(const uint8_t *file, size_t file_length,
                        uint64_t *times, uint64_t *events,
                        uint64_t *resources, uint64_t *groups,
                        uint64_t *constraints, uint64_t *value);

/*
 * What a proof check needs of the caller's stores at a bound: the sizes of the
 * hard clauses and the tail for the bound.
 * Refusals: 1 to 6, 19 and 22 for the file, then 7, then 8, the tail included.
 * Accepted: *variables is how many variables there are, *clauses how many
 * clauses, and *words how many literals they have; *value is left alone.
 */
uint32_t timetable_sizes(const uint8_t *file, size_t file_length,
                         uint64_t bound, uint64_t *variables,
                         uint64_t *clauses, uint64_t *words,
                         uint64_t *value);

/*
 * The score of a timetable: E x T bytes "taken", then E x T bytes "starts".
 * Refusals: 1 to 6, 19 and 22 for the file, then 10 to 12 for the timetable.
 * Accepted: *infeasibility is the sum of the deviations of hard constraints,
 * and *objective, the cost, the sum of weight x deviation of the others;
 * *value is left alone.
 */
uint32_t timetable_score(const uint8_t *file, size_t file_length,
                         const uint8_t *table, size_t table_length,
                         uint64_t *infeasibility, uint64_t *objective,
                         uint64_t *value);

/*
 * Counts idle times (kind 8) while a row is drawn from left to right: a step
 * for each member of a group. used is whether that member has X, which is that
 * some event with the resource takes it. Three numbers are kept from step to
 * step, all 0 at the start of each group:
 *   idle   how many members so far are idle
 *   since  how many members came after the last with X, 0 while none had X
 *   seen   whether some member had X, 0 or 1
 * After each member *next_idle is the number of idle times in the group cut
 * off there: free times at the end of what is drawn are not idle yet. Members
 * with X 0 1 0 0 1 0 keep 0 0 0 0 2 2. Kind 8's count is the sum over its
 * groups of what is kept at their ends.
 * No value is refused: seen and used are no if 0, and else yes. All three
 * outputs are always written; *next_idle, *next_since and *next_seen are
 *   idle + since, 0, 1   if used,
 *   idle, since + 1, 1   if seen and not used,
 *   idle, since, 0       if neither.
 * A sum above 4294967295 is given as 4294967295; a walk of fewer than 2^32
 * members from 0, 0, 0 has none. The outputs may be the variables whose values
 * are given:
 * timetable_idle_step(idle, since, seen, used, &idle, &since, &seen).
 */
void timetable_idle_step(uint32_t idle, uint32_t since, uint32_t seen,
                         uint32_t used, uint32_t *next_idle,
                         uint32_t *next_since, uint32_t *next_seen);

/*
 * Whether two timetables are the same sheet: whether their bytes "taken" agree.
 * Refusals: 1 to 6, 19 and 22 for the file, then 10 to 12 for the first
 * timetable, then 10 to 12 for the second.
 * Accepted: *value is 1 if they are the same sheet, and 0 if they are not.
 */
uint32_t timetable_same_sheet(const uint8_t *file, size_t file_length,
                              const uint8_t *first, size_t first_length,
                              const uint8_t *second, size_t second_length,
                              uint64_t *value);

/*
 * How long the clauses are as text for solvers, in the older "p wcnf" form.
 * Refusals: 1 to 6, 19 and 22 for the file, then 8.
 * Accepted: *bytes is the text's length; *value is left alone.
 */
uint32_t timetable_text_size(const uint8_t *file, size_t file_length,
                             uint64_t *bytes, uint64_t *value);

/*
 * Writes the clauses as text for solvers to the front of out.
 * Refusals: 1 to 6, 19 and 22 for the file, then 8, then 9 if out is shorter
 * than the text.
 * Accepted: *value is the text's length; the bytes of out after it are left
 * alone.
 */
uint32_t timetable_text(const uint8_t *file, size_t file_length, uint8_t *out,
                        size_t out_length, uint64_t *value);

/*
 * Reads the timetable and its cost out of a model: a byte, 0 or 1, for each
 * variable of the clauses without the tail.
 * Refusals: 1 to 6, 19 and 22 for the file, then 8, then 10, 11 and 13 for the
 * model.
 * Accepted: *objective is the weight of the soft clauses that the model
 * falsifies, which is the timetable's cost, and *value is how many bytes of
 * the model, from its first, are the timetable.
 */
uint32_t timetable_decode(const uint8_t *file, size_t file_length,
                          const uint8_t *model, size_t model_length,
                          uint64_t *objective, uint64_t *value);

/*
 * Reads what a solver printed into a model, and decodes that model.
 * The text has the older form of the MaxSAT evaluations: each line begins with
 * c, s, o or v and ends in byte 10 or with the text. Lines c, s and o are passed
 * over. The lines v together give one literal for each variable of the clauses
 * without the tail, and may close with a 0, after which no number follows. One
 * or more spaces (byte 32) stand before each literal, and spaces may end a line.
 * A literal is the variable's number, from 1 on, without leading zeros, with a
 * minus if the variable is false.
 * The model has exactly a byte for each variable; store is a working store with
 * a byte for each variable, and longer is no fault. What the two hold before the
 * call does not matter; after it, whatever it answers, every byte of store is
 * zero.
 * Refusals: 1 to 6, 19 and 22 for the file, then 8, then 9 if store is too
 * short, then 10 for the model's length, then 20 and 21 for the text, then 13
 * for the model that it gives. 20 gives where the line or the number begins,
 * or the offset after a v that no space follows; an empty line is one of
 * another kind. 21 comes after the last line.
 * Accepted: byte v - 1 of the model is 1 if the literal v was given, and 0 if
 * -v was; *objective is the model's cost, and *value is how many bytes of the
 * model, from its first, are the timetable.
 */
uint32_t timetable_solver_text(const uint8_t *file, size_t file_length,
                               const uint8_t *text, size_t text_length,
                               uint8_t *model, size_t model_length,
                               uint8_t *store, size_t store_length,
                               uint64_t *objective, uint64_t *value);

/*
 * A row of timetable_check's directory of clauses, 16 bytes: the clause's id,
 * where its first word stands in a block of 2^32 words, its length, and whether
 * it is live: 0 if it is not, else 1 and the number of that block, from 0 on.
 */
struct timetable_row {
    uint32_t id;
    uint32_t first;
    uint32_t length;
    uint32_t live;
};

/*
 * Checks a proof that no timetable keeps the hard constraints at a cost of
 * bound or less.
 * The stores: a word for each literal, a row for each clause and a mark for
 * each variable. timetable_sizes says how many of each the formula needs, and
 * timetable_room what the proof adds: each of its clauses that is not empty
 * needs a row, and a word for each of its literals. What the stores hold before the call does not matter; after it,
 * whatever it answers, every word, mark and field of a row is zero.
 * Refusals: 1 to 6, 19 and 22 for the file, then 7, then 8, then 9 if a store
 * is too short for the formula, then 14 to 18 for the proof, step by step.
 * Accepted, which is the answer "no timetable": *value is the number of steps.
 */
uint32_t timetable_check(const uint8_t *file, size_t file_length,
                         uint64_t bound, const uint8_t *proof,
                         size_t proof_length, uint32_t *words,
                         size_t words_length, struct timetable_row *rows,
                         size_t rows_length, uint8_t *marks,
                         size_t marks_length, uint64_t *value);

/*
 * Checks a proof that no timetable keeps the hard constraints, whatever it
 * costs: one against the hard clauses alone, without the tail.
 * The stores are as for timetable_check. The hard clauses need no more than
 * timetable_sizes says at bound 0.
 * Refusals: 1 to 6, 19 and 22 for the file, then 8 without the tail, then 9 if
 * a store is too short for the hard clauses, then 14 to 18 for the proof, step
 * by step.
 * Accepted, which is the answer "no timetable": *value is the number of steps.
 */
uint32_t timetable_check_hard(const uint8_t *file, size_t file_length,
                              const uint8_t *proof, size_t proof_length,
                              uint32_t *words, size_t words_length,
                              struct timetable_row *rows, size_t rows_length,
                              uint8_t *marks, size_t marks_length,
                              uint64_t *value);

/*
 * Whether a model is the best: it is decoded, and if it costs more than 0 the
 * proof is checked at the bound one below its cost.
 * The stores are as for timetable_check at that bound; a model that costs 0
 * needs none.
 * Refusals: those of timetable_decode, then those of timetable_check at that
 * bound, 7 for a cost above 4096 among them.
 * Accepted: *objective is the model's cost, no timetable that keeps the hard
 * constraints costs less, and *value is the number of steps of the proof, 0 at
 * cost 0.
 */
uint32_t timetable_best(const uint8_t *file, size_t file_length,
                        const uint8_t *model, size_t model_length,
                        const uint8_t *proof, size_t proof_length,
                        uint32_t *words, size_t words_length,
                        struct timetable_row *rows, size_t rows_length,
                        uint8_t *marks, size_t marks_length,
                        uint64_t *objective, uint64_t *value);

/* The offset after the number at the offset at, whatever its form. */
static inline size_t timetable_number_end(const uint8_t *proof,
                                          size_t proof_length, size_t at)
{
    while (at < proof_length && proof[at] >= 0x80)
        at++;
    return at < proof_length ? at + 1 : at;
}

/*
 * The offset after the list at the offset at; *members is how many numbers
 * stand before the 0 that ends it.
 */
static inline size_t timetable_list_end(const uint8_t *proof,
                                        size_t proof_length, size_t at,
                                        size_t *members)
{
    *members = 0;
    while (at < proof_length && proof[at] != 0) {
        at = timetable_number_end(proof, proof_length, at);
        ++*members;
    }
    return at < proof_length ? at + 1 : at;
}

/*
 * What a proof adds to the stores: *words is how many literals its clauses
 * have, and *rows how many of them are not empty, up to the first step that is
 * misformed. A check with room for the formula and for these gives neither 9
 * nor 17. One pass over the proof, in the caller's own code: a miscount here
 * could earn 17, and no other answer.
 */
static inline void timetable_room(const uint8_t *proof, size_t proof_length,
                                  size_t *words, size_t *rows)
{
    size_t at = 0;
    *words = 0;
    *rows = 0;
    while (at < proof_length && (proof[at] == 'a' || proof[at] == 'd')) {
        size_t literals = 0, hints;
        if (proof[at++] == 'a') {
            at = timetable_number_end(proof, proof_length, at);
            at = timetable_list_end(proof, proof_length, at, &literals);
        }
        at = timetable_list_end(proof, proof_length, at, &hints);
        *words += literals;
        *rows += literals > 0;
    }
}

#ifdef __cplusplus
}
#endif

#endif
