/* Calls each function of the header, accepted and refused, and compares every output. */
#include "timetable.h"

#include <stdio.h>
#include <stdlib.h>
#include <string.h>

/* One time, one event, an empty group, kind 3 at weight 4. */
static const uint8_t file[] = {1, 1, 0, 1, 0, 1, 0, 1, 3, 4, 1, 1};

/* The event at the time, and the event nowhere. */
static const uint8_t table[] = {1, 1};
static const uint8_t no_table[] = {0, 0};

/* The model of the event at the time, and one that falsifies clause 6. */
static const uint8_t model[] = {1, 1, 1, 1};
static const uint8_t no_model[] = {1, 1, 1, 0};

/* A refutation at bound 3. */
static const uint8_t proof[] = {0x61, 0x11, 0, 5, 4, 2, 6, 0x0e, 0x10, 0};

static const char text[] =
    "p wcnf 4 8 5\n5 1 -2 0\n5 -1 2 0\n5 -1 3 0\n5 1 -3 0\n5 3 0\n"
    "5 -2 4 0\n5 2 -4 0\n4 -4 0\n";

/* What stands in an output that is left alone. */
static const uint64_t kept = 77;

static int failures = 0;

static void expect(const char *what, uint64_t found, uint64_t wanted)
{
    if (found != wanted) {
        printf("%s: %llu, not %llu\n", what, (unsigned long long)found,
               (unsigned long long)wanted);
        failures++;
    }
}

static void read_accepted(void)
{
    uint64_t times = kept, events = kept, resources = kept, groups = kept;
    uint64_t constraints = kept, value = kept;
    uint32_t number = timetable_read(file, sizeof file, &times, &events, &resources,
                                     &groups, &constraints, &value);
    expect("read", number, 0);
    expect("times", times, 1);
    expect("events", events, 1);
    expect("resources", resources, 0);
    expect("groups", groups, 1);
    expect("constraints", constraints, 1);
    expect("value", value, kept);
}

static void read_refused(void)
{
    uint64_t times = kept, events = kept, resources = kept, groups = kept;
    uint64_t constraints = kept, value = kept;
    /* Cut before the last number. */
    uint32_t number = timetable_read(file, sizeof file - 1, &times, &events, &resources,
                                     &groups, &constraints, &value);
    expect("read, cut", number, 1);
    expect("value, cut", value, sizeof file - 1);
    expect("times, cut", times, kept);
    expect("events, cut", events, kept);
    expect("resources, cut", resources, kept);
    expect("groups, cut", groups, kept);
    expect("constraints, cut", constraints, kept);
}

/* Kind 11 of event 1 before event 1: two events that are one. */
static void read_same_event(void)
{
    static const uint8_t same[] = { 1, 2, 0, 1, 0, 1, 0, 0, 1, 11, 0, 1, 1, 0, 0 };
    uint64_t times = kept, events = kept, resources = kept, groups = kept;
    uint64_t constraints = kept, value = kept;
    uint32_t number = timetable_read(same, sizeof same, &times, &events, &resources,
                                     &groups, &constraints, &value);
    expect("read, events that are one", number, TIMETABLE_SAME_EVENT);
    expect("number, events that are one", number, 19);
    expect("value, events that are one", value, 9);
    expect("times, events that are one", times, kept);
    expect("constraints, events that are one", constraints, kept);
}

/*
 * Day 1 with periods from 480 to 525 and from 530 to 575, no other day; one event of
 * duration 1; a window of day 1 from 480 to 525, which is group 1; kind 3 of the event
 * and that group at weight 4.
 */
static const uint8_t week[] = {0,    2, 0xe0, 3, 0x8d, 4, 0x92, 4, 0xbf, 4, 0, 0,
                               0,    0, 0,    0, 1,    0, 1,    0, 0,    1, 1, 0xe0,
                               3, 0x8d, 4,    1, 3,    4, 1,    1};

static void read_calendar(void)
{
    uint64_t times = kept, events = kept, resources = kept, groups = kept;
    uint64_t constraints = kept, value = kept;
    uint32_t number = timetable_read(week, sizeof week, &times, &events, &resources,
                                     &groups, &constraints, &value);
    expect("read, a calendar", number, 0);
    expect("times, a calendar", times, 2);
    expect("events, a calendar", events, 1);
    expect("resources, a calendar", resources, 0);
    expect("groups, a calendar", groups, 1);
    expect("constraints, a calendar", constraints, 1);
    expect("value, a calendar", value, kept);
}

/* The first period's part of the day costs nothing, the second's the weight. */
static void scored_calendar(void)
{
    static const uint8_t tables[2][4] = {{1, 0, 1, 0}, {0, 1, 0, 1}};
    size_t i;
    for (i = 0; i < 2; i++) {
        uint64_t infeasibility = kept, objective = kept, value = kept;
        uint32_t number = timetable_score(week, sizeof week, tables[i], sizeof tables[i],
                                          &infeasibility, &objective, &value);
        expect("score, a calendar", number, 0);
        expect("infeasibility, a calendar", infeasibility, 0);
        expect("objective, a calendar", objective, 4 * i);
        expect("value, a calendar, scored", value, kept);
    }
}

/* A byte of the calendar changed, and what is refused. */
struct damage {
    size_t at;
    uint8_t byte;
    uint32_t number;
    uint64_t value;
};

static void calendar_refused(void)
{
    static const struct damage damages[] = {
        {1, 25, TIMETABLE_BAD_CALENDAR, 1},      /* 25 periods */
        {3, 0, TIMETABLE_BAD_NUMBER, 2},         /* overlong */
        {3, 12, TIMETABLE_BAD_CALENDAR, 2},      /* a start of 1632 */
        {5, 12, TIMETABLE_BAD_CALENDAR, 2},      /* an end of 1549 */
        {5, 3, TIMETABLE_BAD_CALENDAR, 2},       /* an end of 397 */
        {6, 0x8c, TIMETABLE_BAD_CALENDAR, 6},    /* a start of 524 */
        {10, 24, TIMETABLE_BAD_CALENDAR, 11},    /* 0 to 0, on day 2 */
        {18, 3, TIMETABLE_OUTSIDE_LIMIT, 18},    /* a duration of 3 */
        {22, 0, TIMETABLE_BAD_CALENDAR, 22},     /* day 0 */
        {22, 8, TIMETABLE_BAD_CALENDAR, 22},     /* day 8 */
        {26, 12, TIMETABLE_BAD_CALENDAR, 22},    /* up to 1549 */
        {31, 2, TIMETABLE_BAD_REFERENCE, 31},    /* group 2 */
    };
    static const uint8_t none[] = {0, 0, 0, 0, 0, 0, 0, 0, 1, 0};
    uint64_t times = kept, events = kept, resources = kept, groups = kept;
    uint64_t constraints = kept, value = kept;
    uint32_t number;
    size_t i;
    for (i = 0; i < sizeof damages / sizeof *damages; i++) {
        uint8_t damaged[sizeof week];
        memcpy(damaged, week, sizeof week);
        damaged[damages[i].at] = damages[i].byte;
        value = kept;
        number = timetable_read(damaged, sizeof damaged, &times, &events, &resources,
                                &groups, &constraints, &value);
        expect("read, a damaged calendar", number, damages[i].number);
        expect("value, a damaged calendar", value, damages[i].value);
        expect("times, a damaged calendar", times, kept);
        expect("groups, a damaged calendar", groups, kept);
    }
    number = timetable_read(none, sizeof none, &times, &events, &resources, &groups,
                            &constraints, &value);
    expect("read, a calendar without periods", number, 22);
    expect("value, a calendar without periods", value, 0);
}

static void sized(void)
{
    uint64_t variables = kept, clauses = kept, words = kept, value = kept;
    uint32_t number = timetable_sizes(file, sizeof file, 3, &variables, &clauses,
                                      &words, &value);
    expect("sizes", number, 0);
    expect("variables", variables, 8);
    expect("clauses", clauses, 16);
    expect("words", words, 30);
    expect("value, sizes", value, kept);
}

static void sizes_refused(void)
{
    uint64_t variables = kept, clauses = kept, words = kept, value = kept;
    uint32_t number = timetable_sizes(file, sizeof file, 4096, &variables, &clauses,
                                      &words, &value);
    expect("sizes, bound too high", number, 7);
    expect("value, bound too high", value, 4096);
    expect("variables, bound too high", variables, kept);
    expect("clauses, bound too high", clauses, kept);
    expect("words, bound too high", words, kept);
}

static void scored(void)
{
    uint64_t infeasibility = kept, objective = kept, value = kept;
    uint32_t number = timetable_score(file, sizeof file, table, sizeof table,
                                      &infeasibility, &objective, &value);
    expect("score", number, 0);
    expect("infeasibility", infeasibility, 0);
    expect("objective", objective, 4);
    expect("value, scored", value, kept);
}

static void score_refused(void)
{
    uint64_t infeasibility = kept, objective = kept, value = kept;
    uint32_t number = timetable_score(file, sizeof file, no_table, sizeof no_table,
                                      &infeasibility, &objective, &value);
    expect("score, no timetable", number, 12);
    expect("value, no timetable", value, 1);
    expect("infeasibility, no timetable", infeasibility, kept);
    expect("objective, no timetable", objective, kept);
}

/* idle, since and seen before a step, and after it. */
struct step {
    uint32_t before[3], used, after[3];
};

static void expect_kept(const char *what, const uint32_t found[3], const uint32_t wanted[3])
{
    int i;
    for (i = 0; i < 3; i++)
        expect(what, found[i], wanted[i]);
}

/* Takes the step with outputs of its own, then with the numbers that it is given. */
static void stepped(const struct step *step)
{
    uint32_t next[5] = {77, 77, 77, 77, 77};
    uint32_t own[3];
    memcpy(own, step->before, sizeof own);
    timetable_idle_step(own[0], own[1], own[2], step->used, &next[1], &next[2], &next[3]);
    expect_kept("idle step", &next[1], step->after);
    expect("before the outputs of a step", next[0], 77);
    expect("after the outputs of a step", next[4], 77);
    expect_kept("numbers of an idle step", own, step->before);
    timetable_idle_step(own[0], own[1], own[2], step->used, &own[0], &own[1], &own[2]);
    expect_kept("idle step in place", own, step->after);
}

/* Members with X 0 1 0 0 1 0. */
static const struct step members[] = {
    {{0, 0, 0}, 0, {0, 0, 0}}, {{0, 0, 0}, 1, {0, 0, 1}}, {{0, 0, 1}, 0, {0, 1, 1}},
    {{0, 1, 1}, 0, {0, 2, 1}}, {{0, 2, 1}, 1, {2, 0, 1}}, {{2, 0, 1}, 0, {2, 1, 1}},
};

static void drawn(void)
{
    size_t i;
    for (i = 0; i < sizeof members / sizeof *members; i++)
        stepped(&members[i]);
}

/* The same, with three numbers that each step writes over. */
static void drawn_in_place(void)
{
    uint32_t idle = 0, since = 0, seen = 0;
    size_t i;
    for (i = 0; i < sizeof members / sizeof *members; i++) {
        timetable_idle_step(idle, since, seen, members[i].used, &idle, &since, &seen);
        expect("idle, drawn", idle, members[i].after[0]);
        expect("since, drawn", since, members[i].after[1]);
        expect("seen, drawn", seen, members[i].after[2]);
    }
}

/* Numbers that no walk keeps: yes by other values than 1, and sums that do not fit. */
static void steps_of_any_value(void)
{
    static const uint32_t most = 4294967295u;
    const struct step steps[] = {
        {{7, 3, 9}, 0, {7, 4, 1}},
        {{7, 3, 9}, 1, {10, 0, 1}},
        {{7, 3, 256}, 0, {7, 4, 1}},
        {{7, 3, most}, 1, {10, 0, 1}},
        {{7, 3, 1}, 256, {10, 0, 1}},
        {{7, 3, 0}, most, {10, 0, 1}},
        {{0, 5, 0}, 0, {0, 5, 0}},
        {{0, 5, 0}, 1, {5, 0, 1}},
        {{most - 1, 1, 1}, 1, {most, 0, 1}},
        {{most, 1, 1}, 1, {most, 0, 1}},
        {{most, most, 0}, 2, {most, 0, 1}},
        {{5, most - 4, 0}, 1, {most, 0, 1}},
        {{5, most - 1, 2}, 0, {5, most, 1}},
        {{5, most, 1}, 0, {5, most, 1}},
        {{5, most, 0}, 0, {5, most, 0}},
        {{most, 0, 1}, 0, {most, 1, 1}},
    };
    size_t i;
    for (i = 0; i < sizeof steps / sizeof *steps; i++)
        stepped(&steps[i]);
}

static void same_sheet(void)
{
    uint64_t value = kept;
    uint32_t number = timetable_same_sheet(file, sizeof file, table, sizeof table,
                                           table, sizeof table, &value);
    expect("same sheet", number, 0);
    expect("value, same sheet", value, 1);
    number = timetable_same_sheet(file, sizeof file, table, sizeof table,
                                  no_table, 1, &value);
    expect("same sheet, cut", number, 10);
    expect("value, same sheet, cut", value, 2);
}

static void text_sized(void)
{
    uint64_t bytes = kept, value = kept;
    uint32_t number = timetable_text_size(file, sizeof file, &bytes, &value);
    expect("text size", number, 0);
    expect("bytes", bytes, sizeof text - 1);
    expect("value, text size", value, kept);
    bytes = kept;
    number = timetable_text_size(file, 0, &bytes, &value);
    expect("text size, no file", number, 1);
    expect("value, text size, no file", value, 0);
    expect("bytes, no file", bytes, kept);
}

static void written(void)
{
    uint8_t out[sizeof text + 1];
    uint64_t value = kept;
    uint32_t number;
    memset(out, 7, sizeof out);
    number = timetable_text(file, sizeof file, out, sizeof text - 2, &value);
    expect("text, short", number, 9);
    expect("value, text, short", value, 0);
    expect("first byte, short", out[0], 7);
    number = timetable_text(file, sizeof file, out, sizeof out, &value);
    expect("text", number, 0);
    expect("value, text", value, sizeof text - 1);
    expect("text's bytes", memcmp(out, text, sizeof text - 1) == 0, 1);
    expect("byte after the text", out[sizeof text - 1], 7);
    expect("last byte", out[sizeof text], 7);
}

static void decoded(void)
{
    uint64_t objective = kept, value = kept;
    uint32_t number = timetable_decode(file, sizeof file, model, sizeof model,
                                       &objective, &value);
    expect("decode", number, 0);
    expect("objective, decoded", objective, 4);
    expect("value, decoded", value, sizeof table);
    objective = kept;
    number = timetable_decode(file, sizeof file, no_model, sizeof no_model,
                              &objective, &value);
    expect("decode, no model", number, 13);
    expect("value, no model", value, 6);
    expect("objective, no model", objective, kept);
}

/* A text, the lengths of the model and the store that are lent, and what is answered. */
struct reading {
    const char *text;
    size_t model_length, store_length;
    uint32_t number;
    uint64_t value;
};

/* Over the four variables of the file; the first is the text of its model. */
static const struct reading readings[] = {
    {"v 1 2 3 4 0\n", 4, 4, TIMETABLE_ACCEPTED, 2},
    {"c x\ns OPTIMUM FOUND\no 4\nv 4  3 \nv\nv 2 1", 4, 9, TIMETABLE_ACCEPTED, 2},
    {"x", 3, 3, TIMETABLE_TOO_SHORT, 0},
    {"x", 4, 0, TIMETABLE_TOO_SHORT, 0},
    {"x", 3, 4, TIMETABLE_WRONG_LENGTH, 4},
    {"x", 5, 9, TIMETABLE_WRONG_LENGTH, 4},
    {"x", 4, 9, TIMETABLE_BAD_SOLVER_TEXT, 0},
    {"v 1 2 3 4\n\n", 4, 4, TIMETABLE_BAD_SOLVER_TEXT, 10},
    {"v1 2 3 4", 4, 4, TIMETABLE_BAD_SOLVER_TEXT, 1},
    {"v 1 02 3 4", 4, 4, TIMETABLE_BAD_SOLVER_TEXT, 4},
    {"v 1 1 5", 4, 4, TIMETABLE_BAD_SOLVER_TEXT, 6},
    {"v 1 2 3 0\nv 4 0", 4, 4, TIMETABLE_BAD_SOLVER_TEXT, 12},
    {"", 4, 4, TIMETABLE_NOT_GIVEN_ONCE, 1},
    {"v 1 1 2 3 4", 4, 4, TIMETABLE_NOT_GIVEN_ONCE, 1},
    {"v 1 3 -3 4", 4, 4, TIMETABLE_NOT_GIVEN_ONCE, 2},
    {"v -1 2 3 4", 4, 4, TIMETABLE_CLAUSE_FALSE, 1},
    {"v 1 2 3 -4", 4, 4, TIMETABLE_CLAUSE_FALSE, 6},
};

/* Lends a model and a store filled with other bytes, and looks at every byte of both. */
static void read_text(const struct reading *reading)
{
    uint8_t found[9], store[10];
    uint64_t objective = kept, value = kept;
    uint32_t number;
    size_t i;
    memset(found, 7, sizeof found);
    memset(store, 7, sizeof store);
    number = timetable_solver_text(file, sizeof file, (const uint8_t *)reading->text,
                                   strlen(reading->text), found, reading->model_length,
                                   store, reading->store_length, &objective, &value);
    expect(reading->text, number, reading->number);
    expect("value, solver's text", value, reading->value);
    expect("objective, solver's text", objective, number == TIMETABLE_ACCEPTED ? 4 : kept);
    for (i = 0; i < sizeof found; i++)
        expect("byte of a model that is read", found[i],
               number == TIMETABLE_ACCEPTED && i < sizeof model ? model[i] : 7);
    for (i = 0; i < sizeof store; i++)
        expect("byte of a store", store[i], i < reading->store_length ? 0 : 7);
}

static void texts_read(void)
{
    uint8_t found[4] = {7, 7, 7, 7}, store[4] = {7, 7, 7, 7};
    uint64_t objective = kept, value = kept;
    uint32_t number;
    size_t i;
    for (i = 0; i < sizeof readings / sizeof *readings; i++)
        read_text(&readings[i]);
    /* The file's faults come first, and the store is zero then too. */
    number = timetable_solver_text(file, sizeof file - 1, (const uint8_t *)"x", 1, found, 4,
                                   store, 4, &objective, &value);
    expect("solver's text, file cut", number, TIMETABLE_BAD_NUMBER);
    expect("value, solver's text, file cut", value, sizeof file - 1);
    expect("objective, solver's text, file cut", objective, kept);
    for (i = 0; i < 4; i++) {
        expect("model, file cut", found[i], 7);
        expect("store, file cut", store[i], 0);
    }
    expect("number of a bad text", TIMETABLE_BAD_SOLVER_TEXT, 20);
    expect("number of a variable not given once", TIMETABLE_NOT_GIVEN_ONCE, 21);
}

/* The stores that the formula at bound 3 needs. */
static uint32_t words[30];
static struct timetable_row rows[16];
static uint8_t marks[8];

static void fill_stores(void)
{
    memset(words, 255, sizeof words);
    memset(rows, 255, sizeof rows);
    memset(marks, 255, sizeof marks);
}

static uint32_t check_at(uint64_t bound, uint64_t *value)
{
    fill_stores();
    return timetable_check(file, sizeof file, bound, proof, sizeof proof, words,
                           sizeof words / sizeof *words, rows,
                           sizeof rows / sizeof *rows, marks, sizeof marks, value);
}

static void stores_are_zero(void)
{
    size_t i;
    for (i = 0; i < sizeof words / sizeof *words; i++)
        expect("word", words[i], 0);
    for (i = 0; i < sizeof rows / sizeof *rows; i++) {
        expect("id of a row", rows[i].id, 0);
        expect("first word of a row", rows[i].first, 0);
        expect("length of a row", rows[i].length, 0);
        expect("live of a row", rows[i].live, 0);
    }
    for (i = 0; i < sizeof marks; i++)
        expect("mark", marks[i], 0);
}

static void checked(void)
{
    uint64_t value = kept;
    expect("check", check_at(3, &value), 0);
    expect("value, check", value, 1);
    stores_are_zero();
    expect("check at the cost", check_at(4, &value), 9);
    expect("value, check at the cost", value, 0);
    stores_are_zero();
    expect("check below", check_at(2, &value), 15);
    expect("value, check below", value, 1);
    stores_are_zero();
}

/* The same file with its constraint hard, which no timetable keeps. */
static void checked_hard(void)
{
    static const uint8_t hard[] = {1, 1, 0, 1, 0, 1, 0, 1, 3, 0, 1, 1};
    static const uint8_t refutation[] = {'a', 9, 0, 5, 4, 2, 6, 8, 0};
    uint64_t value = kept;
    fill_stores();
    expect("check without the tail",
           timetable_check_hard(hard, sizeof hard, refutation, sizeof refutation, words,
                                sizeof words / sizeof *words, rows,
                                sizeof rows / sizeof *rows, marks, sizeof marks, &value),
           0);
    expect("value, check without the tail", value, 1);
    stores_are_zero();
    fill_stores();
    expect("a proof at bound 3 without the tail",
           timetable_check_hard(file, sizeof file, proof, sizeof proof, words,
                                sizeof words / sizeof *words, rows,
                                sizeof rows / sizeof *rows, marks, sizeof marks, &value),
           15);
    expect("value, a proof at bound 3 without the tail", value, 1);
    stores_are_zero();
}

static uint32_t best_of(const uint8_t *found, size_t length, uint64_t *objective,
                        uint64_t *value)
{
    fill_stores();
    return timetable_best(file, sizeof file, found, length, proof, sizeof proof, words,
                          sizeof words / sizeof *words, rows, sizeof rows / sizeof *rows,
                          marks, sizeof marks, objective, value);
}

static void found_best(void)
{
    uint64_t objective = kept, value = kept;
    expect("best", best_of(model, sizeof model, &objective, &value), 0);
    expect("objective, best", objective, 4);
    expect("value, best", value, 1);
    stores_are_zero();
    objective = kept;
    expect("best, no model", best_of(no_model, sizeof no_model, &objective, &value), 13);
    expect("objective, best, no model", objective, kept);
    expect("value, best, no model", value, 6);
    stores_are_zero();
}

/* What proofs add to the stores. */
static void room_counted(void)
{
    /* (3) and (-1, 4 over two bytes); a deletion; the empty clause. */
    static const uint8_t steps[] = {'a', 17, 6, 0, 5, 0, 'a', 0x92, 1, 3, 0x88, 1, 0, 4,
                                    0, 'd', 5, 6, 0, 'a', 19, 0, 17, 4, 0};
    size_t added_words = 99, added_rows = 99, length;
    timetable_room(steps, sizeof steps, &added_words, &added_rows);
    expect("words added", added_words, 3);
    expect("rows added", added_rows, 2);
    timetable_room(proof, sizeof proof, &added_words, &added_rows);
    expect("words of an empty clause", added_words, 0);
    expect("rows of an empty clause", added_rows, 0);
    /* Nothing is read past the end, wherever a proof is cut. */
    for (length = 0; length <= sizeof steps; length++) {
        uint8_t *cut = (uint8_t *)malloc(length + 1);
        memcpy(cut + 1, steps, length);
        timetable_room(cut + 1, length, &added_words, &added_rows);
        expect("words of a cut proof are few", added_words <= 3, 1);
        expect("rows of a cut proof are few", added_rows <= 2, 1);
        free(cut);
    }
}

int main(void)
{
    read_accepted();
    read_refused();
    read_same_event();
    read_calendar();
    scored_calendar();
    calendar_refused();
    sized();
    sizes_refused();
    scored();
    score_refused();
    drawn();
    drawn_in_place();
    steps_of_any_value();
    same_sheet();
    text_sized();
    written();
    decoded();
    texts_read();
    checked();
    checked_hard();
    found_best();
    room_counted();
    if (failures == 0)
        puts("ok");
    return failures != 0;
}
