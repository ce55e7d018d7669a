/* Calls each operation of the C++ wrapper, accepted and refused, and with empty slices. */
#include "timetable.hpp"

#include <cstdio>

using bytes = std::vector<std::uint8_t>;

/* One time, one event, an empty group, kind 3 at weight 4. */
static const bytes file = {1, 1, 0, 1, 0, 1, 0, 1, 3, 4, 1, 1};
/* The event at the time. */
static const bytes table = {1, 1};
/* The model of the event at the time, and one that falsifies clause 6. */
static const bytes model = {1, 1, 1, 1};
static const bytes no_model = {1, 1, 1, 0};
/* A refutation at bound 3, and one that first adds the clause (3). */
static const bytes proof = {'a', 17, 0, 5, 4, 2, 6, 14, 16, 0};
static const bytes longer = {'a', 17, 6, 0, 5, 0, 'd', 5, 0, 'a', 18, 0, 17, 4, 2, 6, 14, 16, 0};
/* The same file with its constraint hard, and a refutation of its hard clauses. */
static const bytes hard = {1, 1, 0, 1, 0, 1, 0, 1, 3, 0, 1, 1};
static const bytes hard_proof = {'a', 9, 0, 5, 4, 2, 6, 8, 0};
/* Two periods of day 1, a window over the first, kind 3 of one event in it at weight 4. */
static const bytes week = {0, 2, 0xe0, 3, 0x8d, 4, 0x92, 4, 0xbf, 4, 0, 0, 0,    0, 0, 0,
                           1, 0, 1,    0, 0,    1, 1,    0xe0, 3, 0x8d, 4, 1, 3, 4, 1, 1};
static const bytes nothing;

static int failures = 0;

static void expect(const char *what, bool holds)
{
    if (!holds) {
        std::printf("%s\n", what);
        failures++;
    }
}

template <typename T>
static void refused(const char *what, const timetable::result<T> &found,
                    std::uint32_t refusal, std::uint64_t value)
{
    expect(what, !found && found.refusal == refusal && found.value == value);
}

static void operations()
{
    timetable::result<timetable::counts> counts = timetable::read(file);
    expect("read", counts && counts.answer.times == 1 && counts.answer.events == 1 &&
                       counts.answer.resources == 0 && counts.answer.groups == 1 &&
                       counts.answer.constraints == 1);
    timetable::result<timetable::size> size = timetable::sizes(file, 3);
    expect("sizes", size && size.answer.variables == 8 && size.answer.clauses == 16 &&
                        size.answer.words == 30);
    refused("sizes, bound too high", timetable::sizes(file, 4096), TIMETABLE_BOUND_TOO_HIGH,
            4096);
    timetable::result<timetable::amounts> amounts = timetable::score(file, table);
    expect("score",
           amounts && amounts.answer.infeasibility == 0 && amounts.answer.objective == 4);
    timetable::result<bool> same = timetable::same_sheet(file, table, table);
    expect("same sheet", same && same.answer);
    timetable::result<std::string> text = timetable::text(file);
    expect("text", text && text.answer.size() == 80 && text.answer.compare(0, 7, "p wcnf ") == 0);
    timetable::result<timetable::decoded> decoded = timetable::decode(file, model);
    expect("decode", decoded && decoded.answer.timetable == 2 && decoded.answer.objective == 4);
    refused("decode, no model", timetable::decode(file, no_model), TIMETABLE_CLAUSE_FALSE, 6);
    timetable::result<std::uint64_t> steps = timetable::check(file, 3, proof);
    expect("check", steps && steps.answer == 1);
    steps = timetable::check(file, 3, longer);
    expect("check in the room that the proof needs", steps && steps.answer == 3);
    steps = timetable::check_hard(hard, hard_proof);
    expect("check without the tail", steps && steps.answer == 1);
    refused("check without the tail, a proof at bound 3", timetable::check_hard(file, proof),
            TIMETABLE_NOT_LIVE, 1);
    timetable::result<timetable::shown_best> best = timetable::best(file, model, proof);
    expect("best", best && best.answer.objective == 4 && best.answer.steps == 1);
    refused("best, no model", timetable::best(file, no_model, proof), TIMETABLE_CLAUSE_FALSE,
            6);
}

/* A calendar with a window. */
static void calendars()
{
    timetable::result<timetable::counts> counts = timetable::read(week);
    expect("read, a calendar", counts && counts.answer.times == 2 && counts.answer.groups == 1);
    timetable::result<timetable::amounts> amounts = timetable::score(week, bytes{0, 1, 0, 1});
    expect("score, a calendar",
           amounts && amounts.answer.infeasibility == 0 && amounts.answer.objective == 4);
    bytes late = week;
    late[6] = 0x8c;
    refused("read, a period that starts early", timetable::read(late), TIMETABLE_BAD_CALENDAR,
            6);
    refused("check, no day", timetable::check(bytes(8), 3, proof), TIMETABLE_BAD_CALENDAR, 0);
}

/* What a solver printed. */
static void solver_texts()
{
    timetable::result<timetable::solver_model> read =
        timetable::solver_text(file, std::string("c x\nv 1 2\nv 3 4 0\n"));
    expect("solver's text", read && read.answer.model == model && read.answer.timetable == 2 &&
                                read.answer.objective == 4);
    refused("solver's text, another line", timetable::solver_text(file, std::string("x")),
            TIMETABLE_BAD_SOLVER_TEXT, 0);
    refused("solver's text, given twice",
            timetable::solver_text(file, std::string("v 1 1 2 3 4")), TIMETABLE_NOT_GIVEN_ONCE,
            1);
    read = timetable::solver_text(file, std::string("v 1 2 3 -4"));
    refused("solver's text, no model", read, TIMETABLE_CLAUSE_FALSE, 6);
    expect("the answer of a refused text", read.answer.model.empty());
    refused("solver's text, no file", timetable::solver_text(nothing, std::string("x")),
            TIMETABLE_BAD_NUMBER, 0);
}

/* What is kept is idle, since and seen. */
static void keeps(const char *what, const timetable::kept &found, std::uint32_t idle,
                  std::uint32_t since, std::uint32_t seen)
{
    expect(what, found.idle == idle && found.since == since && found.seen == seen);
}

/* Members with X 0 1 0 0 1 0; then a step from numbers that no walk keeps. */
static void idle_times()
{
    timetable::kept row;
    keeps("the start of a group", row, 0, 0, 0);
    keeps("idle, 1st member", row = timetable::idle_step(row, false), 0, 0, 0);
    keeps("idle, 2nd member", row = timetable::idle_step(row, true), 0, 0, 1);
    keeps("idle, 3rd member", row = timetable::idle_step(row, false), 0, 1, 1);
    keeps("idle, 4th member", row = timetable::idle_step(row, false), 0, 2, 1);
    keeps("idle, 5th member", row = timetable::idle_step(row, true), 2, 0, 1);
    keeps("idle, 6th member", row = timetable::idle_step(row, false), 2, 1, 1);
    row.idle = 7;
    row.since = 3;
    row.seen = 9;
    keeps("idle, without X", timetable::idle_step(row, false), 7, 4, 1);
    keeps("idle, with X", timetable::idle_step(row, true), 10, 0, 1);
    keeps("what was given", row, 7, 3, 9);
}

/* Empty vectors, whose pointers may be null. */
static void empty_slices()
{
    refused("read, empty", timetable::read(nothing), TIMETABLE_BAD_NUMBER, 0);
    refused("read, null", timetable::read(timetable::slice(nullptr, 0)), TIMETABLE_BAD_NUMBER,
            0);
    refused("score, empty", timetable::score(file, nothing), TIMETABLE_WRONG_LENGTH, 2);
    refused("same sheet, empty", timetable::same_sheet(file, table, nothing),
            TIMETABLE_WRONG_LENGTH, 2);
    refused("text, empty", timetable::text(std::string()), TIMETABLE_BAD_NUMBER, 0);
    refused("decode, empty", timetable::decode(file, nothing), TIMETABLE_WRONG_LENGTH, 4);
    refused("solver's text, empty", timetable::solver_text(file, nothing),
            TIMETABLE_NOT_GIVEN_ONCE, 1);
    refused("check, empty", timetable::check(file, 3, nothing), TIMETABLE_BAD_END, 0);
    refused("check without the tail, empty", timetable::check_hard(file, nothing),
            TIMETABLE_BAD_END, 0);
    refused("best, empty", timetable::best(file, model, nothing), TIMETABLE_BAD_END, 0);
    expect("a slice's pointer", timetable::slice(nothing).data() != nullptr &&
                                    timetable::slice(nothing).size() == 0);
}

int main()
{
    operations();
    calendars();
    solver_texts();
    idle_times();
    empty_slices();
    if (failures == 0)
        std::puts("ok");
    return failures != 0;
}
