/*
 * The timetable engine for C++11 and later: the operations of timetable.h with
 * slices in place of pointers and lengths, and answers in place of outputs.
 *
 * An empty vector or string may hold a null pointer, which the engine is never
 * to be given; a slice replaces it. text, solver_text, the checks and best
 * allocate what they lend. Nothing here throws but an allocation.
 */
#ifndef TIMETABLE_HPP
#define TIMETABLE_HPP

#include "timetable.h"

#include <cstddef>
#include <cstdint>
#include <string>
#include <vector>

namespace timetable {

/* Bytes that are lent for the time of a call. */
class slice {
public:
    slice(const std::uint8_t *data, std::size_t size)
        : data_(data == nullptr ? empty() : data), size_(data == nullptr ? 0 : size)
    {
    }
    slice(const std::vector<std::uint8_t> &bytes) : slice(bytes.data(), bytes.size()) {}
    slice(const std::string &bytes)
        : slice(reinterpret_cast<const std::uint8_t *>(bytes.data()), bytes.size())
    {
    }

    /* Never null. */
    const std::uint8_t *data() const { return data_; }
    std::size_t size() const { return size_; }

private:
    static const std::uint8_t *empty()
    {
        static const std::uint8_t byte = 0;
        return &byte;
    }

    const std::uint8_t *data_;
    std::size_t size_;
};

/* An answer, or the refusal in its place. */
template <typename T> struct result {
    /* TIMETABLE_ACCEPTED, or the refusal's number. */
    std::uint32_t refusal;
    /* What the refusal gives; 0 for an accepted call. */
    std::uint64_t value;
    /* The answer of an accepted call. */
    T answer;

    explicit operator bool() const { return refusal == TIMETABLE_ACCEPTED; }
};

/* The windows of a calendar are among the groups. */
struct counts {
    std::uint64_t times, events, resources, groups, constraints;
};

struct size {
    std::uint64_t variables, clauses, words;
};

struct amounts {
    std::uint64_t infeasibility, objective;
};

/* What is kept of a group so far; all 0 at its start. */
struct kept {
    /* How many members are idle. */
    std::uint32_t idle = 0;
    /* How many members came after the last with X, 0 while none had X. */
    std::uint32_t since = 0;
    /* Whether some member had X, 0 or 1. */
    std::uint32_t seen = 0;
};

struct decoded {
    /* The timetable is this many bytes of the model, from its first. */
    std::size_t timetable;
    std::uint64_t objective;
};

/* A model that was read from a solver's text. */
struct solver_model {
    std::vector<std::uint8_t> model;
    /* The timetable is this many bytes of the model, from its first. */
    std::size_t timetable;
    std::uint64_t objective;
};

namespace detail {

/* The result of a call that returned number and wrote value and answer. */
template <typename T> result<T> answered(std::uint32_t number, std::uint64_t value, T answer)
{
    if (number != TIMETABLE_ACCEPTED)
        return {number, value, T()};
    return {number, 0, answer};
}

/* A vector that has an element even where none is wanted, so that no pointer to it is null. */
template <typename T> std::vector<T> lent(std::uint64_t size)
{
    return std::vector<T>(size == 0 ? 1 : static_cast<std::size_t>(size));
}

} // namespace detail

inline result<counts> read(slice file)
{
    counts found = counts();
    std::uint64_t value = 0;
    std::uint32_t number =
        timetable_read(file.data(), file.size(), &found.times, &found.events,
                       &found.resources, &found.groups, &found.constraints, &value);
    return detail::answered(number, value, found);
}

inline result<size> sizes(slice file, std::uint64_t bound)
{
    size found = size();
    std::uint64_t value = 0;
    std::uint32_t number =
        timetable_sizes(file.data(), file.size(), bound, &found.variables, &found.clauses,
                        &found.words, &value);
    return detail::answered(number, value, found);
}

inline result<amounts> score(slice file, slice table)
{
    amounts found = amounts();
    std::uint64_t value = 0;
    std::uint32_t number =
        timetable_score(file.data(), file.size(), table.data(), table.size(),
                        &found.infeasibility, &found.objective, &value);
    return detail::answered(number, value, found);
}

/* What is kept after one more member of the group, which has X or not; nothing is refused. */
inline kept idle_step(kept row, bool used)
{
    timetable_idle_step(row.idle, row.since, row.seen, used ? 1 : 0, &row.idle, &row.since,
                        &row.seen);
    return row;
}

inline result<bool> same_sheet(slice file, slice first, slice second)
{
    std::uint64_t value = 0;
    std::uint32_t number =
        timetable_same_sheet(file.data(), file.size(), first.data(), first.size(),
                             second.data(), second.size(), &value);
    return detail::answered(number, value, value == 1);
}

inline result<std::string> text(slice file)
{
    std::uint64_t bytes = 0, value = 0;
    std::uint32_t number = timetable_text_size(file.data(), file.size(), &bytes, &value);
    if (number != TIMETABLE_ACCEPTED)
        return {number, value, std::string()};
    std::vector<std::uint8_t> out = detail::lent<std::uint8_t>(bytes);
    number = timetable_text(file.data(), file.size(), out.data(), out.size(), &value);
    const char *letters = reinterpret_cast<const char *>(out.data());
    return detail::answered(number, value, std::string(letters, static_cast<std::size_t>(bytes)));
}

inline result<decoded> decode(slice file, slice model)
{
    decoded found = decoded();
    std::uint64_t value = 0;
    std::uint32_t number = timetable_decode(file.data(), file.size(), model.data(),
                                            model.size(), &found.objective, &value);
    found.timetable = static_cast<std::size_t>(value);
    return detail::answered(number, value, found);
}

/* The model in what a solver printed, decoded; in a model and a store of the length wanted. */
inline result<solver_model> solver_text(slice file, slice text)
{
    /* Of an empty model, the refusal says which length is wanted. */
    result<decoded> none = decode(file, slice(nullptr, 0));
    if (none.refusal != TIMETABLE_WRONG_LENGTH)
        return {none.refusal, none.value, solver_model()};
    solver_model found = solver_model();
    found.model = detail::lent<std::uint8_t>(none.value);
    std::vector<std::uint8_t> store = detail::lent<std::uint8_t>(none.value);
    std::uint64_t value = 0;
    std::uint32_t number = timetable_solver_text(
        file.data(), file.size(), text.data(), text.size(), found.model.data(),
        found.model.size(), store.data(), store.size(), &found.objective, &value);
    found.timetable = static_cast<std::size_t>(value);
    return detail::answered(number, value, found);
}

namespace detail {

/* Stores with room for a formula and for every clause that a proof adds. */
struct stores {
    std::vector<std::uint32_t> words;
    std::vector<timetable_row> rows;
    std::vector<std::uint8_t> marks;

    stores(const size &formula, slice proof)
    {
        std::size_t added_words = 0, added_rows = 0;
        timetable_room(proof.data(), proof.size(), &added_words, &added_rows);
        words = lent<std::uint32_t>(formula.words + added_words);
        rows = lent<timetable_row>(formula.clauses + added_rows);
        marks = lent<std::uint8_t>(formula.variables);
    }
};

} // namespace detail

/* "No timetable" at the bound, with the number of steps; in stores of the size that is needed. */
inline result<std::uint64_t> check(slice file, std::uint64_t bound, slice proof)
{
    result<size> formula = sizes(file, bound);
    if (!formula)
        return {formula.refusal, formula.value, 0};
    detail::stores lent(formula.answer, proof);
    std::uint64_t value = 0;
    std::uint32_t number =
        timetable_check(file.data(), file.size(), bound, proof.data(), proof.size(),
                        lent.words.data(), lent.words.size(), lent.rows.data(),
                        lent.rows.size(), lent.marks.data(), lent.marks.size(), &value);
    return detail::answered(number, value, value);
}

/* "No timetable" at any cost, with the number of steps; the stores grow until the clauses fit. */
inline result<std::uint64_t> check_hard(slice file, slice proof)
{
    result<size> formula = sizes(file, 0);
    if (formula.refusal == TIMETABLE_TOO_MANY_VARIABLES)
        formula.answer = {TIMETABLE_MOST_VARIABLES, TIMETABLE_MOST_VARIABLES,
                          2 * TIMETABLE_MOST_VARIABLES};
    else if (!formula)
        return {formula.refusal, formula.value, 0};
    for (;;) {
        detail::stores lent(formula.answer, proof);
        std::uint64_t value = 0;
        std::uint32_t number =
            timetable_check_hard(file.data(), file.size(), proof.data(), proof.size(),
                                 lent.words.data(), lent.words.size(), lent.rows.data(),
                                 lent.rows.size(), lent.marks.data(), lent.marks.size(), &value);
        if (number != TIMETABLE_TOO_SHORT)
            return detail::answered(number, value, value);
        formula.answer.clauses *= 2;
        formula.answer.words *= 2;
    }
}

struct shown_best {
    std::uint64_t objective, steps;
};

/* A model's cost, which no timetable undercuts, with the number of steps that show it. */
inline result<shown_best> best(slice file, slice model, slice proof)
{
    result<decoded> part = decode(file, model);
    bool costs = part && part.answer.objective > 0;
    /* Where the proof is not looked at, no store is needed. */
    size formula = costs ? sizes(file, part.answer.objective - 1).answer : size();
    detail::stores lent(formula, proof);
    shown_best found = shown_best();
    std::uint32_t number = timetable_best(
        file.data(), file.size(), model.data(), model.size(), proof.data(), proof.size(),
        lent.words.data(), lent.words.size(), lent.rows.data(), lent.rows.size(),
        lent.marks.data(), lent.marks.size(), &found.objective, &found.steps);
    return detail::answered(number, found.steps, found);
}

} // namespace timetable

#endif
