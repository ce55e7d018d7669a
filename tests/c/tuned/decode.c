/* A model judged by the hard clauses, and its falsified weight. */
#include "formula.h"

struct judge {
    const uint8_t *model;
    uint64_t falsified, cost;
};

static inline uint32_t is_true(const uint8_t *model, uint32_t l)
{
    return model[l / 2 - 1] ^ (l & 1);
}

static inline void judge_clause(void *job, const uint32_t *clause, uint32_t n)
{
    struct judge *j = job;
    uint32_t holds = 0;
    for (uint32_t i = 0; i < n; i++)
        holds |= is_true(j->model, clause[i]);
    j->falsified += !holds;
}

/* Cells against what their gates say: each is the one above it, or the one to the left of that with the row's literal. */
static void judge_counter(void *job, const uint32_t *literals, uint32_t n, uint32_t columns, uint32_t first)
{
    struct judge *j = job;
    const uint8_t *cells = j->model + first - 1;
    uint8_t wrong = 0;
    for (uint32_t i = 0; i < n && columns; i++, cells += columns) {
        uint8_t x = (uint8_t)is_true(j->model, literals[i]);
        const uint8_t *above = cells - columns;
        wrong |= cells[0] ^ (i ? above[0] | x : x);
        if (i)
            for (uint32_t k = 1; k < columns; k++)
                wrong |= cells[k] ^ (above[k] | (above[k - 1] & x));
        else
            for (uint32_t k = 1; k < columns; k++)
                wrong |= cells[k];
    }
    j->falsified += wrong;
}

static void judge_or(void *job, uint32_t *literals, uint32_t n, uint32_t output)
{
    struct judge *j = job;
    uint32_t any = 0;
    for (uint32_t i = 0; i < n; i++)
        any |= is_true(j->model, literals[i]);
    j->falsified += any ^ is_true(j->model, output);
}

static void judge_soft(void *job, uint32_t weight, uint32_t unit)
{
    struct judge *j = job;
    if (!is_true(j->model, unit))
        j->cost += weight;
}

int decode(const struct instance *in, const uint8_t *model, size_t length, uint64_t *cost)
{
    struct sizes sizes = sizes_of(in);
    if (sizes.variables > 8000000)
        return 8;
    if (length != sizes.variables)
        return 10;
    uint8_t all = 0;
    for (size_t i = 0; i < length; i++)
        all |= model[i];
    if (all > 1)
        return 11;
    struct judge judge = {model, 0, 0};
    write_formula(in, &judge, (struct parts){judge_clause, judge_soft, judge_counter, judge_or});
    *cost = judge.cost;
    return judge.falsified ? 13 : 0;
}
