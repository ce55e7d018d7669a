/* A model judged by the hard clauses, and its falsified weight. */
#include "formula.h"

struct judge {
    const uint8_t *model;
    uint64_t falsified, cost;
};

static inline uint32_t is_true(const uint8_t *model, uint32_t l)
{
    return model[l / 2 - 1] ^ (l & 1);
}

static inline void judge_clause(void *job, const uint32_t *clause, uint32_t n)
{
    struct judge *j = job;
    uint32_t holds = 0;
    for (uint32_t i = 0; i < n; i++)
        holds |= is_true(j->model, clause[i]);
    j->falsified += !holds;
}

static void judge_counter(void *job, const uint32_t *literals, uint32_t n, uint32_t columns, uint32_t first)
{
    write_counter(job, judge_clause, literals, n, columns, first);
}

static void judge_soft(void *job, uint32_t weight, uint32_t unit)
{
    struct judge *j = job;
    if (!is_true(j->model, unit))
        j->cost += weight;
}

int decode(const struct instance *in, const uint8_t *model, size_t length, uint64_t *cost)
{
    struct sizes sizes = sizes_of(in);
    if (sizes.variables > 8000000)
        return 8;
    if (length != sizes.variables)
        return 10;
    uint8_t all = 0;
    for (size_t i = 0; i < length; i++)
        all |= model[i];
    if (all > 1)
        return 11;
    struct judge judge = {model, 0, 0};
    write_formula(in, &judge, judge_clause, judge_soft, judge_counter);
    *cost = judge.cost;
    return judge.falsified ? 13 : 0;
}
