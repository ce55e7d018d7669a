/*
 * One walk over an instance's formula, for every job over clauses. It is made
 * anew for each job: the functions given to it are constants once it is inlined.
 * An OR is handed over whole, so that a job need not see its clauses; an AND is the OR of its negated inputs, negated.
 */
#ifndef FORMULA_H
#define FORMULA_H

#include "../plain/plain.h"

#define INLINE static inline __attribute__((always_inline))

typedef void hard_function(void *job, const uint32_t *clause, uint32_t n);
typedef void soft_function(void *job, uint32_t weight, uint32_t unit);
/* A counter's cells: literals of the weight 1, n rows of so many columns, from the variable first on. */
typedef void counter_function(void *job, const uint32_t *literals, uint32_t n, uint32_t columns, uint32_t first);
/* A literal that is the OR of n literals; after these there is room for one more. */
typedef void or_function(void *job, uint32_t *literals, uint32_t n, uint32_t output);

/* What a job does with each part of a formula. */
struct parts {
    hard_function *hard;
    soft_function *soft;
    counter_function *counter;
    or_function *or;
};

struct walk {
    const struct instance *in;
    void *job;
    struct parts parts;
    uint32_t last;
};

#define CLAUSE(job, hard, ...) \
    do { \
        const uint32_t clause_[] = {__VA_ARGS__}; \
        (hard)(job, clause_, sizeof clause_ / sizeof *clause_); \
    } while (0)
#define HARD(w, ...) CLAUSE((w)->job, (w)->parts.hard, __VA_ARGS__)

/* A row of a counter at the variable first, over the row at prev, or over none where that is 0. */
INLINE void write_row(void *job, hard_function *hard, uint32_t x, uint32_t weight, uint32_t prev, uint32_t first, uint32_t columns)
{
    for (uint32_t j = 0; j < columns; j++) {
        uint32_t c = 2 * (first + j), a = 2 * (prev + j);
        if (!prev) {
            if (j < weight) {
                CLAUSE(job, hard, x ^ 1, c);
                CLAUSE(job, hard, x, c ^ 1);
            } else {
                CLAUSE(job, hard, x, c ^ 1);
                CLAUSE(job, hard, c ^ 1);
            }
        } else if (j < weight) {
            CLAUSE(job, hard, a ^ 1, c);
            CLAUSE(job, hard, x ^ 1, c);
            CLAUSE(job, hard, x, a, c ^ 1);
        } else {
            uint32_t b = a - 2 * weight;
            CLAUSE(job, hard, a ^ 1, c);
            CLAUSE(job, hard, x ^ 1, b ^ 1, c);
            CLAUSE(job, hard, x, a, c ^ 1);
            CLAUSE(job, hard, b, a, c ^ 1);
        }
    }
}

INLINE void write_counter(void *job, hard_function *hard, const uint32_t *literals, uint32_t n, uint32_t columns, uint32_t first)
{
    for (uint32_t i = 0; i < n; i++)
        write_row(job, hard, literals[i], 1, i ? first + (i - 1) * columns : 0, first + i * columns, columns);
}

INLINE void write_or(void *job, hard_function *hard, uint32_t *literals, uint32_t n, uint32_t output)
{
    for (uint32_t i = 0; i < n; i++)
        CLAUSE(job, hard, literals[i] ^ 1, output);
    uint32_t kept = literals[n];
    literals[n] = output ^ 1;
    hard(job, literals, n + 1);
    literals[n] = kept;
}

INLINE uint32_t next_or(struct walk *w, uint32_t *literals, uint32_t n)
{
    uint32_t output = 2 * ++w->last;
    w->parts.or(w->job, literals, n, output);
    return output;
}

/* The AND of the literals whose negations are given. */
INLINE uint32_t next_and(struct walk *w, uint32_t *negated, uint32_t n)
{
    uint32_t output = 2 * ++w->last;
    w->parts.or(w->job, negated, n, output ^ 1);
    return output;
}

INLINE void write_unit(struct walk *w, uint32_t weight, uint32_t unit)
{
    if (weight)
        w->parts.soft(w->job, weight, unit);
    else
        HARD(w, unit);
}

/* A counter over n literals and its bounds; zero_free is kind 6, whose count 0 is free. */
INLINE void write_counted(struct walk *w, const uint32_t *literals, uint32_t n, uint32_t lo, uint32_t hi, uint32_t weight, int zero_free)
{
    if (hi > n)
        hi = n;
    uint32_t columns = weight || n < hi + 1 ? n : hi + 1;
    uint32_t first = w->last + 1;
    w->parts.counter(w->job, literals, n, columns, first);
    w->last += n * columns;
    uint32_t row = n ? first + (n - 1) * columns - 1 : 0;
    if (zero_free) {
        for (uint32_t j = 2; j <= lo; j++) {
            uint32_t v = 2 * ++w->last, one = 2 * (row + 1), c = 2 * (row + j);
            HARD(w, one, v ^ 1);
            HARD(w, c ^ 1, v ^ 1);
            HARD(w, one ^ 1, c, v);
            write_unit(w, weight, v ^ 1);
        }
    } else if (weight) {
        for (uint32_t j = 1; j <= lo; j++)
            w->parts.soft(w->job, weight, 2 * (row + j));
    } else if (lo) {
        HARD(w, 2 * (row + lo));
    }
    if (weight) {
        for (uint32_t j = hi + 1; j <= n; j++)
            w->parts.soft(w->job, weight, 2 * (row + j) + 1);
    } else if (hi < n) {
        HARD(w, 2 * (row + hi + 1) + 1);
    }
}

/* The literals of a resource at the members of a group. */
INLINE uint32_t gather(const struct instance *in, uint32_t resource, uint32_t group, uint32_t *literals)
{
    struct list g = in->group[group - 1];
    uint32_t base = (2 * in->events + resource - 1) * in->times;
    for (uint32_t i = 0; i < g.count; i++)
        literals[i] = 2 * (base + in->store[g.first + i]);
    return g.count;
}

/* The variables G, H and I for each inner member of a group; the I go into out. */
INLINE uint32_t write_idle(struct walk *w, uint32_t *x, uint32_t n, uint32_t *out)
{
    uint32_t count = 0;
    for (uint32_t p = 1; p + 1 < n; p++) {
        uint32_t g = next_or(w, x, p), h = next_or(w, x + p + 1, n - p - 1), i = 2 * ++w->last;
        HARD(w, x[p] ^ 1, i ^ 1);
        HARD(w, g, i ^ 1);
        HARD(w, h, i ^ 1);
        HARD(w, x[p], g ^ 1, h ^ 1, i);
        out[count++] = i;
    }
    return count;
}

/* Kind 3's M, C and D: t goes on with the subevent before it, which starts outside; or such a one starts at t. */
INLINE uint32_t write_held(struct walk *w, const struct constraint *c, uint32_t *out)
{
    const struct instance *in = w->in;
    struct list g = in->group[c->group - 1];
    uint32_t times = in->times, y = 2 * (c->one - 1) * times, s = y + 2 * in->events * times;
    uint32_t n = 0, i = 0, last_outside = 0;
    for (uint32_t t = 1; t <= times; t++) {
        int outside = i == g.count || in->store[g.first + i] != t;
        i += !outside;
        if (last_outside && t - last_outside < in->duration[c->one - 1]) {
            uint32_t goes_on[3] = {(y + 2 * t) ^ 1, s + 2 * t};
            uint32_t carried[3] = {out[n - 1] ^ 1, next_and(w, goes_on, 2) ^ 1};
            uint32_t held[3] = {s + 2 * t, next_and(w, carried, 2)};
            out[n++] = outside ? next_or(w, held, 2) : held[1];
        } else if (outside) {
            out[n++] = s + 2 * t;
        }
        if (outside)
            last_outside = t;
    }
    return n;
}

/* The variables M of the times 2 to T + 1: whether a time goes on with the subevent before it. They are consecutive. */
INLINE void write_going_on(struct walk *w, uint32_t y, uint32_t s)
{
    for (uint32_t t = 2; t <= w->in->times; t++) {
        uint32_t x[3] = {(y + 2 * t) ^ 1, s + 2 * t};
        next_and(w, x, 2);
    }
    uint32_t none[1] = {0};
    next_or(w, none, 0);
}

/* The negated M from time u on, at most so many and none after T + 1. */
INLINE uint32_t gather_on(const struct walk *w, uint32_t on, uint32_t u, uint32_t most, uint32_t *literals)
{
    uint32_t left = w->in->times + 2 - u, n = u > w->in->times + 1 ? 0 : most < left ? most : left;
    for (uint32_t i = 0; i < n; i++)
        literals[i] = (on + 2 * (u + i)) ^ 1;
    return n;
}

/* Kind 9's K, or kind 10's where shortest is 1: a start with M at the next times, for kind 9 not at the last of them. */
INLINE uint32_t write_start(struct walk *w, uint32_t on, uint32_t s, uint32_t t, const struct constraint *c)
{
    uint32_t x[MOST_TIMES + 3], n = gather_on(w, on, t + 1, c->longest, x + 1);
    x[0] = (s + 2 * t) ^ 1;
    x[n] ^= c->kind == 9 && n == c->longest;
    return next_and(w, x, n + 1);
}

/* Kind 10's Q, W and K: M from shortest to longest; not M at an earlier time, or Q; a start with W. */
INLINE uint32_t write_outside(struct walk *w, uint32_t on, uint32_t s, uint32_t t, const struct constraint *c)
{
    uint32_t x[MOST_TIMES + 3], n = gather_on(w, on, t + c->shortest, c->longest - c->shortest + 1, x);
    uint32_t q = next_and(w, x, n);
    n = gather_on(w, on, t + 1, c->shortest - 1, x);
    x[n] = q;
    uint32_t both[3] = {(s + 2 * t) ^ 1, next_or(w, x, n + 1) ^ 1};
    return next_and(w, both, 2);
}

/* The K of kind 9 or 10 for each time. */
INLINE uint32_t write_lengths(struct walk *w, const struct constraint *c, uint32_t *out)
{
    uint32_t times = w->in->times, y = 2 * (c->one - 1) * times, s = y + 2 * w->in->events * times, on = 2 * w->last - 2;
    write_going_on(w, y, s);
    if (c->kind == 9 || c->shortest == 1)
        for (uint32_t t = 1; t <= times; t++)
            out[t - 1] = write_start(w, on, s, t, c);
    else
        for (uint32_t t = 1; t <= times; t++)
            out[t - 1] = write_outside(w, on, s, t, c);
    return times;
}

/* ORs, so many: the first of n literals from first on, each other one of a literal more, from next on by step, and of the OR before it. */
INLINE void write_chain(struct walk *w, uint32_t first, uint32_t n, uint32_t next, int step, uint32_t count, uint32_t *out)
{
    uint32_t x[MOST_TIMES + 1] = {0};
    if (!count)
        return;
    for (uint32_t i = 0; i < n; i++)
        x[i] = first + 2 * i;
    out[0] = next_or(w, x, n);
    for (uint32_t i = 1; i < count; i++, next += (uint32_t)step) {
        uint32_t two[3] = {next, out[i - 1]};
        out[i] = next_or(w, two, 2);
    }
}

/*
 * Kind 11's F, P, G, Q and O: the second event has begun by t + lo; the first takes t, and F; the first goes on after t; the
 * second has not begun by t + hi + 1, and not G; a time that is too late for the first event, or F of time 1, a P or a Q.
 */
INLINE uint32_t write_gap(struct walk *w, const struct constraint *c)
{
    uint32_t times = w->in->times, y = 2 * (c->one - 1) * times, z = 2 * (c->second - 1) * times, lo = c->shortest, hi = c->longest;
    uint32_t early = times > 1 + lo ? times - 1 - lo : 0, late = times > 2 + hi ? times - 2 - hi : 0;
    uint32_t begun[MOST_TIMES], lasting[MOST_TIMES], out[2 * MOST_TIMES + 1], n = 0;
    for (uint32_t t = early + 1; t <= times; t++)
        out[n++] = y + 2 * t;
    write_chain(w, z + 2, lo + 1, z + 2 * (lo + 2), 2, early, begun);
    if (early)
        out[n++] = begun[0];
    for (uint32_t t = 2; t <= early; t++) {
        uint32_t both[3] = {(y + 2 * t) ^ 1, begun[t - 1] ^ 1};
        out[n++] = next_and(w, both, 2);
    }
    write_chain(w, y + 2 * (late + 1), times - late, y + 2 * late, -2, late, lasting);
    for (uint32_t t = 1; t <= late; t++) {
        uint32_t both[3] = {begun[t + hi - lo], lasting[late - t]};
        out[n++] = next_and(w, both, 2);
    }
    return next_or(w, out, n);
}

INLINE void write_constraint(struct walk *w, const struct constraint *c)
{
    const struct instance *in = w->in;
    uint32_t times = in->times, literals[257], x[257], n = 0;
    uint32_t starts = in->events * times;
    const uint16_t *store = in->store;
    if (c->kind == 1) {
        struct list users = in->users[c->one - 1];
        for (uint32_t t = 1; t <= times; t++) {
            for (uint32_t i = 0; i < users.count; i++)
                literals[i] = 2 * ((store[users.first + i] - 1u) * times + t);
            write_counted(w, literals, users.count, 0, 1, c->weight, 0);
        }
        return;
    }
    if (c->kind == 2 || c->kind == 6) {
        n = gather(in, c->one, c->group, literals);
    } else if (c->kind == 3) {
        n = write_held(w, c, literals);
    } else if (c->kind == 4) {
        for (uint32_t t = 1; t <= times; t++)
            literals[n++] = 2 * (starts + (c->one - 1) * times + t);
    } else if (c->kind == 5) {
        struct list g = in->group[c->group - 1];
        for (uint32_t e = 0; e < c->many.count; e++)
            for (uint32_t i = 0; i < g.count; i++)
                literals[n++] = 2 * (starts + (store[c->many.first + e] - 1u) * times + store[g.first + i]);
    } else if (c->kind == 11) {
        literals[n++] = write_gap(w, c);
    } else if (c->kind > 8) {
        n = write_lengths(w, c, literals);
    } else {
        for (uint32_t i = 0; i < c->many.count; i++) {
            uint32_t size = gather(in, c->one, store[c->many.first + i], x);
            if (c->kind == 7)
                literals[n++] = next_or(w, x, size);
            else
                n += write_idle(w, x, size, literals + n);
        }
    }
    write_counted(w, literals, n, c->lo, c->hi, c->weight, c->kind == 6);
}

/* What a job does that wants soft units alone, or none. */
static inline void no_soft(void *job, uint32_t weight, uint32_t unit)
{
    (void)job, (void)weight, (void)unit;
}

static inline void no_hard(void *job, const uint32_t *clause, uint32_t n)
{
    (void)job, (void)clause, (void)n;
}

static inline void no_counter(void *job, const uint32_t *literals, uint32_t n, uint32_t columns, uint32_t first)
{
    (void)job, (void)literals, (void)n, (void)columns, (void)first;
}

static inline void no_or(void *job, uint32_t *literals, uint32_t n, uint32_t output)
{
    (void)job, (void)literals, (void)n, (void)output;
}

/* The whole formula without the tail; gives the last variable. */
INLINE uint32_t write_formula(const struct instance *in, void *job, struct parts parts)
{
    struct walk w = {in, job, parts, 2 * in->events * in->times};
    uint32_t times = in->times, literals[MOST_EVENTS + 1];
    for (uint32_t e = 0; e < in->events; e++)
        for (uint32_t t = 1; t <= times; t++) {
            uint32_t y = 2 * (e * times + t), s = 2 * ((in->events + e) * times + t);
            HARD(&w, y, s ^ 1);
            if (t == 1)
                HARD(&w, y ^ 1, s);
            else
                HARD(&w, y - 2, y ^ 1, s);
        }
    for (uint32_t r = 0; r < in->resources; r++)
        for (uint32_t t = 1; t <= times; t++) {
            struct list users = in->users[r];
            for (uint32_t i = 0; i < users.count; i++)
                literals[i] = 2 * ((in->store[users.first + i] - 1u) * times + t);
            next_or(&w, literals, users.count);
        }
    for (uint32_t e = 0; e < in->events; e++) {
        for (uint32_t t = 1; t <= times; t++)
            literals[t - 1] = 2 * (e * times + t);
        write_counted(&w, literals, times, in->duration[e], in->duration[e], 0, 0);
    }
    for (uint32_t i = 0; i < in->constraints; i++)
        write_constraint(&w, &in->constraint[i]);
    return w.last;
}

#endif
