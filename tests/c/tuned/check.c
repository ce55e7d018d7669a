/* A bound proof: its steps are followed by their hints alone. */
#include "formula.h"

struct loader {
    struct stores *stores;
    uint32_t words, rows;
    uint32_t prev, next, columns;
};

static inline void load_clause(void *job, const uint32_t *clause, uint32_t n)
{
    struct loader *l = job;
    uint32_t *words = l->stores->words + l->words;
    for (uint32_t i = 0; i < n; i++)
        words[i] = clause[i];
    l->stores->rows[l->rows] = (struct row){l->rows + 1, l->words, n};
    l->words += n;
    l->rows++;
}

static void load_counter(void *job, const uint32_t *literals, uint32_t n, uint32_t columns, uint32_t first)
{
    write_counter(job, load_clause, literals, n, columns, first);
}

static void load_or(void *job, uint32_t *literals, uint32_t n, uint32_t output)
{
    write_or(job, load_clause, literals, n, output);
}

/* A row of the tail's counter. */
static void load_tail(void *job, uint32_t weight, uint32_t unit)
{
    struct loader *l = job;
    write_row(job, load_clause, unit ^ 1, weight, l->prev, l->next, l->columns);
    l->prev = l->next;
    l->next += l->columns;
}

struct run {
    struct stores *stores;
    uint32_t words, rows, set, last;
};

/* Ids ascend, so that a row is at most as far from the first and the last as its id is. */
static struct row *find(struct run *r, uint32_t id)
{
    struct row *rows = r->stores->rows;
    if (id - 1 < r->rows && rows[id - 1].id == id)
        return &rows[id - 1];
    if (!r->rows || id > rows[r->rows - 1].id)
        return 0;
    uint32_t back = rows[r->rows - 1].id - id, lo = back < r->rows ? r->rows - 1 - back : 0, hi = id < r->rows ? id : r->rows;
    while (lo < hi && rows[lo].id != id) {
        uint32_t mid = lo + (hi - lo) / 2;
        if (rows[mid].id < id)
            lo = mid + 1;
        else
            hi = mid;
    }
    return lo < r->rows && rows[lo].id == id ? &rows[lo] : 0;
}

static inline void falsify(struct run *r, uint32_t l)
{
    r->stores->falsified[l] = 1;
    r->stores->trail[r->set++] = l;
}

/* The open literal of a clause whose others are false, 0 if all are false, 1 for any other clause. */
static uint32_t open_literal(const struct run *r, const struct row *row)
{
    const uint8_t *falsified = r->stores->falsified;
    const uint32_t *words = r->stores->words + row->first;
    uint32_t open = 0;
    for (uint32_t i = 0; i < row->length; i++) {
        if (falsified[words[i]])
            continue;
        if (open || falsified[words[i] ^ 1])
            return 1;
        open = words[i];
    }
    return open;
}

/* As read_number, but a part of the loops that call it. */
static inline int number_at(const uint8_t *s, size_t length, size_t *at, uint32_t *value)
{
    uint64_t n = 0;
    for (unsigned k = 0; k < 5; k++) {
        if (*at + k >= length)
            return 1;
        uint8_t b = s[*at + k];
        n |= (uint64_t)(b & 127) << (7 * k);
        if (b < 128) {
            if ((k && !b) || n > UINT32_MAX)
                return 1;
            *at += k + 1;
            *value = (uint32_t)n;
            return 0;
        }
    }
    return 1;
}

/* A refusal of an id, unless one of the ids after it up to a 0 is misformed: that comes first. */
static int refused(int number, const uint8_t *proof, size_t length, size_t at)
{
    uint32_t id;
    do
        if (number_at(proof, length, &at, &id))
            return 14;
    while (id);
    return number;
}

/* A step that adds a clause; *empty says whether it has no literal. */
static int add(struct run *r, const uint8_t *proof, size_t length, size_t *at, int *empty)
{
    uint32_t id, l, hint, *words = r->stores->words + r->words, n = 0;
    if (number_at(proof, length, at, &id) || (r->rows && id <= r->stores->rows[r->rows - 1].id) || !id)
        return 14;
    for (;;) {
        if (number_at(proof, length, at, &l))
            return 14;
        if (!l)
            break;
        if (l < 2 || l / 2 > r->last || r->stores->falsified[l] || r->stores->falsified[l ^ 1])
            return 14;
        falsify(r, l);
        words[n++] = l;
    }
    int done = 0;
    for (;;) {
        if (number_at(proof, length, at, &hint))
            return 14;
        if (!hint)
            break;
        struct row *row = find(r, hint);
        if (!row || !row->length)
            return refused(15, proof, length, *at);
        uint32_t open = done ? 1 : open_literal(r, row);
        if (open == 1)
            return refused(16, proof, length, *at);
        if (open)
            falsify(r, open ^ 1);
        else
            done = 1;
    }
    if (!done)
        return 16;
    while (r->set)
        r->stores->falsified[r->stores->trail[--r->set]] = 0;
    *empty = !n;
    if (n) {
        r->stores->rows[r->rows++] = (struct row){id, r->words, n};
        r->words += n;
    }
    return 0;
}

static int delete(struct run *r, const uint8_t *proof, size_t length, size_t *at)
{
    uint32_t id;
    for (;;) {
        if (number_at(proof, length, at, &id))
            return 14;
        if (!id)
            return 0;
        struct row *row = find(r, id);
        if (!row || !row->length)
            return refused(15, proof, length, *at);
        row->length = 0;
    }
}

/* The stores have room for the formula with its tail, and for every clause of the proof. */
int check(const struct instance *in, uint32_t bound, const uint8_t *proof, size_t length, struct stores *stores, uint64_t *steps)
{
    struct loader l = {stores, 0, 0, 0, 0, bound + 1};
    uint32_t last = write_formula(in, &l, (struct parts){load_clause, no_soft, load_counter, load_or});
    l.next = last + 1;
    write_formula(in, &l, (struct parts){no_hard, load_tail, no_counter, no_or});
    if (l.prev) {
        uint32_t unit = 2 * (l.prev + bound) + 1;
        load_clause(&l, &unit, 1);
        last = l.next - 1;
    }
    struct run r = {stores, l.words, l.rows, 0, last};
    size_t at = 0;
    int bad = 0, empty = 0;
    for (*steps = 0; at < length && !bad && !empty;) {
        ++*steps;
        uint8_t byte = proof[at++];
        bad = byte == 'a' ? add(&r, proof, length, &at, &empty) : byte == 'd' ? delete(&r, proof, length, &at) : 14;
    }
    while (r.set)
        stores->falsified[stores->trail[--r.set]] = 0;
    return bad ? bad : empty && at == length ? 0 : 18;
}
