/* The sizes of a formula by arithmetic, and its text. */
#include "formula.h"

#include <string.h>

static void count_hard(void *job, const uint32_t *clause, uint32_t n)
{
    (void)clause;
    ((struct sizes *)job)->clauses++;
    ((struct sizes *)job)->words += n;
}

static void count_soft(void *job, uint32_t weight, uint32_t unit)
{
    (void)unit;
    ((struct sizes *)job)->units++;
    ((struct sizes *)job)->top += weight;
}

static void count_counter(void *job, const uint32_t *literals, uint32_t n, uint32_t columns, uint32_t first)
{
    (void)literals, (void)first;
    if (n && columns) {
        struct sizes *s = job;
        s->clauses += 2 * columns + (uint64_t)(n - 1) * (4 * columns - 1);
        s->words += 3 * columns + 1 + (uint64_t)(n - 1) * (11 * columns - 4);
    }
}

static void count_or(void *job, uint32_t *literals, uint32_t n, uint32_t output)
{
    (void)literals, (void)output;
    ((struct sizes *)job)->clauses += n + 1;
    ((struct sizes *)job)->words += 3 * (uint64_t)n + 1;
}

struct sizes sizes_of(const struct instance *in)
{
    struct sizes sizes = {0, 0, 0, 0, 1};
    sizes.variables = write_formula(in, &sizes, (struct parts){count_hard, count_soft, count_counter, count_or});
    return sizes;
}

/* The output so far, and the weight of hard lines as bytes. */
struct writer {
    uint8_t *at, *end;
    uint8_t weight[24];
    uint32_t weight_length;
    int full;
};

static const char pairs[] =
    "00010203040506070809101112131415161718192021222324252627282930313233343536373839404142434445464748495051525354555657585960616263646566676869"
    "707172737475767778798081828384858687888990919293949596979899";

static inline uint32_t digits(uint32_t v)
{
    uint32_t n = 1;
    while (v >= 10000) {
        v /= 10000;
        n += 4;
    }
    return n + (v >= 10) + (v >= 100) + (v >= 1000);
}

static inline uint8_t *number(uint8_t *p, uint32_t v)
{
    uint8_t *end = p + digits(v), *q = end;
    while (v >= 100) {
        q -= 2;
        memcpy(q, pairs + 2 * (v % 100), 2);
        v /= 100;
    }
    if (v >= 10)
        memcpy(q - 2, pairs + 2 * v, 2);
    else
        q[-1] = (uint8_t)('0' + v);
    return end;
}

/* A variable as "-12 ", and its length without the sign. */
struct spelt {
    uint32_t variable, length;
    uint8_t bytes[24];
};

/* The variables spelt last, each at its number modulo SPELT: two rows of a counter fit. */
enum { SPELT = 512 };
static struct spelt spelt[SPELT];

static inline const struct spelt *spell(uint32_t variable)
{
    struct spelt *s = &spelt[variable % SPELT];
    if (s->variable != variable) {
        uint8_t *end = number(s->bytes + 1, variable);
        s->bytes[0] = '-';
        *end = ' ';
        s->variable = variable;
        s->length = (uint32_t)(end - s->bytes);
    }
    return s;
}

static inline uint8_t *literal(uint8_t *p, uint32_t l)
{
    const struct spelt *s = spell(l / 2);
    memcpy(p, s->bytes + !(l & 1), 16);
    return p + s->length + (l & 1);
}

static inline void write_line(void *job, const uint32_t *clause, uint32_t n)
{
    struct writer *w = job;
    uint8_t *p = w->at;
    if ((size_t)(w->end - p) < w->weight_length + 12 * (size_t)n + 3) {
        w->full = 1;
        return;
    }
    memcpy(p, w->weight, 16);
    p += w->weight_length;
    for (uint32_t i = 0; i < n; i++)
        p = literal(p, clause[i]);
    memcpy(p, "0\n", 2);
    w->at = p + 2;
}

static void write_lines(void *job, const uint32_t *literals, uint32_t n, uint32_t columns, uint32_t first)
{
    write_counter(job, write_line, literals, n, columns, first);
}

static void write_or_lines(void *job, uint32_t *literals, uint32_t n, uint32_t output)
{
    write_or(job, write_line, literals, n, output);
}

static void set_weight(struct writer *w, uint32_t weight)
{
    uint8_t *end = number(w->weight, weight);
    *end = ' ';
    w->weight_length = (uint32_t)(end + 1 - w->weight);
}

static void write_soft(void *job, uint32_t weight, uint32_t unit)
{
    set_weight(job, weight);
    write_line(job, &unit, 1);
}

/* The output has 16 bytes more than the text is long. */
int text(const struct instance *in, uint8_t *out, size_t room, uint64_t *length)
{
    struct sizes sizes = sizes_of(in);
    if (sizes.variables > 8000000)
        return 8;
    struct writer w = {out, out + room, {0}, 0, 0};
    if (room < 64)
        return 9;
    memcpy(w.at, "p wcnf ", 7);
    w.at = number(w.at + 7, (uint32_t)sizes.variables);
    *w.at++ = ' ';
    w.at = number(w.at, (uint32_t)(sizes.clauses + sizes.units));
    *w.at++ = ' ';
    w.at = number(w.at, (uint32_t)sizes.top);
    *w.at++ = '\n';
    set_weight(&w, (uint32_t)sizes.top);
    write_formula(in, &w, (struct parts){write_line, no_soft, write_lines, write_or_lines});
    write_formula(in, &w, (struct parts){no_hard, write_soft, no_counter, no_or});
    *length = (uint64_t)(w.at - out);
    return w.full ? 9 : 0;
}
