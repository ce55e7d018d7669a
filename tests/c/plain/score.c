/* A timetable's infeasibility and objective: refusals 10 to 12. */
#include "plain.h"

#include <string.h>

/* Whether an event keeps the rules: its taken times, and its starts. */
static int keeps(const uint8_t *y, const uint8_t *s, uint32_t times, uint32_t duration)
{
    uint32_t taken = 0, bad = 0, before = 0;
    for (uint32_t t = 0; t < times; t++) {
        taken += y[t];
        bad |= (uint32_t)(s[t] & ~y[t]) | (uint32_t)(y[t] & ~before & ~s[t] & 1);
        before = y[t];
    }
    return !bad && taken == duration;
}

static uint32_t outside(uint32_t count, uint32_t lo, uint32_t hi)
{
    return count < lo ? lo - count : count > hi ? count - hi : 0;
}

static uint32_t idle_times(const uint8_t *used, const uint16_t *members, uint32_t n)
{
    uint32_t first = n, last = 0, busy = 0;
    for (uint32_t i = 0; i < n; i++)
        if (used[members[i] - 1]) {
            if (first == n)
                first = i;
            last = i;
            busy++;
        }
    return busy ? last - first + 1 - busy : 0;
}

/* How many times a subevent holds that starts at no member. */
static uint32_t held(const uint8_t *y, const uint8_t *s, uint32_t times, const uint16_t *members, uint32_t count)
{
    uint32_t n = 0, i = 0, outside = 0;
    for (uint32_t t = 0; t < times; t++) {
        int member = i < count && members[i] == t + 1;
        i += member;
        if (s[t])
            outside = !member;
        n += outside & y[t];
    }
    return n;
}

/* How many subevents have a length from shortest to longest, or for kind 10 another. */
static uint32_t of_length(const struct constraint *c, const uint8_t *y, const uint8_t *s, uint32_t times)
{
    uint32_t n = 0;
    for (uint32_t t = 0; t < times;) {
        uint32_t start = t++;
        if (!s[start])
            continue;
        while (t < times && y[t] && !s[t])
            t++;
        int inside = t - start >= c->shortest && t - start <= c->longest;
        n += inside != (c->kind == 10);
    }
    return n;
}

/* Whether the gap from the last time of one event to the first time of the next lies outside. */
static uint32_t gap_outside(const struct constraint *c, const uint8_t *one, const uint8_t *second, uint32_t times)
{
    int last = (int)times - 1, begin = 0;
    while (!one[last])
        last--;
    while (!second[begin])
        begin++;
    int gap = begin - last - 1;
    return gap < (int)c->shortest || gap > (int)c->longest;
}

struct tables {
    const uint8_t *y, *s;
    uint8_t used[MOST_RESOURCES * MOST_TIMES];
    uint16_t uses[MOST_RESOURCES * MOST_TIMES];
};

static uint32_t deviation(const struct instance *in, const struct constraint *c, const struct tables *t)
{
    uint32_t times = in->times, n = 0;
    struct list g = c->kind == 2 || c->kind == 3 || c->kind == 5 || c->kind == 6 ? in->group[c->group - 1] : (struct list){0, 0};
    const uint16_t *members = in->store + g.first;
    const uint8_t *used = c->kind == 1 || c->kind == 2 || (c->kind > 5 && c->kind < 9) ? t->used + (c->one - 1) * times : 0;
    switch (c->kind) {
    case 1:
        for (uint32_t i = 0; i < times; i++)
            n += outside(t->uses[(c->one - 1) * times + i], 0, 1);
        return n;
    case 3:
        return held(t->y + (c->one - 1) * times, t->s + (c->one - 1) * times, times, members, g.count);
    case 4:
        for (uint32_t i = 0; i < times; i++)
            n += t->s[(c->one - 1) * times + i];
        return outside(n, c->lo, c->hi);
    case 5:
        for (uint32_t e = 0; e < c->many.count; e++)
            for (uint32_t i = 0; i < g.count; i++)
                n += t->s[(in->store[c->many.first + e] - 1u) * times + members[i] - 1];
        return outside(n, c->lo, c->hi);
    case 2:
    case 6:
        for (uint32_t i = 0; i < g.count; i++)
            n += used[members[i] - 1];
        return c->kind == 6 && !n ? 0 : outside(n, c->lo, c->kind == 2 ? 0 : c->hi);
    case 9:
    case 10:
        n = of_length(c, t->y + (c->one - 1) * times, t->s + (c->one - 1) * times, times);
        return outside(n, c->lo, c->hi);
    case 11:
        return gap_outside(c, t->y + (c->one - 1) * times, t->y + (c->second - 1) * times, times);
    default:
        for (uint32_t k = 0; k < c->many.count; k++) {
            struct list h = in->group[in->store[c->many.first + k] - 1];
            uint32_t any = 0;
            if (c->kind == 8) {
                n += idle_times(used, in->store + h.first, h.count);
                continue;
            }
            for (uint32_t i = 0; i < h.count; i++)
                any |= used[in->store[h.first + i] - 1];
            n += any;
        }
        return outside(n, c->lo, c->hi);
    }
}

int score(const struct instance *in, const uint8_t *table, size_t length, uint64_t *infeasibility, uint64_t *objective)
{
    uint32_t times = in->times;
    size_t half = (size_t)in->events * times;
    static struct tables t;
    if (length != 2 * half)
        return 10;
    uint8_t all = 0;
    for (size_t i = 0; i < length; i++)
        all |= table[i];
    if (all > 1)
        return 11;
    t.y = table;
    t.s = table + half;
    for (uint32_t e = 0; e < in->events; e++)
        if (!keeps(t.y + e * times, t.s + e * times, times, in->duration[e]))
            return 12;
    memset(t.uses, 0, sizeof *t.uses * in->resources * times);
    for (uint32_t e = 0; e < in->events; e++)
        for (uint32_t i = 0; i < in->uses[e].count; i++) {
            uint16_t *row = t.uses + (in->store[in->uses[e].first + i] - 1) * times;
            for (uint32_t k = 0; k < times; k++)
                row[k] = (uint16_t)(row[k] + t.y[e * times + k]);
        }
    for (uint32_t i = 0; i < in->resources * times; i++)
        t.used[i] = t.uses[i] != 0;
    *infeasibility = *objective = 0;
    for (uint32_t i = 0; i < in->constraints; i++) {
        const struct constraint *c = &in->constraint[i];
        uint32_t d = deviation(in, c, &t);
        if (c->weight)
            *objective += (uint64_t)c->weight * d;
        else
            *infeasibility += d;
    }
    return 0;
}
