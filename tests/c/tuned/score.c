/* A timetable's infeasibility and objective: refusals 10 to 12. */
#include "../plain/plain.h"

#include <string.h>

/* Whether an event keeps the rules: its taken times, and its starts. */
static int keeps(const uint8_t *y, const uint8_t *s, uint32_t times, uint32_t duration)
{
    uint32_t taken = y[0];
    uint8_t bad = y[0] ^ s[0];
    for (uint32_t t = 1; t < times; t++) {
        taken += y[t];
        bad |= (s[t] & ~y[t]) | (y[t] & ~y[t - 1] & ~s[t]);
    }
    return !bad && taken == duration;
}

static uint32_t outside(uint32_t count, uint32_t lo, uint32_t hi)
{
    return count < lo ? lo - count : count > hi ? count - hi : 0;
}

static uint32_t idle_times(const uint8_t *used, const uint16_t *members, uint32_t n)
{
    uint32_t first = n, last = 0, busy = 0;
    for (uint32_t i = 0; i < n; i++)
        if (used[members[i] - 1]) {
            if (first == n)
                first = i;
            last = i;
            busy++;
        }
    return busy ? last - first + 1 - busy : 0;
}

/* A bit for each time, the first lowest. */
__extension__ typedef unsigned __int128 bits;

/* The bits of a row of bytes 0 and 1, eight at a time. */
static bits pack(const uint8_t *row, uint32_t times)
{
    bits all = 0;
    uint32_t t = 0;
    for (; t + 8 <= times; t += 8) {
        uint64_t eight;
        memcpy(&eight, row + t, 8);
        all |= (bits)(eight * 0x0102040810204080 >> 56) << t;
    }
    for (; t < times; t++)
        all |= (bits)row[t] << t;
    return all;
}

static uint32_t count_bits(bits all)
{
    return (uint32_t)(__builtin_popcountll((uint64_t)all) + __builtin_popcountll((uint64_t)(all >> 64)));
}

/*
 * How many times a subevent holds that starts at no member. The times after a start at which it goes on are bits side
 * by side: adding 1 at the first carries through them, so that those are held which the sum no longer has.
 */
static uint32_t held(const uint8_t *y, const uint8_t *s, uint32_t times, const uint16_t *members, uint32_t count)
{
    bits starts = pack(s, times), on = pack(y, times) & ~starts, outside = starts;
    for (uint32_t i = 0; i < count; i++)
        outside &= ~((bits)1 << (members[i] - 1));
    return count_bits(outside) + count_bits(on & ~(on + (on & outside << 1)));
}

/* Of the starts those whose subevents have n times or more, by the times that go on with the one before. */
static bits at_least(bits starts, bits on, uint32_t n)
{
    for (uint32_t u = 1; u < n; u++)
        starts &= on >> u;
    return starts;
}

/* How many subevents have a length from shortest to longest, or for kind 10 another. */
static uint32_t of_length(const struct constraint *c, const uint8_t *y, const uint8_t *s, uint32_t times)
{
    bits starts = pack(s, times), on = pack(y, times) & ~starts;
    bits enough = at_least(starts, on, c->shortest);
    bits above = at_least(enough, on >> (c->shortest - 1), c->longest - c->shortest + 2);
    return count_bits(c->kind == 9 ? enough & ~above : above | (starts & ~enough));
}

/* Whether the gap from the last time of one event to the first time of the next lies outside; neither is empty. */
static uint32_t gap_outside(const struct constraint *c, const uint8_t *one, const uint8_t *second, uint32_t times)
{
    bits before = pack(one, times), after = pack(second, times);
    uint64_t high = (uint64_t)(before >> 64), low = (uint64_t)after;
    int last = high ? 127 - __builtin_clzll(high) : 63 - __builtin_clzll((uint64_t)before);
    int begin = low ? __builtin_ctzll(low) : 64 + __builtin_ctzll((uint64_t)(after >> 64));
    int gap = begin - last - 1;
    return gap < (int)c->shortest || gap > (int)c->longest;
}

struct tables {
    const uint8_t *y, *s;
    uint8_t used[MOST_RESOURCES * MOST_TIMES];
    uint16_t uses[MOST_RESOURCES * MOST_TIMES];
};

static uint32_t deviation(const struct instance *in, const struct constraint *c, const struct tables *t)
{
    uint32_t times = in->times, n = 0;
    struct list g = c->kind == 2 || c->kind == 3 || c->kind == 5 || c->kind == 6 ? in->group[c->group - 1] : (struct list){0, 0};
    const uint16_t *members = in->store + g.first;
    const uint8_t *used = c->kind == 1 || c->kind == 2 || (c->kind > 5 && c->kind < 9) ? t->used + (c->one - 1) * times : 0;
    switch (c->kind) {
    case 1:
        for (uint32_t i = 0; i < times; i++)
            n += outside(t->uses[(c->one - 1) * times + i], 0, 1);
        return n;
    case 3:
        return held(t->y + (c->one - 1) * times, t->s + (c->one - 1) * times, times, members, g.count);
    case 4:
        for (uint32_t i = 0; i < times; i++)
            n += t->s[(c->one - 1) * times + i];
        return outside(n, c->lo, c->hi);
    case 5:
        for (uint32_t e = 0; e < c->many.count; e++)
            for (uint32_t i = 0; i < g.count; i++)
                n += t->s[(in->store[c->many.first + e] - 1u) * times + members[i] - 1];
        return outside(n, c->lo, c->hi);
    case 2:
    case 6:
        for (uint32_t i = 0; i < g.count; i++)
            n += used[members[i] - 1];
        return c->kind == 6 && !n ? 0 : outside(n, c->lo, c->kind == 2 ? 0 : c->hi);
    case 9:
    case 10:
        n = of_length(c, t->y + (c->one - 1) * times, t->s + (c->one - 1) * times, times);
        return outside(n, c->lo, c->hi);
    case 11:
        return gap_outside(c, t->y + (c->one - 1) * times, t->y + (c->second - 1) * times, times);
    default:
        for (uint32_t k = 0; k < c->many.count; k++) {
            struct list h = in->group[in->store[c->many.first + k] - 1];
            uint32_t any = 0;
            if (c->kind == 8) {
                n += idle_times(used, in->store + h.first, h.count);
                continue;
            }
            for (uint32_t i = 0; i < h.count; i++)
                any |= used[in->store[h.first + i] - 1];
            n += any;
        }
        return outside(n, c->lo, c->hi);
    }
}

int score(const struct instance *in, const uint8_t *table, size_t length, uint64_t *infeasibility, uint64_t *objective)
{
    uint32_t times = in->times;
    size_t half = (size_t)in->events * times;
    static struct tables t;
    if (length != 2 * half)
        return 10;
    uint8_t all = 0;
    for (size_t i = 0; i < length; i++)
        all |= table[i];
    if (all > 1)
        return 11;
    t.y = table;
    t.s = table + half;
    for (uint32_t e = 0; e < in->events; e++)
        if (!keeps(t.y + e * times, t.s + e * times, times, in->duration[e]))
            return 12;
    memset(t.uses, 0, sizeof *t.uses * in->resources * times);
    for (uint32_t e = 0; e < in->events; e++)
        for (uint32_t i = 0; i < in->uses[e].count; i++) {
            uint16_t *row = t.uses + (in->store[in->uses[e].first + i] - 1) * times;
            for (uint32_t k = 0; k < times; k++)
                row[k] = (uint16_t)(row[k] + t.y[e * times + k]);
        }
    for (uint32_t i = 0; i < in->resources * times; i++)
        t.used[i] = t.uses[i] != 0;
    *infeasibility = *objective = 0;
    for (uint32_t i = 0; i < in->constraints; i++) {
        const struct constraint *c = &in->constraint[i];
        uint32_t d = deviation(in, c, &t);
        if (c->weight)
            *objective += (uint64_t)c->weight * d;
        else
            *infeasibility += d;
    }
    return 0;
}
