/* Reading an instance file: refusals 1 to 6, 19 and 22. */
#include "plain.h"

#include <string.h>

/* A number in groups of seven bits, the lowest first; 1 if it is cut short, overlong or too large. */
int read_number(const uint8_t *s, size_t length, size_t *at, uint32_t *value)
{
    uint64_t n = 0;
    for (unsigned k = 0; k < 5; k++) {
        if (*at + k >= length)
            return 1;
        uint8_t b = s[*at + k];
        n |= (uint64_t)(b & 127) << (7 * k);
        if (b < 128) {
            if ((k && !b) || n > UINT32_MAX)
                return 1;
            *at += k + 1;
            *value = (uint32_t)n;
            return 0;
        }
    }
    return 1;
}

struct reader {
    const uint8_t *s;
    size_t length, at;
};

static int limited(struct reader *r, uint32_t least, uint32_t most, uint32_t *value)
{
    if (read_number(r->s, r->length, &r->at, value))
        return 1;
    return *value < least || *value > most ? 2 : 0;
}

static int reference(struct reader *r, uint32_t above, uint32_t most, uint32_t *value)
{
    if (read_number(r->s, r->length, &r->at, value))
        return 1;
    return *value <= above || *value > most ? 3 : 0;
}

static int read_list(struct instance *in, struct reader *r, uint32_t most, struct list *list)
{
    uint32_t before = 0, value;
    int bad = limited(r, 0, most, &list->count);
    if (bad)
        return bad;
    list->first = in->used;
    for (uint32_t i = 0; i < list->count; i++) {
        if ((bad = reference(r, before, most, &value)))
            return bad;
        in->store[in->used++] = (uint16_t)value;
        before = value;
    }
    return 0;
}

/* How long a constraint's counted list is; for kind 3, which neither 4 nor 5 can end, how long it can be. */
static uint32_t list_length(const struct instance *in, const struct constraint *c)
{
    uint32_t n = 0;
    switch (c->kind) {
    case 1:
        return in->users[c->one - 1].count;
    case 2:
    case 6:
        return in->group[c->group - 1].count;
    case 3:
    case 4:
    case 9:
    case 10:
        return in->times;
    case 5:
        return c->many.count * in->group[c->group - 1].count;
    case 7:
        return c->many.count;
    default:
        for (uint32_t i = 0; i < c->many.count; i++) {
            uint32_t size = in->group[in->store[c->many.first + i] - 1].count;
            n += size < 2 ? 0 : size - 2;
        }
        return n;
    }
}

/* Kind 9's length, or kind 10's shortest and longest. */
static int read_lengths(const struct instance *in, struct reader *r, struct constraint *c)
{
    int bad = limited(r, 1, in->times, &c->shortest);
    c->longest = c->shortest;
    return bad || c->kind == 9 ? bad : limited(r, 1, in->times, &c->longest);
}

/* Kind 11's events and the bounds of its gap; its list has one member, which neither 4 nor 5 can end. */
static int read_precedence(const struct instance *in, struct reader *r, struct constraint *c)
{
    int bad;
    if ((bad = reference(r, 0, in->events, &c->one)) || (bad = reference(r, 0, in->events, &c->second))
        || (bad = limited(r, 0, 124, &c->shortest)) || (bad = limited(r, 0, 124, &c->longest)))
        return bad;
    return c->one == c->second ? 19 : c->shortest > c->longest ? 5 : 0;
}

static int read_constraint(struct instance *in, struct reader *r, struct constraint *c)
{
    int bad;
    if ((bad = limited(r, 1, 11, &c->kind)) || (bad = limited(r, 0, 1000, &c->weight)))
        return bad;
    uint32_t kind = c->kind;
    c->lo = 0;
    c->hi = kind == 1;
    if (kind == 11)
        return read_precedence(in, r, c);
    if (kind != 5 && (bad = reference(r, 0, kind == 3 || kind == 4 || kind > 8 ? in->events : in->resources, &c->one)))
        return bad;
    if ((kind == 5 || kind == 7 || kind == 8) && (bad = read_list(in, r, kind == 5 ? in->events : in->groups, &c->many)))
        return bad;
    if ((kind == 2 || kind == 3 || kind == 5 || kind == 6) && (bad = reference(r, 0, in->groups, &c->group)))
        return bad;
    if (kind > 8 && (bad = read_lengths(in, r, c)))
        return bad;
    if (kind > 3 && kind != 10 && ((bad = limited(r, 0, 255, &c->lo)) || (bad = limited(r, 0, 255, &c->hi))))
        return bad;
    uint32_t n = list_length(in, c);
    if (n > 255)
        return 4;
    if (c->lo > c->hi || c->lo > n || (kind == 10 && c->shortest > c->longest))
        return 5;
    return 0;
}

/* The users of each resource, from the resources of each event: counted, then put into their places. */
static void fill_users(struct instance *in)
{
    for (uint32_t r = 0; r < in->resources; r++)
        in->users[r].count = 0;
    for (uint32_t e = 0; e < in->events; e++)
        for (uint32_t i = 0; i < in->uses[e].count; i++)
            in->users[in->store[in->uses[e].first + i] - 1].count++;
    for (uint32_t r = 0; r < in->resources; r++) {
        in->users[r].first = in->used;
        in->used += in->users[r].count;
        in->users[r].count = 0;
    }
    for (uint32_t e = 0; e < in->events; e++)
        for (uint32_t i = 0; i < in->uses[e].count; i++) {
            struct list *users = &in->users[in->store[in->uses[e].first + i] - 1];
            in->store[users->first + users->count++] = (uint16_t)(e + 1);
        }
}

/* A day's periods in minutes, and how many times come before the first of them. */
struct day {
    uint32_t before, count, start[MOST_PERIODS], end[MOST_PERIODS];
};

/* A number of a calendar or a window. */
static int in_clock_time(struct reader *r, uint32_t least, uint32_t most, uint32_t *value)
{
    int bad = limited(r, least, most, value);
    return bad == 2 ? 22 : bad;
}

static int read_day(struct reader *r, struct day *d)
{
    int bad = in_clock_time(r, 0, MOST_PERIODS, &d->count);
    for (uint32_t i = 0; !bad && i < d->count; i++) {
        if ((bad = in_clock_time(r, 0, LAST_MINUTE, &d->start[i])) || (bad = in_clock_time(r, 0, LAST_MINUTE, &d->end[i])))
            return bad;
        if (d->start[i] >= d->end[i] || (i && d->start[i] < d->end[i - 1]))
            return 22;
    }
    return bad;
}

/* The calendar after the 0 in place of the number of times. */
static int read_calendar(struct instance *in, struct reader *r, struct day *days)
{
    for (uint32_t d = 0; d < DAYS; d++) {
        int bad = read_day(r, &days[d]);
        if (bad)
            return bad;
        days[d].before = in->times;
        in->times += days[d].count;
    }
    return in->times < 1 || in->times > MOST_TIMES ? 22 : 0;
}

/* The windows of a calendar as groups: of a day's periods those that lie inside. */
static int read_windows(struct instance *in, struct reader *r, const struct day *days)
{
    uint32_t count, day, from, to;
    int bad = in_clock_time(r, 0, MOST_WINDOWS, &count);
    for (uint32_t w = 0; !bad && w < count; w++) {
        if ((bad = in_clock_time(r, 1, DAYS, &day)) || (bad = in_clock_time(r, 0, LAST_MINUTE, &from))
            || (bad = in_clock_time(r, 0, LAST_MINUTE, &to)))
            return bad;
        const struct day *d = &days[day - 1];
        struct list *group = &in->group[in->groups++];
        group->first = in->used;
        for (uint32_t i = 0; i < d->count; i++)
            if (d->start[i] >= from && d->end[i] <= to)
                in->store[in->used++] = (uint16_t)(d->before + i + 1);
        group->count = in->used - group->first;
    }
    return bad;
}

/* The store has room for a number for each byte of the file, each use of a resource and each window's periods. */
int read_instance(struct instance *in, const uint8_t *file, size_t length)
{
    struct reader r = {file, length, 0};
    int bad;
    uint32_t value;
    struct day days[DAYS];
    in->used = 0;
    if ((bad = limited(&r, 0, MOST_TIMES, &in->times)))
        return bad;
    int calendar = !in->times;
    if ((calendar && (bad = read_calendar(in, &r, days))) || (bad = limited(&r, 1, MOST_EVENTS, &in->events))
        || (bad = limited(&r, 0, MOST_RESOURCES, &in->resources)))
        return bad;
    for (uint32_t e = 0; e < in->events; e++) {
        if ((bad = limited(&r, 1, in->times, &value)) || (bad = read_list(in, &r, in->resources, &in->uses[e])))
            return bad;
        in->duration[e] = (uint8_t)value;
    }
    fill_users(in);
    if ((bad = limited(&r, 0, MOST_GROUPS, &in->groups)))
        return bad;
    for (uint32_t g = 0; g < in->groups; g++)
        if ((bad = read_list(in, &r, in->times, &in->group[g])))
            return bad;
    if (calendar && (bad = read_windows(in, &r, days)))
        return bad;
    if ((bad = limited(&r, 0, MOST_CONSTRAINTS, &in->constraints)))
        return bad;
    for (uint32_t i = 0; i < in->constraints; i++)
        if ((bad = read_constraint(in, &r, &in->constraint[i])))
            return bad;
    return r.at == length ? 0 : 6;
}
