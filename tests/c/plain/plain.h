/*
 * The engine's jobs in plain C, without proofs: a yardstick for its speed.
 *
 * Each job answers 0, or the number of the first refusal without its place.
 */
#ifndef PLAIN_H
#define PLAIN_H

#include <stddef.h>
#include <stdint.h>

enum { MOST_TIMES = 125, MOST_EVENTS = 1024, MOST_RESOURCES = 99, MOST_GROUPS = 1024, MOST_CONSTRAINTS = 4096 };
enum { DAYS = 7, MOST_PERIODS = 24, LAST_MINUTE = 1440, MOST_WINDOWS = 1024 };

/* A list of numbers from 1, at a place of the instance's store. */
struct list {
    uint32_t first, count;
};

/*
 * Kind 1 to 11; one is its resource or event, group its group, many its list of events or groups. Kind 10 has
 * two lengths of subevents, and kind 9 one, which is both shortest and longest. Kind 11 has a second event, and
 * the shortest and longest gap.
 */
struct constraint {
    uint32_t kind, weight, one;
    union {
        uint32_t group, second;
    };
    uint32_t lo, hi, shortest, longest;
    struct list many;
};

/* Windows are groups after the time groups. */
struct instance {
    uint32_t times, events, resources, groups, constraints;
    uint8_t duration[MOST_EVENTS];
    struct list uses[MOST_EVENTS];
    struct list users[MOST_RESOURCES];
    struct list group[MOST_GROUPS + MOST_WINDOWS];
    struct constraint constraint[MOST_CONSTRAINTS];
    uint32_t used, room;
    uint16_t *store;
};

/* Variables, clauses and their literals without the tail, the soft units, and 1 + their weights. */
struct sizes {
    uint64_t variables, clauses, words, units, top;
};

/* A clause's id, its first word and its length; the length is 0 once it is deleted. */
struct row {
    uint32_t id, first, length;
};

/* What a check works in: room for all clauses, and for two bytes a variable, all 0. */
struct stores {
    uint32_t *words;
    struct row *rows;
    uint8_t *falsified;
    uint32_t *trail;
};

int read_number(const uint8_t *s, size_t length, size_t *at, uint32_t *value);
int read_instance(struct instance *in, const uint8_t *file, size_t length);
struct sizes sizes_of(const struct instance *in);
int score(const struct instance *in, const uint8_t *table, size_t length, uint64_t *infeasibility, uint64_t *objective);
int text(const struct instance *in, uint8_t *out, size_t room, uint64_t *length);
int decode(const struct instance *in, const uint8_t *model, size_t length, uint64_t *cost);
int solver_text(const struct instance *in, const uint8_t *text, size_t length, uint8_t *model, uint64_t *number);
int check(const struct instance *in, uint32_t bound, const uint8_t *proof, size_t length, struct stores *stores, uint64_t *steps);

#endif
