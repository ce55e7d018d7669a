/* What a solver printed, read into a model in one pass, and the model decoded. */
#include "plain.h"

#include <string.h>

/* What a variable's byte is while no literal of it has come, and once two have. */
enum { MISSING = 2, TWICE = 3 };

struct reader {
    const uint8_t *at, *end;
    uint8_t *model;
    uint32_t variables;
    int closed;
};

/* Whether a word, or what stands right after a v, ends here. */
static int ends(const struct reader *r)
{
    return r->at == r->end || *r->at == ' ' || *r->at == '\n';
}

/* A literal, or the 0 that closes all of them. */
static int read_word(struct reader *r)
{
    int negative = *r->at == '-';
    r->at += negative;
    const uint8_t *digits = r->at;
    uint32_t variable = 0;
    while (r->at < r->end && *r->at >= '0' && *r->at <= '9') {
        variable = 10 * variable + (*r->at++ - '0');
        if (variable > r->variables)
            return 20;
    }
    if (r->at == digits || !ends(r) || r->closed)
        return 20;
    if (*digits == '0') {
        r->closed = 1;
        return negative || r->at - digits > 1 ? 20 : 0;
    }
    uint8_t *value = &r->model[variable - 1];
    *value = *value == MISSING ? !negative : TWICE;
    return 0;
}

/* The rest of a line of values. */
static int read_values(struct reader *r)
{
    if (!ends(r))
        return 20;
    for (;;) {
        while (r->at < r->end && *r->at == ' ')
            r->at++;
        if (r->at == r->end || *r->at == '\n')
            return 0;
        if (read_word(r))
            return 20;
    }
}

static int read_lines(struct reader *r)
{
    while (r->at < r->end) {
        uint8_t first = *r->at++;
        if (first == 'c' || first == 's' || first == 'o') {
            while (r->at < r->end && *r->at != '\n')
                r->at++;
        } else if (first != 'v' || read_values(r)) {
            return 20;
        }
        if (r->at < r->end)
            r->at++;
    }
    return 0;
}

/* The answer's number is the cost; for 21, the variable. The model has a byte for each variable. */
int solver_text(const struct instance *in, const uint8_t *text, size_t length, uint8_t *model, uint64_t *number)
{
    struct sizes sizes = sizes_of(in);
    if (sizes.variables > 8000000)
        return 8;
    memset(model, MISSING, sizes.variables);
    struct reader reader = {text, text + length, model, (uint32_t)sizes.variables, 0};
    if (read_lines(&reader))
        return 20;
    for (uint64_t i = 0; i < sizes.variables; i++)
        if (model[i] > 1) {
            *number = i + 1;
            return 21;
        }
    return decode(in, model, sizes.variables, number);
}
