/*
 * plain JOB SPAN TURN INSTANCE [TABLE | MODEL | TEXT | BOUND PROOF]
 *
 * Does a job at least once untimed, then again and again in spans of at least
 * SPAN milliseconds until TURN milliseconds are over. Prints the refusal's number,
 * two numbers of the answer (for a text its length and a checksum, for a solver's
 * text the cost and a checksum of the model), the bytes of output and stores, the
 * most bytes that the process held, and for each span the microseconds of a call.
 * Each time the instance file is read anew. The job "lines" reads none: it counts
 * the lines of the other file. All times are the process's own time on a processor.
 */
#define _POSIX_C_SOURCE 199309L
#include "plain.h"

#include <stdio.h>
#include <stdlib.h>
#include <string.h>
#include <time.h>

struct bytes {
    uint8_t *at;
    size_t length;
};

static struct bytes load(const char *name)
{
    struct bytes b = {0, 0};
    FILE *f = fopen(name, "rb");
    if (!f || fseek(f, 0, SEEK_END)) {
        perror(name);
        exit(2);
    }
    b.length = (size_t)ftell(f);
    rewind(f);
    b.at = malloc(b.length + 1);
    if (!b.at || fread(b.at, 1, b.length, f) != b.length) {
        perror(name);
        exit(2);
    }
    fclose(f);
    return b;
}

static double now(void)
{
    struct timespec t;
    clock_gettime(CLOCK_PROCESS_CPUTIME_ID, &t);
    return (double)t.tv_sec * 1e6 + (double)t.tv_nsec / 1e3;
}

/* A number for all bytes of a text (FNV-1a). */
static uint64_t checksum(const uint8_t *s, uint64_t length)
{
    uint64_t sum = 0xcbf29ce484222325;
    for (uint64_t i = 0; i < length; i++)
        sum = (sum ^ s[i]) * 0x100000001b3;
    return sum;
}

/* What a job works on, and its answer. */
struct task {
    const char *job;
    struct bytes file, other;
    uint32_t bound;
    uint8_t *out;
    size_t room;
    struct stores stores;
    uint64_t lent;
    int refusal;
    uint64_t answer[2];
};

static struct instance in;

/* Memory that counts as lent. */
static void *lent(struct task *t, uint64_t bytes)
{
    void *p = calloc(bytes, 1);
    if (!p) {
        perror("plain");
        exit(2);
    }
    t->lent += bytes;
    return p;
}

/* The most bytes that this process held. */
static uint64_t peak(void)
{
    char line[256];
    unsigned long long kilobytes = 0;
    FILE *f = fopen("/proc/self/status", "r");
    while (f && fgets(line, sizeof line, f))
        if (sscanf(line, "VmHWM: %llu kB", &kilobytes) == 1)
            break;
    if (f)
        fclose(f);
    return 1024 * kilobytes;
}

/* How often byte 10 comes: the least that a walk over a text does. */
static uint64_t lines(struct bytes text)
{
    uint64_t lines = 0;
    for (size_t i = 0; i < text.length; i++)
        lines += text.at[i] == '\n';
    return lines;
}

static int once(struct task *t)
{
    if (!strcmp(t->job, "lines")) {
        t->answer[0] = lines(t->other);
        return 0;
    }
    int bad = read_instance(&in, t->file.at, t->file.length);
    if (bad)
        return bad;
    if (!strcmp(t->job, "score"))
        return score(&in, t->other.at, t->other.length, &t->answer[0], &t->answer[1]);
    if (!strcmp(t->job, "sizes")) {
        struct sizes s = sizes_of(&in);
        t->answer[0] = s.variables;
        t->answer[1] = s.clauses;
    }
    if (!strcmp(t->job, "text"))
        return text(&in, t->out, t->room, &t->answer[0]);
    if (!strcmp(t->job, "decode"))
        return decode(&in, t->other.at, t->other.length, &t->answer[0]);
    if (!strcmp(t->job, "solver_text"))
        return solver_text(&in, t->other.at, t->other.length, t->out, &t->answer[0]);
    if (!strcmp(t->job, "check"))
        return check(&in, t->bound, t->other.at, t->other.length, &t->stores, &t->answer[0]);
    return 0;
}

/* How many literals and clauses a proof adds: read as steps, without judging them. */
static void room(struct bytes proof, uint64_t *words, uint64_t *rows)
{
    size_t at = 0;
    while (at < proof.length) {
        int lists = proof.at[at++] == 'a' ? 2 : 1;
        uint64_t numbers = 0;
        for (int list = 0; list < lists; list++) {
            int id = lists == 2 && !list;
            while (at < proof.length && (id || proof.at[at])) {
                while (at < proof.length && proof.at[at] >= 128)
                    at++;
                at++;
                numbers += lists == 2 && !list && !id;
                id = 0;
            }
            at++;
        }
        *words += numbers;
        *rows += numbers > 0;
    }
}

/* Room for the text, for the model, or for the clauses and two bytes a variable. */
static void lend(struct task *t)
{
    if (read_instance(&in, t->file.at, t->file.length))
        return;
    struct sizes s = sizes_of(&in);
    uint64_t columns = t->bound + 1;
    if (!strcmp(t->job, "text")) {
        /* A weight has at most 10 digits, a literal 9 bytes; the last line may ask for 12 bytes a literal. */
        t->room = 64 + 13 * (s.clauses + s.units) + 9 * (s.words + s.units) + 16 * MOST_EVENTS;
        t->out = lent(t, t->room);
    }
    if (!strcmp(t->job, "solver_text")) {
        t->room = s.variables;
        t->out = lent(t, t->room);
    }
    if (!strcmp(t->job, "check")) {
        uint64_t variables = s.variables + s.units * columns;
        uint64_t clauses = s.clauses + 4 * s.units * columns + 1, words = s.words + 11 * s.units * columns + 1;
        room(t->other, &words, &clauses);
        t->stores.words = lent(t, sizeof(uint32_t) * words);
        t->stores.rows = lent(t, sizeof(struct row) * clauses);
        t->stores.falsified = lent(t, 2 * (variables + 1));
        t->stores.trail = lent(t, sizeof(uint32_t) * (variables + 1));
    }
}

/* The microseconds of so many calls. */
static double repeated(struct task *t, uint64_t calls)
{
    double begin = now();
    for (uint64_t i = 0; i < calls; i++)
        t->refusal = once(t);
    return now() - begin;
}

/* How many calls take so many microseconds: the clock is looked at after as many, since a look takes time too. */
static uint64_t calls_in(struct task *t, double long_enough)
{
    uint64_t calls = 1;
    while (repeated(t, calls) < long_enough)
        calls *= 2;
    return calls;
}

/* Prints the microseconds of a call in spans of so many microseconds. */
static void print_spans(struct task *t, uint64_t batch, double span, double turn)
{
    double begin = now();
    do {
        double took = 0, calls = 0;
        while (took < span) {
            took += repeated(t, batch);
            calls += (double)batch;
        }
        printf(" %.4f", took / calls);
    } while (now() - begin < turn);
}

int main(int count, char **words)
{
    if (count < 5)
        return 2;
    struct task t = {.job = words[1], .file = load(words[4])};
    double span = atof(words[2]) * 1e3, turn = atof(words[3]) * 1e3;
    if (count > 6)
        t.bound = (uint32_t)strtoul(words[5], 0, 10);
    if (count > 5)
        t.other = load(words[count - 1]);
    in.store = malloc(sizeof(uint16_t) * (2 * t.file.length + 1 + MOST_WINDOWS * MOST_PERIODS));
    lend(&t);
    uint64_t batch = calls_in(&t, span / 20);
    if (t.out && !t.refusal)
        t.answer[1] = checksum(t.out, strcmp(t.job, "text") ? t.room : t.answer[0]);
    printf("%d %llu %llu %llu %llu", t.refusal, (unsigned long long)t.answer[0], (unsigned long long)t.answer[1],
        (unsigned long long)t.lent, (unsigned long long)peak());
    print_spans(&t, batch, span, turn);
    printf("\n");
    return 0;
}
