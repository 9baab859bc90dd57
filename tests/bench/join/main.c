/* Measures a join of two texts beside a load of one text that has the same clauses with the join's numbers, in one run. Before that it compares
 * what the two leave. It prints the medians of both, in nanoseconds of processor time, and their ratio; the exit status is 1 if that is above 1.3
 * for one of the kinds that are judged, or if the two leave different tables. */
#define _POSIX_C_SOURCE 200809L
#include <stdio.h>
#include <string.h>

#include "../../../include/unhide.h"
#include "../measure.h"

enum { LENGTH = 1 << 17, SAMPLES = 101, SIZE = 4 };

/* Variables and clauses of each text, how many variables are linked, calls in a sample, and the most that the ratio may be, 0 where it is not judged. */
struct kind {
    const char *name;
    uint32_t variables, clauses, linked;
    int calls;
    double most;
};

static const struct kind kinds[] = {
    {"unlinked", 512, 2048, 0, 4, 1.3},
    {"half linked", 512, 2048, 256, 4, 1.3},
    {"all linked", 512, 2048, 512, 4, 1.3},
    {"1024 linked", 1024, 2048, 1024, 4, 1.3},
    {"small", 8, 16, 4, 64, 0},
};

struct text {
    uint8_t bytes[LENGTH];
    size_t length;
};

static struct text left, right, one;
static struct unhide_pair pairs[UNHIDE_VARIABLES];
static struct unhide_tables joined, loaded;
static struct unhide_answer answer;

/* Whether a call that is measured was refused. */
static int refused;

/* ---- texts */

static void put_header(struct text *text, uint32_t variables, uint32_t clauses) {
    text->length = (size_t)sprintf((char *)text->bytes, "p cnf %u %u\n", (unsigned)variables, (unsigned)clauses);
}

static void put_literal(struct text *text, uint32_t negative, uint32_t variable) {
    text->length += (size_t)sprintf((char *)text->bytes + text->length, negative ? "-%u " : "%u ", (unsigned)variable);
}

static void put_end(struct text *text) {
    text->length += (size_t)sprintf((char *)text->bytes + text->length, "0\n");
}

/* The variables 1 to `count` in some order. */
static void draw_order(uint32_t *order, uint32_t count) {
    for (uint32_t i = 0; i < count; i++) {
        uint32_t j = draw(i + 1);
        order[i] = order[j];
        order[j] = i + 1;
    }
}

/* Links variables of both sides, and gives each right variable its number in the join; how many variables that has. */
static uint32_t draw_links(const struct kind *kind, uint32_t *numbers) {
    static uint32_t lefts[UNHIDE_VARIABLES], rights[UNHIDE_VARIABLES];
    uint32_t last = kind->variables;
    draw_order(lefts, kind->variables);
    draw_order(rights, kind->variables);
    memset(numbers, 0, (kind->variables + 1) * sizeof numbers[0]);
    for (uint32_t i = 0; i < kind->linked; i++) {
        pairs[i].left = lefts[i];
        pairs[i].right = rights[i];
        numbers[rights[i]] = lefts[i];
    }
    for (uint32_t v = 1; v <= kind->variables; v++)
        if (numbers[v] == 0)
            numbers[v] = ++last;
    return last;
}

/* Random clauses of SIZE literals into a text, and into the one text with these numbers. */
static void put_clauses(struct text *text, const struct kind *kind, const uint32_t *numbers) {
    for (uint32_t i = 0; i < kind->clauses; i++) {
        for (int k = 0; k < SIZE; k++) {
            uint32_t negative = draw(2), variable = draw(kind->variables) + 1;
            put_literal(text, negative, variable);
            put_literal(&one, negative, numbers[variable]);
        }
        put_end(text);
        put_end(&one);
    }
}

static void make_texts(const struct kind *kind) {
    static uint32_t own[UNHIDE_VARIABLES + 1], numbers[UNHIDE_VARIABLES + 1];
    for (uint32_t v = 1; v <= kind->variables; v++)
        own[v] = v;
    put_header(&one, draw_links(kind, numbers), 2 * kind->clauses);
    put_header(&left, kind->variables, kind->clauses);
    put_clauses(&left, kind, own);
    put_header(&right, kind->variables, kind->clauses);
    put_clauses(&right, kind, numbers);
}

/* ---- measuring */

static void join(const struct kind *kind) {
    refused |= unhide_tables_join(&joined, left.bytes, left.length, right.bytes, right.length, pairs, kind->linked, &answer) != 0;
}

static void load(const struct kind *kind) {
    (void)kind;
    refused |= unhide_tables_load(&loaded, one.bytes, one.length, &answer) != 0;
}

/* Nanoseconds of one call. */
static double sample(void (*call)(const struct kind *), const struct kind *kind) {
    double start = now();
    for (int i = 0; i < kind->calls; i++)
        call(kind);
    return (now() - start) / kind->calls;
}

static int measure(const struct kind *kind) {
    static double joins[SAMPLES], loads[SAMPLES];
    make_texts(kind);
    join(kind);
    load(kind);
    if (refused || memcmp(&joined, &loaded, sizeof joined) != 0) {
        printf("%-12s a join and a load %s\n", kind->name, refused ? "are refused" : "leave different tables");
        return 1;
    }
    for (int i = 0; i < SAMPLES; i++) {
        joins[i] = sample(join, kind);
        loads[i] = sample(load, kind);
    }
    double by_join = median(joins, SAMPLES), by_load = median(loads, SAMPLES);
    printf("%-12s %9u %8u %8u %10.0f %10.0f %8.2f\n", kind->name, (unsigned)joined.state.variables, (unsigned)joined.state.clauses,
           (unsigned)one.length, by_join, by_load, by_join / by_load);
    return kind->most > 0 && by_join / by_load > kind->most;
}

int main(void) {
    int status = 0;
    printf("%-12s %9s %8s %8s %10s %10s %8s\n", "kind", "variables", "clauses", "bytes", "join ns", "load ns", "ratio");
    for (size_t i = 0; i < sizeof kinds / sizeof kinds[0]; i++)
        status |= measure(&kinds[i]);
    return status;
}
