/* Measures unhide_load, the parser of plain.c and memcpy on the same texts of 65,535 bytes, in one run. Before that it compares
   the two parsers on those texts and on spoilt copies of them: result, place and tables. */
#define _POSIX_C_SOURCE 200809L
#include "../measure.h"
#include "plain.h"
#include "unhide.h"

#include <stdio.h>
#include <stdlib.h>
#include <string.h>

enum { LENGTH = 65535, SAMPLES = 101, SPOILT = 2000, LIMIT_NS = 1000000 };

/* A place more than stated in each table; and the place of a refusal, 0 where there is none. */
struct tables {
    uint32_t clauses[CLAUSE_PLACES + 1];
    int32_t literals[MAX_LITERALS + 1];
    int32_t variables[VARIABLE_PLACES + 1];
    uint64_t place;
};

static struct tables by_load, by_plain;
static uint32_t times[STAMP_PLACES];
static int32_t links[STAMP_PLACES];
static struct unhide_window window;
static uint8_t copy[LENGTH];
static int failed;

/* V, or the refusal's number, negative. */
static int64_t run_load(const uint8_t *text, size_t length)
{
    struct tables *t = &by_load;
    uint32_t state[40] = {0};
    uint64_t answer[4] = {0};
    int64_t result = unhide_load(text, length, t->clauses, CLAUSE_PLACES + 1, t->literals, MAX_LITERALS + 1, t->variables,
                                 VARIABLE_PLACES + 1, times, STAMP_PLACES, links, STAMP_PLACES, state, 40, answer, 4, window.sizes,
                                 UNHIDE_LEARNT, window.learnt[0], UNHIDE_LEARNT * UNHIDE_LEARNT_LITERALS, &window.numbers.clauses, 2);
    t->place = result < 0 ? answer[0] : 0;
    return result < 0 ? result : (int64_t)state[0];
}

static int64_t run_plain(const uint8_t *text, size_t length)
{
    struct tables *t = &by_plain;
    size_t place = 0;
    int64_t result = plain_load(text, length, t->clauses, CLAUSE_PLACES + 1, t->literals, MAX_LITERALS + 1, t->variables,
                                VARIABLE_PLACES + 1, times, STAMP_PLACES, links, STAMP_PLACES, &place);
    t->place = result < 0 ? place : 0;
    return result;
}

static int64_t run_copy(const uint8_t *text, size_t length)
{
    memcpy(copy, text, length);
    return 0;
}

/* ---- texts */

static uint8_t text[LENGTH + 64];
static size_t used;

static void put(const char *s)
{
    size_t k = strlen(s);
    if (used + k > LENGTH) {
        fprintf(stderr, "a text is too long\n");
        exit(1);
    }
    memcpy(text + used, s, k);
    used += k;
}

static void put_literal(uint32_t variable)
{
    char word[16];
    snprintf(word, sizeof word, draw(2) ? "%u " : "-%u ", variable);
    put(word);
}

/* A clause of `size` literals by rising variable, the distance between two at most `step`. */
static void put_clause(uint32_t size, uint32_t step)
{
    uint32_t variable = 0;
    for (uint32_t i = 0; i < size; i++) {
        variable += 1 + draw(step);
        put_literal(variable);
    }
    put("0\n");
}

static void fill(void)
{
    memset(text + used, ' ', LENGTH - used);
    used = LENGTH;
}

static void short_clauses(void)
{
    put("p cnf 1024 4096\n");
    for (int i = 0; i < 4096; i++)
        put_clause(3, 340);
}

static void long_clauses(void)
{
    put("p cnf 1024 150\n");
    for (int i = 0; i < 150; i++)
        put_clause(100, 10);
}

/* Sixteen times all variables in some order, MAX_LITERALS literals, with `between` between two orders. They are positive, so that
   they fit into the text and no clause is a tautology. */
static void put_orders(const char *between)
{
    uint32_t order[MAX_VARIABLES];
    char word[16];
    seed = 1;
    for (uint32_t i = 0; i < MAX_VARIABLES; i++)
        order[i] = i + 1;
    for (uint32_t k = 0; k < MAX_LITERALS / MAX_VARIABLES; k++) {
        put(k ? between : "");
        for (uint32_t i = MAX_VARIABLES; i > 0; i--) {
            uint32_t j = draw(i), variable = order[j];
            order[j] = order[i - 1];
            order[i - 1] = variable;
            snprintf(word, sizeof word, "%u ", variable);
            put(word);
        }
    }
    put("0\n");
}

static void one_long_clause(void)
{
    put("p cnf 1024 1\n");
    put_orders("");
}

/* The same literals in the same order, in clauses without repeats. */
static void no_repeats(void)
{
    put("p cnf 1024 16\n");
    put_orders("0\n");
}

static void many_comments(void)
{
    while (used < LENGTH - 2000)
        put("c a comment line of the usual length, as the makers of formulas put them\n");
    put("p cnf 300 60\n");
    for (int i = 0; i < 60; i++)
        put_clause(3, 100);
}

static void wide_gaps(void)
{
    put("p cnf 1024 1024\n");
    for (int i = 0; i < 1024; i++) {
        put_clause(3, 340);
        put("                                                ");
    }
}

/* As short_clauses, and the last byte is no token. */
static void refused_at_the_end(void)
{
    short_clauses();
    fill();
    text[LENGTH - 1] = 'x';
}

/* ---- comparing */

static void compare(const uint8_t *s, size_t length, const char *kind)
{
    int64_t a, b;
    memset(&by_load, 7, sizeof by_load);
    memset(&by_plain, 7, sizeof by_plain);
    a = run_load(s, length);
    b = run_plain(s, length);
    if (a != b || memcmp(&by_load, &by_plain, sizeof by_load)) {
        printf("%s: load gives %lld, the plain parser %lld, and place and tables %s\n", kind, (long long)a, (long long)b,
               memcmp(&by_load, &by_plain, sizeof by_load) ? "differ" : "agree");
        failed = 1;
    }
}

/* The text, and copies of it that are cut, or have a few bytes changed. */
static void compare_spoilt(const char *kind)
{
    static const uint8_t odd[] = "0-1 \n\r\tcpx+9\f";
    static uint8_t spoilt[LENGTH];
    compare(text, LENGTH, kind);
    for (int i = 0; i < SPOILT && !failed; i++) {
        size_t length = draw(2) ? LENGTH : draw(LENGTH + 1);
        memcpy(spoilt, text, length);
        for (uint32_t k = draw(4); k > 0 && length > 0; k--)
            spoilt[draw(draw(2) ? (uint32_t)length : (length < 40 ? (uint32_t)length : 40))] = odd[draw(sizeof odd)];
        compare(spoilt, length, kind);
    }
}

/* ---- measuring */

/* Nanoseconds of processor time of one call, over `calls` calls. */
static double sample(int64_t (*run)(const uint8_t *, size_t), int calls)
{
    double begin = now();
    for (int i = 0; i < calls; i++) {
        run(text, LENGTH);
        __asm__ volatile("" ::: "memory");
    }
    return (now() - begin) / calls;
}

/* Nanoseconds of one load. */
static double measure(const char *kind, void (*make)(void))
{
    static double copies[SAMPLES], plains[SAMPLES], loads[SAMPLES], ones[SAMPLES];
    double c, p, l, one;
    size_t bytes;
    used = 0;
    make();
    bytes = used;
    fill();
    compare_spoilt(kind);
    for (int i = 0; i < SAMPLES; i++) {
        copies[i] = sample(run_copy, 50);
        plains[i] = sample(run_plain, 2);
        loads[i] = sample(run_load, 2);
        ones[i] = sample(run_load, 1);
    }
    c = median(copies, SAMPLES);
    p = median(plains, SAMPLES);
    l = median(loads, SAMPLES);
    one = median(ones, SAMPLES);
    printf("%s: %lld, %zu bytes and spaces behind\n", kind, (long long)run_load(text, LENGTH), bytes);
    printf("  memcpy  %7.3f bytes per ns\n", LENGTH / c);
    printf("  plain   %7.3f bytes per ns   memcpy takes %.4f of its time\n", LENGTH / p, c / p);
    printf("  load    %7.3f bytes per ns   memcpy takes %.4f of its time, plain %.2f\n", LENGTH / l, c / l, p / l);
    printf("  one load: %.0f us of processor time, at most %.0f us in %d\n", one / 1e3, ones[SAMPLES - 1] / 1e3, SAMPLES);
    if (one >= LIMIT_NS) {
        printf("  a load takes a millisecond or more\n");
        failed = 1;
    }
    return l;
}

/* Whether literals that are repeats cost no more than others, for the same literals in one clause and in clauses without repeats. */
static void measure_repeats(void)
{
    double repeats = measure("one long clause", one_long_clause) / MAX_LITERALS;
    double none = measure("no repeats", no_repeats) / MAX_LITERALS;
    printf("a literal of the long clause takes %.2f ns, one without repeats %.2f ns: ratio %.2f\n", repeats, none, repeats / none);
    if (repeats > 2 * none) {
        printf("  a literal of the long clause takes more than twice the time\n");
        failed = 1;
    }
}

int main(void)
{
    printf("texts of %d bytes; medians of %d samples; behind the colon V, or the refusal's number, negative\n", LENGTH, SAMPLES);
    measure("short clauses", short_clauses);
    measure("long clauses", long_clauses);
    measure("comments", many_comments);
    measure("wide gaps", wide_gaps);
    measure("refused at the last byte", refused_at_the_end);
    measure_repeats();
    if (!failed)
        printf("load and the plain parser agree on every text and on %d spoilt copies of each\n", SPOILT);
    return failed;
}
