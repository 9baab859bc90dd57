/* `learn KIND FILE` measures, on the tables of the formula in FILE, settled and stamped, one call of unhide_learn beside one call of unhide_sweep that
 * opens the pass and makes no visit: both check the shape rule. Newcomers of 3 and of 64 literals, 256 of each that are kept under these stamps, are
 * learnt in turn, with a full window of clauses of the same size, so that with every call the eldest leaves. It prints the medians of both, in
 * nanoseconds of processor time, and their ratio; the exit status is 1 if it is above 1.2 for 3 literals or above 2 for 64. */
#define _POSIX_C_SOURCE 200809L
#include <stdio.h>

#include "../timed.h"

enum { NEWCOMERS = 256, MOST = UNHIDE_LEARNT_LITERALS };

static int32_t newcomers[NEWCOMERS][MOST];

/* A random clause of different variables. */
static void draw_clause(int32_t *clause, uint32_t size) {
    for (uint32_t i = 0; i < size; i++) {
        uint32_t v, j;
        do {
            v = draw(tables.state.variables) + 1;
            for (j = 0; j < i && clause[j] != (int32_t)v && clause[j] != -(int32_t)v; j++)
                ;
        } while (j < i);
        clause[i] = draw(2) ? (int32_t)v : -(int32_t)v;
    }
}

/* Newcomers that are kept whole, which also fill the window; whether there are enough. */
static int find_newcomers(uint32_t size) {
    int found = 0;
    for (int tries = 0; found < NEWCOMERS && tries < 100 * NEWCOMERS; tries++) {
        draw_clause(newcomers[found], size);
        if (unhide_tables_learn(&tables, newcomers[found], size, &answer) != 0)
            return 0;
        found += answer.value == UNHIDE_KEPT;
    }
    return found == NEWCOMERS;
}

/* Nanoseconds of one learn, of CALLS in a row. */
static double time_learn(uint32_t size) {
    double start = now();
    for (int i = 0; i < CALLS; i++)
        refused |= unhide_tables_learn(&tables, newcomers[draw(NEWCOMERS)], size, &answer) != 0;
    return (now() - start) / CALLS;
}

static int measure(const char *kind, uint32_t size, double most) {
    double learn[SAMPLES], sweep[SAMPLES];
    if (!find_newcomers(size)) {
        printf("%-14s %8u literals: too few are kept, nothing is measured\n", kind, size);
        return 0;
    }
    for (int i = 0; i < SAMPLES; i++) {
        learn[i] = time_learn(size);
        sweep[i] = time_sweep();
    }
    double learned = median(learn, SAMPLES), swept = median(sweep, SAMPLES);
    printf("%-14s %8u %10.0f %10.0f %8.2f\n", kind, size, learned, swept, learned / swept);
    return refused || learned / swept > most;
}

int main(int argc, char **argv) {
    FILE *file = argc == 3 ? fopen(argv[2], "rb") : NULL;
    if (file == NULL)
        return 2;
    size_t length = fread(text, 1, LENGTH, file);
    fclose(file);
    if (!load_stamped(length))
        return 2;
    int slow = measure(argv[1], 3, 1.2);
    if (tables.state.variables >= MOST)
        slow |= measure(argv[1], MOST, 2);
    return slow;
}
