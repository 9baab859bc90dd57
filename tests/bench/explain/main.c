/* `explain KIND FILE [NUMBER]` measures, on the tables of the formula in FILE, settled and stamped, one call of unhide_explain beside one call of
 * unhide_sweep that opens the pass and makes no visit: both check the shape rule. The standing clauses are explained in turn, or only the one of this
 * number. It prints how many there are, how many of them would be dropped and how many shortened, the longest text, the medians of both calls in
 * nanoseconds of processor time, and their ratio; the exit status is 1 if that is above 1.2. */
#define _POSIX_C_SOURCE 200809L
#include <stdio.h>

#include "../timed.h"

static uint8_t out[1 << 22];
static uint32_t standing[UNHIDE_CLAUSES];
static uint32_t count, dropped, shortened, longest;

static int64_t explain(uint32_t number) {
    return unhide_tables_explain(&tables, number, out, sizeof out, &answer);
}

/* The numbers of the standing clauses from `first` to `last`, and what a Sweep would do to them; whether none is refused. */
static int find_standing(uint32_t first, uint32_t last) {
    for (uint32_t number = first; number <= last; number++) {
        int64_t result = explain(number);
        if (result == UNHIDE_NO_CLAUSE)
            continue;
        if (result != 0)
            return 0;
        standing[count++] = number;
        dropped += answer.value == UNHIDE_WOULD_DROP;
        shortened += answer.value == UNHIDE_WOULD_SHORTEN;
        if (unhide_chain_bytes(&answer) > longest)
            longest = (uint32_t)unhide_chain_bytes(&answer);
    }
    return 1;
}

/* Nanoseconds of one explain, of CALLS in a row, from the clause on where the sample before ended. */
static double time_explain(void) {
    static uint32_t next;
    double start = now();
    for (int i = 0; i < CALLS; i++)
        refused |= explain(standing[next++ % count]) != 0;
    return (now() - start) / CALLS;
}

int main(int argc, char **argv) {
    static double explained[SAMPLES], swept[SAMPLES];
    FILE *file = argc == 3 || argc == 4 ? fopen(argv[2], "rb") : NULL;
    if (file == NULL)
        return 2;
    size_t length = fread(text, 1, LENGTH, file);
    fclose(file);
    if (!load_stamped(length))
        return 2;
    uint32_t only = argc == 4 ? (uint32_t)strtoul(argv[3], NULL, 10) : 0;
    if (only ? !find_standing(only, only) : !find_standing(1, tables.state.clauses))
        return 2;
    if (count == 0) {
        printf("%-14s no clause stands, nothing is measured\n", argv[1]);
        return 0;
    }
    for (int i = 0; i < SAMPLES; i++) {
        explained[i] = time_explain();
        swept[i] = time_sweep();
    }
    double one = median(explained, SAMPLES), other = median(swept, SAMPLES);
    printf("%-14s %8u %8u %8u %10u %12.0f %10.0f %8.2f\n", argv[1], count, dropped, shortened, longest, one, other, one / other);
    return refused || one / other > 1.2;
}
