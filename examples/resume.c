/* A pass in steps: loads a formula, stamps its literals, sweeps two clauses at a time and prints how the third clause stands after each call.
 *
 * Build and run, from the root of the repository:
 *     (cd crates/c_calls && rt lib)
 *     mkdir -p target
 *     gcc -std=c99 -O2 -Iinclude -o target/resume examples/resume.c crates/c_calls/out/libc_calls.a
 *     target/resume
 */
#include <stdio.h>
#include <stdlib.h>

#include "unhide.h"

static const uint8_t text[] = "p cnf 4 3\n-1 2 0\n-2 3 0\n1 3 4 0\n";
static const int32_t order[] = {1, -1, 2, -2, 3, -3, 4, -4};

static struct unhide_tables tables;
static struct unhide_answer answer;

/* Ends the program where a call is refused. */
static void made(int64_t result) {
    if (result == 0)
        return;
    printf("refused %d %u\n", (int)-result, (unsigned)answer.value);
    exit(1);
}

static void print_clause(uint32_t i) {
    const int32_t *literals = unhide_literals_at(&tables, i);
    printf("visits: %u, %s; clause %u:", (unsigned)answer.value, answer.open ? "open" : "done", (unsigned)i);
    for (uint32_t k = 0; k < unhide_clause_at(&tables, i)->length; k++)
        printf(" %d", (int)literals[k]);
    printf("\n");
}

int main(void) {
    made(unhide_tables_load(&tables, text, sizeof text - 1, &answer));
    made(unhide_tables_stamp(&tables, order, 8, &answer));
    do {
        made(unhide_tables_sweep(&tables, 2, &answer));
        print_clause(3);
    } while (answer.open);
    return 0;
}
