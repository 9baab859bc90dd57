/* Two departments' rules in one formula: what the rules for cells and the rules for modules say together.
 *
 * In the cell rules 1 implies 2 and 2 implies 3. In the module rules 1 implies 2, and two rules of three literals follow. Two variables are
 * linked: 3 of the cells is 1 of the modules, and 1 of the cells is 3 of the modules. Module variables 2 and 4 are not linked and get the
 * next numbers, 4 and 5. In the join 1 implies 2, 2 implies 3 and 3 implies 4: from 1 to 4 it takes the rules of both. So in clause 4 the
 * literal 1 adds nothing, and clause 5 holds always.
 *
 * Build and run, from the root of the repository:
 *     (cd crates/c_calls && rt lib)
 *     mkdir -p target
 *     gcc -std=c99 -O2 -Iinclude -o target/join examples/join.c crates/c_calls/out/libc_calls.a
 *     target/join
 */
#include <stdio.h>
#include <stdlib.h>

#include "unhide.h"

enum { CELL_VARIABLES = 3, MODULE_VARIABLES = 4, PAIRS = 2 };

static const uint8_t cells[] = "p cnf 3 2\n-1 2 0\n-2 3 0\n";
static const uint8_t modules[] = "p cnf 4 3\n-1 2 0\n3 2 4 0\n-3 2 -4 0\n";
static const struct unhide_pair pairs[PAIRS] = {{3, 1}, {1, 3}};

static struct unhide_tables tables;
static struct unhide_answer answer;

/* Ends the program where a call is refused. */
static void made(int64_t result) {
    if (result == 0)
        return;
    printf("refused %d %u\n", (int)-result, (unsigned)answer.value);
    exit(1);
}

/* The cell variable that a module variable is linked to, or 0. */
static uint32_t linked_to(uint32_t variable) {
    for (size_t i = 0; i < PAIRS; i++)
        if (pairs[i].right == variable)
            return pairs[i].left;
    return 0;
}

/* Prints the number of each module variable in the join: that of its cell variable, or the next one. */
static void print_numbers(void) {
    uint32_t last = CELL_VARIABLES;
    for (uint32_t v = 1; v <= MODULE_VARIABLES; v++) {
        uint32_t linked = linked_to(v);
        printf("module variable %u: %u\n", (unsigned)v, (unsigned)(linked ? linked : ++last));
    }
}

static void print_clauses(void) {
    for (uint32_t i = 1; i <= tables.state.clauses; i++) {
        printf("clause %u:", (unsigned)i);
        for (uint32_t k = 0; k < unhide_clause_at(&tables, i)->length; k++)
            printf(" %d", (int)unhide_literals_at(&tables, i)[k]);
        printf("\n");
    }
}

int main(void) {
    static uint8_t out[256];
    made(unhide_tables_join(&tables, cells, sizeof cells - 1, modules, sizeof modules - 1, pairs, PAIRS, &answer));
    print_numbers();
    print_clauses();
    made(unhide_tables_run(&tables, 1, &answer));
    made(unhide_tables_write(&tables, out, sizeof out, &answer));
    fwrite(out, 1, (size_t)answer.value, stdout);
    return 0;
}
