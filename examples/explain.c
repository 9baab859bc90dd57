/* Why a rule goes: of two small formulas the clauses, what a Sweep would do to clause 3, and the chain of literals that shows why.
 *
 * In the first formula clause 3 is (1 or 3 or 4). Clause 1 says that 1 implies 2, clause 2 that 2 implies 3. So 1 implies 3, which is in the
 * clause too: literal 1 adds nothing and is taken out. The chain is 1 2 3, two implications that can be looked up in the formula.
 * In the second clause 3 is (-1 or 3 or 4), and by the same chain it holds always: it is dropped.
 *
 * Build and run, from the root of the repository:
 *     (cd crates/c_calls && rt lib)
 *     mkdir -p target
 *     gcc -std=c99 -O2 -Iinclude -o target/explain examples/explain.c crates/c_calls/out/libc_calls.a
 *     target/explain
 */
#include <stdio.h>
#include <stdlib.h>
#include <string.h>

#include "unhide.h"

static const int32_t order[] = {1, -1, 2, -2, 3, -3, 4, -4};

static struct unhide_tables tables;
static struct unhide_answer answer;

/* Ends the program where a call is refused. */
static void made(int64_t result) {
    if (result == 0)
        return;
    printf("refused %d %u\n", (int)-result, (unsigned)answer.value);
    exit(1);
}

static void print_clauses(void) {
    for (uint32_t i = 1; i <= tables.state.clauses; i++) {
        printf("clause %u:", (unsigned)i);
        for (uint32_t k = 0; k < unhide_clause_at(&tables, i)->length; k++)
            printf(" %d", (int)unhide_literals_at(&tables, i)[k]);
        printf("\n");
    }
}

/* Loads a formula, and makes all passes that come before a Sweep, each to its end. */
static void prepare(const char *text) {
    made(unhide_tables_load(&tables, (const uint8_t *)text, strlen(text), &answer));
    do
        made(unhide_tables_propagate(&tables, 100, &answer));
    while (answer.open);
    do
        made(unhide_tables_merge(&tables, 100, &answer));
    while (answer.open);
    made(unhide_tables_stamp(&tables, order, 8, &answer));
}

/* Prints the verdict, how many literals would be taken out, and the chains. */
static void explain(uint32_t i) {
    static const char *const verdicts[] = {"stay", "drop", "shorten"};
    static uint8_t out[256];
    made(unhide_tables_explain(&tables, i, out, sizeof out, &answer));
    printf("%s %u\n", verdicts[answer.value], (unsigned)unhide_taken_out(&answer));
    fwrite(out, 1, (size_t)unhide_chain_bytes(&answer), stdout);
}

int main(void) {
    prepare("p cnf 4 3\n-1 2 0\n-2 3 0\n1 3 4 0\n");
    print_clauses();
    explain(3);
    prepare("p cnf 4 3\n-1 2 0\n-2 3 0\n-1 3 4 0\n");
    print_clauses();
    explain(3);
    return 0;
}
