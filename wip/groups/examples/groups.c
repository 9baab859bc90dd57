/* A formula in parts: the groups of its clauses, each simplified by itself, and then the whole, in which the same clauses are left.
 *
 * The clauses of the odd variables and those of the even ones have no variable in common: they are two groups. Variable 8 is in no clause and
 * so in no group. In the text of a group the variables have numbers from 1 on: 1, 3, 5 and 7 become 1, 2, 3 and 4. Each group is stamped
 * under the order for the whole, with the literals of the other group left out: then the clauses are left that Stamp and Sweep on the whole
 * leave. In the first group 1 implies 3 and 3 implies 5, so that in (1 or 5 or 7) the literal 1 adds nothing. In the second (-2 or 6) follows
 * from the other two clauses.
 *
 * Build and run, from the root of the repository:
 *     rt staticlib c_calls
 *     gcc -std=c99 -O2 -Iinclude -o target/groups examples/groups.c target/staticlib/libc_calls.a
 *     target/groups
 */
#include <stdio.h>
#include <stdlib.h>

#include "unhide.h"

enum { VARIABLES = 8, LITERALS = 2 * VARIABLES };

static const uint8_t text[] = "p cnf 8 6\n-1 3 0\n-2 4 0\n-3 5 0\n-4 6 0\n1 5 7 0\n-2 6 0\n";
static const int32_t order[LITERALS] = {1, -1, 2, -2, 3, -3, 4, -4, 5, -5, 6, -6, 7, -7, 8, -8};

static struct unhide_tables whole, part;
static struct unhide_answer answer;

/* The number of each variable's group, and the number that the variable has in the text of its group. */
static uint32_t groups[VARIABLES], own[VARIABLES];

/* Ends the program where a call is refused. */
static void made(int64_t result) {
    if (result == 0)
        return;
    printf("refused %d %u\n", (int)-result, (unsigned)answer.value);
    exit(1);
}

/* A variable's own number is how many variables up to it are of its group. */
static void find_own(void) {
    for (int v = 0; v < VARIABLES; v++)
        for (int w = 0; w <= v; w++)
            own[v] += groups[w] == groups[v];
}

/* The order with the literals of other groups left out, in the group's numbers; how many are left. */
static size_t share_order(uint32_t group, int32_t *share) {
    size_t count = 0;
    for (int i = 0; i < LITERALS; i++) {
        int v = abs(order[i]) - 1;
        if (groups[v] == group)
            share[count++] = order[i] > 0 ? (int32_t)own[v] : -(int32_t)own[v];
    }
    return count;
}

/* Stamps, sweeps and prints what is left. */
static void simplify(struct unhide_tables *tables, const int32_t *literals, size_t count) {
    static uint8_t out[256];
    made(unhide_tables_stamp(tables, literals, count, &answer));
    do
        made(unhide_tables_sweep(tables, 100, &answer));
    while (answer.open);
    made(unhide_tables_write(tables, out, sizeof out, &answer));
    printf("left:\n");
    fwrite(out, 1, (size_t)answer.value, stdout);
}

/* Loads a group's text into tables of its own. */
static void split_off(uint32_t group) {
    static uint8_t out[256];
    made(unhide_tables_group(&whole, group, out, sizeof out, &answer));
    printf("group %u:\n", (unsigned)group);
    fwrite(out, 1, (size_t)answer.value, stdout);
    made(unhide_tables_load(&part, out, (size_t)answer.value, &answer));
}

int main(void) {
    int32_t share[LITERALS];
    made(unhide_tables_load(&whole, text, sizeof text - 1, &answer));
    made(unhide_tables_groups(&whole, groups, VARIABLES, &answer));
    uint32_t count = (uint32_t)answer.value;
    for (int v = 0; v < VARIABLES; v++)
        printf("variable %d: %u\n", v + 1, (unsigned)groups[v]);
    find_own();
    for (uint32_t group = 1; group <= count; group++) {
        split_off(group);
        simplify(&part, share, share_order(group, share));
    }
    printf("the whole, ");
    simplify(&whole, order, LITERALS);
    return 0;
}
