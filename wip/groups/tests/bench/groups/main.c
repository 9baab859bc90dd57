/* `groups KIND VARIABLES` loads a formula of this kind, with so many variables, a power of two, and four clauses for each, and makes one call of
 * unhide_groups, one of unhide_group for group 1, one of unhide_write, and one of unhide_merge that opens the pass and makes no visit: `run` counts
 * their instructions. It prints the literals of the formula, the groups and the bytes of group 1. The exit status is 1 if a call is refused or if
 * there are not as many groups as the kind has. Without arguments it prints the kinds. */
#define _POSIX_C_SOURCE 200809L
#include <stdio.h>
#include <string.h>

#include "../../../include/unhide.h"
#include "../measure.h"

enum { LENGTH = 1 << 18, MOST_SIZE = 4, PER_VARIABLE = 4, EACH = 4, APART = 8 };

static uint8_t text[LENGTH], out[LENGTH];
static uint32_t numbers[UNHIDE_VARIABLES];
static struct unhide_tables tables;
static struct unhide_answer answer;

/* ---- formulas. Each function makes clause i, from 0, of a formula with V variables, and says how many literals it has. */

/* Random literals of different variables, each of them a multiple of `step`. */
static uint32_t draw_clause(uint32_t variables, uint32_t step, uint32_t size, int32_t *clause) {
    for (uint32_t k = 0; k < size; k++) {
        uint32_t v, j;
        do {
            v = step * (draw(variables / step) + 1);
            for (j = 0; j < k && clause[j] != (int32_t)v && clause[j] != -(int32_t)v; j++)
                ;
        } while (j < k);
        clause[k] = draw(2) ? (int32_t)v : -(int32_t)v;
    }
    return size;
}

static uint32_t join_two(uint32_t v, uint32_t w, int32_t *clause) {
    clause[0] = -(int32_t)v;
    clause[1] = (int32_t)w;
    return 2;
}

/* A chain of all variables, again and again. */
static uint32_t rising(uint32_t variables, uint32_t i, int32_t *clause) {
    uint32_t v = i % (variables - 1) + 1;
    return join_two(v, v + 1, clause);
}

/* The same from the largest variable down: where each group is kept by links to smaller variables, these are then as long as the chain. */
static uint32_t falling(uint32_t variables, uint32_t i, int32_t *clause) {
    uint32_t v = variables - 1 - i % (variables - 1);
    return join_two(v, v + 1, clause);
}

/* That chain once, then random clauses, which ask for variables all along it. */
static uint32_t far_apart(uint32_t variables, uint32_t i, int32_t *clause) {
    return i + 1 < variables ? falling(variables, i, clause) : draw_clause(variables, 1, 3, clause);
}

/* Blocks of one variable are joined in pairs, then those of two, and so on, each time at their last variables, which are those with the most
 * links to the smallest. */
static uint32_t doubling(uint32_t variables, uint32_t i, int32_t *clause) {
    uint32_t size = 1, pair = i % (variables - 1);
    for (uint32_t pairs = variables / 2; pair >= pairs; pairs /= 2) {
        pair -= pairs;
        size *= 2;
    }
    return join_two(2 * size * pair + size, 2 * size * (pair + 1), clause);
}

/* Groups of EACH variables that lie far apart. */
static uint32_t small(uint32_t variables, uint32_t i, int32_t *clause) {
    uint32_t groups = variables / EACH;
    for (uint32_t k = 0; k < EACH; k++) {
        int32_t v = (int32_t)(i % groups + k * groups + 1);
        clause[k] = draw(2) ? v : -v;
    }
    return EACH;
}

/* Most variables are in no clause. */
static uint32_t few(uint32_t variables, uint32_t i, int32_t *clause) {
    (void)i;
    return draw_clause(variables, APART, 3, clause);
}

/* As many literals as a formula may have. */
static uint32_t wide(uint32_t variables, uint32_t i, int32_t *clause) {
    (void)i;
    return draw_clause(variables, 1, MOST_SIZE, clause);
}

struct kind {
    const char *name;
    uint32_t (*make)(uint32_t variables, uint32_t i, int32_t *clause);
    uint32_t each; /* the variables of a group, 0 where there is one group alone */
};

static const struct kind kinds[] = {
    {"rising", rising, 0},
    {"falling", falling, 0},
    {"far-apart", far_apart, 0},
    {"doubling", doubling, 0},
    {"small", small, EACH},
    {"few", few, 0},
    {"wide", wide, 0},
};

enum { KINDS = sizeof kinds / sizeof kinds[0] };

/* ---- calls */

/* Writes the formula into `text`; its length. */
static size_t make_text(const struct kind *kind, uint32_t variables) {
    char *start = (char *)text, *at = start;
    at += sprintf(at, "p cnf %u %u\n", (unsigned)variables, (unsigned)(PER_VARIABLE * variables));
    for (uint32_t i = 0; i < PER_VARIABLE * variables; i++) {
        int32_t clause[MOST_SIZE];
        uint32_t size = kind->make(variables, i, clause);
        for (uint32_t k = 0; k < size; k++)
            at += sprintf(at, "%d ", (int)clause[k]);
        at += sprintf(at, "0\n");
    }
    return (size_t)(at - start);
}

/* Makes each call once; whether none is refused and the groups are those of the kind. */
static int make_calls(const struct kind *kind, uint32_t variables) {
    uint32_t literals = 0;
    if (unhide_tables_load(&tables, text, make_text(kind, variables), &answer) != 0)
        return 0;
    for (uint32_t i = 1; i <= tables.state.clauses; i++)
        literals += unhide_clause_at(&tables, i)->length;
    if (unhide_tables_groups(&tables, numbers, UNHIDE_VARIABLES, &answer) != 0)
        return 0;
    uint64_t groups = answer.value;
    if (unhide_tables_group(&tables, 1, out, LENGTH, &answer) != 0)
        return 0;
    printf("%u %u %u\n", (unsigned)literals, (unsigned)groups, (unsigned)answer.value);
    if (unhide_tables_write(&tables, out, LENGTH, &answer) != 0 || unhide_tables_merge(&tables, 0, &answer) != 0)
        return 0;
    return answer.open && groups == (kind->each == 0 ? 1 : variables / kind->each);
}

int main(int argc, char **argv) {
    for (size_t i = 0; i < KINDS; i++) {
        if (argc != 3)
            printf("%s\n", kinds[i].name);
        else if (strcmp(kinds[i].name, argv[1]) == 0)
            return make_calls(&kinds[i], (uint32_t)strtoul(argv[2], NULL, 10)) ? 0 : 1;
    }
    return argc == 1 ? 0 : 2;
}
