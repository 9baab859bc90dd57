/* The calls on a struct of tables: answers, refusals with their places, and the helpers that look at the tables. It is C and C++.
 * What differs is printed, and the exit status is then 1. */
#include <stdio.h>
#include <string.h>

#include "unhide.h"

static int differs;

static void compare(const char *name, long expected, long found) {
    if (expected == found)
        return;
    printf("differs: %s: expected %ld, found %ld\n", name, expected, found);
    differs = 1;
}

static struct unhide_tables tables;
static struct unhide_answer answer;

static const int32_t order[] = {1, -1, 2, -2, 3, -3, 4, -4};

/* programmes */
static const uint32_t constant[] = {UNHIDE_CODE_SETTLE, UNHIDE_CODE_STAMP, UNHIDE_CODE_FAILED, UNHIDE_CODE_SWEEP};
static const uint32_t settle[] = {UNHIDE_CODE_SETTLE};
static const uint32_t no_sweep[] = {UNHIDE_CODE_SETTLE, UNHIDE_CODE_STAMP, UNHIDE_CODE_FAILED};

/* Compares what a call returns and the first value of its answer. */
static void compare_call(const char *name, long expected, long value, int64_t result) {
    char named[64];
    compare(name, expected, (long)result);
    sprintf(named, "%s, value", name);
    compare(named, value, (long)answer.value);
}

static void compare_rest(const char *name, long clauses_gone, long literals_gone, long open) {
    char named[64];
    sprintf(named, "%s, clauses gone", name);
    compare(named, clauses_gone, (long)answer.clauses_gone);
    sprintf(named, "%s, literals gone", name);
    compare(named, literals_gone, (long)answer.literals_gone);
    sprintf(named, "%s, open", name);
    compare(named, open, (long)answer.open);
}

static int64_t load(const char *text) {
    return unhide_tables_load(&tables, (const uint8_t *)text, strlen(text), &answer);
}

static int64_t write_out(uint8_t *out, size_t length) {
    return unhide_tables_write(&tables, out, length, &answer);
}

static int64_t explain(uint32_t number, uint8_t *out, size_t length) {
    return unhide_tables_explain(&tables, number, out, length, &answer);
}

/* Tables and a state of zeros, before the first load: every call but that, and a join, is refused. */
static void compare_zeros(void) {
    uint8_t out[64];
    compare("bytes", 172456, (long)sizeof tables);
    compare_call("propagate on zeros", UNHIDE_SHAPE, 0, unhide_tables_propagate(&tables, 1, &answer));
    compare_call("merge on zeros", UNHIDE_SHAPE, 0, unhide_tables_merge(&tables, 1, &answer));
    compare_call("stamp on zeros", UNHIDE_SHAPE, 0, unhide_tables_stamp(&tables, order, 0, &answer));
    compare_call("failed on zeros", UNHIDE_SHAPE, 0, unhide_tables_failed(&tables, &answer));
    compare_call("sweep on zeros", UNHIDE_SHAPE, 0, unhide_tables_sweep(&tables, 1, &answer));
    compare_call("learn on zeros", UNHIDE_SHAPE, 0, unhide_tables_learn(&tables, order, 0, &answer));
    compare_call("run on zeros", UNHIDE_SHAPE, 0, unhide_tables_run(&tables, 1, &answer));
    compare_call("set programme on zeros", UNHIDE_SHAPE, 0, unhide_tables_set_programme(&tables, settle, 1, &answer));
    compare_call("write on zeros", UNHIDE_SHAPE, 0, write_out(out, 64));
    compare_call("explain on zeros", UNHIDE_SHAPE, 0, explain(1, out, 64));
}

static void compare_passes(void) {
    uint8_t out[64];
    compare_call("load", 0, 0, load("p cnf 4 3\n-1 2 0\n-2 3 0\n1 3 4 0\n"));
    compare("variables", 4, (long)tables.state.variables);
    compare("clauses", 3, (long)tables.state.clauses);
    compare_call("propagate", 0, 3, unhide_tables_propagate(&tables, 65535, &answer));
    compare_rest("propagate", 0, 0, 0);
    compare_call("merge, first step", 0, 1, unhide_tables_merge(&tables, 1, &answer));
    compare_rest("merge, first step", 0, 0, 1);
    compare("pass", UNHIDE_MERGE, (long)tables.state.pass);
    compare("cursor", 1, (long)tables.state.cursor);
    compare_call("merge, the rest", 0, 2, unhide_tables_merge(&tables, 9, &answer));
    compare_call("stamp", 0, 0, unhide_tables_stamp(&tables, order, 8, &answer));
    compare("fresh", 1, (long)tables.state.fresh);
    compare_call("failed", 0, 0, unhide_tables_failed(&tables, &answer));
    compare_call("sweep", 0, 3, unhide_tables_sweep(&tables, 65535, &answer));
    compare_rest("sweep", 0, 1, 0);
    compare("pass at the end", UNHIDE_NO_PASS, (long)tables.state.pass);
    compare_call("write", 0, 30, write_out(out, 64));
    compare("written", 0, memcmp(out, "p cnf 4 3\n-1 2 0\n-2 3 0\n3 4 0\n", 30));
    compare_call("run", 0, 1, unhide_tables_run(&tables, 9, &answer));
}

static void compare_records(void) {
    load("p cnf 4 3\n-1 2 0\n-2 3 0\n1 3 4 0\n");
    unhide_tables_stamp(&tables, order, 8, &answer);
    compare("slot of 1", 0, (long)unhide_slot(1));
    compare("slot of -1", 1, (long)unhide_slot(-1));
    compare("slot of -1024", 2047, (long)unhide_slot(-1024));
    compare("start of clause 3", 4, (long)unhide_clause_at(&tables, 3)->start);
    compare("length of clause 3", 3, (long)unhide_clause_at(&tables, 3)->length);
    compare("clause 3 stands", 1, (long)unhide_clause_at(&tables, 3)->standing);
    compare("first literal of clause 3", 1, (long)unhide_literals_at(&tables, 3)[0]);
    compare("class of 2", 2, (long)unhide_variable_at(&tables, 2)->class_literal);
    compare("value of 2", 0, (long)unhide_variable_at(&tables, 2)->value);
    compare("discovery of 1", 1, (long)unhide_times_at(&tables, 1)->discovery);
    compare("finish of 1", 6, (long)unhide_times_at(&tables, 1)->finish);
    compare("parent of 3", 2, (long)unhide_links_at(&tables, 3)->parent);
    compare("start of 3", 1, (long)unhide_links_at(&tables, 3)->start);
    compare("parent of -3", -3, (long)unhide_links_at(&tables, -3)->parent);
}

/* Learnt clauses under the stamps of the sample: kept whole, shortened, dropped and refused. */
static void compare_learns(void) {
    static const int32_t hidden[] = {4, 1, 3}, implied[] = {-1, 3, 4}, pair[] = {2, 4};
    compare("window empty", 0, (long)tables.window.numbers.clauses);
    compare_call("learn, kept", 0, UNHIDE_KEPT, unhide_tables_learn(&tables, pair, 2, &answer));
    compare("literals left of 2", 2, (long)unhide_left(&answer));
    compare_call("learn, shortened", 0, UNHIDE_SHORTENED, unhide_tables_learn(&tables, hidden, 3, &answer));
    compare("literals left of 3", 2, (long)unhide_left(&answer));
    compare_call("learn, dropped", 0, UNHIDE_DROPPED, unhide_tables_learn(&tables, implied, 3, &answer));
    compare_call("learn, the empty clause", 0, UNHIDE_KEPT, unhide_tables_learn(&tables, implied, 0, &answer));
    compare_call("learn, a list of 8", UNHIDE_NEWCOMER, 0, unhide_tables_learn(&tables, order, 8, &answer));
    compare("clauses in the window", 3, (long)tables.window.numbers.clauses);
    compare("literals in the window", 4, (long)tables.window.numbers.literals);
    compare("size of learnt clause 1", 2, (long)tables.window.sizes[1]);
    compare("last literal of learnt clause 1", 3, (long)unhide_learnt_at(&tables, 1)[1]);
    compare("stamps stay fresh", 1, (long)tables.state.fresh);
}

/* Compares the verdict on a clause, how many literals would go, and the chains. */
static void compare_explained(const char *name, uint32_t number, long verdict, long taken_out, const char *chains) {
    uint8_t out[64];
    size_t length = strlen(chains);
    char named[64];
    memset(out, 7, sizeof out);
    compare_call(name, 0, verdict, explain(number, out, 64));
    sprintf(named, "%s, taken out", name);
    compare(named, taken_out, (long)unhide_taken_out(&answer));
    sprintf(named, "%s, chains", name);
    compare(named, (long)length, (long)unhide_chain_bytes(&answer));
    compare(named, 0, memcmp(out, chains, length));
    compare(named, 7, (long)out[length]);
}

/* What a Sweep would do to the clauses of the sample, and to one that the first two imply. Nothing is changed by asking. */
static void compare_explains(void) {
    uint8_t out[64];
    load("p cnf 4 3\n-1 2 0\n-2 3 0\n1 3 4 0\n");
    unhide_tables_stamp(&tables, order, 8, &answer);
    compare_explained("explain, stays", 1, UNHIDE_WOULD_STAY, 0, "");
    compare_explained("explain, shortened", 3, UNHIDE_WOULD_SHORTEN, 1, "1 2 3 0\n");
    compare_call("explain, one byte too few", UNHIDE_OUTPUT, 8, explain(3, out, 7));
    compare_call("explain, clause 0", UNHIDE_NO_CLAUSE, 0, explain(0, out, 64));
    compare_call("explain, clause 4 of 3", UNHIDE_NO_CLAUSE, 0, explain(4, out, 64));
    compare("length of clause 3, explained", 3, (long)unhide_clause_at(&tables, 3)->length);
    compare("stamps stay fresh, explained", 1, (long)tables.state.fresh);
    load("p cnf 4 3\n-1 2 0\n-2 3 0\n-1 3 4 0\n");
    compare_call("explain, stale", UNHIDE_STALE, 0, explain(3, out, 64));
    unhide_tables_stamp(&tables, order, 8, &answer);
    compare_explained("explain, dropped", 3, UNHIDE_WOULD_DROP, 0, "1 2 3 0\n");
    unhide_tables_sweep(&tables, 1, &answer);
    compare_call("explain, other pass", UNHIDE_OTHER_PASS, 0, explain(3, out, 64));
}

/* How the intervals of the sample lie: 1 is [1,6], 2 [2,5], 3 [3,4], -3 [7,12], -2 [8,11], -1 [9,10]. */
static void compare_intervals(void) {
    compare("2 to itself", UNHIDE_SAME, (long)unhide_tables_compare(&tables, 2, 2));
    compare("1 to 3", UNHIDE_HOLDS, (long)unhide_tables_compare(&tables, 1, 3));
    compare("3 to 1", UNHIDE_HELD, (long)unhide_tables_compare(&tables, 3, 1));
    compare("-1 to -3", UNHIDE_HELD, (long)unhide_tables_compare(&tables, -1, -3));
    compare("3 to -1", UNHIDE_EARLIER, (long)unhide_tables_compare(&tables, 3, -1));
    compare("-4 to 4", UNHIDE_LATER, (long)unhide_tables_compare(&tables, -4, 4));
    compare("literal 0", UNHIDE_SHAPE, (long)unhide_tables_compare(&tables, 0, 1));
    compare("literal 5 of 4 variables", UNHIDE_SHAPE, (long)unhide_tables_compare(&tables, 1, 5));
    compare("literal -5 of 4 variables", UNHIDE_SHAPE, (long)unhide_tables_compare(&tables, -5, 1));
}

/* Variables 1 to 4 become one class, and a unit that Merge leaves gives it a value: each record has it, with its sign. */
static void compare_values(void) {
    static const long classes[] = {1, 1, -1, 1};
    static const long values[] = {1, 1, -1, 1};
    uint32_t v;
    load("p cnf 4 5\n2 3 0\n-3 -1 0\n1 2 0\n-2 4 0\n-4 1 0\n");
    compare_call("merge of four", 0, 5, unhide_tables_merge(&tables, 9, &answer));
    compare_call("propagate to the value", 0, 3, unhide_tables_propagate(&tables, 3, &answer));
    for (v = 1; v <= 4; v++) {
        compare("class in a ring", classes[v - 1], (long)unhide_variable_at(&tables, v)->class_literal);
        compare("value in a ring", values[v - 1], (long)unhide_variable_at(&tables, v)->value);
    }
    tables.variables[2].value = 1;
    compare_call("value of another sign", UNHIDE_SHAPE, 0, unhide_tables_propagate(&tables, 1, &answer));
}

static void compare_refusals(void) {
    uint8_t out[64];
    static const int32_t repeated[] = {1, -1, 2, -2, 3, -3, 1, -4};
    compare_call("grammar", UNHIDE_GRAMMAR, 10, load("p cnf 1 1\n01 0\n"));
    compare_call("limit", UNHIDE_LIMIT, 10, load("p cnf 1 1\n2 0\n"));
    compare("tables kept", 3, (long)tables.state.clauses);
    compare_call("order", UNHIDE_ORDER, 6, unhide_tables_stamp(&tables, repeated, 8, &answer));
    compare_call("output", UNHIDE_OUTPUT, 32, write_out(out, 31));
    unhide_tables_sweep(&tables, 1, &answer);
    compare_call("other pass", UNHIDE_OTHER_PASS, 0, unhide_tables_failed(&tables, &answer));
    unhide_tables_sweep(&tables, 9, &answer);
    compare_call("stale", UNHIDE_STALE, 0, unhide_tables_sweep(&tables, 9, &answer));
    load("p cnf 2 2\n1 2 0\n1 0\n");
    compare_call("unsettled", UNHIDE_UNSETTLED, 2, unhide_tables_merge(&tables, 9, &answer));
    load("p cnf 2 2\n-1 2 0\n1 -2 0\n");
    compare_call("cycle", UNHIDE_CYCLE, 0, unhide_tables_stamp(&tables, order, 4, &answer));
    load("p cnf 1 1\n0\n");
    compare("mark", 1, (long)tables.state.mark);
    compare_call("marked", UNHIDE_MARKED, 0, unhide_tables_run(&tables, 1, &answer));
    compare_call("explain, marked", UNHIDE_MARKED, 0, explain(1, out, 64));
    tables.state.variables = 1025;
    compare_call("shape", UNHIDE_SHAPE, 0, unhide_tables_propagate(&tables, 1, &answer));
}

/* ---- programmes */

static int64_t set_programme(const uint32_t *codes, size_t count) {
    return unhide_tables_set_programme(&tables, codes, count, &answer);
}

/* Compares the state's programme, and that zeros are behind it. */
static void compare_codes(const char *name, const uint32_t *codes, size_t count) {
    uint32_t expected[UNHIDE_CODES] = {0};
    memcpy(expected, codes, count * sizeof codes[0]);
    compare(name, (long)count, (long)tables.state.programme_length);
    compare(name, 0, memcmp(tables.state.programme, expected, sizeof expected));
}

/* A set programme stays until a load puts the constant one back. It goes with an open pass and with the mark, and changes neither. */
static void compare_set(void) {
    load("p cnf 4 3\n-1 2 0\n-2 3 0\n1 3 4 0\n");
    compare_codes("programme after a load", constant, 4);
    unhide_tables_merge(&tables, 1, &answer);
    compare_call("set programme in a pass", 0, 0, set_programme(no_sweep, 3));
    compare_rest("set programme in a pass", 0, 0, 0);
    compare_codes("programme set in a pass", no_sweep, 3);
    compare("pass that stays", UNHIDE_MERGE, (long)tables.state.pass);
    compare("cursor that stays", 1, (long)tables.state.cursor);
    compare_call("merge goes on", 0, 2, unhide_tables_merge(&tables, 9, &answer));
    compare_codes("programme after a pass", no_sweep, 3);
    compare_call("refused load", UNHIDE_GRAMMAR, 0, load(""));
    compare_codes("programme after a refused load", no_sweep, 3);
    compare_call("marked load", 0, 0, load("p cnf 1 1\n0\n"));
    compare_codes("programme after a marked load", constant, 4);
    compare_call("set programme under the mark", 0, 0, set_programme(settle, 1));
    compare_codes("programme set under the mark", settle, 1);
    compare("mark that stays", 1, (long)tables.state.mark);
}

/* Programmes that are refused, and those that a caller has damaged: a load takes the tables again. */
static void compare_wrong(void) {
    static const uint32_t wrong[] = {UNHIDE_CODE_SETTLE, UNHIDE_CODE_STAMP, UNHIDE_CODE_SWEEP, UNHIDE_CODE_FAILED};
    load("p cnf 1 1\n1 0\n");
    compare_call("no codes", UNHIDE_PROGRAMME, 0, set_programme(wrong, 0));
    compare_call("failed behind a sweep", UNHIDE_PROGRAMME, 3, set_programme(wrong, 4));
    compare_codes("programme kept", constant, 4);
    tables.state.programme_length = 0;
    compare_call("set programme, length 0", UNHIDE_SHAPE, 0, set_programme(settle, 1));
    compare_call("set no codes, length 0", UNHIDE_SHAPE, 0, set_programme(wrong, 0));
    tables.state.programme_length = 33;
    compare_call("set programme, length 33", UNHIDE_SHAPE, 0, set_programme(settle, 1));
    compare_call("run, length 33", UNHIDE_SHAPE, 0, unhide_tables_run(&tables, 1, &answer));
    compare("length 33 stays", 33, (long)tables.state.programme_length);
    compare_call("load, length 33", 0, 0, load("p cnf 0 0\n"));
    compare_codes("programme after damage", constant, 4);
}

/* Loads two clauses under which 1 fails, and makes one round of a programme. */
static void run_round(const char *name, const uint32_t *codes, size_t count) {
    load("p cnf 2 2\n-1 2 0\n-1 -2 0\n");
    set_programme(codes, count);
    compare_call(name, 0, 1, unhide_tables_run(&tables, 1, &answer));
}

/* Compares what a round has left: the value of 1, the length of the first clause, and whether the stamps are fresh. */
static void compare_left(const char *name, long value, long length, long fresh) {
    compare(name, value, (long)unhide_variable_at(&tables, 1)->value);
    compare(name, length, (long)unhide_clause_at(&tables, 1)->length);
    compare(name, fresh, (long)tables.state.fresh);
}

/* Settle finds nothing there. Failed sets 1 false, Sweep takes 2 out of the first clause, and a settle behind Failed drops both clauses. */
static void compare_runs(void) {
    static const uint32_t no_failed[] = {UNHIDE_CODE_SETTLE, UNHIDE_CODE_STAMP, UNHIDE_CODE_SWEEP};
    static const uint32_t settle_last[] = {UNHIDE_CODE_SETTLE, UNHIDE_CODE_STAMP, UNHIDE_CODE_FAILED, UNHIDE_CODE_SETTLE};
    run_round("round of settle", settle, 1);
    compare_left("left by settle", 0, 2, 0);
    run_round("round without a sweep", no_sweep, 3);
    compare_left("left without a sweep", -1, 2, 1);
    run_round("round without failed", no_failed, 3);
    compare_left("left without failed", 0, 1, 0);
    run_round("constant round", constant, 4);
    compare_left("left by the constant programme", -1, 1, 0);
    run_round("round with a settle at its end", settle_last, 4);
    compare_left("left by a settle at the end", -1, 0, 0);
    compare_call("a round that changes nothing", 0, 1, unhide_tables_run(&tables, 9, &answer));
    compare_codes("programme after runs", settle_last, 4);
}

/* ---- joins */

static const char left[] = "p cnf 3 2\n-1 2 0\n-2 3 0\n";
static const char right[] = "p cnf 4 2\n-1 2 0\n3 2 -4 0\n";
static const struct unhide_pair linked[] = {{3, 1}, {1, 3}};

static int64_t join(const char *first, const char *second, const struct unhide_pair *pairs, size_t count) {
    return unhide_tables_join(&tables, (const uint8_t *)first, strlen(first), (const uint8_t *)second, strlen(second), pairs, count, &answer);
}

/* Right variable 1 is 3 and right variable 3 is 1; 2 and 4 get the numbers behind the left variables. Without links all four do. */
static void compare_joined(void) {
    static const int32_t literals[] = {-1, 2, -2, 3, -3, 4, 1, 4, -5}, unlinked[] = {-1, 2, -2, 3, -4, 5, 6, 5, -7};
    memset(&tables, 0, sizeof tables);
    compare_call("join on zeros", 0, 0, join(left, right, linked, 2));
    compare_rest("join on zeros", 0, 0, 0);
    compare("joined variables", 5, (long)tables.state.variables);
    compare("joined clauses", 4, (long)tables.state.clauses);
    compare("joined literals", 0, memcmp(tables.literals, literals, sizeof literals));
    compare("start of joined clause 4", 6, (long)unhide_clause_at(&tables, 4)->start);
    compare("class of joined variable 5", 5, (long)unhide_variable_at(&tables, 5)->class_literal);
    compare_codes("programme of a join", constant, 4);
    compare_call("join of one link", 0, 0, join(left, right, linked, 1));
    compare("variables by one link", 6, (long)tables.state.variables);
    compare_call("join without links", 0, 0, join(left, right, linked, 0));
    compare("variables without links", 7, (long)tables.state.variables);
    compare("literals without links", 0, memcmp(tables.literals, unlinked, sizeof unlinked));
    compare_call("join with an empty clause", 0, 0, join(left, "p cnf 0 1\n0\n", linked, 0));
    compare("mark of a join", 1, (long)tables.state.mark);
}

/* A join closes the pass, spends the stamps, puts the constant programme back and empties the window, as a load does. */
static void compare_replaced(void) {
    static const int32_t pair[] = {2, 4};
    load("p cnf 4 3\n-1 2 0\n-2 3 0\n1 3 4 0\n");
    unhide_tables_stamp(&tables, order, 8, &answer);
    unhide_tables_learn(&tables, pair, 2, &answer);
    set_programme(settle, 1);
    unhide_tables_sweep(&tables, 1, &answer);
    compare("pass before a join", UNHIDE_SWEEP, (long)tables.state.pass);
    compare("window before a join", 1, (long)tables.window.numbers.clauses);
    compare_call("join in a pass", 0, 0, join(left, right, linked, 2));
    compare("pass after a join", UNHIDE_NO_PASS, (long)tables.state.pass);
    compare("cursor after a join", 0, (long)tables.state.cursor);
    compare("stamps after a join", 0, (long)tables.state.fresh);
    compare("window after a join", 0, (long)(tables.window.numbers.clauses | tables.window.numbers.literals | tables.window.sizes[0]));
    compare("literals learnt before a join", 0, (long)(unhide_learnt_at(&tables, 0)[0] | unhide_learnt_at(&tables, 0)[1]));
    compare_codes("programme after a join", constant, 4);
}

/* A join that is refused changes no table, no state and no window. */
static void compare_unjoined(const char *name, long result, long place, const char *first, const char *second, const struct unhide_pair *pairs,
                             size_t count) {
    static struct unhide_tables before;
    char named[64];
    before = tables;
    compare_call(name, result, place, join(first, second, pairs, count));
    sprintf(named, "%s, tables kept", name);
    compare(named, 0, memcmp(&before, &tables, sizeof tables));
}

/* The place is the offset in the text at fault, and the left text is read first. */
static void compare_wrong_texts(void) {
    static const struct unhide_pair no_pair[] = {{0, 0}};
    compare_unjoined("join, left grammar", UNHIDE_GRAMMAR, 10, "p cnf 1 1\n01 0\n", right, linked, 2);
    compare_unjoined("join, left limit", UNHIDE_LIMIT, 12, "p cnf 3 1\n1 4 0\n", right, linked, 2);
    compare_unjoined("join, right grammar", UNHIDE_GRAMMAR, 14, left, "p cnf 4 1\n1 2\n", linked, 2);
    compare_unjoined("join, right limit", UNHIDE_LIMIT, 14, left, "p cnf 4 2\n1 0\n", linked, 2);
    compare_unjoined("join, no left text", UNHIDE_GRAMMAR, 0, "", right, linked, 2);
    compare_unjoined("join, no right text", UNHIDE_GRAMMAR, 0, left, "", linked, 2);
    compare_unjoined("join, both texts", UNHIDE_LIMIT, 14, "p cnf 4 2\n1 0\n", "x", linked, 2);
    compare_unjoined("join, a text and a link", UNHIDE_GRAMMAR, 0, left, "x", no_pair, 1);
}

/* Each list breaks the rules with its last pair alone: a variable out of range, or used before on its side. */
static void compare_wrong_links(void) {
    static const struct unhide_pair wrong[][3] = {
        {{3, 1}, {1, 3}, {0, 2}}, {{3, 1}, {1, 3}, {4, 2}}, {{3, 1}, {1, 3}, {4294967295u, 2}}, {{3, 1}, {1, 3}, {3, 2}},
        {{3, 1}, {1, 3}, {2, 0}}, {{3, 1}, {1, 3}, {2, 5}}, {{3, 1}, {1, 3}, {2, 4294967295u}}, {{3, 1}, {1, 3}, {2, 3}},
    };
    int i;
    for (i = 0; i < 8; i++) {
        char name[64];
        sprintf(name, "join, wrong links, list %d", i + 1);
        compare_unjoined(name, UNHIDE_LINK, 2, left, right, wrong[i], 3);
        sprintf(name, "join, wrong pair %d alone", i + 1);
        if (i % 4 != 3)
            compare_unjoined(name, UNHIDE_LINK, 0, left, right, wrong[i] + 2, 1);
    }
}

/* Of 1,024 left variables and two right ones, two links leave 1,024, one leaves too many. A wrong link is refused first. */
static void compare_limits(void) {
    static const char most[] = "p cnf 1024 0\n", more[] = "p cnf 2 0\n";
    static const struct unhide_pair pairs[] = {{1, 2}, {1024, 1}, {1024, 2}};
    compare_unjoined("join, 1025 variables", UNHIDE_LIMIT, 0, most, more, pairs, 1);
    compare_unjoined("join, 1026 variables", UNHIDE_LIMIT, 0, most, more, pairs, 0);
    compare_unjoined("join, 1025 variables and a wrong link", UNHIDE_LINK, 1, most, more, pairs + 1, 2);
    compare_call("join, 1024 variables", 0, 0, join(most, more, pairs, 2));
    compare("most joined variables", 1024, (long)tables.state.variables);
}

int main(void) {
    compare_zeros();
    compare_passes();
    compare_values();
    compare_records();
    compare_learns();
    compare_intervals();
    compare_refusals();
    compare_explains();
    compare_set();
    compare_wrong();
    compare_runs();
    compare_joined();
    compare_replaced();
    compare_wrong_texts();
    compare_wrong_links();
    compare_limits();
    if (!differs)
        printf("ok tables\n");
    return differs;
}
