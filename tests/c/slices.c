/* What the calls on slices do with a state that is none and with slices of other lengths: refusal 1 with place 0, before anything else is looked at,
 * and no number that they should not touch is touched. Then programmes: those that no call but Load and Join takes, and those that are set or refused.
 * Then the window: slices of other lengths, with numbers behind them, and windows that Learn refuses and Load and Join do not.
 * Then explanations: each verdict by each rule with its chains, outputs of other lengths with bytes behind them, and every refusal.
 * Last joins: the numbers that a load of the same clauses leaves, slices of other lengths, lists of links, the limits, and every refusal.
 * What differs is printed, and the exit status is then 1. */
#include <stdio.h>
#include <string.h>

#include "unhide.h"

static int differs;

static void compare(const char *name, long expected, long found) {
    if (expected == found)
        return;
    printf("differs: %s: expected %ld, found %ld\n", name, expected, found);
    differs = 1;
}

/* The numbers of the state, and how many it is lent with: two more than stated. */
enum { PASS = 2, CURSOR = 3, CHANGED = 4, FRESH = 5, MARK = 6, LENGTH = 7, CODES = 8, STATED = 40, LENT = 42 };

/* The tables, with two numbers more than stated behind each. */
static uint32_t clauses[3 * UNHIDE_CLAUSES + 2];
static int32_t literals[UNHIDE_LITERALS + 2];
static int32_t variables[2 * UNHIDE_VARIABLES + 2];
static uint32_t times[2 * UNHIDE_SLOTS + 2];
static int32_t links[2 * UNHIDE_SLOTS + 2];
static uint32_t state[LENT];
static uint64_t answer[6];
static uint8_t out[64];

/* The window, with two numbers more than stated behind each slice. */
enum { SIZES = UNHIDE_LEARNT, PLACES = UNHIDE_LEARNT * UNHIDE_LEARNT_LITERALS };

static uint32_t sizes[SIZES + 2];
static int32_t learnt[PLACES + 2];
static uint32_t window[4];

#define WINDOW sizes, SIZES, learnt, PLACES, window, 2

static const uint8_t text[] = "p cnf 4 3\n-1 2 0\n-2 3 0\n1 3 4 0\n";

/* The same formula as a join: right variables 1 and 2 are 1 and 3, and 3 is the fourth. */
static const char left[] = "p cnf 3 2\n-1 2 0\n-2 3 0\n";
static const char right[] = "p cnf 3 1\n1 2 3 0\n";
static const uint32_t pairs[] = {1, 1, 3, 2};

#define JOINED (const uint8_t *)left, sizeof left - 1, (const uint8_t *)right, sizeof right - 1, pairs, 4

static const uint32_t constant[] = {UNHIDE_CODE_SETTLE, UNHIDE_CODE_STAMP, UNHIDE_CODE_FAILED, UNHIDE_CODE_SWEEP};
static const uint32_t other[] = {UNHIDE_CODE_SETTLE, UNHIDE_CODE_STAMP, UNHIDE_CODE_SWEEP};

#define TABLES clauses, 3 * UNHIDE_CLAUSES, literals, UNHIDE_LITERALS, variables, 2 * UNHIDE_VARIABLES, times, 2 * UNHIDE_SLOTS, links, 2 * UNHIDE_SLOTS

/* The stated lengths of the tables and, behind them, of the window's slices. */
enum { TABLE_SLICES = 5, SLICES = 8 };

static const size_t lengths[SLICES] = {3 * UNHIDE_CLAUSES, UNHIDE_LITERALS, 2 * UNHIDE_VARIABLES, 2 * UNHIDE_SLOTS, 2 * UNHIDE_SLOTS, SIZES, PLACES, 2};

/* Load and Join take any programme and any tables, the calls from Propagate on do not. */
enum { LOAD, JOIN, PROPAGATE, MERGE, STAMP, FAILED, SWEEP, LEARN, RUN, SET_PROGRAMME, WRITE, EXPLAIN, CALLS };

static const char *const names[CALLS] = {"load",  "join",  "propagate", "merge",         "stamp", "failed",
                                         "sweep", "learn", "run",       "set programme", "write", "explain"};

static int64_t call(int which, size_t state_len, size_t answer_len) {
    switch (which) {
    case LOAD:
        return unhide_load(text, sizeof text - 1, TABLES, state, state_len, answer, answer_len, WINDOW);
    case JOIN:
        return unhide_join(JOINED, TABLES, state, state_len, answer, answer_len, WINDOW);
    case PROPAGATE:
        return unhide_propagate(TABLES, state, state_len, answer, answer_len, 1);
    case MERGE:
        return unhide_merge(TABLES, state, state_len, answer, answer_len, 1);
    case STAMP:
        return unhide_stamp(TABLES, state, state_len, answer, answer_len, literals, 0);
    case FAILED:
        return unhide_failed(TABLES, state, state_len, answer, answer_len);
    case SWEEP:
        return unhide_sweep(TABLES, state, state_len, answer, answer_len, 1);
    case LEARN:
        return unhide_learn(TABLES, state, state_len, answer, answer_len, literals, 0, WINDOW);
    case RUN:
        return unhide_run(TABLES, state, state_len, answer, answer_len, 1);
    case SET_PROGRAMME:
        return unhide_set_programme(TABLES, state, state_len, answer, answer_len, other, 3);
    case WRITE:
        return unhide_write(TABLES, state, state_len, answer, answer_len, out, sizeof out);
    default:
        return unhide_explain(TABLES, state, state_len, answer, answer_len, 1, out, sizeof out);
    }
}

/* A state of zeros with 7 behind it, and an answer of 7s. */
static void prepare_zeros(void) {
    memset(state, 0, sizeof state);
    state[STATED] = state[STATED + 1] = 7;
    for (int i = 0; i < 6; i++)
        answer[i] = 7;
}

/* The state of an empty formula, with the constant programme. */
static void prepare(void) {
    prepare_zeros();
    state[LENGTH] = 4;
    memcpy(state + CODES, constant, sizeof constant);
}

/* Whether the answer has 7s behind the place. */
static int rest_kept(void) {
    static const uint64_t untouched[5] = {7, 7, 7, 7, 7};
    return memcmp(answer + 1, untouched, sizeof untouched) == 0;
}

/* A call on the state as it is: refused with 1, and nothing changes but the place. */
static void compare_unmade(const char *what, int which, size_t state_len, size_t answer_len) {
    char name[64];
    uint32_t before[LENT];
    memcpy(before, state, sizeof state);
    sprintf(name, "%s, %s", names[which], what);
    int64_t result = call(which, state_len, answer_len);
    int place = answer_len < 4 ? answer[0] == 7 : answer[0] == 0;
    int same = memcmp(state, before, sizeof state) == 0;
    compare(name, -1, result == -1 && place && rest_kept() && same ? -1 : 0);
}

/* Each call, with one number of the state changed, is refused. */
static void compare_refused(const char *what, int field, uint32_t pass, uint32_t value, size_t state_len, size_t answer_len) {
    for (int which = 0; which < CALLS; which++) {
        prepare();
        state[PASS] = pass;
        state[field] = value;
        compare_unmade(what, which, state_len, answer_len);
    }
}

static void compare_states(void) {
    compare_refused("state of 39 numbers", PASS, 0, 0, STATED - 1, 6);
    compare_refused("no state", PASS, 0, 0, 0, 6);
    compare_refused("answer of three numbers", PASS, 0, 0, LENT, 3);
    compare_refused("no answer", PASS, 0, 0, LENT, 0);
    compare_refused("pass 4", PASS, 0, 4, LENT, 6);
    compare_refused("pass 4294967295", PASS, 0, 4294967295u, LENT, 6);
    compare_refused("cursor without a pass", CURSOR, 0, 1, LENT, 6);
    compare_refused("change without a pass", CHANGED, 0, 1, LENT, 6);
    compare_refused("change in Merge", CHANGED, 2, 1, LENT, 6);
    compare_refused("change in Sweep", CHANGED, 3, 1, LENT, 6);
    compare_refused("change 2", CHANGED, 1, 2, LENT, 6);
    compare_refused("fresh 2", FRESH, 0, 2, LENT, 6);
    compare_refused("mark 2", MARK, 0, 2, LENT, 6);
}

static int needs_stamps(int which) {
    return which == FAILED || which == SWEEP || which == LEARN || which == EXPLAIN;
}

/* With longer slices a call is made, and what is behind stays. */
static void compare_longer(void) {
    for (int which = 0; which < CALLS; which++) {
        char name[64];
        prepare();
        int64_t result = call(which, LENT, 6);
        int kept = state[STATED] == 7 && state[STATED + 1] == 7 && answer[4] == 7 && answer[5] == 7;
        /* the stamps are not fresh */
        int64_t expected = needs_stamps(which) ? UNHIDE_STALE : 0;
        sprintf(name, "%s, longer slices", names[which]);
        compare(name, expected, result);
        compare(name, 1, kept);
        compare(name, result == 0 ? 0 : 7, (long)(answer[1] | answer[2] | answer[3]));
        compare(name, which == SET_PROGRAMME ? 3 : 4, (long)state[LENGTH]);
    }
}

/* Compare on times that no stamps have, and with fewer than stated, or literals that have no record. */
static void compare_compare(void) {
    const size_t stated = 2 * UNHIDE_SLOTS;
    uint32_t kept[4] = {3, 7, 3, 6};
    memcpy(times, kept, sizeof kept);
    times[stated - 2] = 4;
    times[stated - 1] = 4294967295u;
    compare("compare, one beginning", UNHIDE_HOLDS, unhide_compare(times, stated, 1, 1, -1));
    compare("compare, one beginning, turned", UNHIDE_HELD, unhide_compare(times, stated, 1, -1, 1));
    compare("compare, the last record", UNHIDE_EARLIER, unhide_compare(times, stated, UNHIDE_VARIABLES, 1, -UNHIDE_VARIABLES));
    compare("compare, more variables than records", UNHIDE_LATER, unhide_compare(times, stated, 4294967295u, -UNHIDE_VARIABLES, 1));
    compare("compare, a literal without a record", UNHIDE_SHAPE, unhide_compare(times, stated, 4294967295u, UNHIDE_VARIABLES + 1, 1));
    compare("compare, the smallest literal", UNHIDE_SHAPE, unhide_compare(times, stated, 4294967295u, 1, INT32_MIN));
    compare("compare, no variables", UNHIDE_SHAPE, unhide_compare(times, stated, 0, 1, 1));
    compare("compare, one time too few", UNHIDE_SHAPE, unhide_compare(times, stated - 1, 1, 1, 1));
    compare("compare, no times", UNHIDE_SHAPE, unhide_compare(times, 0, 1, 1, 1));
    compare("compare, times kept", 0, memcmp(times, kept, sizeof kept));
    memset(times, 0, sizeof times);
}

/* ---- programmes */

/* A load or a join on the state as it is: made, and the state has the constant programme with zeros behind it. */
static void compare_loaded(const char *what, int which) {
    uint32_t expected[LENT] = {4, 3, 0, 0, 0, 0, 0, 4, 1, 2, 3, 4};
    char name[64];
    expected[STATED] = expected[STATED + 1] = 7;
    sprintf(name, "%s, %s", names[which], what);
    compare(name, 0, (long)call(which, LENT, 6));
    compare(name, 0, memcmp(state, expected, sizeof state));
}

/* A call on a state that only Load and Join take. */
static void compare_taken(const char *what, int which) {
    if (which < PROPAGATE)
        compare_loaded(what, which);
    else
        compare_unmade(what, which, LENT, 6);
}

/* A state of zeros: Load and Join take it, every other call refuses it. */
static void compare_zeros(void) {
    for (int which = 0; which < CALLS; which++) {
        prepare_zeros();
        compare_taken("state of zeros", which);
    }
}

/* The same for the constant programme with one number changed. */
static void compare_damaged(const char *what, int field, uint32_t value) {
    for (int which = 0; which < CALLS; which++) {
        prepare();
        state[field] = value;
        compare_taken(what, which);
    }
}

static void compare_all_damaged(void) {
    compare_damaged("programme of no codes", LENGTH, 0);
    compare_damaged("programme of a code too many", LENGTH, 5);
    compare_damaged("programme of 33 codes", LENGTH, 33);
    compare_damaged("programme of 4294967295 codes", LENGTH, 4294967295u);
    compare_damaged("code 0", CODES, 0);
    compare_damaged("code 5", CODES + 3, 5);
    compare_damaged("code 4294967295", CODES + 3, 4294967295u);
    compare_damaged("stamp at the beginning", CODES, 2);
    compare_damaged("stamp behind a stamp", CODES + 2, 2);
    compare_damaged("failed without a stamp", CODES + 1, 3);
    compare_damaged("sweep behind a sweep", CODES + 2, 4);
    compare_damaged("settle before a sweep", CODES + 2, 1);
}

/* Sets codes over the constant programme, which has a 9 behind it: zeros are behind one that is set, and the 9 where it is refused. */
static void compare_set(const char *name, long result, long place, const uint32_t *codes, size_t count) {
    uint32_t expected[LENT];
    prepare();
    state[CODES + 4] = 9;
    memcpy(expected, state, sizeof state);
    if (result == 0) {
        expected[LENGTH] = (uint32_t)count;
        memset(expected + CODES, 0, UNHIDE_CODES * sizeof expected[0]);
        memcpy(expected + CODES, codes, count * sizeof codes[0]);
    }
    compare(name, result, (long)unhide_set_programme(TABLES, state, LENT, answer, 6, codes, count));
    compare(name, place, (long)answer[0]);
    compare(name, result == 0 ? 0 : 7, (long)(answer[1] | answer[2] | answer[3]));
    compare(name, 0, memcmp(state, expected, sizeof state));
}

/* Programmes by their length, of settles alone. */
static void compare_lengths(void) {
    uint32_t codes[33];
    for (int i = 0; i < 33; i++)
        codes[i] = UNHIDE_CODE_SETTLE;
    compare_set("no codes", UNHIDE_PROGRAMME, 0, codes, 0);
    compare_set("a settle", 0, 0, codes, 1);
    compare_set("32 codes", 0, 0, codes, 32);
    compare_set("33 codes", UNHIDE_PROGRAMME, 0, codes, 33);
    codes[31] = 5;
    compare_set("the last of 32 codes wrong", UNHIDE_PROGRAMME, 31, codes, 32);
    compare_set("33 codes and a wrong one", UNHIDE_PROGRAMME, 0, codes, 33);
    compare_set("a wrong code that is not lent", 0, 0, codes, 31);
}

/* Programmes by their codes: all that fits, then a code that does not, at the end or with others behind it. */
static void compare_codes(void) {
    static const uint32_t all[] = {1, 1, 2, 3, 3, 4, 1, 2, 4, 1, 2, 3};
    static const uint32_t wrong[][5] = {
        {0, 1, 2, 3, 4}, {1, 5, 2, 3, 4}, {1, 4294967295u, 2, 3, 4}, {2, 1, 2, 3, 4}, {3, 1, 2, 3, 4},
        {1, 2, 2, 3, 4}, {1, 2, 3, 2, 4}, {1, 2, 1, 3, 4},           {1, 2, 4, 4, 0}, {1, 2, 3, 4, 3},
    };
    static const long places[] = {0, 1, 1, 0, 0, 2, 3, 3, 3, 4};
    compare_set("all that fits", 0, 0, all, sizeof all / sizeof all[0]);
    for (int i = 0; i < 10; i++) {
        char name[64];
        sprintf(name, "wrong codes, list %d", i + 1);
        compare_set(name, UNHIDE_PROGRAMME, places[i], wrong[i], 5);
    }
}

/* A code behind the length is not judged by any call, and stays but for a load, a join and a programme that is set. */
static void compare_behind(void) {
    for (int which = 0; which < CALLS; which++) {
        char name[64];
        prepare();
        state[CODES + 4] = 9;
        int64_t expected = needs_stamps(which) ? UNHIDE_STALE : 0;
        sprintf(name, "%s, code behind the length", names[which]);
        compare(name, expected, (long)call(which, LENT, 6));
        compare(name, which < PROPAGATE || which == SET_PROGRAMME ? 0 : 9, (long)state[CODES + 4]);
    }
}

/* ---- the window */

/* A window of one clause, 4 -1, with 9 wherever nothing is judged, behind the stated places too. */
static void prepare_window(void) {
    int i;
    for (i = 0; i < SIZES + 2; i++)
        sizes[i] = 9;
    for (i = 0; i < PLACES + 2; i++)
        learnt[i] = 9;
    sizes[0] = 2;
    learnt[0] = 4;
    learnt[1] = -1;
    window[0] = 1;
    window[1] = 2;
    window[2] = window[3] = 9;
}

/* The formula stamped, and that window. */
static void prepare_fresh(void) {
    static const int32_t order[] = {1, -1, 2, -2, 3, -3, 4, -4};
    prepare();
    call(LOAD, LENT, 6);
    unhide_stamp(TABLES, state, LENT, answer, 6, order, 8);
    prepare_window();
    for (int i = 0; i < 6; i++)
        answer[i] = 7;
}

static uint32_t sizes_before[SIZES + 2];
static int32_t learnt_before[PLACES + 2];
static uint32_t window_before[4];
static uint32_t state_before[LENT];

static void keep_before(void) {
    memcpy(sizes_before, sizes, sizeof sizes);
    memcpy(learnt_before, learnt, sizeof learnt);
    memcpy(window_before, window, sizeof window);
    memcpy(state_before, state, sizeof state);
}

static int window_kept(void) {
    return memcmp(sizes_before, sizes, sizeof sizes) == 0 && memcmp(learnt_before, learnt, sizeof learnt) == 0 &&
           memcmp(window_before, window, sizeof window) == 0;
}

/* Refused with 1, and neither window nor state changes. */
static void compare_unlearnt(const char *name, size_t sizes_len, size_t learnt_len, size_t window_len) {
    static const int32_t newcomer[] = {2, 4};
    keep_before();
    compare(name, UNHIDE_SHAPE, (long)unhide_learn(TABLES, state, LENT, answer, 6, newcomer, 2, sizes, sizes_len, learnt, learnt_len, window, window_len));
    compare(name, 0, (long)answer[0]);
    compare(name, 1, window_kept() && memcmp(state_before, state, sizeof state) == 0);
}

static void compare_learnt(const char *name, const int32_t *newcomer, size_t count, long result, long verdict, long left) {
    compare(name, result, (long)unhide_learn(TABLES, state, LENT, answer, 6, newcomer, count, WINDOW));
    compare(name, verdict, (long)answer[0]);
    compare(name, left, (long)answer[1]);
}

static int64_t load_into(size_t sizes_len, size_t window_len) {
    return unhide_load(text, sizeof text - 1, TABLES, state, LENT, answer, 6, sizes, sizes_len, learnt, PLACES, window, window_len);
}

static void compare_short_windows(void) {
    prepare_fresh();
    compare_unlearnt("learn, one size too few", SIZES - 1, PLACES, 2);
    compare_unlearnt("learn, one place too few", SIZES, PLACES - 1, 2);
    compare_unlearnt("learn, one number too few", SIZES, PLACES, 1);
    keep_before();
    compare("load, one size too few", UNHIDE_SHAPE, (long)load_into(SIZES - 1, 2));
    compare("load, one number too few", UNHIDE_SHAPE, (long)load_into(SIZES, 1));
    compare("load, short windows kept", 1, window_kept() && state[FRESH] == 1);
}

/* A window that breaks the rule: Learn refuses it, a load and a join empty it. */
static void compare_damaged_window(const char *name, uint32_t count, uint32_t total, uint32_t size, int32_t literal) {
    for (int which = LOAD; which <= JOIN; which++) {
        prepare_fresh();
        window[0] = count;
        window[1] = total;
        sizes[0] = size;
        learnt[1] = literal;
        compare_unlearnt(name, SIZES, PLACES, 2);
        compare(name, 0, (long)call(which, LENT, 6));
        compare(name, 0, (long)(window[0] | window[1] | sizes[0] | sizes[SIZES - 1]));
        compare(name, 0, (long)(learnt[0] | learnt[1] | learnt[PLACES - 1]));
        compare(name, 1, sizes[SIZES] == 9 && learnt[PLACES] == 9 && window[2] == 9);
    }
}

static void compare_damaged_windows(void) {
    compare_damaged_window("learn, total too large", 1, 3, 2, -1);
    compare_damaged_window("learn, total too small", 1, 1, 2, -1);
    compare_damaged_window("learn, 65 clauses", 65, 2, 2, -1);
    compare_damaged_window("learn, 4294967295 clauses", 4294967295u, 2, 2, -1);
    compare_damaged_window("learn, a clause of 65", 1, 65, 65, -1);
    compare_damaged_window("learn, literal 0 in the window", 1, 2, 2, 0);
    compare_damaged_window("learn, literal 5 in the window", 1, 2, 2, 5);
    compare_damaged_window("learn, a variable twice in the window", 1, 2, 2, -4);
    compare_damaged_window("learn, the smallest literal in the window", 1, 2, 2, INT32_MIN);
}

/* Under the stamps of the sample, 1 -> 2 -> 3 and -3 -> -2 -> -1. */
static void compare_learns(void) {
    static const int32_t whole[] = {2, 4}, shorter[] = {1, 4, 3}, implied[] = {-1, 4, 3}, twice[] = {1, -1};
    prepare_fresh();
    compare_learnt("learn, kept", whole, 2, 0, UNHIDE_KEPT, 2);
    compare_learnt("learn, shortened", shorter, 3, 0, UNHIDE_SHORTENED, 2);
    compare_learnt("learn, dropped", implied, 3, 0, UNHIDE_DROPPED, 0);
    compare("learn, clauses", 3, (long)window[0]);
    compare("learn, literals", 6, (long)window[1]);
    compare("learn, last size", 2, (long)sizes[2]);
    compare("learn, first literal left", 4, (long)learnt[2 * UNHIDE_LEARNT_LITERALS]);
    compare("learn, second literal left", 3, (long)learnt[2 * UNHIDE_LEARNT_LITERALS + 1]);
    compare("learn, 0 behind it", 0, (long)learnt[3 * UNHIDE_LEARNT_LITERALS - 1]);
    compare("learn, the next record", 9, (long)learnt[3 * UNHIDE_LEARNT_LITERALS]);
    answer[1] = 7;
    compare_learnt("learn, a variable twice", twice, 2, UNHIDE_NEWCOMER, 0, 7);
    compare("learn, numbers behind kept", 1, window[2] == 9 && window[3] == 9 && answer[4] == 7);
}

/* 64 clauses are in the window: the eldest leaves, and its literals leave the total. */
static void compare_full_window(void) {
    static const int32_t newcomer[] = {2, 4};
    prepare_fresh();
    for (int i = 1; i < SIZES; i++) {
        sizes[i] = 1;
        learnt[UNHIDE_LEARNT_LITERALS * i] = i % 2 == 0 ? 3 : -3;
    }
    window[0] = SIZES;
    window[1] = SIZES + 1;
    compare_learnt("learn, the 65th", newcomer, 2, 0, UNHIDE_KEPT, 2);
    compare("learn, 64 clauses", SIZES, (long)window[0]);
    compare("learn, total", SIZES + 1, (long)window[1]);
    compare("learn, the eldest left", 1, sizes[0] == 1 && learnt[0] == -3);
    compare("learn, the one before the last", 1, sizes[SIZES - 2] == 1 && learnt[PLACES - 2 * UNHIDE_LEARNT_LITERALS] == -3);
    compare("learn, the last", 1, sizes[SIZES - 1] == 2 && learnt[PLACES - UNHIDE_LEARNT_LITERALS] == 2 && learnt[PLACES - 1] == 0);
    compare("learn, places behind", 1, sizes[SIZES] == 9 && learnt[PLACES] == 9);
}

/* ---- explanations */

/* Loads a text and stamps it in this order, of two literals for each of its variables. */
static void stamp_text(const char *loaded, const int32_t *order) {
    prepare();
    unhide_load((const uint8_t *)loaded, strlen(loaded), TABLES, state, LENT, answer, 6, WINDOW);
    unhide_stamp(TABLES, state, LENT, answer, 6, order, 2 * (size_t)state[0]);
    for (int i = 0; i < 6; i++)
        answer[i] = 7;
}

/* Whether the output begins with the text and has dots behind it. */
static int has_text(const char *expected) {
    size_t length = strlen(expected);
    for (size_t i = length; i < sizeof out; i++)
        if (out[i] != '.')
            return 0;
    return memcmp(out, expected, length) == 0;
}

/* An explanation that is refused changes nothing but the place. */
static void compare_unexplained(const char *name, long result, long place, uint32_t number, size_t out_len) {
    memset(out, '.', sizeof out);
    for (int i = 0; i < 6; i++)
        answer[i] = 7;
    memcpy(state_before, state, sizeof state);
    compare(name, result, (long)unhide_explain(TABLES, state, LENT, answer, 6, number, out, out_len));
    compare(name, place, (long)answer[0]);
    compare(name, 7, (long)(answer[1] | answer[2] | answer[3]));
    compare(name, 1, has_text("") && memcmp(state_before, state, sizeof state) == 0);
}

/* What is said of a clause: into an output of just the length and into one of all bytes, and refused where one byte or all are missing. */
static void compare_explained(const char *name, uint32_t number, uint64_t verdict, uint64_t taken_out, const char *chains) {
    const size_t length = strlen(chains), lengths[] = {length, sizeof out};
    for (int i = 0; i < 2; i++) {
        memset(out, '.', sizeof out);
        compare(name, 0, (long)unhide_explain(TABLES, state, LENT, answer, 6, number, out, lengths[i]));
        compare(name, 1, answer[0] == verdict && answer[1] == taken_out && answer[2] == length && answer[3] == 0 && answer[4] == 7);
        compare(name, 1, has_text(chains));
    }
    if (length == 0)
        return;
    compare_unexplained(name, UNHIDE_OUTPUT, (long)length, number, length - 1);
    compare_unexplained(name, UNHIDE_OUTPUT, (long)length, number, 0);
}

/* 1 -> 2 -> 3 and 1 -> 3: 1 holds 2 and 3, -3 holds -2 and -1. */
static const char chained[] = "p cnf 5 6\n-1 2 0\n-2 3 0\n-1 3 0\n3 1 2 4 0\n-3 -1 5 0\n4 3 -1 0\n";
static const int32_t rising[] = {1, -1, 2, -2, 3, -3, 4, -4, 5, -5};

static void compare_explains(void) {
    stamp_text(chained, rising);
    compare_explained("explain, stays", 1, UNHIDE_WOULD_STAY, 0, "");
    compare_explained("explain, a pair dropped", 3, UNHIDE_WOULD_DROP, 0, "1 2 3 0\n");
    compare_explained("explain, two taken out", 4, UNHIDE_WOULD_SHORTEN, 2, "1 2 3 0\n2 3 0\n");
    compare_explained("explain, one taken out", 5, UNHIDE_WOULD_SHORTEN, 1, "-3 -2 -1 0\n");
    compare_explained("explain, a clause of three dropped", 6, UNHIDE_WOULD_DROP, 0, "-3 -2 -1 0\n");
}

/* 3 is entered from 5, so that 1 holds it no more; -3 still holds -1. */
static void compare_turned_explains(void) {
    static const char turned[] = "p cnf 5 5\n-5 3 0\n-1 2 0\n-2 3 0\n-1 3 0\n1 3 4 0\n";
    static const int32_t five_first[] = {5, -5, 1, -1, 2, -2, 3, -3, 4, -4};
    stamp_text(turned, five_first);
    compare_explained("explain, a pair dropped by its second edge", 4, UNHIDE_WOULD_DROP, 0, "-3 -2 -1 0\n");
    compare_explained("explain, one taken out by complements", 5, UNHIDE_WOULD_SHORTEN, 1, "-3 -2 -1 0\n");
}

/* Tables of which one has a number less than stated. */
static void compare_short_explains(void) {
    stamp_text(chained, rising);
    memset(out, '.', sizeof out);
    for (int table = 0; table < TABLE_SLICES; table++) {
        size_t lent[SLICES];
        memcpy(lent, lengths, sizeof lengths);
        lent[table]--;
        answer[0] = 7;
        compare("explain, a short table", UNHIDE_SHAPE,
                (long)unhide_explain(clauses, lent[0], literals, lent[1], variables, lent[2], times, lent[3], links, lent[4], state, LENT,
                                     answer, 6, 3, out, sizeof out));
        compare("explain, a short table", 1, answer[0] == 0 && answer[1] == 7 && has_text(""));
    }
}

/* The refusals, each with those below it: 1, 4, 5, 9, 13 and 10. */
static void compare_refused_explains(void) {
    stamp_text(chained, rising);
    compare_unexplained("explain, clause 0", UNHIDE_NO_CLAUSE, 0, 0, sizeof out);
    compare_unexplained("explain, clause 7 of 6", UNHIDE_NO_CLAUSE, 0, 7, 0);
    compare_unexplained("explain, clause 4294967295", UNHIDE_NO_CLAUSE, 0, 4294967295u, 0);
    unhide_sweep(TABLES, state, LENT, answer, 6, 3);
    compare_unexplained("explain, Sweep open", UNHIDE_OTHER_PASS, 0, 0, 0);
    unhide_sweep(TABLES, state, LENT, answer, 6, 65535);
    compare_unexplained("explain, stamps spent", UNHIDE_STALE, 0, 0, 0);
    state[MARK] = 1;
    compare_unexplained("explain, the mark and stamps spent", UNHIDE_MARKED, 0, 0, 0);
    state[MARK] = 0;
    unhide_stamp(TABLES, state, LENT, answer, 6, rising, 10);
    compare_unexplained("explain, a dropped clause", UNHIDE_NO_CLAUSE, 0, 3, 0);
    compare_unexplained("explain, another dropped clause", UNHIDE_NO_CLAUSE, 0, 6, sizeof out);
    state[CODES] = 0;
    compare_unexplained("explain, a wrong programme", UNHIDE_SHAPE, 0, 3, 0);
}

/* ---- joins */

static uint32_t clauses_before[3 * UNHIDE_CLAUSES + 2];
static int32_t literals_before[UNHIDE_LITERALS + 2];
static int32_t variables_before[2 * UNHIDE_VARIABLES + 2];
static uint32_t times_before[2 * UNHIDE_SLOTS + 2];
static int32_t links_before[2 * UNHIDE_SLOTS + 2];

static void keep_all_before(void) {
    keep_before();
    memcpy(clauses_before, clauses, sizeof clauses);
    memcpy(literals_before, literals, sizeof literals);
    memcpy(variables_before, variables, sizeof variables);
    memcpy(times_before, times, sizeof times);
    memcpy(links_before, links, sizeof links);
}

/* Whether the tables, the state and the window are as they were, and what is behind them too. */
static int all_kept(void) {
    return window_kept() && memcmp(state_before, state, sizeof state) == 0 && memcmp(clauses_before, clauses, sizeof clauses) == 0 &&
           memcmp(literals_before, literals, sizeof literals) == 0 && memcmp(variables_before, variables, sizeof variables) == 0 &&
           memcmp(times_before, times, sizeof times) == 0 && memcmp(links_before, links, sizeof links) == 0;
}

/* Tables with a 9 in every byte, a state with a Sweep open and fresh stamps, and the window of one clause: only Load and Join take these. */
static void prepare_join(void) {
    prepare();
    state[PASS] = UNHIDE_SWEEP;
    state[CURSOR] = 1;
    state[FRESH] = 1;
    memset(clauses, 9, sizeof clauses);
    memset(literals, 9, sizeof literals);
    memset(variables, 9, sizeof variables);
    memset(times, 9, sizeof times);
    memset(links, 9, sizeof links);
    prepare_window();
}

/* A join on that, with tables and a window of these lengths. */
static int64_t join(const char *first, const char *second, const uint32_t *linked, size_t count, const size_t *lent) {
    prepare_join();
    return unhide_join((const uint8_t *)first, strlen(first), (const uint8_t *)second, strlen(second), linked, count, clauses, lent[0],
                       literals, lent[1], variables, lent[2], times, lent[3], links, lent[4], state, LENT, answer, 6, sizes, lent[5], learnt,
                       lent[6], window, lent[7]);
}

/* With slices as stated and with longer ones it leaves what a load of the same clauses does, behind the stated places too. */
static void compare_joins(void) {
    for (size_t more = 0; more <= 2; more++) {
        size_t lent[SLICES];
        for (int i = 0; i < SLICES; i++)
            lent[i] = lengths[i] + more;
        prepare_join();
        call(LOAD, LENT, 6);
        keep_all_before();
        compare("join", 0, (long)join(left, right, pairs, 4, lent));
        compare("join, as a load", 1, all_kept());
        compare("join, answer", 1, (answer[0] | answer[1] | answer[2] | answer[3]) == 0 && answer[4] == 7 && answer[5] == 7);
    }
}

/* Refused, and nothing changes but the place. */
static void compare_unjoined(const char *name, long result, long place, const char *first, const char *second, const uint32_t *linked, size_t count,
                             const size_t *lent) {
    prepare_join();
    keep_all_before();
    compare(name, result, (long)join(first, second, linked, count, lent));
    compare(name, place, (long)answer[0]);
    compare(name, 1, rest_kept() && all_kept());
}

/* Accepted, with so many variables and clauses. */
static void compare_joined(const char *name, uint32_t v, uint32_t n, const char *first, const char *second, const uint32_t *linked, size_t count) {
    compare(name, 0, (long)join(first, second, linked, count, lengths));
    compare(name, 1, state[0] == v && state[1] == n);
}

/* Tables or a window of which one slice has a number less than stated, or none. */
static void compare_short_joins(void) {
    for (int slice = 0; slice < SLICES; slice++) {
        size_t lent[SLICES];
        memcpy(lent, lengths, sizeof lengths);
        lent[slice]--;
        compare_unjoined("join, a short slice", UNHIDE_SHAPE, 0, left, right, pairs, 4, lent);
        lent[slice] = 0;
        compare_unjoined("join, a slice of no numbers", UNHIDE_SHAPE, 0, left, right, pairs, 4, lent);
    }
}

/* Lists of links by their length: a number left over is a pair without a right variable. */
static void compare_links(void) {
    static const uint32_t listed[] = {1, 1, 3, 2, 2, 3};
    compare_joined("join, no links", 6, 3, left, right, listed, 0);
    compare_unjoined("join, a left variable alone", UNHIDE_LINK, 0, left, right, listed, 1, lengths);
    compare_joined("join, a link", 5, 3, left, right, listed, 2);
    compare_unjoined("join, a link and a left variable", UNHIDE_LINK, 1, left, right, listed, 3, lengths);
    compare_joined("join, two links", 4, 3, left, right, listed, 4);
    compare_unjoined("join, two links and a left variable", UNHIDE_LINK, 2, left, right, listed, 5, lengths);
    compare_joined("join, all linked", 3, 3, left, right, listed, 6);
}

/* A text with one token many times. */
static const char *repeated(const char *header, const char *token, int count, const char *end) {
    static char many[40000];
    char *at = many + sprintf(many, "%s", header);
    for (int i = 0; i < count; i++)
        at += sprintf(at, "%s", token);
    sprintf(at, "%s", end);
    return many;
}

/* The limits on clauses and on literals as written, repeats included. */
static void compare_limits(void) {
    static const uint32_t same[] = {1, 1};
    const char *most = repeated("p cnf 1 4095\n", "1 0\n", 4095, "");
    compare_joined("join, 4096 clauses", 1, 4096, most, "p cnf 1 1\n1 0\n", same, 2);
    compare_unjoined("join, 4097 clauses", UNHIDE_LIMIT, 0, most, "p cnf 1 2\n1 0 1 0\n", same, 2, lengths);
    most = repeated("p cnf 1 1\n", "1 ", 16383, "0\n");
    compare_joined("join, 16384 literals", 1, 2, most, "p cnf 1 1\n1 0\n", same, 2);
    compare_unjoined("join, 16385 literals", UNHIDE_LIMIT, 0, most, "p cnf 1 1\n1 1 0\n", same, 2, lengths);
}

/* The refusals, each with those below it: 1, those of the left text, those of the right text, 15, and 3 of the join. */
static void compare_refused_joins(void) {
    static const char wrong[] = "p cnf x", most[] = "p cnf 1024 0\n", more[] = "p cnf 2 0\n";
    static const uint32_t used[] = {1, 1, 1, 2};
    size_t short_of[SLICES];
    memcpy(short_of, lengths, sizeof lengths);
    short_of[0]--;
    compare_unjoined("join, all refusals", UNHIDE_SHAPE, 0, wrong, "", used, 4, short_of);
    compare_unjoined("join, all but the first", UNHIDE_GRAMMAR, 6, wrong, "", used, 4, lengths);
    compare_unjoined("join, left limit and right grammar", UNHIDE_LIMIT, 10, "p cnf 1 1\n2 0\n", "", used, 4, lengths);
    compare_unjoined("join, right grammar and a wrong link", UNHIDE_GRAMMAR, 6, most, wrong, used, 4, lengths);
    compare_unjoined("join, right limit and a wrong link", UNHIDE_LIMIT, 6, most, "p cnf 1025 0\n", used, 4, lengths);
    compare_unjoined("join, a wrong link and 1025 variables", UNHIDE_LINK, 1, most, more, used, 4, lengths);
    compare_unjoined("join, 1025 variables", UNHIDE_LIMIT, 0, most, more, used, 2, lengths);
}

int main(void) {
    compare_compare();
    compare_states();
    compare_longer();
    compare_zeros();
    compare_all_damaged();
    compare_lengths();
    compare_codes();
    compare_behind();
    compare_short_windows();
    compare_damaged_windows();
    compare_learns();
    compare_full_window();
    compare_explains();
    compare_turned_explains();
    compare_short_explains();
    compare_refused_explains();
    compare_joins();
    compare_short_joins();
    compare_links();
    compare_limits();
    compare_refused_joins();
    if (!differs)
        printf("ok slices\n");
    return differs;
}
