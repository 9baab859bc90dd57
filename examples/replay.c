/* Replays a list of calls on one set of tables and prints every answer, so that a run can be filed and repeated under its order.
 * Standard input has a call, a request to print or a change of the tables on each line:
 *
 *     load K                      then K bytes and LF: the text to load
 *     join A B X X ..             then A bytes, B bytes and LF: the two texts to join, by pairs of linked variables, at most 4,096 numbers
 *     propagate N, merge N, sweep N, run N
 *     stamp L L ..                the order, at most 4,096 literals
 *     failed
 *     programme C C ..            the codes that `run` follows, at most 64, each 0 to 255
 *     learn L L ..                a learnt clause, at most 4,096 literals
 *     write K                     into an output of K bytes, at most 131,072
 *     explain I K                 what a Sweep would do to clause I, and why, into an output of K bytes, at most 131,072
 *     state, codes, clauses, literals, variables, stamps, window
 *     compare P Q                 how the intervals of two literals lie, by the stamps as they stand
 *     lend TABLE K                from now on the calls are lent the first K records of a table
 *     set TABLE RECORD FIELD VALUE, set state FIELD VALUE
 *     set window FIELD VALUE      field 0 is the number of clauses, 1 their literals together
 *     set programme FIELD VALUE   field 0 is the length, 1 to 32 are the codes; 0 to 255
 *
 * Words are separated by single spaces, numbers are decimal without leading zeros. A refused call prints `refused NUMBER PLACE`.
 * A line that is none of these prints `error LINE`, its number from 1, and ends the replay; an input of more than 1,048,576 bytes
 * prints `error 0`. The exit status is 2 where standard input or output fails.
 *
 * Build, from the root of the repository:
 *     (cd crates/c_calls && rt lib)
 *     mkdir -p target
 *     gcc -std=c99 -O2 -Iinclude -o target/replay examples/replay.c crates/c_calls/out/libc_calls.a
 */
#include <errno.h>
#include <inttypes.h>
#include <stdio.h>
#include <stdlib.h>
#include <string.h>

#include "unhide.h"

enum { MOST_INPUT = 1048576, MOST_STEPS = 65535, MOST_LISTED = 4096, MOST_ROOM = 131072, MOST_CODES = 64, MOST_CODE = 255 };

/* No line that is understood has more words than `join`, two lengths and its list. */
enum { MOST_WORDS = MOST_LISTED + 3 };

/* ---- tables */

/* Every table has 16 records more than stated, so that it can be lent longer. */
enum { EXTRA = 16 };

static uint32_t clauses[3 * (UNHIDE_CLAUSES + EXTRA)];
static int32_t literals[UNHIDE_LITERALS + EXTRA];
static int32_t variables[2 * (UNHIDE_VARIABLES + EXTRA)];
static uint32_t times[2 * (UNHIDE_SLOTS + EXTRA)];
static int32_t links[2 * (UNHIDE_SLOTS + EXTRA)];
static uint32_t sizes[UNHIDE_LEARNT + EXTRA];
static int32_t learnt[UNHIDE_LEARNT * UNHIDE_LEARNT_LITERALS + EXTRA];
static uint64_t answer[4];

/* The number of clauses in the window, and their literals together. */
enum { COUNT, TOTAL };

static uint32_t window[2];

/* The numbers of the state. Behind the length stand the codes of the programme, which is the constant one before the first load. */
enum { V, N, PASS, CURSOR, CHANGED, FRESH, MARK, LENGTH, CODES };

static uint32_t state[CODES + UNHIDE_CODES] = {
    [LENGTH] = 4, [CODES] = UNHIDE_CODE_SETTLE, UNHIDE_CODE_STAMP, UNHIDE_CODE_FAILED, UNHIDE_CODE_SWEEP};

enum table_name { CLAUSES, LITERALS, VARIABLES, STAMPS, SIZES, LEARNT, TABLES };

struct table {
    const char *name;
    uint32_t stated; /* records that the calls use */
    uint32_t lent;   /* records that they are lent */
};

static struct table tables[TABLES] = {
    {"clauses", UNHIDE_CLAUSES, UNHIDE_CLAUSES},
    {"literals", UNHIDE_LITERALS, UNHIDE_LITERALS},
    {"variables", UNHIDE_VARIABLES, UNHIDE_VARIABLES},
    {"stamps", UNHIDE_SLOTS, UNHIDE_SLOTS},
    {"sizes", UNHIDE_LEARNT, UNHIDE_LEARNT},
    {"learnt", UNHIDE_LEARNT * UNHIDE_LEARNT_LITERALS, UNHIDE_LEARNT * UNHIDE_LEARNT_LITERALS},
};

/* ---- lending */

static void fail(const char *what) {
    fprintf(stderr, "replay: %s: %s\n", what, strerror(errno));
    exit(2);
}

/* `lend` gives the first bytes of an object as a call is lent them, `take_back` ends that. Compiled with -DEXACT_COPIES a call is lent
 * a copy on the heap of just that size, so that a memory checker sees what it reads or writes behind it. */
#ifdef EXACT_COPIES
static void *lend(void *object, size_t size) {
    void *copy = malloc(size);
    if (copy == NULL)
        fail("cannot allocate");
    return memcpy(copy, object, size);
}

static void take_back(void *object, void *lent, size_t size) {
    memcpy(object, lent, size);
    free(lent);
}
#else
static void *lend(void *object, size_t size) {
    (void)size;
    return object;
}

static void take_back(void *object, void *lent, size_t size) {
    (void)object;
    (void)lent;
    (void)size;
}
#endif

/* What every call is lent. */
struct loan {
    uint32_t *clauses;
    int32_t *literals;
    int32_t *variables;
    uint32_t *times;
    int32_t *links;
    uint32_t *state;
    uint64_t *answer;
};

/* How many numbers of each table are lent. */
static size_t clauses_lent(void) { return 3 * (size_t)tables[CLAUSES].lent; }
static size_t literals_lent(void) { return tables[LITERALS].lent; }
static size_t variables_lent(void) { return 2 * (size_t)tables[VARIABLES].lent; }
static size_t stamps_lent(void) { return 2 * (size_t)tables[STAMPS].lent; }

/* A loan as arguments of a call. */
#define LENT(loan)                                                                                                                         \
    (loan).clauses, clauses_lent(), (loan).literals, literals_lent(), (loan).variables, variables_lent(), (loan).times, stamps_lent(),     \
        (loan).links, stamps_lent(), (loan).state, sizeof state / sizeof state[0], (loan).answer, sizeof answer / sizeof answer[0]

/* The calls refuse a cursor with no pass open and a change flag without Propagate, which `set state` can leave. */
static void clear_unused(void) {
    if (state[PASS] == UNHIDE_NO_PASS)
        state[CURSOR] = 0;
    if (state[PASS] != UNHIDE_PROPAGATE)
        state[CHANGED] = 0;
}

static struct loan lend_all(void) {
    struct loan loan;
    clear_unused();
    loan.clauses = lend(clauses, clauses_lent() * sizeof clauses[0]);
    loan.literals = lend(literals, literals_lent() * sizeof literals[0]);
    loan.variables = lend(variables, variables_lent() * sizeof variables[0]);
    loan.times = lend(times, stamps_lent() * sizeof times[0]);
    loan.links = lend(links, stamps_lent() * sizeof links[0]);
    loan.state = lend(state, sizeof state);
    loan.answer = lend(answer, sizeof answer);
    return loan;
}

static void take_all_back(struct loan loan) {
    take_back(clauses, loan.clauses, clauses_lent() * sizeof clauses[0]);
    take_back(literals, loan.literals, literals_lent() * sizeof literals[0]);
    take_back(variables, loan.variables, variables_lent() * sizeof variables[0]);
    take_back(times, loan.times, stamps_lent() * sizeof times[0]);
    take_back(links, loan.links, stamps_lent() * sizeof links[0]);
    take_back(state, loan.state, sizeof state);
    take_back(answer, loan.answer, sizeof answer);
}

/* The window, which `load`, `join` and `learn` are lent besides. */
struct window_loan {
    uint32_t *sizes;
    int32_t *learnt;
    uint32_t *window;
};

static size_t sizes_lent(void) { return tables[SIZES].lent; }
static size_t learnt_lent(void) { return tables[LEARNT].lent; }

#define WINDOW_LENT(loan) (loan).sizes, sizes_lent(), (loan).learnt, learnt_lent(), (loan).window, sizeof window / sizeof window[0]

static struct window_loan lend_window(void) {
    struct window_loan loan;
    loan.sizes = lend(sizes, sizes_lent() * sizeof sizes[0]);
    loan.learnt = lend(learnt, learnt_lent() * sizeof learnt[0]);
    loan.window = lend(window, sizeof window);
    return loan;
}

static void take_window_back(struct window_loan loan) {
    take_back(sizes, loan.sizes, sizes_lent() * sizeof sizes[0]);
    take_back(learnt, loan.learnt, learnt_lent() * sizeof learnt[0]);
    take_back(window, loan.window, sizeof window);
}

/* ---- words and numbers */

struct word {
    const uint8_t *bytes;
    size_t length;
};

struct line {
    struct word words[MOST_WORDS];
    size_t count;
};

static int is_word(struct word word, const char *text) {
    return word.length == strlen(text) && memcmp(word.bytes, text, word.length) == 0;
}

/* Splits a line at its spaces; whether it has few enough words. */
static int split(const uint8_t *bytes, size_t length, struct line *line) {
    size_t from = 0;
    line->count = 0;
    for (size_t i = 0; i <= length; i++) {
        if (i < length && bytes[i] != ' ')
            continue;
        if (line->count == MOST_WORDS)
            return 0;
        line->words[line->count].bytes = bytes + from;
        line->words[line->count].length = i - from;
        line->count++;
        from = i + 1;
    }
    return 1;
}

/* The digits of a number without leading zeros; whether they are one, of at most ten digits. */
static int read_digits(const uint8_t *digits, size_t length, int64_t *number) {
    if (length == 0 || length > 10 || (digits[0] == '0' && length > 1))
        return 0;
    *number = 0;
    for (size_t i = 0; i < length; i++) {
        if (digits[i] < '0' || digits[i] > '9')
            return 0;
        *number = 10 * *number + (digits[i] - '0');
    }
    return 1;
}

/* Reads a number between the two bounds, with `-` before a negative one; whether the word is such a number. */
static int read_number(struct word word, int64_t least, int64_t most, int64_t *number) {
    int negative = word.length > 0 && word.bytes[0] == '-';
    if (!read_digits(word.bytes + negative, word.length - (size_t)negative, number))
        return 0;
    if (negative && *number == 0)
        return 0;
    if (negative)
        *number = -*number;
    return least <= *number && *number <= most;
}

/* Reads words as numbers of at most `most`; whether all of them are. */
static int read_numbers(const struct word *words, size_t count, int64_t most, uint32_t *numbers) {
    for (size_t i = 0; i < count; i++) {
        int64_t number;
        if (!read_number(words[i], 0, most, &number))
            return 0;
        numbers[i] = (uint32_t)number;
    }
    return 1;
}

/* ---- answers */

static void print_refusal(int64_t result) {
    printf("refused %" PRId64 " %" PRIu64 "\n", -result, answer[0]);
}

/* The answer of a call, in a word and its first value where it has one. */
static void print_answer(int64_t result, const char *word, int has_value) {
    if (result != 0)
        print_refusal(result);
    else if (has_value)
        printf("%s %" PRIu64 "\n", word, answer[0]);
    else
        printf("%s\n", word);
}

/* The answer of a load or a join. */
static void print_loaded(int64_t result) {
    if (result != 0)
        print_refusal(result);
    else
        printf("loaded %" PRIu32 " %" PRIu32 " %" PRIu32 "\n", state[V], state[N], state[MARK]);
}

static void print_counts(int64_t result) {
    if (result != 0)
        print_refusal(result);
    else
        printf("%s %" PRIu64 " %" PRIu64 " %" PRIu64 "\n", answer[3] == 1 ? "open" : "done", answer[0], answer[1], answer[2]);
}

/* ---- lines that are calls. Each function says whether the line is understood. */

/* Standard input, and the place behind the line that is taken. */
static uint8_t input[MOST_INPUT + 1];
static size_t input_length;
static size_t rest;

/* Takes so many bytes and an LF behind the line, which are no line; NULL where they are not there. */
static uint8_t *take_bytes(size_t size) {
    uint8_t *bytes = input + rest;
    if (size >= input_length - rest || bytes[size] != '\n')
        return NULL;
    rest += size + 1;
    return bytes;
}

static int take_load(const struct line *line) {
    int64_t length;
    if (!read_number(line->words[1], 0, MOST_INPUT, &length))
        return 0;
    size_t size = (size_t)length;
    uint8_t *bytes = take_bytes(size);
    if (bytes == NULL)
        return 0;
    struct loan loan = lend_all();
    struct window_loan window_loan = lend_window();
    uint8_t *text = lend(bytes, size);
    int64_t result = unhide_load(text, size, LENT(loan), WINDOW_LENT(window_loan));
    take_back(bytes, text, size);
    take_window_back(window_loan);
    take_all_back(loan);
    print_loaded(result);
    return 1;
}

static int take_join(const struct line *line) {
    static uint32_t listed[MOST_LISTED];
    uint32_t lengths[2];
    size_t count = line->count - 3;
    if (!read_numbers(line->words + 1, 2, MOST_INPUT, lengths) || !read_numbers(line->words + 3, count, UINT32_MAX, listed))
        return 0;
    size_t left_size = lengths[0], right_size = lengths[1];
    uint8_t *bytes = take_bytes(left_size + right_size);
    if (bytes == NULL)
        return 0;
    struct loan loan = lend_all();
    struct window_loan window_loan = lend_window();
    uint8_t *left = lend(bytes, left_size);
    uint8_t *right = lend(bytes + left_size, right_size);
    uint32_t *pairs = lend(listed, count * sizeof listed[0]);
    int64_t result = unhide_join(left, left_size, right, right_size, pairs, count, LENT(loan), WINDOW_LENT(window_loan));
    take_back(listed, pairs, count * sizeof listed[0]);
    take_back(bytes + left_size, right, right_size);
    take_back(bytes, left, left_size);
    take_window_back(window_loan);
    take_all_back(loan);
    print_loaded(result);
    return 1;
}

/* Propagate, Merge and Sweep, as functions of one type. */
typedef int64_t pass(struct loan loan, uint16_t n);

static int64_t propagate(struct loan loan, uint16_t n) { return unhide_propagate(LENT(loan), n); }
static int64_t merge(struct loan loan, uint16_t n) { return unhide_merge(LENT(loan), n); }
static int64_t sweep(struct loan loan, uint16_t n) { return unhide_sweep(LENT(loan), n); }

static int take_pass(const struct line *line, pass *call) {
    int64_t n;
    if (!read_number(line->words[1], 0, MOST_STEPS, &n))
        return 0;
    struct loan loan = lend_all();
    int64_t result = call(loan, (uint16_t)n);
    take_all_back(loan);
    print_counts(result);
    return 1;
}

static int take_propagate(const struct line *line) { return take_pass(line, propagate); }
static int take_merge(const struct line *line) { return take_pass(line, merge); }
static int take_sweep(const struct line *line) { return take_pass(line, sweep); }

/* The list of literals behind the first word. */
static int32_t listed[MOST_LISTED];

static int read_literals(const struct line *line, size_t count) {
    for (size_t i = 0; i < count; i++) {
        int64_t literal;
        if (!read_number(line->words[i + 1], INT32_MIN, INT32_MAX, &literal))
            return 0;
        listed[i] = (int32_t)literal;
    }
    return 1;
}

static int take_stamp(const struct line *line) {
    size_t count = line->count - 1;
    if (!read_literals(line, count))
        return 0;
    struct loan loan = lend_all();
    int32_t *order = lend(listed, count * sizeof listed[0]);
    int64_t result = unhide_stamp(LENT(loan), order, count);
    take_back(listed, order, count * sizeof listed[0]);
    take_all_back(loan);
    print_answer(result, "stamped", 0);
    return 1;
}

static int take_learn(const struct line *line) {
    static const char *const verdicts[] = {"kept", "dropped", "shortened"};
    size_t count = line->count - 1;
    if (!read_literals(line, count))
        return 0;
    struct loan loan = lend_all();
    struct window_loan window_loan = lend_window();
    int32_t *newcomer = lend(listed, count * sizeof listed[0]);
    int64_t result = unhide_learn(LENT(loan), newcomer, count, WINDOW_LENT(window_loan));
    take_back(listed, newcomer, count * sizeof listed[0]);
    take_window_back(window_loan);
    take_all_back(loan);
    if (result != 0)
        print_refusal(result);
    else if (answer[0] == UNHIDE_DROPPED)
        printf("%s\n", verdicts[answer[0]]);
    else
        printf("%s %" PRIu64 "\n", verdicts[answer[0]], answer[1]);
    return 1;
}

static int take_failed(const struct line *line) {
    (void)line;
    struct loan loan = lend_all();
    int64_t result = unhide_failed(LENT(loan));
    take_all_back(loan);
    print_answer(result, "failed", 1);
    return 1;
}

static int take_run(const struct line *line) {
    int64_t count;
    if (!read_number(line->words[1], 0, MOST_STEPS, &count))
        return 0;
    struct loan loan = lend_all();
    int64_t result = unhide_run(LENT(loan), (uint16_t)count);
    take_all_back(loan);
    print_answer(result, "ran", 1);
    return 1;
}

static int take_programme(const struct line *line) {
    static uint32_t listed[MOST_CODES];
    size_t count = line->count - 1;
    if (!read_numbers(line->words + 1, count, MOST_CODE, listed))
        return 0;
    struct loan loan = lend_all();
    uint32_t *codes = lend(listed, count * sizeof listed[0]);
    int64_t result = unhide_set_programme(LENT(loan), codes, count);
    take_back(listed, codes, count * sizeof listed[0]);
    take_all_back(loan);
    print_answer(result, "set", 0);
    return 1;
}

/* The outputs of the calls that write text. */
static uint8_t room[MOST_ROOM];

static int take_write(const struct line *line) {
    int64_t length;
    if (!read_number(line->words[1], 0, MOST_ROOM, &length))
        return 0;
    size_t size = (size_t)length;
    struct loan loan = lend_all();
    uint8_t *out = lend(room, size);
    int64_t result = unhide_write(LENT(loan), out, size);
    take_back(room, out, size);
    take_all_back(loan);
    print_answer(result, "written", 1);
    if (result == 0)
        fwrite(room, 1, (size_t)answer[0], stdout);
    return 1;
}

static int take_explain(const struct line *line) {
    int64_t number, length;
    if (!read_number(line->words[1], 0, UINT32_MAX, &number) || !read_number(line->words[2], 0, MOST_ROOM, &length))
        return 0;
    size_t size = (size_t)length;
    struct loan loan = lend_all();
    uint8_t *out = lend(room, size);
    int64_t result = unhide_explain(LENT(loan), (uint32_t)number, out, size);
    take_back(room, out, size);
    take_all_back(loan);
    if (result != 0) {
        print_refusal(result);
        return 1;
    }
    printf("explained %" PRIu64 " %" PRIu64 " %" PRIu64 "\n", answer[0], answer[1], answer[2]);
    fwrite(room, 1, (size_t)answer[2], stdout);
    return 1;
}

/* ---- lines that print. The whole tables are printed, whatever is lent, but for the extra records. */

static int take_state(const struct line *line) {
    (void)line;
    printf("state");
    for (int i = V; i <= MARK; i++)
        printf(" %" PRIu32, state[i]);
    printf("\n");
    return 1;
}

static int take_codes(const struct line *line) {
    (void)line;
    printf("codes");
    for (uint32_t i = 0; i < state[LENGTH] && i < UNHIDE_CODES; i++)
        printf(" %" PRIu32, state[CODES + i]);
    printf("\n");
    return 1;
}

/* The records to print: as many as the formula has, or as are stated. */
static uint32_t printed(uint64_t count, enum table_name table) {
    return count < tables[table].stated ? (uint32_t)count : tables[table].stated;
}

static int take_clauses(const struct line *line) {
    (void)line;
    uint32_t count = printed(state[N], CLAUSES);
    for (uint32_t i = 0; i < count; i++)
        printf("%" PRIu32 " %" PRIu32 " %" PRIu32 "\n", clauses[3 * i], clauses[3 * i + 1], clauses[3 * i + 2]);
    return 1;
}

static int take_literals(const struct line *line) {
    (void)line;
    uint32_t count = UNHIDE_LITERALS;
    while (count > 0 && literals[count - 1] == 0)
        count--;
    printf("literals");
    for (uint32_t i = 0; i < count; i++)
        printf(" %" PRId32, literals[i]);
    printf("\n");
    return 1;
}

static int take_variables(const struct line *line) {
    (void)line;
    uint32_t count = printed(state[V], VARIABLES);
    for (uint32_t i = 0; i < count; i++)
        printf("%" PRId32 " %" PRId32 "\n", variables[2 * i], variables[2 * i + 1]);
    return 1;
}

static int take_stamps(const struct line *line) {
    (void)line;
    uint32_t count = printed(2 * (uint64_t)state[V], STAMPS);
    for (uint32_t i = 0; i < count; i++) {
        printf("%" PRIu32 " %" PRIu32, times[2 * i], times[2 * i + 1]);
        printf(" %" PRId32 " %" PRId32 "\n", links[2 * i], links[2 * i + 1]);
    }
    return 1;
}

/* For each clause of the window its size and its literals, as far as there are records and places. */
static int take_window(const struct line *line) {
    (void)line;
    uint32_t count = printed(window[COUNT], SIZES);
    printf("window %" PRIu32 " %" PRIu32 "\n", window[COUNT], window[TOTAL]);
    for (uint32_t k = 0; k < count; k++) {
        printf("%" PRIu32, sizes[k]);
        for (uint32_t i = 0; i < sizes[k] && i < UNHIDE_LEARNT_LITERALS; i++)
            printf(" %" PRId32, learnt[UNHIDE_LEARNT_LITERALS * k + i]);
        printf("\n");
    }
    return 1;
}

/* No line where one of the two is not a literal of the variables, which have records: that the call refuses. */
static int take_compare(const struct line *line) {
    static const char *const answers[] = {"same", "holds", "held", "earlier", "later"};
    const size_t stated = 2 * UNHIDE_SLOTS;
    int64_t p, q;
    if (!read_number(line->words[1], INT32_MIN, INT32_MAX, &p) || !read_number(line->words[2], INT32_MIN, INT32_MAX, &q))
        return 0;
    uint32_t *lent = lend(times, stated * sizeof times[0]);
    int64_t relation = unhide_compare(lent, stated, state[V], (int32_t)p, (int32_t)q);
    take_back(times, lent, stated * sizeof times[0]);
    if (relation < 0)
        return 0;
    printf("%s\n", answers[relation]);
    return 1;
}

/* ---- lines that change what is lent, the tables or the state */

/* The table of this name, or TABLES. */
static enum table_name find_table(struct word name) {
    int table = CLAUSES;
    while (table < TABLES && !is_word(name, tables[table].name))
        table++;
    return (enum table_name)table;
}

static int take_lend(const struct line *line) {
    enum table_name table = find_table(line->words[1]);
    int64_t count;
    if (table == TABLES || !read_number(line->words[2], 0, (int64_t)tables[table].stated + EXTRA, &count))
        return 0;
    tables[table].lent = (uint32_t)count;
    return 1;
}

static int set_unsigned(uint32_t *place, struct word word, int64_t most) {
    int64_t value;
    if (!read_number(word, 0, most, &value))
        return 0;
    *place = (uint32_t)value;
    return 1;
}

static int set_signed(int32_t *place, struct word word) {
    int64_t value;
    if (!read_number(word, INT32_MIN, INT32_MAX, &value))
        return 0;
    *place = (int32_t)value;
    return 1;
}

static int set_state(struct word field_word, struct word value) {
    static const int64_t most[] = {UINT32_MAX, UINT32_MAX, UNHIDE_SWEEP, UINT32_MAX, 1, 1, 1};
    int64_t field;
    return read_number(field_word, V, MARK, &field) && set_unsigned(&state[field], value, most[field]);
}

/* The number of clauses in the window, or their literals together. */
static int set_window(struct word field_word, struct word value) {
    int64_t field;
    return read_number(field_word, COUNT, TOTAL, &field) && set_unsigned(&window[field], value, UINT32_MAX);
}

/* The length, or a code counted from 1. */
static int set_programme(struct word field_word, struct word value) {
    int64_t field;
    return read_number(field_word, 0, UNHIDE_CODES, &field) && set_unsigned(&state[LENGTH + field], value, MOST_CODE);
}

/* A number of a stamp: discovery and finish are times, parent and start are links. */
static int set_stamp(int64_t record, int64_t field, struct word value) {
    return field < 2 ? set_unsigned(&times[2 * record + field], value, UINT32_MAX) : set_signed(&links[2 * record + field - 2], value);
}

static int set_record(enum table_name table, struct word record_word, struct word field_word, struct word value) {
    static const int64_t fields[TABLES] = {3, 1, 2, 4, 1, 1};
    int64_t record, field;
    if (!read_number(record_word, 0, (int64_t)tables[table].stated + EXTRA - 1, &record))
        return 0;
    if (!read_number(field_word, 0, fields[table] - 1, &field))
        return 0;
    switch (table) {
    case CLAUSES:
        return set_unsigned(&clauses[3 * record + field], value, UINT32_MAX);
    case LITERALS:
        return set_signed(&literals[record], value);
    case VARIABLES:
        return set_signed(&variables[2 * record + field], value);
    case SIZES:
        return set_unsigned(&sizes[record], value, UINT32_MAX);
    case LEARNT:
        return set_signed(&learnt[record], value);
    default:
        return set_stamp(record, field, value);
    }
}

static int take_set(const struct line *line) {
    const struct word *words = line->words;
    if (line->count == 4 && is_word(words[1], "state"))
        return set_state(words[2], words[3]);
    if (line->count == 4 && is_word(words[1], "window"))
        return set_window(words[2], words[3]);
    if (line->count == 4 && is_word(words[1], "programme"))
        return set_programme(words[2], words[3]);
    enum table_name table = line->count == 5 ? find_table(words[1]) : TABLES;
    return table != TABLES && set_record(table, words[2], words[3], words[4]);
}

/* ---- the list of lines */

/* The first word of a line, the least and the most words that it may have, and what takes the line. */
struct form {
    const char *name;
    size_t least, most;
    int (*take)(const struct line *line);
};

static const struct form forms[] = {
    {"load", 2, 2, take_load},
    {"join", 3, MOST_WORDS, take_join},
    {"propagate", 2, 2, take_propagate},
    {"merge", 2, 2, take_merge},
    {"sweep", 2, 2, take_sweep},
    {"stamp", 1, MOST_LISTED + 1, take_stamp},
    {"learn", 1, MOST_LISTED + 1, take_learn},
    {"failed", 1, 1, take_failed},
    {"run", 2, 2, take_run},
    {"programme", 1, MOST_CODES + 1, take_programme},
    {"write", 2, 2, take_write},
    {"explain", 3, 3, take_explain},
    {"state", 1, 1, take_state},
    {"codes", 1, 1, take_codes},
    {"clauses", 1, 1, take_clauses},
    {"literals", 1, 1, take_literals},
    {"variables", 1, 1, take_variables},
    {"stamps", 1, 1, take_stamps},
    {"window", 1, 1, take_window},
    {"compare", 3, 3, take_compare},
    {"lend", 3, 3, take_lend},
    {"set", 4, 5, take_set},
};

/* Takes the line that begins at `rest`, and for `load` and `join` the bytes behind it; whether it is understood. */
static int take_line(void) {
    static struct line line;
    const uint8_t *bytes = input + rest;
    const uint8_t *end = memchr(bytes, '\n', input_length - rest);
    if (end == NULL || !split(bytes, (size_t)(end - bytes), &line))
        return 0;
    rest = (size_t)(end - input) + 1;
    for (size_t i = 0; i < sizeof forms / sizeof forms[0]; i++) {
        if (is_word(line.words[0], forms[i].name))
            return forms[i].least <= line.count && line.count <= forms[i].most && forms[i].take(&line);
    }
    return 0;
}

static void replay(void) {
    unsigned long number = 1;
    while (rest < input_length) {
        if (!take_line()) {
            printf("error %lu\n", number);
            return;
        }
        number++;
    }
}

int main(void) {
    errno = 0;
    input_length = fread(input, 1, sizeof input, stdin);
    if (ferror(stdin))
        fail("cannot read");
    if (input_length > MOST_INPUT)
        printf("error 0\n");
    else
        replay();
    if (fflush(stdout) != 0 || ferror(stdout))
        fail("cannot write");
    return 0;
}
