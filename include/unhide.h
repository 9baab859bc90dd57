/* A CNF formula, simplified: in a single call on texts (unhide_text), or pass by pass on tables that the caller lends.
 * C99 or later, C++98 or later. */
#ifndef UNHIDE_H
#define UNHIDE_H

#include <stddef.h>
#include <stdint.h>

#ifdef __cplusplus
extern "C" {
#endif

/* ---- a single call on texts */

/* Reads a formula as DIMACS text, makes at most `rounds` rounds of the simplifier, and writes what is left as DIMACS text.
 *
 * `text` holds `text_len` bytes: at most 1,024 variables, 4,096 clauses and 16,384 literals. It is only read.
 * `out` is a buffer of `out_len` bytes that does not overlap `text`. Bytes behind the text that is written stay as they were,
 * and after a refusal all bytes do. No text that is written is longer than 135,184 bytes, so an output of that size is never too short
 * (proved: law `answers`, crate `equivalence`).
 * Neither pointer may be null, not even with a length of 0.
 *
 * Returns the length written, or a refusal as a negative number:
 *    -2   the text breaks the grammar
 *    -3   the formula is larger than the limits above, names a variable that its header does not have,
 *         or has more or fewer clauses than its header says
 *   -10   the output is shorter than the text to write
 * The other refusals of the library, -1, -4 to -9, -11 to -13 and -15, are about tables, passes, stamps, learnt clauses, programmes, clause
 * numbers and linked variables that a caller gives; here none of these is given, and the rounds are those of the constant programme.
 * The same law says that nothing else is returned.
 *
 * A formula that has an empty clause is written without a round, as `p cnf V 1` and the clause `0`; a formula that turns out
 * to have no satisfying assignment is written alike.
 *
 * Nothing is kept between calls, nothing is allocated, and calls in several threads do not disturb each other. The tables
 * lie on the stack, and a walk through the formula's implications goes as deep as they do: a call takes 995,328 bytes of stack at the most
 * (tests/c/stack.c measures it, on a formula whose walk enters 2,047 literals before it leaves one). A stack of 1 MiB is enough. */
int64_t unhide_text(const uint8_t *text, size_t text_len, uint16_t rounds, uint8_t *out, size_t out_len);

/* ---- calls on tables that the caller lends
 *
 * The tables hold a formula, the state says what is known about them, and every call leaves both so that the next can go on.
 * A first load or join may be given tables and a state that are all zero. The other calls refuse that state, since a programme has at least
 * one code.
 *
 *   unhide_load            reads a DIMACS text into the tables, whatever they hold; closes any pass, puts the constant programme back,
 *                          empties the window
 *   unhide_join            reads two DIMACS texts into the tables as one formula, in which linked variables are one; in all else as a load
 *   unhide_propagate       unit propagation, n clauses in a call; resumes an open Propagate
 *   unhide_merge           equivalent literals become one, n clauses in a call; resumes an open Merge
 *   unhide_stamp           stamps all literals in the order given; the stamps are then fresh
 *   unhide_failed          sets the complements of failed literals, by fresh stamps
 *   unhide_sweep           drops hidden tautologies and removes hidden literals, by fresh stamps, n clauses in a call; resumes an open Sweep
 *   unhide_learn           judges a learnt clause by Sweep's rules, under fresh stamps, and keeps it in the window, whole or shortened,
 *                          or drops it; changes neither tables nor state
 *   unhide_run             at most `count` rounds of the state's programme
 *   unhide_set_programme   replaces the state's programme; changes nothing else
 *   unhide_write           writes what stands as DIMACS text; changes neither tables nor state
 *   unhide_explain         says what a Sweep would do to a clause, under fresh stamps, and writes the chains of literals that show why;
 *                          changes neither tables nor state
 *   unhide_compare         says how the intervals of two literals lie, by the stamps as they stand; needs no state and changes nothing
 *
 * A call of Propagate, Merge or Sweep opens its pass, or resumes it where it is open, and makes at most n visits to clauses; Propagate goes
 * through the clauses again until one time through changes nothing. Where the answer says open, visits are left, and another call
 * goes on where this one stopped. While a pass is open the other passes, Learn, Explain and Run are refused; Load, Join, Write and
 * Set programme are not.
 * Opening Propagate or Merge, the end of Sweep, the mark, a load and a join spend the stamps: they are fresh no more.
 *
 * Most callers use unhide_tables_load and so on, further below, with one `struct unhide_tables`. The calls that these make take a pointer
 * and a length, in numbers, for each slice: clauses, literals, variables, times, links, the state and the answer. The stated lengths
 * are 12,288, 16,384, 2,048, 4,096, 4,096, 40 and 4 numbers; what is lent beyond them is neither read nor written. Load, Join and Learn
 * take the window besides: sizes, learnt and the window's numbers, of 64, 4,096 and 2 numbers.
 *
 * No pointer may be null, not even with a length of 0. Slices that are lent to one call must not overlap.
 *
 * Every call but Compare returns 0 where it was made, else the number of a refusal, negative. A refused call changes no table, no output,
 * not the window and not the state.
 *
 * Nothing is kept between calls and nothing is allocated. Calls in several threads on tables of their own do not disturb each other;
 * two threads must not use the same tables at the same time. Run needs the most stack, 839,680 bytes (measured as above); 896 KiB are
 * enough. A thread that makes these calls should have 2 MiB. */

/* The most that a formula may have, and the records of each table. There is a slot for each literal: 2v - 2 for v, 2v - 1 for -v.
 * Then the most codes that a programme may have, the most clauses of the window, and the most literals that one of them may have. */
enum {
    UNHIDE_CLAUSES = 4096,
    UNHIDE_LITERALS = 16384,
    UNHIDE_VARIABLES = 1024,
    UNHIDE_SLOTS = 2048,
    UNHIDE_CODES = 32,
    UNHIDE_LEARNT = 64,
    UNHIDE_LEARNT_LITERALS = 64
};

/* Refusals. Where several apply, the topmost holds; of -2 and -3 the one at the smaller offset, and in a join the left text's before the
 * right's. The place is 0 where none is named. */
enum unhide_refusal {
    /* all calls: a slice is shorter than stated (an answer of fewer than four numbers stays as it is), a number of the state, its programme
     * apart, is none that it can have, or (but for Load and Join) tables and state, its programme included, break the rules that every
     * call keeps: then nothing was loaded, or the caller has written into them; Learn: the window breaks its rules (struct unhide_window).
     * Compare looks at no rules: it refuses fewer times than stated and literals that are not of the variables */
    UNHIDE_SHAPE = -1,
    /* the passes, Learn, Explain and Run: a pass is open, other than the one that this call resumes */
    UNHIDE_OTHER_PASS = -4,
    /* the passes, Learn, Explain and Run: the mark is set, no assignment satisfies the formula */
    UNHIDE_MARKED = -5,
    /* Stamp: the list is not all 2V literals, each once. Place: the index of the first wrong entry, 0 for a wrong length */
    UNHIDE_ORDER = -8,
    /* Merge when it opens, Stamp: a standing clause has one literal, or a variable with a value. Place: the first such clause, counted from 1 */
    UNHIDE_UNSETTLED = -6,
    /* Stamp: two different literals imply each other */
    UNHIDE_CYCLE = -7,
    /* Failed, Sweep, Learn, Explain: the stamps are not fresh */
    UNHIDE_STALE = -9,
    /* Load, Join: a text breaks the grammar. Place: the offset in this text */
    UNHIDE_GRAMMAR = -2,
    /* Load, Join: a text is beyond a limit, or has more or fewer clauses than its header says. Place: the offset in this text.
     * Join, below -15: what is joined is beyond a limit. Place: 0, where no text is refused with this number */
    UNHIDE_LIMIT = -3,
    /* Join: a pair has a variable that its text does not have, or one that a pair before it has on the same side.
     * Place: the index of the first such pair */
    UNHIDE_LINK = -15,
    /* Explain: no clause has this number, or the clause was dropped */
    UNHIDE_NO_CLAUSE = -13,
    /* Write, Explain: the output is too short. Place: the length that is needed, for Write at most 135,184 */
    UNHIDE_OUTPUT = -10,
    /* Learn: the clause has more than 64 literals, or one that is 0, not of the variables or of a variable already in it */
    UNHIDE_NEWCOMER = -11,
    /* Set programme: the codes break the rules of a programme. Place: the index of the first wrong code, 0 for a wrong length */
    UNHIDE_PROGRAMME = -12
};

/* A clause: its `length` literals stand in the table of literals from `start` on. `standing` is 1, or 0 for a clause that was dropped,
 * which has length 0. */
struct unhide_clause {
    uint32_t start, length, standing;
};

/* A variable: the literal that stands for its class of equivalent literals (the variable itself where it was not merged), and its value,
 * 1 for true, -1 for false or 0 for none. After every accepted call the value of a variable is that of its class literal: for a class
 * literal -w it is the value of w with the other sign. */
struct unhide_variable {
    int32_t class_literal, value;
};

/* The stamp of a literal is two records, in two tables. The times are those at which the walk through the implications entered
 * and left the literal. */
struct unhide_times {
    uint32_t discovery, finish;
};

/* The links are the literal from which the walk entered it, and the literal at which it had started; there they are the literal itself. */
struct unhide_links {
    int32_t parent, start;
};

/* How the interval of one literal, from its discovery to its finish, lies to that of another. They are tried in this order. */
enum unhide_relation {
    /* one beginning and one end */
    UNHIDE_SAME = 0,
    /* the first begins no later and ends no earlier */
    UNHIDE_HOLDS = 1,
    /* the second does */
    UNHIDE_HELD = 2,
    /* neither does: the first begins before the second, or behind it */
    UNHIDE_EARLIER = 3,
    UNHIDE_LATER = 4
};

/* A pair of linked variables, for Join: one of the left text and one of the right. */
struct unhide_pair {
    uint32_t left, right;
};

enum unhide_pass {
    UNHIDE_NO_PASS = 0,
    UNHIDE_PROPAGATE = 1,
    UNHIDE_MERGE = 2,
    UNHIDE_SWEEP = 3
};

/* What the codes of a programme stand for. Settle is whole Propagate and Merge passes until a Merge finds no equivalent literals. Stamp
 * takes the order 1, -1, 2, -2, .. in the first round, turned left by one place more in each that follows. Failed and Sweep are whole passes.
 *
 * A programme has 1 to 32 codes. Each stamp directly follows a settle. Each failed and each sweep has a stamp before it, with no settle and
 * no sweep between. The constant programme is settle, stamp, failed, sweep. */
enum unhide_code {
    UNHIDE_CODE_SETTLE = 1,
    UNHIDE_CODE_STAMP = 2,
    UNHIDE_CODE_FAILED = 3,
    UNHIDE_CODE_SWEEP = 4
};

struct unhide_state {
    /* V and N, dropped clauses counted */
    uint32_t variables, clauses;
    /* the open pass, a number of enum unhide_pass; the clauses that it has visited in this time through, 0 with no pass open; whether this
     * time through has changed something, 1 or 0, and 0 unless the pass is Propagate */
    uint32_t pass, cursor, changed;
    /* 1 or 0: the stamps are fresh; no assignment satisfies the formula */
    uint32_t fresh, mark;
    /* what each round of Run follows: so many codes, numbers of enum unhide_code. A load, a join and Set programme leave 0 behind them; what
     * stands there is not looked at */
    uint32_t programme_length;
    uint32_t programme[UNHIDE_CODES];
};

/* The window: the last 64 learnt clauses that were kept, eldest first. Clause k, counted from 0, has size k and its literals in record k,
 * from the front on; Learn puts 0 behind them. A window that Learn takes has at most 64 clauses, each of at most 64 literals of the variables,
 * no variable twice, and the literals that its numbers say. What lies behind a clause's literals and behind the clauses is not looked at.
 * A window that is all zero is empty, and a load or a join empties any. */
struct unhide_window {
    uint32_t sizes[UNHIDE_LEARNT];
    int32_t learnt[UNHIDE_LEARNT][UNHIDE_LEARNT_LITERALS];
    /* the clauses in the window, and their literals together */
    struct unhide_window_numbers {
        uint32_t clauses, literals;
    } numbers;
};

/* What Learn answers first: the clause is kept whole, dropped, or kept with fewer literals. */
enum unhide_verdict {
    UNHIDE_KEPT = 0,
    UNHIDE_DROPPED = 1,
    UNHIDE_SHORTENED = 2
};

/* What Explain answers first: what a Sweep's visit to the clause would do. It would leave the clause as it is, drop it, or take literals out
 * of it. */
enum unhide_explanation {
    UNHIDE_WOULD_STAY = 0,
    UNHIDE_WOULD_DROP = 1,
    UNHIDE_WOULD_SHORTEN = 2
};

/* All that a formula needs. These are 172,456 bytes: too many for a small stack. */
struct unhide_tables {
    struct unhide_clause clauses[UNHIDE_CLAUSES];
    int32_t literals[UNHIDE_LITERALS];
    struct unhide_variable variables[UNHIDE_VARIABLES];
    struct unhide_times times[UNHIDE_SLOTS];
    struct unhide_links links[UNHIDE_SLOTS];
    struct unhide_state state;
    struct unhide_window window;
};

/* What a call answers where it was made, 0 where it has nothing to say:
 *   `value`   Propagate, Merge, Sweep: visits made; Failed: values set; Run: rounds made; Write: bytes written;
 *             Learn: a number of enum unhide_verdict; Explain: a number of enum unhide_explanation
 *   the rest  Propagate, Merge, Sweep: standing clauses and literals that are gone by this call, and 1 if the pass is still open;
 *             Learn: the literals that are left, in `clauses_gone` (unhide_left reads it);
 *             Explain: the literals that would be taken out, in `clauses_gone`, and the bytes written, in `literals_gone`
 *             (unhide_taken_out and unhide_chain_bytes read them)
 * Where it is refused, `value` is the place of the refusal, and the rest stays. */
struct unhide_answer {
    uint64_t value, clauses_gone, literals_gone, open;
};

/* The literals left of a clause that Learn was given. */
static inline uint64_t unhide_left(const struct unhide_answer *answer)
{
    return answer->clauses_gone;
}

/* The literals that a Sweep would take out of a clause that Explain was asked about: 0 where it would drop the clause or leave it. */
static inline uint64_t unhide_taken_out(const struct unhide_answer *answer)
{
    return answer->clauses_gone;
}

/* The bytes of the chains that Explain has written. */
static inline uint64_t unhide_chain_bytes(const struct unhide_answer *answer)
{
    return answer->literals_gone;
}

/* The calls take the records as numbers one behind the other, so they must have no padding. */
typedef char unhide_clause_has_no_padding[sizeof(struct unhide_clause) == 3 * sizeof(uint32_t) ? 1 : -1];
typedef char unhide_variable_has_no_padding[sizeof(struct unhide_variable) == 2 * sizeof(int32_t) ? 1 : -1];
typedef char unhide_times_has_no_padding[sizeof(struct unhide_times) == 2 * sizeof(uint32_t) ? 1 : -1];
typedef char unhide_links_has_no_padding[sizeof(struct unhide_links) == 2 * sizeof(int32_t) ? 1 : -1];
typedef char unhide_pair_has_no_padding[sizeof(struct unhide_pair) == 2 * sizeof(uint32_t) ? 1 : -1];
typedef char unhide_state_has_no_padding[sizeof(struct unhide_state) == 40 * sizeof(uint32_t) ? 1 : -1];
typedef char unhide_window_has_no_padding[sizeof(struct unhide_window) == (64 + 4096 + 2) * sizeof(uint32_t) ? 1 : -1];
typedef char unhide_answer_has_no_padding[sizeof(struct unhide_answer) == 4 * sizeof(uint64_t) ? 1 : -1];

/* ---- the calls on slices */

int64_t unhide_load(const uint8_t *text, size_t text_len,
                    uint32_t *clauses, size_t clauses_len, int32_t *literals, size_t literals_len,
                    int32_t *variables, size_t variables_len,
                    const uint32_t *times, size_t times_len, const int32_t *links, size_t links_len,
                    uint32_t *state, size_t state_len, uint64_t *answer, size_t answer_len,
                    uint32_t *sizes, size_t sizes_len, int32_t *learnt, size_t learnt_len, uint32_t *window, size_t window_len);

/* Two formulas, given as DIMACS texts, become one. `pairs` has two numbers for each pair of linked variables, one of the left text and one
 * of the right; `pairs_len` counts the numbers, 0 for no pair. The left variables keep their numbers. A right variable that is linked gets
 * the number of its left one; the others get the numbers behind the left variables, in their order. The clauses are those of the left text,
 * then those of the right with these numbers. So an assignment satisfies the join exactly where it satisfies the left formula and its values,
 * read by these numbers, satisfy the right one.
 *
 * Refused with UNHIDE_SHAPE, as a load; UNHIDE_GRAMMAR or UNHIDE_LIMIT of the left text, then of the right; UNHIDE_LINK, where a number left
 * over at the end of `pairs` is a pair without a right variable; UNHIDE_LIMIT at place 0 where the join has more than 1,024 variables,
 * 4,096 clauses or 16,384 literals as written. An offset does not tell which of the two texts it is in. A load of the left text alone, into
 * other tables, does: it is refused with the same number and place if it is that one, and else is made. */
int64_t unhide_join(const uint8_t *left, size_t left_len, const uint8_t *right, size_t right_len,
                    const uint32_t *pairs, size_t pairs_len,
                    uint32_t *clauses, size_t clauses_len, int32_t *literals, size_t literals_len,
                    int32_t *variables, size_t variables_len,
                    const uint32_t *times, size_t times_len, const int32_t *links, size_t links_len,
                    uint32_t *state, size_t state_len, uint64_t *answer, size_t answer_len,
                    uint32_t *sizes, size_t sizes_len, int32_t *learnt, size_t learnt_len, uint32_t *window, size_t window_len);

int64_t unhide_propagate(uint32_t *clauses, size_t clauses_len, int32_t *literals, size_t literals_len,
                         int32_t *variables, size_t variables_len,
                         const uint32_t *times, size_t times_len, const int32_t *links, size_t links_len,
                         uint32_t *state, size_t state_len, uint64_t *answer, size_t answer_len, uint16_t n);

int64_t unhide_merge(uint32_t *clauses, size_t clauses_len, int32_t *literals, size_t literals_len,
                     int32_t *variables, size_t variables_len,
                     const uint32_t *times, size_t times_len, const int32_t *links, size_t links_len,
                     uint32_t *state, size_t state_len, uint64_t *answer, size_t answer_len, uint16_t n);

int64_t unhide_stamp(const uint32_t *clauses, size_t clauses_len, const int32_t *literals, size_t literals_len,
                     const int32_t *variables, size_t variables_len,
                     uint32_t *times, size_t times_len, int32_t *links, size_t links_len,
                     uint32_t *state, size_t state_len, uint64_t *answer, size_t answer_len, const int32_t *order, size_t order_len);

int64_t unhide_failed(const uint32_t *clauses, size_t clauses_len, const int32_t *literals, size_t literals_len,
                      int32_t *variables, size_t variables_len,
                      const uint32_t *times, size_t times_len, const int32_t *links, size_t links_len,
                      uint32_t *state, size_t state_len, uint64_t *answer, size_t answer_len);

int64_t unhide_sweep(uint32_t *clauses, size_t clauses_len, int32_t *literals, size_t literals_len,
                     const int32_t *variables, size_t variables_len,
                     const uint32_t *times, size_t times_len, const int32_t *links, size_t links_len,
                     uint32_t *state, size_t state_len, uint64_t *answer, size_t answer_len, uint16_t n);

/* A learnt clause, `newcomer`, is judged by the rules that Sweep has for a clause, under fresh stamps. Where it is dropped, the window stays.
 * Else what is left of it goes behind the others; where 64 were there, the eldest leaves first. Refused with UNHIDE_SHAPE, UNHIDE_OTHER_PASS
 * (whichever pass is open), UNHIDE_MARKED, UNHIDE_STALE, UNHIDE_NEWCOMER, in this order. A clause of 0 or 1 literals is kept whole.
 *
 * Under every assignment that satisfies what stands, a clause that was shortened is true exactly where what is left of it is, and a clause
 * that was dropped is true (proved: law `learnt-right`, crate `newcomers`). */
int64_t unhide_learn(const uint32_t *clauses, size_t clauses_len, const int32_t *literals, size_t literals_len,
                     const int32_t *variables, size_t variables_len,
                     const uint32_t *times, size_t times_len, const int32_t *links, size_t links_len,
                     const uint32_t *state, size_t state_len, uint64_t *answer, size_t answer_len,
                     const int32_t *newcomer, size_t newcomer_len,
                     uint32_t *sizes, size_t sizes_len, int32_t *learnt, size_t learnt_len, uint32_t *window, size_t window_len);

int64_t unhide_run(uint32_t *clauses, size_t clauses_len, int32_t *literals, size_t literals_len,
                   int32_t *variables, size_t variables_len,
                   uint32_t *times, size_t times_len, int32_t *links, size_t links_len,
                   uint32_t *state, size_t state_len, uint64_t *answer, size_t answer_len, uint16_t count);

/* The state's programme becomes these codes. Refused with UNHIDE_SHAPE, then with UNHIDE_PROGRAMME where they break the rules of a programme
 * (enum unhide_code); an open pass and the mark do not matter. `codes` is a slice that is lent: not the codes in the state. */
int64_t unhide_set_programme(const uint32_t *clauses, size_t clauses_len, const int32_t *literals, size_t literals_len,
                             const int32_t *variables, size_t variables_len,
                             const uint32_t *times, size_t times_len, const int32_t *links, size_t links_len,
                             uint32_t *state, size_t state_len, uint64_t *answer, size_t answer_len,
                             const uint32_t *codes, size_t codes_len);

int64_t unhide_write(const uint32_t *clauses, size_t clauses_len, const int32_t *literals, size_t literals_len,
                     const int32_t *variables, size_t variables_len,
                     const uint32_t *times, size_t times_len, const int32_t *links, size_t links_len,
                     const uint32_t *state, size_t state_len, uint64_t *answer, size_t answer_len, uint8_t *out, size_t out_len);

/* What a Sweep's visit to clause `number`, from 1 to the state's clauses, would do under these stamps, and why. `out` gets a chain of
 * literals for a clause that would be dropped, or one for each literal that would be taken out, in the order of the clause; nothing where the
 * clause would stay. A chain is a line of DIMACS text: its literals, then 0. Each of them is the parent of the next: by the stamps that Stamp
 * leaves, each implies the next by a two-literal clause that stood then. A literal holds another where its interval holds the other's.
 *
 *   dropped       from -a to b, for two literals a and b of the clause such that -a holds b, the earliest a and for it the earliest b;
 *                 where the clause has no others, -a must not be the parent of b either
 *   l taken out   from l to the earliest other literal of the clause that it holds; where it holds none, from -m to -l, for the earliest m
 *                 such that -m holds -l, among the literals of the clause that hold no other of it
 *
 * Refused with UNHIDE_SHAPE, UNHIDE_OTHER_PASS (whichever pass is open), UNHIDE_MARKED, UNHIDE_STALE, UNHIDE_NO_CLAUSE, UNHIDE_OUTPUT, in this
 * order. A call with an output of no bytes tells the length that is needed, which can be over two million bytes. */
int64_t unhide_explain(const uint32_t *clauses, size_t clauses_len, const int32_t *literals, size_t literals_len,
                       const int32_t *variables, size_t variables_len,
                       const uint32_t *times, size_t times_len, const int32_t *links, size_t links_len,
                       const uint32_t *state, size_t state_len, uint64_t *answer, size_t answer_len,
                       uint32_t number, uint8_t *out, size_t out_len);

/* How the interval of literal p lies to that of literal q: a number of enum unhide_relation. Refused with UNHIDE_SHAPE where fewer than
 * 4,096 times are lent, or where p or q is not v or -v with v from 1 to `variables`, at the most 1,024. It looks at the times alone, whether
 * they are fresh or not.
 *
 * While the stamps are fresh: same exactly where p is q; holds exactly where p is another literal and an ancestor of q by parents, held
 * where q is one of p; earlier and later where the walk had left the one before it entered the other (proved: law `compare-fresh`, crate `paper`).
 * For q and p the answer is that for p and q with holds and held, earlier and later exchanged (law `compared-exchanged`, crate `compare`):
 * of a pair it is enough to ask one way. */
int64_t unhide_compare(const uint32_t *times, size_t times_len, uint32_t variables, int32_t p, int32_t q);

/* ---- the calls on a struct of tables */

/* A part of the tables as the calls take it: a pointer and a length in numbers. */
#define UNHIDE_LENT(type, part) (type *)&(part), sizeof(part) / (sizeof(type))

static inline int64_t unhide_tables_load(struct unhide_tables *tables, const uint8_t *text, size_t text_len, struct unhide_answer *answer)
{
    return unhide_load(text, text_len,
                       UNHIDE_LENT(uint32_t, tables->clauses), UNHIDE_LENT(int32_t, tables->literals),
                       UNHIDE_LENT(int32_t, tables->variables), UNHIDE_LENT(const uint32_t, tables->times),
                       UNHIDE_LENT(const int32_t, tables->links), UNHIDE_LENT(uint32_t, tables->state),
                       UNHIDE_LENT(uint64_t, *answer), UNHIDE_LENT(uint32_t, tables->window.sizes),
                       UNHIDE_LENT(int32_t, tables->window.learnt), UNHIDE_LENT(uint32_t, tables->window.numbers));
}

/* `pairs_len` counts pairs. */
static inline int64_t unhide_tables_join(struct unhide_tables *tables, const uint8_t *left, size_t left_len,
                                         const uint8_t *right, size_t right_len, const struct unhide_pair *pairs, size_t pairs_len,
                                         struct unhide_answer *answer)
{
    return unhide_join(left, left_len, right, right_len, (const uint32_t *)pairs, 2 * pairs_len,
                       UNHIDE_LENT(uint32_t, tables->clauses), UNHIDE_LENT(int32_t, tables->literals),
                       UNHIDE_LENT(int32_t, tables->variables), UNHIDE_LENT(const uint32_t, tables->times),
                       UNHIDE_LENT(const int32_t, tables->links), UNHIDE_LENT(uint32_t, tables->state),
                       UNHIDE_LENT(uint64_t, *answer), UNHIDE_LENT(uint32_t, tables->window.sizes),
                       UNHIDE_LENT(int32_t, tables->window.learnt), UNHIDE_LENT(uint32_t, tables->window.numbers));
}

static inline int64_t unhide_tables_propagate(struct unhide_tables *tables, uint16_t n, struct unhide_answer *answer)
{
    return unhide_propagate(UNHIDE_LENT(uint32_t, tables->clauses), UNHIDE_LENT(int32_t, tables->literals),
                            UNHIDE_LENT(int32_t, tables->variables), UNHIDE_LENT(const uint32_t, tables->times),
                            UNHIDE_LENT(const int32_t, tables->links), UNHIDE_LENT(uint32_t, tables->state),
                            UNHIDE_LENT(uint64_t, *answer), n);
}

static inline int64_t unhide_tables_merge(struct unhide_tables *tables, uint16_t n, struct unhide_answer *answer)
{
    return unhide_merge(UNHIDE_LENT(uint32_t, tables->clauses), UNHIDE_LENT(int32_t, tables->literals),
                        UNHIDE_LENT(int32_t, tables->variables), UNHIDE_LENT(const uint32_t, tables->times),
                        UNHIDE_LENT(const int32_t, tables->links), UNHIDE_LENT(uint32_t, tables->state),
                        UNHIDE_LENT(uint64_t, *answer), n);
}

static inline int64_t unhide_tables_stamp(struct unhide_tables *tables, const int32_t *order, size_t order_len, struct unhide_answer *answer)
{
    return unhide_stamp(UNHIDE_LENT(const uint32_t, tables->clauses), UNHIDE_LENT(const int32_t, tables->literals),
                        UNHIDE_LENT(const int32_t, tables->variables), UNHIDE_LENT(uint32_t, tables->times),
                        UNHIDE_LENT(int32_t, tables->links), UNHIDE_LENT(uint32_t, tables->state),
                        UNHIDE_LENT(uint64_t, *answer), order, order_len);
}

static inline int64_t unhide_tables_failed(struct unhide_tables *tables, struct unhide_answer *answer)
{
    return unhide_failed(UNHIDE_LENT(const uint32_t, tables->clauses), UNHIDE_LENT(const int32_t, tables->literals),
                         UNHIDE_LENT(int32_t, tables->variables), UNHIDE_LENT(const uint32_t, tables->times),
                         UNHIDE_LENT(const int32_t, tables->links), UNHIDE_LENT(uint32_t, tables->state),
                         UNHIDE_LENT(uint64_t, *answer));
}

static inline int64_t unhide_tables_sweep(struct unhide_tables *tables, uint16_t n, struct unhide_answer *answer)
{
    return unhide_sweep(UNHIDE_LENT(uint32_t, tables->clauses), UNHIDE_LENT(int32_t, tables->literals),
                        UNHIDE_LENT(const int32_t, tables->variables), UNHIDE_LENT(const uint32_t, tables->times),
                        UNHIDE_LENT(const int32_t, tables->links), UNHIDE_LENT(uint32_t, tables->state),
                        UNHIDE_LENT(uint64_t, *answer), n);
}

static inline int64_t unhide_tables_learn(struct unhide_tables *tables, const int32_t *newcomer, size_t newcomer_len,
                                          struct unhide_answer *answer)
{
    return unhide_learn(UNHIDE_LENT(const uint32_t, tables->clauses), UNHIDE_LENT(const int32_t, tables->literals),
                        UNHIDE_LENT(const int32_t, tables->variables), UNHIDE_LENT(const uint32_t, tables->times),
                        UNHIDE_LENT(const int32_t, tables->links), UNHIDE_LENT(const uint32_t, tables->state),
                        UNHIDE_LENT(uint64_t, *answer), newcomer, newcomer_len, UNHIDE_LENT(uint32_t, tables->window.sizes),
                        UNHIDE_LENT(int32_t, tables->window.learnt), UNHIDE_LENT(uint32_t, tables->window.numbers));
}

static inline int64_t unhide_tables_run(struct unhide_tables *tables, uint16_t count, struct unhide_answer *answer)
{
    return unhide_run(UNHIDE_LENT(uint32_t, tables->clauses), UNHIDE_LENT(int32_t, tables->literals),
                      UNHIDE_LENT(int32_t, tables->variables), UNHIDE_LENT(uint32_t, tables->times),
                      UNHIDE_LENT(int32_t, tables->links), UNHIDE_LENT(uint32_t, tables->state),
                      UNHIDE_LENT(uint64_t, *answer), count);
}

static inline int64_t unhide_tables_set_programme(struct unhide_tables *tables, const uint32_t *codes, size_t codes_len,
                                                  struct unhide_answer *answer)
{
    return unhide_set_programme(UNHIDE_LENT(const uint32_t, tables->clauses), UNHIDE_LENT(const int32_t, tables->literals),
                                UNHIDE_LENT(const int32_t, tables->variables), UNHIDE_LENT(const uint32_t, tables->times),
                                UNHIDE_LENT(const int32_t, tables->links), UNHIDE_LENT(uint32_t, tables->state),
                                UNHIDE_LENT(uint64_t, *answer), codes, codes_len);
}

static inline int64_t unhide_tables_write(const struct unhide_tables *tables, uint8_t *out, size_t out_len, struct unhide_answer *answer)
{
    return unhide_write(UNHIDE_LENT(const uint32_t, tables->clauses), UNHIDE_LENT(const int32_t, tables->literals),
                        UNHIDE_LENT(const int32_t, tables->variables), UNHIDE_LENT(const uint32_t, tables->times),
                        UNHIDE_LENT(const int32_t, tables->links), UNHIDE_LENT(const uint32_t, tables->state),
                        UNHIDE_LENT(uint64_t, *answer), out, out_len);
}

static inline int64_t unhide_tables_explain(const struct unhide_tables *tables, uint32_t number, uint8_t *out, size_t out_len,
                                            struct unhide_answer *answer)
{
    return unhide_explain(UNHIDE_LENT(const uint32_t, tables->clauses), UNHIDE_LENT(const int32_t, tables->literals),
                          UNHIDE_LENT(const int32_t, tables->variables), UNHIDE_LENT(const uint32_t, tables->times),
                          UNHIDE_LENT(const int32_t, tables->links), UNHIDE_LENT(const uint32_t, tables->state),
                          UNHIDE_LENT(uint64_t, *answer), number, out, out_len);
}

static inline int64_t unhide_tables_compare(const struct unhide_tables *tables, int32_t p, int32_t q)
{
    return unhide_compare(UNHIDE_LENT(const uint32_t, tables->times), tables->state.variables, p, q);
}

#undef UNHIDE_LENT

/* ---- looking at the tables, between any two calls */

/* Clause i, from 1 to the state's clauses. */
static inline const struct unhide_clause *unhide_clause_at(const struct unhide_tables *tables, uint32_t i)
{
    return &tables->clauses[i - 1];
}

/* The literals of clause i; there are as many as its length says. */
static inline const int32_t *unhide_literals_at(const struct unhide_tables *tables, uint32_t i)
{
    return tables->literals + tables->clauses[i - 1].start;
}

/* The literals of learnt clause k, from 0, the eldest, to the window's clauses less one; there are as many as its size says. */
static inline const int32_t *unhide_learnt_at(const struct unhide_tables *tables, uint32_t k)
{
    return tables->window.learnt[k];
}

/* Variable v, from 1 to the state's variables. */
static inline const struct unhide_variable *unhide_variable_at(const struct unhide_tables *tables, uint32_t v)
{
    return &tables->variables[v - 1];
}

/* The slot of a literal v or -v, with v from 1 to UNHIDE_VARIABLES: the record of its stamp, counted from 0. */
static inline uint32_t unhide_slot(int32_t literal)
{
    return literal > 0 ? 2 * (uint32_t)literal - 2 : 2 * (uint32_t)-literal - 1;
}

/* The stamp of a literal. It says something about the formula only while the stamps are fresh. */
static inline const struct unhide_times *unhide_times_at(const struct unhide_tables *tables, int32_t literal)
{
    return &tables->times[unhide_slot(literal)];
}

static inline const struct unhide_links *unhide_links_at(const struct unhide_tables *tables, int32_t literal)
{
    return &tables->links[unhide_slot(literal)];
}

#ifdef __cplusplus
}
#endif

#endif
