//! Named cases of explain: what is said of a clause, and by which chains. The
//! refusals and the lines that are none stand in `named_explain_refusals.rs`.

use crate::named::{chain, Case};
use crate::named_learn::{behind_stamp, Calls};

/// A name, a text, the calls behind its load, and what all of them print.
type Lines = (&'static str, &'static str, &'static str, &'static str);

/// The cases on P2 behind its Stamp, then those on other formulas.
pub fn cases() -> Vec<Case> {
    let others = DROPS.iter().chain(PAIRS).chain(LITERALS).chain(OTHERS);
    let others = others.map(crate::named::with_calls);
    ON_P2.iter().map(behind_stamp).chain(others).collect()
}

/// P2 behind its Stamp: 1 is [1,6], 2 [2,5], 3 [3,4], -3 [7,12], -2 [8,11],
/// -1 [9,10], 4 [13,14] and -4 [15,16].
const ON_P2: &[Calls] = &[
    // the first two are kept because of the parents; 1 holds 3 and goes
    (
        "explain-P2",
        "explain 1 99\nexplain 2 99\nexplain 3 99\n",
        "explained 0 0 0\nexplained 0 0 0\nexplained 2 1 8\n1 2 3 0\n",
    ),
    (
        "explain-output-sizes",
        "explain 3 0\nexplain 3 1\nexplain 3 7\nexplain 3 8\nexplain 3 9\nexplain 3 131072\nexplain 1 0\n",
        "refused 10 8\nrefused 10 8\nrefused 10 8\nexplained 2 1 8\n1 2 3 0\nexplained 2 1 8\n1 2 3 0\nexplained 2 1 8\n1 2 3 0\nexplained 0 0 0\n",
    ),
    (
        "explain-changes-no-table",
        "explain 3 8\nexplain 1 0\nexplain 3 7\nexplain 4 0\nstate\ncodes\nclauses\nliterals\nvariables\nstamps\nwindow\n",
        "explained 2 1 8\n1 2 3 0\nexplained 0 0 0\nrefused 10 8\nrefused 13 0\nstate 4 3 0 0 0 1 0\ncodes 1 2 3 4\n0 2 1\n2 2 1\n4 3 1\nliterals -1 2 -2 3 1 3 4\n1 0\n2 0\n3 0\n4 0\n1 6 1 1\n9 10 -2 -3\n2 5 1 1\n8 11 -3 -3\n3 4 2 1\n7 12 -3 -3\n13 14 4 4\n15 16 -4 -4\nwindow 0 0\n",
    ),
    (
        "explain-then-sweep",
        "explain 3 8\nsweep 2\nsweep 1\nclauses\nliterals\n",
        "explained 2 1 8\n1 2 3 0\nopen 2 0 0\ndone 1 0 1\n0 2 1\n2 2 1\n4 2 1\nliterals -1 2 -2 3 3 4\n",
    ),
    // a state without an open pass has no cursor and no flag
    (
        "explain-clears-the-cursor",
        "set state 3 5\nset state 4 1\nexplain 3 8\nstate\nset state 3 5\nset state 4 1\nexplain 0 8\nstate\n",
        "explained 2 1 8\n1 2 3 0\nstate 4 3 0 0 0 1 0\nrefused 13 0\nstate 4 3 0 0 0 1 0\n",
    ),
    // Failed and Run with a Stamp as its last code leave the stamps fresh
    (
        "explain-behind-other-calls",
        "failed\nexplain 3 8\nlearn 1 3\nexplain 3 8\nwrite 0\nprogramme 1 2\nrun 1\nexplain 3 8\nstamp -4 4 -3 3 -2 2 -1 1\nexplain 3 99\n",
        "failed 0\nexplained 2 1 8\n1 2 3 0\nshortened 1\nexplained 2 1 8\n1 2 3 0\nrefused 10 32\nset\nran 1\nexplained 2 1 8\n1 2 3 0\nstamped\nexplained 2 1 8\n1 2 3 0\n",
    ),
    // the window is not lent
    (
        "explain-takes-no-window",
        "set window 0 65\nset window 1 7\nexplain 3 8\nlend sizes 0\nlend learnt 0\nexplain 3 7\nexplain 3 8\nlend sizes 64\nlend learnt 4096\nset window 0 0\nset window 1 0\n",
        "explained 2 1 8\n1 2 3 0\nrefused 10 8\nexplained 2 1 8\n1 2 3 0\n",
    ),
    // a clause of one literal under fresh stamps, which no call leaves
    (
        "explain-one-literal",
        "set clauses 2 1 1\nexplain 3 0\nset literals 4 0 -3\nexplain 3 0\nset clauses 0 1 1\nexplain 1 0\nexplain 2 0\n",
        "explained 0 0 0\nexplained 0 0 0\nexplained 0 0 0\nexplained 0 0 0\n",
    ),
    // another clause in place of the third is judged by the stamps that are there
    (
        "explain-clauses-written-behind-the-stamp",
        "set literals 4 0 -1\nexplain 3 99\nset literals 5 0 -3\nexplain 3 99\nset literals 5 0 -2\nset literals 6 0 -4\nexplain 3 99\n",
        "explained 1 0 8\n1 2 3 0\nexplained 2 1 11\n-3 -2 -1 0\nexplained 2 1 8\n-2 -1 0\n",
    ),
    // each of the eight holds the next in the order 1, -2, 3, -1, 2, -3, 4, -4; an edge from 1 to -2 is one from 2 to -1, so no Stamp leaves these
    (
        "explain-stamps-that-are-no-walk",
        "set stamps 0 0 1\nset stamps 0 1 16\nset stamps 0 2 1\nset stamps 0 3 1\nset stamps 3 0 2\nset stamps 3 1 15\nset stamps 3 2 1\nset stamps 3 3 1\nset stamps 4 0 3\nset stamps 4 1 14\nset stamps 4 2 -2\nset stamps 4 3 1\nset stamps 1 0 4\nset stamps 1 1 13\nset stamps 1 2 3\nset stamps 1 3 1\nset stamps 2 0 5\nset stamps 2 1 12\nset stamps 2 2 -1\nset stamps 2 3 1\nset stamps 5 0 6\nset stamps 5 1 11\nset stamps 5 2 2\nset stamps 5 3 1\nset stamps 6 0 7\nset stamps 6 1 10\nset stamps 6 2 -3\nset stamps 6 3 1\nset stamps 7 0 8\nset stamps 7 1 9\nset stamps 7 2 4\nexplain 1 99\nset stamps 7 3 1\nexplain 1 99\nexplain 2 99\nexplain 3 99\nsweep 65535\nclauses\nliterals\n",
        "refused 1 0\nexplained 1 0 14\n1 -2 3 -1 2 0\nexplained 2 1 7\n-2 3 0\nexplained 1 0 12\n-1 2 -3 4 0\ndone 3 2 6\n0 0 0\n2 1 1\n4 0 0\nliterals 0 0 3\n",
    ),
];

/// Clauses of three or more that are dropped. The pairs are those of P2, or those
/// of P6, by which 1 is [1,8], 2 [2,5], -1 [3,4] and -2 [6,7].
const DROPS: &[Lines] = &[
    // 1 holds 3, and -3 holds -1
    (
        "explain-drop-by-the-first-literal",
        "p cnf 4 5\n-1 2 0\n-2 3 0\n-1 3 4 0\n3 -1 4 0\n4 3 -1 0\n",
        "stamp 1 -1 2 -2 3 -3 4 -4\nexplain 3 8\nexplain 4 11\nexplain 5 11\nexplain 3 7\nexplain 5 10\nsweep 65535\nclauses\n",
        "loaded 4 5 0\nstamped\nexplained 1 0 8\n1 2 3 0\nexplained 1 0 11\n-3 -2 -1 0\nexplained 1 0 11\n-3 -2 -1 0\nrefused 10 8\nrefused 10 11\ndone 5 3 9\n0 2 1\n2 2 1\n4 0 0\n7 0 0\n10 0 0\n",
    ),
    // with three or more literals the parent is no exception
    (
        "explain-drop-by-an-edge",
        "p cnf 4 5\n-1 2 0\n-2 3 0\n-1 2 4 0\n4 -2 3 0\n4 3 -2 0\n",
        "stamp 1 -1 2 -2 3 -3 4 -4\nexplain 3 6\nexplain 4 6\nexplain 5 8\n",
        "loaded 4 5 0\nstamped\nexplained 1 0 6\n1 2 0\nexplained 1 0 6\n2 3 0\nexplained 1 0 8\n-3 -2 0\n",
    ),
    // 1 holds 3 and 2: the first in the clause, near or far
    (
        "explain-drop-several-held",
        "p cnf 4 5\n-1 2 0\n-2 3 0\n-1 3 2 0\n-1 2 3 0\n-1 4 3 2 0\n",
        "stamp 1 -1 2 -2 3 -3 4 -4\nexplain 3 99\nexplain 4 99\nexplain 5 99\n",
        "loaded 4 5 0\nstamped\nexplained 1 0 8\n1 2 3 0\nexplained 1 0 6\n1 2 0\nexplained 1 0 8\n1 2 3 0\n",
    ),
    // 1 and 2 hold 3, and -3 holds -1 and -2
    (
        "explain-drop-several-that-hold",
        "p cnf 4 6\n-1 2 0\n-2 3 0\n-1 -2 3 0\n-2 -1 3 0\n3 -1 -2 0\n4 3 -2 -1 0\n",
        "stamp 1 -1 2 -2 3 -3 4 -4\nexplain 3 99\nexplain 4 99\nexplain 5 99\nexplain 6 99\n",
        "loaded 4 6 0\nstamped\nexplained 1 0 8\n1 2 3 0\nexplained 1 0 6\n2 3 0\nexplained 1 0 11\n-3 -2 -1 0\nexplained 1 0 8\n-3 -2 0\n",
    ),
    // -2 and -3 hold -1: the first end is chosen first
    (
        "explain-drop-first-end-first",
        "p cnf 4 5\n-1 2 0\n-2 3 0\n2 3 -1 0\n3 2 -1 0\n2 -1 3 0\n",
        "stamp 1 -1 2 -2 3 -3 4 -4\nexplain 3 99\nexplain 4 99\nexplain 5 99\n",
        "loaded 4 5 0\nstamped\nexplained 1 0 8\n-2 -1 0\nexplained 1 0 11\n-3 -2 -1 0\nexplained 1 0 8\n-2 -1 0\n",
    ),
    // 1 holds -1 itself, in the third clause nothing else; in the others it holds 2 as well
    (
        "explain-drop-by-one-literal",
        "p cnf 4 5\n-1 2 0\n-1 -2 0\n3 -1 4 0\n-1 2 3 0\n2 -1 3 0\n",
        "stamp 1 -1 2 -2 3 -3 4 -4\nexplain 3 99\nexplain 4 99\nexplain 5 99\n",
        "loaded 4 5 0\nstamped\nexplained 1 0 9\n1 2 -1 0\nexplained 1 0 9\n1 2 -1 0\nexplained 1 0 6\n1 2 0\n",
    ),
    // the literals that also hold one another are not told
    (
        "explain-drop-before-shorten",
        "p cnf 4 3\n-1 2 0\n-2 3 0\n4 2 3 -1 0\n",
        "stamp 1 -1 2 -2 3 -3 4 -4\nexplain 3 99\nsweep 65535\nliterals\n",
        "loaded 4 3 0\nstamped\nexplained 1 0 8\n-2 -1 0\ndone 3 1 4\nliterals -1 2 -2 3\n",
    ),
];

const PAIRS: &[Lines] = &[
    // 1 holds 3 over 2, and -3 holds -1 over -2: both edges are a reason
    (
        "explain-P3",
        "p cnf 3 4\n-1 2 0\n-2 3 0\n-1 3 0\n3 -1 0\n",
        "stamp 1 -1 2 -2 3 -3\nexplain 1 0\nexplain 2 0\nexplain 3 8\nexplain 4 11\nexplain 3 7\nexplain 4 10\nsweep 65535\nclauses\n",
        "loaded 3 4 0\nstamped\nexplained 0 0 0\nexplained 0 0 0\nexplained 1 0 8\n1 2 3 0\nexplained 1 0 11\n-3 -2 -1 0\nrefused 10 8\nrefused 10 11\ndone 4 2 4\n0 2 1\n2 2 1\n4 0 0\n6 0 0\n",
    ),
    (
        "explain-P4",
        "p cnf 3 3\n-1 3 0\n-1 2 0\n-2 3 0\n",
        "stamp 1 -1 2 -2 3 -3\nexplain 1 0\nexplain 2 0\nexplain 3 0\nsweep 65535\n",
        "loaded 3 3 0\nstamped\nexplained 0 0 0\nexplained 0 0 0\nexplained 0 0 0\ndone 3 0 0\n",
    ),
    // 1 is [1,6], 2 [2,5], 3 [3,4], -3 [7,12], -1 [8,9] and -2 [10,11]: -3 is the parent of -1, so the other edge is the reason
    (
        "explain-pair-second-edge-for-the-parent",
        "p cnf 3 3\n-1 2 0\n3 -1 0\n-2 3 0\n",
        "stamp 1 -1 2 -2 3 -3\nexplain 1 0\nexplain 2 8\nexplain 3 0\nsweep 65535\nclauses\n",
        "loaded 3 3 0\nstamped\nexplained 0 0 0\nexplained 1 0 8\n1 2 3 0\nexplained 0 0 0\ndone 3 1 2\n0 2 1\n2 0 0\n4 2 1\n",
    ),
    // the same pair turned: its first edge is the reason
    (
        "explain-pair-first-edge-alone",
        "p cnf 3 3\n-1 2 0\n-1 3 0\n-2 3 0\n",
        "stamp 1 -1 2 -2 3 -3\nexplain 2 8\n",
        "loaded 3 3 0\nstamped\nexplained 1 0 8\n1 2 3 0\n",
    ),
    // 4 is [1,4], 3 [2,3], 1 [5,8], 2 [6,7], -3 [9,16], -4 [10,11], -2 [12,15] and -1 [13,14]: 1 does not hold 3
    (
        "explain-pair-second-edge-alone-holds",
        "p cnf 4 5\n-4 3 0\n-1 2 0\n-2 3 0\n-1 3 0\n3 -1 0\n",
        "stamp 4 -4 1 -1 2 -2 3 -3\nexplain 4 11\nexplain 5 11\nexplain 1 0\nexplain 3 0\n",
        "loaded 4 5 0\nstamped\nexplained 1 0 11\n-3 -2 -1 0\nexplained 1 0 11\n-3 -2 -1 0\nexplained 0 0 0\nexplained 0 0 0\n",
    ),
    // the second and the fourth say the same; 1 holds 4 over 2 and 3
    (
        "explain-pairs-that-say-the-same",
        "p cnf 4 5\n-1 2 0\n-2 3 0\n-3 4 0\n-2 3 0\n-1 4 0\n",
        "stamp 1 -1 2 -2 3 -3 4 -4\nexplain 2 0\nexplain 4 0\nexplain 5 99\n",
        "loaded 4 5 0\nstamped\nexplained 0 0 0\nexplained 0 0 0\nexplained 1 0 10\n1 2 3 4 0\n",
    ),
    // -1 is [1,10], 2 [2,5], 1 [3,4], -2 [6,9], 3 [7,8] and -3 [11,12]
    (
        "explain-pair-that-the-scan-passes-over",
        "p cnf 3 5\n1 2 0\n1 -2 0\n2 3 0\n1 3 0\n3 1 0\n",
        "stamp 1 -1 2 -2 3 -3\nexplain 4 99\nexplain 5 99\nexplain 3 99\n",
        "loaded 3 5 0\nstamped\nexplained 1 0 10\n-1 -2 3 0\nexplained 1 0 10\n-1 -2 3 0\nexplained 0 0 0\n",
    ),
    // P6: 1 is [1,8], 2 [2,5], -1 [3,4] and -2 [6,7]; of the first pair 2 holds -1, of the second 1 holds 2
    (
        "explain-P6-pairs-shortened",
        "p cnf 2 2\n-1 2 0\n-1 -2 0\n",
        "stamp 1 -1 2 -2\nexplain 1 7\nexplain 2 6\nfailed\nexplain 1 7\nexplain 2 5\nsweep 65535\nclauses\nliterals\n",
        "loaded 2 2 0\nstamped\nexplained 2 1 7\n2 -1 0\nexplained 2 1 6\n1 2 0\nfailed 1\nexplained 2 1 7\n2 -1 0\nrefused 10 6\ndone 2 0 2\n0 1 1\n2 1 1\nliterals -1 0 -1\n",
    ),
];

const LITERALS: &[Lines] = &[
    // the first other literal that is held, near or far
    (
        "explain-first-rule-several-held",
        "p cnf 4 6\n-1 2 0\n-2 3 0\n1 2 3 0\n3 2 1 0\n2 1 3 0\n1 3 2 0\n",
        "stamp 1 -1 2 -2 3 -3 4 -4\nexplain 3 12\nexplain 4 14\nexplain 5 12\nexplain 6 14\nexplain 3 11\nexplain 4 6\nsweep 65535\nclauses\n",
        "loaded 4 6 0\nstamped\nexplained 2 2 12\n1 2 0\n2 3 0\nexplained 2 2 14\n2 3 0\n1 2 3 0\nexplained 2 2 12\n2 3 0\n1 2 0\nexplained 2 2 14\n1 2 3 0\n2 3 0\nrefused 10 12\nrefused 10 14\ndone 6 0 8\n0 2 1\n2 2 1\n4 1 1\n7 1 1\n10 1 1\n13 1 1\n",
    ),
    (
        "explain-first-rule-complements",
        "p cnf 4 5\n-1 2 0\n-2 3 0\n-1 -2 -3 0\n-3 4 -2 0\n4 -3 2 0\n",
        "stamp 1 -1 2 -2 3 -3 4 -4\nexplain 3 99\nexplain 4 99\nexplain 5 99\n",
        "loaded 4 5 0\nstamped\nexplained 2 2 19\n-2 -1 0\n-3 -2 -1 0\nexplained 2 1 8\n-3 -2 0\nexplained 0 0 0\n",
    ),
    // 1 is [1,4], 3 [2,3], 2 [5,6], -3 [7,12], -1 [8,9] and -2 [10,11]: 2 does not hold 3, but -3 holds -2
    (
        "explain-second-rule",
        "p cnf 4 5\n-1 3 0\n-2 3 0\n2 3 4 0\n4 3 2 0\n1 2 4 0\n",
        "stamp 1 -1 2 -2 3 -3 4 -4\nexplain 3 8\nexplain 4 8\nexplain 5 0\nexplain 3 7\nsweep 65535\nliterals\n",
        "loaded 4 5 0\nstamped\nexplained 2 1 8\n-3 -2 0\nexplained 2 1 8\n-3 -2 0\nexplained 0 0 0\nrefused 10 8\ndone 5 0 2\nliterals -1 3 -2 3 3 4 0 4 3 0 1 2 4\n",
    ),
    // 1 goes by the first rule, 2 by the second; told in the order of the clause
    (
        "explain-both-rules",
        "p cnf 4 4\n-1 3 0\n-2 3 0\n1 2 3 0\n3 4 2 1 0\n",
        "stamp 1 -1 2 -2 3 -3 4 -4\nexplain 3 14\nexplain 4 14\nexplain 3 13\nsweep 65535\nliterals\n",
        "loaded 4 4 0\nstamped\nexplained 2 2 14\n1 3 0\n-3 -2 0\nexplained 2 2 14\n-3 -2 0\n1 3 0\nrefused 10 14\ndone 4 0 4\nliterals -1 3 -2 3 3 0 0 3 4\n",
    ),
    // 4 is [1,6], 1 [2,5], 2 [3,4], -2 [7,14], -1 [8,13], -4 [9,10], -3 [11,12] and 3 [15,16]: -1 holds -3 too, but 1 goes first
    (
        "explain-second-rule-among-the-rest",
        "p cnf 4 5\n-4 1 0\n-1 2 0\n-3 1 0\n1 3 2 0\n3 1 2 0\n",
        "stamp 4 -4 1 -1 2 -2 3 -3\nexplain 4 99\nexplain 5 99\nsweep 65535\nliterals\n",
        "loaded 4 5 0\nstamped\nexplained 2 2 17\n1 2 0\n-2 -1 -3 0\nexplained 2 2 17\n-2 -1 -3 0\n1 2 0\ndone 5 0 4\nliterals -4 1 -1 2 -3 1 2 0 0 2\n",
    ),
    // 4 is [1,8], 1 [2,7], 2 [3,4], -5 [5,6], 5 [9,16], -1 [10,15], -3 [11,12], -4 [13,14], -2 [17,18] and 3 [19,20]: 3 would go if 1 were left
    (
        "explain-second-rule-only-on-the-rest",
        "p cnf 5 6\n-1 2 0\n-3 1 0\n-4 1 0\n-5 -1 0\n1 2 3 0\n3 2 1 0\n",
        "stamp 4 -4 5 -5 1 -1 2 -2 3 -3\nexplain 5 99\nexplain 6 99\nexplain 1 0\n",
        "loaded 5 6 0\nstamped\nexplained 2 1 6\n1 2 0\nexplained 2 1 6\n1 2 0\nexplained 0 0 0\n",
    ),
    // 4 is [1,4], 2 [2,3], 5 [5,8], 1 [6,7], 3 [9,10], -2 [11,20], -4 [12,13], -1 [14,19], -5 [15,16] and -3 [17,18]: -1 and -2 hold -3, and 1 goes as well
    (
        "explain-second-rule-several-that-hold",
        "p cnf 5 9\n-4 2 0\n-5 1 0\n-1 2 0\n-3 1 0\n1 2 3 0\n2 1 3 0\n3 2 1 0\n3 1 2 0\n3 4 1 0\n",
        "stamp 4 -4 5 -5 3 -3 1 -1 2 -2\nexplain 5 99\nexplain 6 99\nexplain 7 99\nexplain 8 99\nexplain 9 99\nsweep 65535\nliterals\n",
        "loaded 5 9 0\nstamped\nexplained 2 2 16\n-2 -1 0\n-1 -3 0\nexplained 2 2 19\n-2 -1 0\n-2 -1 -3 0\nexplained 2 2 19\n-2 -1 -3 0\n-2 -1 0\nexplained 2 2 16\n-1 -3 0\n-2 -1 0\nexplained 2 1 8\n-1 -3 0\ndone 9 0 9\nliterals -4 2 -5 1 -1 2 -3 1 2 0 0 2 0 0 2 0 0 2 0 0 4 1\n",
    ),
    // the pairs are those of P2; 2 alone of its literals has to do with them, and -3 holds -2
    (
        "explain-clauses-of-four",
        "p cnf 6 4\n-1 2 0\n-2 3 0\n4 5 -6 2 0\n3 -2 5 6 0\n",
        "stamp 1 -1 2 -2 3 -3 4 -4 5 -5 6 -6\nexplain 3 0\nexplain 4 99\n",
        "loaded 6 4 0\nstamped\nexplained 0 0 0\nexplained 1 0 8\n-3 -2 0\n",
    ),
];

const OTHERS: &[Lines] = &[
    // numbers count dropped clauses too
    (
        "explain-numbers-behind-dropped-clauses",
        "p cnf 4 5\n4 -4 0\n-1 2 0\n1 -1 3 0\n-2 3 0\n1 3 4 0\n",
        "stamp 1 -1 2 -2 3 -3 4 -4\nexplain 0 99\nexplain 1 99\nexplain 2 99\nexplain 3 99\nexplain 4 99\nexplain 5 99\nexplain 6 99\n",
        "loaded 4 5 0\nstamped\nrefused 13 0\nrefused 13 0\nexplained 0 0 0\nrefused 13 0\nexplained 0 0 0\nexplained 2 1 8\n1 2 3 0\nrefused 13 0\n",
    ),
    // Merge drops both pairs of 1 and 2; 1 is [1,4], 3 [2,3], 2 [5,6], -2 [7,8], -3 [9,12] and -1 [10,11]
    (
        "explain-behind-merge",
        "p cnf 4 4\n-1 2 0\n-2 1 0\n-2 3 0\n2 4 3 0\n",
        "merge 65535\nstamp 1 -1 2 -2 3 -3 4 -4\nexplain 1 99\nexplain 2 99\nexplain 3 99\nexplain 4 99\n",
        "loaded 4 4 0\ndone 4 2 4\nstamped\nrefused 13 0\nrefused 13 0\nexplained 0 0 0\nexplained 2 1 6\n1 3 0\n",
    ),
    // the unit is dropped, and two clauses lose -4: 1 implies 2, which implies 3
    (
        "explain-behind-propagate",
        "p cnf 5 5\n4 0\n-4 -1 2 0\n-2 3 0\n1 3 -4 5 0\n3 -1 0\n",
        "propagate 65535\nstamp 1 -1 2 -2 3 -3 4 -4 5 -5\nexplain 1 99\nexplain 2 99\nexplain 4 99\nexplain 5 99\n",
        "loaded 5 5 0\ndone 10 1 3\nstamped\nrefused 13 0\nexplained 0 0 0\nexplained 2 1 8\n1 2 3 0\nexplained 1 0 11\n-3 -2 -1 0\n",
    ),
    (
        "explain-empty-formula",
        "p cnf 0 0\n",
        "explain 1 0\nstamp\nexplain 0 0\nexplain 1 0\nexplain 4294967295 0\n",
        "loaded 0 0 0\nrefused 9 0\nstamped\nrefused 13 0\nrefused 13 0\nrefused 13 0\n",
    ),
    // no load has been accepted
    (
        "explain-at-the-start",
        "x",
        "set state 0 0\nset state 1 0\nset state 5 0\nexplain 1 0\nset state 5 1\nexplain 1 0\n",
        "refused 2 0\nrefused 9 0\nrefused 13 0\n",
    ),
];

/// Cases on all 1,024 variables. A text is looked at mostly by its length, which
/// the refusal of an output of 0 bytes tells.
pub fn large() -> Vec<Case> {
    vec![
        // v is [v, 2049 - v] and -v [3073 - v, 3072 + v]
        Case {
            name: "explain-chain-of-1024",
            text: chain(1_024, "1 512 1024 0\n"),
            calls: format!("{STAMPED}explain 1024 0\nexplain 1024 4021\nexplain 1023 0\n"),
            prints: format!(
                "loaded 1024 1024 0\nset\nran 1\nrefused 10 4021\nexplained 2 2 4021\n{}0\n{}0\nexplained 0 0 0\n",
                literals(1..=512),
                literals(512..=1_024)
            ),
        },
        // 1 implies 2, .., 1024, -1023, .., -1; of the pair -1024 goes, for 1023 holds 1024
        Case {
            name: "explain-chain-of-2047",
            text: chain(1_025, "-1024 -1023 0\n-1 2 3 0\n"),
            calls: format!("{STAMPED}explain 1025 9045\nexplain 1025 9046\nexplain 1024 12\n"),
            prints: format!(
                "loaded 1024 1025 0\nset\nran 1\nrefused 10 9046\nexplained 1 0 9046\n{}{}0\nexplained 2 1 12\n1023 1024 0\n",
                literals(1..=1_024),
                literals(-1_023..=-1)
            ),
        },
        // each v below 1,024 goes, with a chain to 1,024, and in the other clause with one to v + 1
        Case {
            name: "explain-clause-of-1024",
            text: chain(1_025, &format!("{}0\n{}0\n", falling(), literals(1..=1_024))),
            calls: format!("{STAMPED}explain 1024 0\nexplain 1024 131072\nexplain 1025 0\nexplain 1025 10065\n"),
            prints: format!(
                "loaded 1024 1025 0\nset\nran 1\nrefused 10 2121546\nrefused 10 2121546\nrefused 10 10065\nexplained 2 1023 10065\n{}",
                (1..1_024).map(|v| format!("{v} {} 0\n", v + 1)).collect::<String>()
            ),
        },
        Case {
            name: "explain-clause-4096",
            text: chain(4_096, &"-1 1024 0\n".repeat(3_073)),
            calls: format!("{STAMPED}explain 1023 0\nexplain 1024 0\nexplain 4095 0\nexplain 4096 0\nexplain 4097 0\n"),
            prints: "loaded 1024 4096 0\nset\nran 1\nexplained 0 0 0\nrefused 10 4015\nrefused 10 4015\nrefused 10 4015\nrefused 13 0\n".to_string(),
        },
    ]
}

/// Run leaves fresh stamps in the order 1, -1, 2, ..
const STAMPED: &str = "programme 1 2\nrun 1\n";

/// Each with a space behind it.
fn literals(literals: impl Iterator<Item = i32>) -> String {
    literals.map(|l| format!("{l} ")).collect()
}

/// 1024 to 1, a space behind each.
fn falling() -> String {
    literals((1..=1_024).rev())
}
