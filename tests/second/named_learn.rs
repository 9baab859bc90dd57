//! Named cases of learn: what becomes of a newcomer, the refusals one by one and
//! two at a time, and lines that are none. What the window then holds, damaged
//! windows and loads stand in `named_window.rs`.

use crate::named::Case;

/// A name, a text, the calls behind its load, and what all of them print.
type Lines = (&'static str, &'static str, &'static str, &'static str);

/// A name, the calls, and what they print.
pub type Calls = (&'static str, &'static str, &'static str);

/// P2. Behind its Stamp 1 is [1,6], 2 [2,5], 3 [3,4], -3 [7,12], -2 [8,11],
/// -1 [9,10], 4 [13,14] and -4 [15,16].
pub const CHAIN: &str = "p cnf 4 3\n-1 2 0\n-2 3 0\n1 3 4 0\n";
/// 1 and 2 imply 3. In the order 1, -1, 2, .. 1 is [1,4], 3 [2,3], 2 [5,6],
/// -3 [7,12], -1 [8,9], -2 [10,11], 4 [13,14] and -4 [15,16].
const TWO_TO_ONE: &str = "p cnf 4 2\n-1 3 0\n-2 3 0\n";
/// 3 and 4 imply 1, which implies 2 and -5. In the order 4, -4, 5, -5, 1, -1, ..
/// 4 is [1,8], 1 [2,7], 2 [3,4], -5 [5,6], 5 [9,16], -1 [10,15], -3 [11,12],
/// -4 [13,14], -2 [17,18] and 3 [19,20].
const TWO_SIDED: &str = "p cnf 5 4\n-1 2 0\n-3 1 0\n-4 1 0\n-5 -1 0\n";
/// -1 implies 2, which implies 1, and -2, which implies 3. In the order 1, -1, ..
/// -1 is [1,10], 2 [2,5], 1 [3,4], -2 [6,9], 3 [7,8] and -3 [11,12].
const IMPLIED: &str = "p cnf 3 3\n1 2 0\n1 -2 0\n2 3 0\n";
/// P6: 1 is [1,8], 2 [2,5], -1 [3,4] and -2 [6,7].
const FAILS: &str = "p cnf 2 2\n-1 2 0\n-1 -2 0\n";
/// 1 and 2 imply each other, and 1 implies 3.
const CLASSES: &str = "p cnf 3 3\n-1 2 0\n-2 1 0\n-1 3 0\n";

/// The cases on P2 behind its Stamp, then those on other formulas.
pub fn cases() -> Vec<Case> {
    let on_a_chain = ANSWERS.iter().chain(REFUSALS).chain(PAIRS_OF_REFUSALS);
    let others = ON_OTHERS.iter().map(crate::named::with_calls);
    on_a_chain.map(behind_stamp).chain(others).collect()
}

/// The case of these calls on P2, behind its load and its Stamp.
pub fn behind_stamp(&(name, calls, prints): &Calls) -> Case {
    Case {
        name,
        text: CHAIN.as_bytes().to_vec(),
        calls: format!("stamp 1 -1 2 -2 3 -3 4 -4\n{calls}"),
        prints: format!("loaded 4 3 0\nstamped\n{prints}"),
    }
}

const ANSWERS: &[Calls] = &[
    // 1 holds 3, and -3 holds -1
    (
        "learn-dropped-of-three",
        "learn -1 3 4\nlearn 4 3 -1\nlearn 3 4 -1\nwindow\n",
        "dropped\ndropped\ndropped\nwindow 0 0\n",
    ),
    // with three or more literals the parent is no exception
    (
        "learn-dropped-of-three-by-an-edge",
        "learn -1 2 4\nlearn 4 -2 3\nlearn -1 2 -3 4\nwindow\n",
        "dropped\ndropped\ndropped\nwindow 0 0\n",
    ),
    (
        "learn-dropped-pair",
        "learn -1 3\nlearn 3 -1\nwindow\n",
        "dropped\ndropped\nwindow 0 0\n",
    ),
    // what holds is the parent
    (
        "learn-kept-edges",
        "learn -1 2\nlearn 2 -1\nlearn -2 3\nwindow\n",
        "kept 2\nkept 2\nkept 2\nwindow 3 6\n2 -1 2\n2 2 -1\n2 -2 3\n",
    ),
    (
        "learn-kept-of-three",
        "learn 4 -3 2\nwindow\n",
        "kept 3\nwindow 1 3\n3 4 -3 2\n",
    ),
    (
        "learn-kept-apart",
        "learn 4 2\nlearn -4 3\nwindow\n",
        "kept 2\nkept 2\nwindow 2 4\n2 4 2\n2 -4 3\n",
    ),
    // 1 holds 2 and 3, and 2 holds 3
    (
        "learn-shortened-by-the-first-rule",
        "learn 1 3 4\nlearn 4 3 1\nlearn 3 1 4\nlearn 3 2 1\nlearn 1 2 -3\nwindow\n",
        "shortened 2\nshortened 2\nshortened 2\nshortened 1\nshortened 2\nwindow 5 9\n2 3 4\n2 4 3\n2 3 4\n1 3\n2 2 -3\n",
    ),
    // -3 holds -2 and -1, and -2 holds -1
    (
        "learn-shortened-complements",
        "learn -1 -2 -3\nlearn -3 4 -2\nwindow\n",
        "shortened 1\nshortened 2\nwindow 2 3\n1 -1\n2 4 -2\n",
    ),
    (
        "learn-shortened-pair",
        "learn 1 2\nlearn 2 1\nlearn 1 3\nlearn -1 -3\nwindow\n",
        "shortened 1\nshortened 1\nshortened 1\nshortened 1\nwindow 4 4\n1 2\n1 2\n1 3\n1 -1\n",
    ),
    ("learn-empty", "learn\nwindow\n", "kept 0\nwindow 1 0\n0\n"),
    (
        "learn-units",
        "learn 4\nlearn -4\nlearn 1\nlearn -1\nwindow\n",
        "kept 1\nkept 1\nkept 1\nkept 1\nwindow 4 4\n1 4\n1 -4\n1 1\n1 -1\n",
    ),
    (
        "learn-the-same-again",
        "learn 4 2\nlearn 4 2\nlearn\nlearn\nwindow\n",
        "kept 2\nkept 2\nkept 0\nkept 0\nwindow 4 4\n2 4 2\n2 4 2\n0\n0\n",
    ),
    (
        "learn-dropped-between-kept-ones",
        "learn 4\nlearn -1 3\nlearn 2\nlearn -1 3 4\nlearn 1 3\nwindow\n",
        "kept 1\ndropped\nkept 1\ndropped\nshortened 1\nwindow 3 3\n1 4\n1 2\n1 3\n",
    ),
    (
        "learn-changes-no-table",
        "learn 1 3 4\nlearn -1 3\nlearn 4\nlearn 0\nstate\ncodes\nclauses\nliterals\nvariables\nstamps\n",
        "shortened 2\ndropped\nkept 1\nrefused 11 0\nstate 4 3 0 0 0 1 0\ncodes 1 2 3 4\n0 2 1\n2 2 1\n4 3 1\nliterals -1 2 -2 3 1 3 4\n1 0\n2 0\n3 0\n4 0\n1 6 1 1\n9 10 -2 -3\n2 5 1 1\n8 11 -3 -3\n3 4 2 1\n7 12 -3 -3\n13 14 4 4\n15 16 -4 -4\n",
    ),
    // with an edge from 3 to 4 the second newcomer would be dropped; the Sweep shortens the third clause alone
    (
        "learn-adds-no-edge",
        "learn -3 4\nlearn -1 4\nsweep 65535\nwindow\nliterals\nstamp 1 -1 2 -2 3 -3 4 -4\nlearn -1 4\nwindow\n",
        "kept 2\nkept 2\ndone 3 0 1\nwindow 2 4\n2 -3 4\n2 -1 4\nliterals -1 2 -2 3 3 4\nstamped\nkept 2\nwindow 3 6\n2 -3 4\n2 -1 4\n2 -1 4\n",
    ),
    // Failed finds nothing and leaves the stamps fresh
    (
        "learn-behind-other-calls",
        "failed\nlearn 1 3\nwrite 0\nprogramme 1 2\nlearn 4\nrun 1\nlearn -1 3\nlearn 2 4\nstate\nwindow\n",
        "failed 0\nshortened 1\nrefused 10 32\nset\nkept 1\nran 1\ndropped\nkept 2\nstate 4 3 0 0 0 1 0\nwindow 3 4\n1 3\n1 4\n2 2 4\n",
    ),
    // a state without an open pass has no cursor and no flag
    (
        "learn-clears-the-cursor",
        "set state 3 5\nset state 4 1\nlearn 4\nstate\nset state 3 5\nset state 4 1\nlearn 0\nstate\n",
        "kept 1\nstate 4 3 0 0 0 1 0\nrefused 11 0\nstate 4 3 0 0 0 1 0\n",
    ),
    (
        "window-leaves-the-cursor",
        "set state 3 5\nset state 4 1\nwindow\nstate\n",
        "window 0 0\nstate 4 3 0 5 1 1 0\n",
    ),
];

const REFUSALS: &[Calls] = &[
    (
        "learn-1-short-clauses",
        "lend clauses 4095\nlearn 4\nlend clauses 4096\nlearn 4\nwindow\n",
        "refused 1 0\nkept 1\nwindow 1 1\n1 4\n",
    ),
    (
        "learn-1-short-literals",
        "lend literals 16383\nlearn 4\nlend literals 16384\nlearn 4\nwindow\n",
        "refused 1 0\nkept 1\nwindow 1 1\n1 4\n",
    ),
    (
        "learn-1-short-variables",
        "lend variables 1023\nlearn 4\nlend variables 1024\nlearn 4\nwindow\n",
        "refused 1 0\nkept 1\nwindow 1 1\n1 4\n",
    ),
    (
        "learn-1-short-stamps",
        "lend stamps 2047\nlearn 4\nlend stamps 2048\nlearn 4\nwindow\n",
        "refused 1 0\nkept 1\nwindow 1 1\n1 4\n",
    ),
    (
        "learn-1-damaged-tables",
        "set literals 0 0 0\nlearn 4\nset literals 0 0 -1\nset stamps 0 0 2\nlearn 4\nset stamps 0 0 1\nset variables 3 1 2\nlearn 4\nset variables 3 1 0\nlearn 4\nwindow\n",
        "refused 1 0\nrefused 1 0\nrefused 1 0\nkept 1\nwindow 1 1\n1 4\n",
    ),
    (
        "learn-1-damaged-programme",
        "set programme 0 0\nlearn 4\nset programme 0 4\nlearn 4\n",
        "refused 1 0\nkept 1\n",
    ),
    (
        "learn-1-too-many-variables",
        "set state 0 4294967295\nlearn 4\nset state 0 4\nlearn 4\n",
        "refused 1 0\nkept 1\n",
    ),
    (
        "learn-4-open-propagate",
        "propagate 0\nlearn 4\nstate\npropagate 65535\nlearn 4\nwindow\n",
        "open 0 0 0\nrefused 4 0\nstate 4 3 1 0 0 0 0\ndone 3 0 0\nrefused 9 0\nwindow 0 0\n",
    ),
    (
        "learn-4-open-merge",
        "merge 1\nlearn 4\nstate\nmerge 65535\nlearn 4\nwindow\n",
        "open 1 0 0\nrefused 4 0\nstate 4 3 2 1 0 0 0\ndone 2 0 0\nrefused 9 0\nwindow 0 0\n",
    ),
    // a Sweep would resume it; learn resumes none
    (
        "learn-4-open-sweep",
        "sweep 0\nlearn 4\nstate\nsweep 2\nlearn 4\nstate\nsweep 65535\nlearn 4\nstate\nwindow\n",
        "open 0 0 0\nrefused 4 0\nstate 4 3 3 0 0 1 0\nopen 2 0 0\nrefused 4 0\nstate 4 3 3 2 0 1 0\ndone 1 0 1\nrefused 9 0\nstate 4 3 0 0 0 0 0\nwindow 0 0\n",
    ),
    (
        "learn-4-clears-the-flag",
        "sweep 1\nset state 4 1\nlearn 4\nstate\n",
        "open 1 0 0\nrefused 4 0\nstate 4 3 3 1 0 1 0\n",
    ),
    (
        "learn-5-with-fresh-stamps",
        "set state 6 1\nlearn 4\nset state 6 0\nlearn 4\n",
        "refused 5 0\nkept 1\n",
    ),
    (
        "learn-9",
        "learn 4\nset state 5 0\nlearn 4\nwindow\nset state 5 1\nlearn 4\nwindow\n",
        "kept 1\nrefused 9 0\nwindow 1 1\n1 4\nkept 1\nwindow 2 2\n1 4\n1 4\n",
    ),
    (
        "learn-9-behind-a-sweep",
        "sweep 65535\nlearn 4\nlearn\nwindow\n",
        "done 3 0 1\nrefused 9 0\nrefused 9 0\nwindow 0 0\n",
    ),
    (
        "learn-9-behind-a-run",
        "run 1\nlearn 4\nwindow\n",
        "ran 1\nrefused 9 0\nwindow 0 0\n",
    ),
    (
        "learn-11-literal-0",
        "learn 0\nlearn 4 0\nlearn 0 4\nlearn 4 0 2\nlearn 0 0\nwindow\n",
        "refused 11 0\nrefused 11 0\nrefused 11 0\nrefused 11 0\nrefused 11 0\nwindow 0 0\n",
    ),
    (
        "learn-11-out-of-range",
        "learn 5\nlearn -5\nlearn 4 5\nlearn -5 4\nlearn 1025\nlearn 2147483647\nlearn -2147483647\nlearn -2147483648\nlearn 4 -2147483648\nwindow\n",
        "refused 11 0\nrefused 11 0\nrefused 11 0\nrefused 11 0\nrefused 11 0\nrefused 11 0\nrefused 11 0\nrefused 11 0\nrefused 11 0\nwindow 0 0\n",
    ),
    (
        "learn-11-literal-twice",
        "learn 4 4\nlearn -4 -4\nlearn 4 2 4\nlearn 1 2 3 4 1\nlearn 2 4 4\nlearn -2147483648 -2147483648\nwindow\n",
        "refused 11 0\nrefused 11 0\nrefused 11 0\nrefused 11 0\nrefused 11 0\nrefused 11 0\nwindow 0 0\n",
    ),
    (
        "learn-11-both-signs",
        "learn 4 -4\nlearn -4 4\nlearn 4 2 -4\nlearn 1 2 3 4 -1\nlearn 2 -4 4\nwindow\n",
        "refused 11 0\nrefused 11 0\nrefused 11 0\nrefused 11 0\nrefused 11 0\nwindow 0 0\n",
    ),
    // the rest of them would be dropped or shortened
    (
        "learn-11-before-any-judgement",
        "learn -1 3 0\nlearn -1 3 4 4\nlearn -1 3 5\nlearn 1 3 1\nwindow\n",
        "refused 11 0\nrefused 11 0\nrefused 11 0\nrefused 11 0\nwindow 0 0\n",
    ),
    (
        "learn-11-leaves-the-window",
        "learn 4 2\nlearn 4 4\nlearn 0\nlearn 5\nwindow\nlearn 3\nwindow\n",
        "kept 2\nrefused 11 0\nrefused 11 0\nrefused 11 0\nwindow 1 2\n2 4 2\nkept 1\nwindow 2 3\n2 4 2\n1 3\n",
    ),
];

/// Two or more of them apply, and the topmost holds.
const PAIRS_OF_REFUSALS: &[Calls] = &[
    (
        "learn-1-before-4",
        "sweep 0\nset window 1 1\nlearn 4\nset window 1 0\nlend learnt 4095\nlearn 4\nlend learnt 4096\nlearn 4\n",
        "open 0 0 0\nrefused 1 0\nrefused 1 0\nrefused 4 0\n",
    ),
    (
        "learn-1-before-5",
        "set state 6 1\nset window 0 65\nlearn 4\nset window 0 0\nlend sizes 63\nlearn 4\nlend sizes 64\nlearn 4\n",
        "refused 1 0\nrefused 1 0\nrefused 5 0\n",
    ),
    (
        "learn-1-before-9",
        "set state 5 0\nset window 0 65\nlearn 4\nset window 0 0\nlend sizes 63\nlearn 4\nlend sizes 64\nlearn 4\n",
        "refused 1 0\nrefused 1 0\nrefused 9 0\n",
    ),
    (
        "learn-1-before-11",
        "set window 1 1\nlearn 0\nset window 1 0\nlend learnt 0\nlearn 5\nlend learnt 4096\nset variables 0 1 2\nlearn 4 4\nset variables 0 1 0\nlearn 0\n",
        "refused 1 0\nrefused 1 0\nrefused 1 0\nrefused 11 0\n",
    ),
    // no pass is open under the mark, so the shape rule fails
    (
        "learn-1-for-4-and-5",
        "sweep 0\nset state 6 1\nlearn 4\nset state 6 0\nlearn 4\n",
        "open 0 0 0\nrefused 1 0\nrefused 4 0\n",
    ),
    (
        "learn-4-before-9",
        "propagate 0\nlearn 4\nset state 2 3\nset state 5 0\nlearn 4\nset state 2 0\nlearn 4\n",
        "open 0 0 0\nrefused 4 0\nrefused 4 0\nrefused 9 0\n",
    ),
    (
        "learn-4-before-11",
        "sweep 0\nlearn 0\nlearn 4 -4\nlearn 5\n",
        "open 0 0 0\nrefused 4 0\nrefused 4 0\nrefused 4 0\n",
    ),
    (
        "learn-5-before-9",
        "set state 6 1\nset state 5 0\nlearn 4\n",
        "refused 5 0\n",
    ),
    (
        "learn-5-before-11",
        "set state 6 1\nlearn 0\nlearn 4 -4\nset state 5 0\nlearn 5\n",
        "refused 5 0\nrefused 5 0\nrefused 5 0\n",
    ),
    (
        "learn-9-before-11",
        "set state 5 0\nlearn 0\nlearn 4 4\nlearn 4 -4\nlearn 5\nlearn -2147483648\n",
        "refused 9 0\nrefused 9 0\nrefused 9 0\nrefused 9 0\nrefused 9 0\n",
    ),
];

const ON_OTHERS: &[Lines] = &[
    // 2 does not hold 3, but -3 holds -2
    (
        "learn-shortened-by-the-second-rule",
        TWO_TO_ONE,
        "stamp 1 -1 2 -2 3 -3 4 -4\nlearn 2 3\nlearn 3 2\nlearn 4 2 3\nlearn 3 4 2\nwindow\n",
        "loaded 4 2 0\nstamped\nshortened 1\nshortened 1\nshortened 2\nshortened 2\nwindow 4 6\n1 3\n1 3\n2 4 3\n2 3 4\n",
    ),
    // 1 goes by the first rule, 2 by the second
    (
        "learn-shortened-by-both-rules",
        TWO_TO_ONE,
        "stamp 1 -1 2 -2 3 -3 4 -4\nlearn 1 2 3\nlearn 3 4 2 1\nlearn 1 2 4\nwindow\n",
        "loaded 4 2 0\nstamped\nshortened 1\nshortened 2\nkept 3\nwindow 3 6\n1 3\n2 3 4\n3 1 2 4\n",
    ),
    // -3 holds -1 and -2, of which it is the parent
    (
        "learn-two-to-one",
        TWO_TO_ONE,
        "stamp 1 -1 2 -2 3 -3 4 -4\nlearn -2 3\nlearn -2 3 4\nlearn -1 -2\nlearn -3 -1 -2\nlearn -3 -2\nwindow\n",
        "loaded 4 2 0\nstamped\nkept 2\ndropped\nkept 2\nshortened 2\nshortened 1\nwindow 4 7\n2 -2 3\n2 -1 -2\n2 -1 -2\n1 -2\n",
    ),
    // 1 holds 2 and goes first; -1 holds -3, so that 3 would go if 1 were still there
    (
        "learn-second-rule-on-the-rest",
        TWO_SIDED,
        "stamp 4 -4 5 -5 1 -1 2 -2 3 -3\nlearn 1 2 3\nlearn 1 3\nlearn 3 2 1\nwindow\n",
        "loaded 5 4 0\nstamped\nshortened 2\nshortened 1\nshortened 2\nwindow 3 5\n2 2 3\n1 1\n2 3 2\n",
    ),
    // -1 holds 3 and is not its parent; that -1 holds 1 as well plays no part
    (
        "learn-pair-that-the-scan-passes-over",
        IMPLIED,
        "stamp 1 -1 2 -2 3 -3\nlearn 1 3\nlearn 3 1\nwindow\n",
        "loaded 3 3 0\nstamped\ndropped\ndropped\nwindow 0 0\n",
    ),
    // no pair is dropped by its parents; 2 goes by the first rule, -2 by the second
    (
        "learn-pairs-that-are-edges",
        IMPLIED,
        "stamp 1 -1 2 -2 3 -3\nlearn 1 2\nlearn 1 -2\nlearn 2 3\nwindow\n",
        "loaded 3 3 0\nstamped\nshortened 1\nshortened 1\nkept 2\nwindow 3 4\n1 1\n1 1\n2 2 3\n",
    ),
    // values do not count: 1 is false, and units are kept
    (
        "learn-behind-failed",
        FAILS,
        "stamp 1 -1 2 -2\nfailed\nlearn 1\nlearn -1\nlearn 1 2\nlearn -1 2\nlearn -1 -2\nvariables\nwindow\n",
        "loaded 2 2 0\nstamped\nfailed 1\nkept 1\nkept 1\nshortened 1\nshortened 1\nshortened 1\n1 -1\n2 0\nwindow 5 5\n1 1\n1 -1\n1 2\n1 -1\n1 -1\n",
    ),
    // classes do not count either: 2, whose class is 1, has no edge any more; 1 is [1,4], 3 [2,3], 2 [5,6], -2 [7,8], -3 [9,12] and -1 [10,11]
    (
        "learn-a-variable-that-is-not-its-own-class",
        CLASSES,
        "merge 65535\nstamp 1 -1 2 -2 3 -3\nlearn -2 3\nlearn 2 3\nlearn -1 3\nlearn 1 3\nlearn 1 2\nlearn 1 -2\nwindow\n",
        "loaded 3 3 0\ndone 3 2 4\nstamped\nkept 2\nkept 2\nkept 2\nshortened 1\nkept 2\nkept 2\nwindow 6 11\n2 -2 3\n2 2 3\n2 -1 3\n1 3\n2 1 2\n2 1 -2\n",
    ),
    (
        "learn-empty-formula",
        "p cnf 0 0\n",
        "learn\nstamp\nlearn\nlearn 1\nlearn -1\nlearn 0\nlearn\nwindow\n",
        "loaded 0 0 0\nrefused 9 0\nstamped\nkept 0\nrefused 11 0\nrefused 11 0\nrefused 11 0\nkept 0\nwindow 2 0\n0\n0\n",
    ),
    // no load has been accepted
    (
        "learn-at-the-start",
        "x",
        "window\nset state 0 0\nset state 1 0\nset state 5 0\nlearn\nset state 5 1\nlearn\nlearn 1\nwindow\n",
        "refused 2 0\nwindow 0 0\nrefused 9 0\nkept 0\nrefused 11 0\nwindow 1 0\n0\n",
    ),
    (
        "learn-one-variable",
        "p cnf 1 0\n",
        "stamp -1 1\nlearn 1\nlearn -1\nlearn 2\nlearn -2\nlearn 1 -1\nwindow\n",
        "loaded 1 0 0\nstamped\nkept 1\nkept 1\nrefused 11 0\nrefused 11 0\nrefused 11 0\nwindow 2 2\n1 1\n1 -1\n",
    ),
    (
        "learn-5-marked-by-a-load",
        "p cnf 1 1\n0\n",
        "learn 1\nlearn\nlearn 0\nwindow\n",
        "loaded 1 1 1\nrefused 5 0\nrefused 5 0\nrefused 5 0\nwindow 0 0\n",
    ),
    // P8
    (
        "learn-5-marked-by-merge",
        "p cnf 2 4\n1 2 0\n1 -2 0\n-1 2 0\n-1 -2 0\n",
        "merge 65535\nlearn 1\n",
        "loaded 2 4 0\ndone 0 0 0\nrefused 5 0\n",
    ),
    (
        "learn-9-behind-a-load",
        CHAIN,
        "learn 4\nlearn 4 4\n",
        "loaded 4 3 0\nrefused 9 0\nrefused 9 0\n",
    ),
];

/// Lines of `learn` that are none. The wrong line is the last that is read.
pub const WRONG_LINES: &[Lines] = &[
    (
        "learn-line-space-at-end",
        CHAIN,
        "learn \nstate\n",
        "loaded 4 3 0\nerror 2\n",
    ),
    (
        "learn-line-space-behind-a-literal",
        CHAIN,
        "learn 1 \nstate\n",
        "loaded 4 3 0\nerror 2\n",
    ),
    (
        "learn-line-two-spaces",
        CHAIN,
        "learn 1  2\nstate\n",
        "loaded 4 3 0\nerror 2\n",
    ),
    (
        "learn-line-tab",
        CHAIN,
        "learn\t1\nstate\n",
        "loaded 4 3 0\nerror 2\n",
    ),
    (
        "learn-line-capital",
        CHAIN,
        "Learn 1\nstate\n",
        "loaded 4 3 0\nerror 2\n",
    ),
    (
        "learn-line-letter",
        CHAIN,
        "learn 1 x\nstate\n",
        "loaded 4 3 0\nerror 2\n",
    ),
    (
        "learn-line-leading-zero",
        CHAIN,
        "learn 01\nstate\n",
        "loaded 4 3 0\nerror 2\n",
    ),
    (
        "learn-line-minus-nought",
        CHAIN,
        "learn -0\nstate\n",
        "loaded 4 3 0\nerror 2\n",
    ),
    (
        "learn-line-plus",
        CHAIN,
        "learn +1\nstate\n",
        "loaded 4 3 0\nerror 2\n",
    ),
    (
        "learn-line-2-to-the-31",
        CHAIN,
        "learn 2147483648\nstate\n",
        "loaded 4 3 0\nerror 2\n",
    ),
    (
        "learn-line-below-the-smallest",
        CHAIN,
        "learn -2147483649\nstate\n",
        "loaded 4 3 0\nerror 2\n",
    ),
    (
        "learn-line-2-to-the-32-and-1",
        CHAIN,
        "learn 4294967297\nstate\n",
        "loaded 4 3 0\nerror 2\n",
    ),
    (
        "learn-line-2-to-the-64-and-1",
        CHAIN,
        "learn 18446744073709551617\nstate\n",
        "loaded 4 3 0\nerror 2\n",
    ),
    // the newcomers before it are learnt
    (
        "learn-line-behind-good-lines",
        CHAIN,
        "stamp 1 -1 2 -2 3 -3 4 -4\nlearn 4\nlearn 1 3\nwindow\nlearn 1 -\nwindow\n",
        "loaded 4 3 0\nstamped\nkept 1\nshortened 1\nwindow 2 2\n1 4\n1 3\nerror 6\n",
    ),
    // the input ends inside the line
    (
        "learn-line-no-LF",
        CHAIN,
        "learn 4",
        "loaded 4 3 0\nerror 2\n",
    ),
];
