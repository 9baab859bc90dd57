//! Named cases of joins that are accepted: the numbers that variables get, texts of
//! all kinds, the calls behind a join, and what was there before. Refused ones stand
//! in `named_join_refusals.rs`, large ones in `named_join_limits.rs`.

use crate::named::Case;
use crate::named_learn::CHAIN;

/// The left text, the right text and the links of a join.
pub type Join = (&'static str, &'static str, &'static str);

/// A name, a join, the calls behind it, and what all of them print.
type Joined = (&'static str, Join, &'static str, &'static str);

/// A name, calls, a join behind them, the calls behind that, and what all of them
/// print.
pub type Between = (&'static str, &'static str, Join, &'static str, &'static str);

pub const LEFT: &str = "p cnf 3 2\n1 -2 0\n2 3 0\n";
pub const RIGHT: &str = "p cnf 3 2\n-1 2 3 0\n1 -3 0\n";
pub const EMPTY: &str = "p cnf 0 0\n";
pub const UNIT: &str = "p cnf 1 1\n1 0\n";
const OTHER_UNIT: &str = "p cnf 1 1\n-1 0\n";

/// All of them stand behind a load of P2.
pub fn cases() -> Vec<Case> {
    let joined = NUMBERS.iter().chain(TEXTS).chain(CALLS);
    let joined =
        joined.map(|&(name, join, after, prints)| between(&(name, "", join, after, prints)));
    joined.chain(BEFORE.iter().map(between)).collect()
}

pub fn between(&(name, before, join, after, prints): &Between) -> Case {
    Case {
        name,
        text: CHAIN.as_bytes().to_vec(),
        calls: format!("{before}{}{after}", lines(join)),
        prints: format!("loaded 4 3 0\n{prints}"),
    }
}

/// The line of a join, with the texts behind it.
pub fn lines((left, right, links): (&str, &str, &str)) -> String {
    let space = if links.is_empty() { "" } else { " " };
    let (a, b) = (left.len(), right.len());
    format!("join {a} {b}{space}{links}\n{left}{right}\n")
}

/// Linked right variables take the left's numbers, the others those after the
/// left's, in their order.
const NUMBERS: &[Joined] = &[
    (
        "join-no-links",
        (LEFT, RIGHT, ""),
        "write 256\nstate\nclauses\nliterals\nvariables\n",
        "loaded 6 4 0\nwritten 39\np cnf 6 4\n1 -2 0\n2 3 0\n-4 5 6 0\n4 -6 0\nstate 6 4 0 0 0 0 0\n0 2 1\n2 2 1\n4 3 1\n7 2 1\nliterals 1 -2 2 3 -4 5 6 4 -6\n1 0\n2 0\n3 0\n4 0\n5 0\n6 0\n",
    ),
    (
        "join-all-linked",
        (LEFT, RIGHT, "1 1 2 2 3 3"),
        "write 256\nstate\nclauses\nliterals\nvariables\n",
        "loaded 3 4 0\nwritten 39\np cnf 3 4\n1 -2 0\n2 3 0\n-1 2 3 0\n1 -3 0\nstate 3 4 0 0 0 0 0\n0 2 1\n2 2 1\n4 3 1\n7 2 1\nliterals 1 -2 2 3 -1 2 3 1 -3\n1 0\n2 0\n3 0\n",
    ),
    // the links in another order
    (
        "join-all-linked-from-the-last",
        (LEFT, RIGHT, "3 3 2 2 1 1"),
        "write 256\n",
        "loaded 3 4 0\nwritten 39\np cnf 3 4\n1 -2 0\n2 3 0\n-1 2 3 0\n1 -3 0\n",
    ),
    (
        "join-crossed",
        (LEFT, RIGHT, "1 3 2 2 3 1"),
        "write 256\n",
        "loaded 3 4 0\nwritten 39\np cnf 3 4\n1 -2 0\n2 3 0\n-3 2 1 0\n3 -1 0\n",
    ),
    // right 1, 2, 3 are left 2, 3, 1
    (
        "join-turned",
        (LEFT, RIGHT, "1 3 2 1 3 2"),
        "write 256\n",
        "loaded 3 4 0\nwritten 39\np cnf 3 4\n1 -2 0\n2 3 0\n-2 3 1 0\n2 -1 0\n",
    ),
    (
        "join-last-to-middle",
        (LEFT, RIGHT, "2 3"),
        "write 256\n",
        "loaded 5 4 0\nwritten 39\np cnf 5 4\n1 -2 0\n2 3 0\n-4 5 2 0\n4 -2 0\n",
    ),
    (
        "join-first-to-last",
        (LEFT, RIGHT, "3 1"),
        "write 256\n",
        "loaded 5 4 0\nwritten 39\np cnf 5 4\n1 -2 0\n2 3 0\n-3 4 5 0\n3 -5 0\n",
    ),
    (
        "join-middle-to-first",
        (LEFT, RIGHT, "1 2"),
        "write 256\nvariables\n",
        "loaded 5 4 0\nwritten 39\np cnf 5 4\n1 -2 0\n2 3 0\n-4 1 5 0\n4 -5 0\n1 0\n2 0\n3 0\n4 0\n5 0\n",
    ),
    (
        "join-two-links",
        (LEFT, RIGHT, "3 2 1 3"),
        "write 256\n",
        "loaded 4 4 0\nwritten 39\np cnf 4 4\n1 -2 0\n2 3 0\n-4 3 1 0\n4 -1 0\n",
    ),
    (
        "join-two-links-exchanged",
        (LEFT, RIGHT, "1 3 3 2"),
        "write 256\n",
        "loaded 4 4 0\nwritten 39\np cnf 4 4\n1 -2 0\n2 3 0\n-4 3 1 0\n4 -1 0\n",
    ),
    (
        "join-one-variable-to-the-last-of-five",
        (
            "p cnf 5 1\n-5 1 0\n",
            "p cnf 4 2\n1 2 3 4 0\n-4 -3 -2 -1 0\n",
            "5 4",
        ),
        "write 256\n",
        "loaded 8 3 0\nwritten 41\np cnf 8 3\n-5 1 0\n6 7 8 5 0\n-5 -8 -7 -6 0\n",
    ),
    (
        "join-right-larger",
        (UNIT, "p cnf 4 1\n-1 -2 -3 4 0\n", "1 3"),
        "write 256\n",
        "loaded 4 2 0\nwritten 27\np cnf 4 2\n1 0\n-2 -3 -1 4 0\n",
    ),
    (
        "join-left-larger",
        ("p cnf 4 1\n4 3 2 1 0\n", UNIT, "3 1"),
        "write 256\n",
        "loaded 4 2 0\nwritten 24\np cnf 4 2\n4 3 2 1 0\n3 0\n",
    ),
    // every other right variable is linked
    (
        "join-gaps",
        (
            "p cnf 3 0\n",
            "p cnf 6 1\n1 -2 3 -4 5 -6 0\n",
            "3 2 2 4 1 6",
        ),
        "write 256\n",
        "loaded 6 1 0\nwritten 27\np cnf 6 1\n4 -3 5 -2 6 -1 0\n",
    ),
    // of the right variables 1 and 2 are in no clause
    (
        "join-variables-in-no-clause",
        ("p cnf 2 0\n", "p cnf 3 1\n3 0\n", "1 2"),
        "write 256\nvariables\n",
        "loaded 4 1 0\nwritten 14\np cnf 4 1\n4 0\n1 0\n2 0\n3 0\n4 0\n",
    ),
];

const TEXTS: &[Joined] = &[
    (
        "join-left-V-0",
        (EMPTY, RIGHT, ""),
        "write 256\nstate\n",
        "loaded 3 2 0\nwritten 26\np cnf 3 2\n-1 2 3 0\n1 -3 0\nstate 3 2 0 0 0 0 0\n",
    ),
    (
        "join-right-V-0",
        (LEFT, EMPTY, ""),
        "write 256\nstate\n",
        "loaded 3 2 0\nwritten 23\np cnf 3 2\n1 -2 0\n2 3 0\nstate 3 2 0 0 0 0 0\n",
    ),
    (
        "join-both-V-0",
        (EMPTY, EMPTY, ""),
        "write 256\nstate\nclauses\nliterals\nvariables\nrun 1\nstamp\n",
        "loaded 0 0 0\nwritten 10\np cnf 0 0\nstate 0 0 0 0 0 0 0\nliterals\nran 1\nstamped\n",
    ),
    (
        "join-no-clauses",
        ("p cnf 2 0\n", "p cnf 3 0\n", "2 3"),
        "write 256\nvariables\n",
        "loaded 4 0 0\nwritten 10\np cnf 4 0\n1 0\n2 0\n3 0\n4 0\n",
    ),
    (
        "join-empty-clause-on-the-left",
        ("p cnf 2 2\n0\n1 2 0\n", RIGHT, "1 1"),
        "write 256\nstate\nclauses\nliterals\npropagate 1\n",
        "loaded 4 4 1\nwritten 12\np cnf 4 1\n0\nstate 4 4 0 0 0 0 1\n0 0 1\n0 2 1\n2 3 1\n5 2 1\nliterals 1 2 -1 3 4 1 -4\nrefused 5 0\n",
    ),
    (
        "join-empty-clause-on-the-right",
        (LEFT, "p cnf 2 2\n1 -2 0\n0\n", "1 1"),
        "write 256\nstate\nclauses\nliterals\nrun 1\n",
        "loaded 4 4 1\nwritten 12\np cnf 4 1\n0\nstate 4 4 0 0 0 0 1\n0 2 1\n2 2 1\n4 2 1\n6 0 1\nliterals 1 -2 2 3 1 -4\nrefused 5 0\n",
    ),
    (
        "join-empty-clause-on-each-side",
        ("p cnf 1 1\n0\n", "p cnf 1 1\n0\n", ""),
        "write 256\nstate\nclauses\nliterals\nvariables\n",
        "loaded 2 2 1\nwritten 12\np cnf 2 1\n0\nstate 2 2 0 0 0 0 1\n0 0 1\n0 0 1\nliterals\n1 0\n2 0\n",
    ),
    (
        "join-empty-clause-without-variables",
        (EMPTY, "p cnf 0 1\n0\n", ""),
        "write 256\nclauses\n",
        "loaded 0 1 1\nwritten 12\np cnf 0 1\n0\n0 0 1\n",
    ),
    (
        "join-repeats-on-each-side",
        (
            "p cnf 2 1\n1 1 2 1 0\n",
            "p cnf 3 2\n3 -1 3 3 -1 0\n2 2 0\n",
            "2 3",
        ),
        "write 256\nclauses\nliterals\n",
        "loaded 4 3 0\nwritten 27\np cnf 4 3\n1 2 0\n2 -3 0\n4 0\n0 2 1\n2 2 1\n4 1 1\nliterals 1 2 2 -3 4\n",
    ),
    (
        "join-dropped-on-each-side",
        (
            "p cnf 2 3\n1 -1 0\n1 2 0\n2 1 -2 1 0\n",
            "p cnf 2 3\n-1 2 1 0\n-2 0\n2 -2 0\n",
            "1 2",
        ),
        "write 256\nclauses\nliterals\n",
        "loaded 3 6 0\nwritten 21\np cnf 3 2\n1 2 0\n-1 0\n0 0 0\n0 2 1\n2 0 0\n2 0 0\n2 1 1\n3 0 0\nliterals 1 2 -1\n",
    ),
    // links are one to one: no clause gets a variable twice by them
    (
        "join-crossed-signs",
        (
            "p cnf 2 2\n1 -2 0\n-1 2 0\n",
            "p cnf 2 2\n1 -2 0\n-1 2 0\n",
            "1 2 2 1",
        ),
        "write 256\nclauses\n",
        "loaded 2 4 0\nwritten 38\np cnf 2 4\n1 -2 0\n-1 2 0\n2 -1 0\n-2 1 0\n0 2 1\n2 2 1\n4 2 1\n6 2 1\n",
    ),
    // equal clauses all stay
    (
        "join-with-itself",
        (LEFT, LEFT, "1 1 2 2 3 3"),
        "write 256\n",
        "loaded 3 4 0\nwritten 36\np cnf 3 4\n1 -2 0\n2 3 0\n1 -2 0\n2 3 0\n",
    ),
    (
        "join-opposite-units",
        (UNIT, OTHER_UNIT, "1 1"),
        "write 256\nstate\npropagate 65535\nstate\nwrite 256\n",
        "loaded 1 2 0\nwritten 19\np cnf 1 2\n1 0\n-1 0\nstate 1 2 0 0 0 0 0\ndone 2 1 2\nstate 1 2 0 0 0 0 1\nwritten 12\np cnf 1 1\n0\n",
    ),
    (
        "join-opposite-units-not-linked",
        (UNIT, OTHER_UNIT, ""),
        "write 256\npropagate 65535\nvariables\n",
        "loaded 2 2 0\nwritten 19\np cnf 2 2\n1 0\n-2 0\ndone 4 2 2\n1 1\n2 -1\n",
    ),
    // each text by itself ends its last token and its header
    (
        "join-no-LF-at-the-end",
        ("p cnf 2 1\n1 -2 0", "p cnf 1 1\n-1 0", "2 1"),
        "write 256\n",
        "loaded 2 2 0\nwritten 22\np cnf 2 2\n1 -2 0\n-2 0\n",
    ),
    (
        "join-headers-alone",
        ("p cnf 1 0", "p cnf 1 0", ""),
        "write 256\n",
        "loaded 2 0 0\nwritten 10\np cnf 2 0\n",
    ),
    (
        "join-comments-and-separators",
        (
            "c left\nc\np cnf 2 1\n\t1\r\n-2 0 \n",
            "c p cnf 9 9\np cnf 2 2\n1\n0\t-2\r0\n\n",
            "1 2",
        ),
        "write 256\n",
        "loaded 3 3 0\nwritten 26\np cnf 3 3\n1 -2 0\n3 0\n-1 0\n",
    ),
];

/// Calls behind a join.
const CALLS: &[Joined] = &[
    // P2 in two halves
    (
        "join-then-run",
        (
            "p cnf 3 2\n-1 2 0\n-2 3 0\n",
            "p cnf 3 1\n1 2 3 0\n",
            "3 2 1 1",
        ),
        "run 1\nwrite 256\n",
        "loaded 4 3 0\nran 1\nwritten 30\np cnf 4 3\n-1 2 0\n-2 3 0\n3 4 0\n",
    ),
    (
        "join-then-stamp-and-sweep",
        (
            "p cnf 3 2\n-1 2 0\n-2 3 0\n",
            "p cnf 3 1\n1 2 3 0\n",
            "3 2 1 1",
        ),
        "sweep 1\nstamp 1 -1 2 -2 3 -3 4 -4\nstamps\nsweep 65535\nliterals\n",
        "loaded 4 3 0\nrefused 9 0\nstamped\n1 6 1 1\n9 10 -2 -3\n2 5 1 1\n8 11 -3 -3\n3 4 2 1\n7 12 -3 -3\n13 14 4 4\n15 16 -4 -4\ndone 3 0 1\nliterals -1 2 -2 3 3 4\n",
    ),
    // P3: a chain of the left implies the pair of the right
    (
        "join-then-a-pair-is-implied",
        (
            "p cnf 3 2\n-1 2 0\n-2 3 0\n",
            "p cnf 2 1\n-2 1 0\n",
            "3 1 1 2",
        ),
        "stamp 1 -1 2 -2 3 -3\nexplain 3 64\nsweep 65535\nclauses\n",
        "loaded 3 3 0\nstamped\nexplained 1 0 8\n1 2 3 0\ndone 3 1 2\n0 2 1\n2 2 1\n4 0 0\n",
    ),
    // P6, a clause from each side
    (
        "join-then-failed",
        ("p cnf 2 1\n-1 2 0\n", "p cnf 2 1\n-2 -1 0\n", "1 2 2 1"),
        "stamp 1 -1 2 -2\nfailed\nvariables\nwrite 256\n",
        "loaded 2 2 0\nstamped\nfailed 1\n1 -1\n2 0\nwritten 30\np cnf 2 3\n-1 0\n-1 2 0\n-1 -2 0\n",
    ),
    // P7, a clause from each side
    (
        "join-then-merge",
        ("p cnf 2 1\n-1 2 0\n", "p cnf 2 1\n-1 2 0\n", "1 2 2 1"),
        "merge 65535\nvariables\nclauses\nwrite 256\n",
        "loaded 2 2 0\ndone 2 2 4\n1 0\n1 0\n0 0 0\n2 0 0\nwritten 24\np cnf 2 2\n2 -1 0\n-2 1 0\n",
    ),
    // P8, two clauses from each side
    (
        "join-then-merge-sets-the-mark",
        (
            "p cnf 2 2\n1 2 0\n1 -2 0\n",
            "p cnf 2 2\n-1 2 0\n-1 -2 0\n",
            "1 1 2 2",
        ),
        "merge 0\nstate\nwrite 256\n",
        "loaded 2 4 0\ndone 0 0 0\nstate 2 4 0 0 0 0 1\nwritten 12\np cnf 2 1\n0\n",
    ),
    // the value of the left goes through the link
    (
        "join-then-propagate",
        (
            "p cnf 2 2\n1 0\n-1 2 0\n",
            "p cnf 3 2\n-1 2 0\n-2 -3 0\n",
            "2 1",
        ),
        "propagate 65535\nvariables\nwrite 256\n",
        "loaded 4 4 0\ndone 8 4 7\n1 1\n2 1\n3 1\n4 -1\nwritten 27\np cnf 4 4\n1 0\n2 0\n3 0\n-4 0\n",
    ),
    (
        "join-then-learn",
        (
            "p cnf 3 2\n-1 2 0\n-2 3 0\n",
            "p cnf 3 1\n1 2 3 0\n",
            "3 2 1 1",
        ),
        "learn 4\nstamp 1 -1 2 -2 3 -3 4 -4\nlearn 4\nlearn -1 3 4\nlearn 1 3\nlearn 5\nwindow\n",
        "loaded 4 3 0\nrefused 9 0\nstamped\nkept 1\ndropped\nshortened 1\nrefused 11 0\nwindow 2 2\n1 4\n1 3\n",
    ),
    (
        "join-then-explain",
        (
            "p cnf 3 2\n-1 2 0\n-2 3 0\n",
            "p cnf 3 1\n1 2 3 0\n",
            "3 2 1 1",
        ),
        "explain 3 64\nstamp 1 -1 2 -2 3 -3 4 -4\nexplain 3 64\nexplain 1 64\nexplain 4 64\n",
        "loaded 4 3 0\nrefused 9 0\nstamped\nexplained 2 1 8\n1 2 3 0\nexplained 0 0 0\nrefused 13 0\n",
    ),
    (
        "join-then-write",
        (LEFT, RIGHT, "2 3"),
        "write 38\nwrite 39\nwrite 0\n",
        "loaded 5 4 0\nrefused 10 39\nwritten 39\np cnf 5 4\n1 -2 0\n2 3 0\n-4 5 2 0\n4 -2 0\nrefused 10 39\n",
    ),
    (
        "join-then-programme",
        (LEFT, RIGHT, "1 1 2 2 3 3"),
        "codes\nprogramme 1\nrun 1\nstate\n",
        "loaded 3 4 0\ncodes 1 2 3 4\nset\nran 1\nstate 3 4 0 0 0 0 0\n",
    ),
    (
        "join-then-load",
        (LEFT, RIGHT, ""),
        "load 14\np cnf 1 1\n1 0\n\nwrite 256\nstate\nclauses\nliterals\nvariables\n",
        "loaded 6 4 0\nloaded 1 1 0\nwritten 14\np cnf 1 1\n1 0\nstate 1 1 0 0 0 0 0\n0 1 1\nliterals 1\n1 0\n",
    ),
    (
        "join-then-join",
        (LEFT, RIGHT, ""),
        "join 14 15 1 1\np cnf 1 1\n1 0\np cnf 1 1\n-1 0\n\nwrite 256\nstate\nclauses\nliterals\nvariables\n",
        "loaded 6 4 0\nloaded 1 2 0\nwritten 19\np cnf 1 2\n1 0\n-1 0\nstate 1 2 0 0 0 0 0\n0 1 1\n1 1 1\nliterals 1 -1\n1 0\n",
    ),
];

/// What was there before.
const BEFORE: &[Between] = &[
    (
        "join-in-open-propagate",
        "propagate 1\nstate\n",
        (UNIT, OTHER_UNIT, ""),
        "state\nmerge 0\npropagate 65535\nstate\n",
        "open 1 0 0\nstate 4 3 1 1 0 0 0\nloaded 2 2 0\nstate 2 2 0 0 0 0 0\nrefused 6 1\ndone 4 2 2\nstate 2 2 0 0 0 0 0\n",
    ),
    (
        "join-in-open-merge",
        "merge 2\nstate\n",
        (LEFT, RIGHT, ""),
        "state\nmerge 0\nstate\n",
        "open 2 0 0\nstate 4 3 2 2 0 0 0\nloaded 6 4 0\nstate 6 4 0 0 0 0 0\nopen 0 0 0\nstate 6 4 2 0 0 0 0\n",
    ),
    (
        "join-in-open-sweep",
        "stamp 1 -1 2 -2 3 -3 4 -4\nsweep 2\nstate\n",
        (LEFT, RIGHT, ""),
        "state\nsweep 1\n",
        "stamped\nopen 2 0 0\nstate 4 3 3 2 0 1 0\nloaded 6 4 0\nstate 6 4 0 0 0 0 0\nrefused 9 0\n",
    ),
    (
        "join-with-a-change-flag",
        "set state 2 1\nset state 3 3\nset state 4 1\nstate\n",
        (LEFT, RIGHT, ""),
        "state\n",
        "state 4 3 1 3 1 0 0\nloaded 6 4 0\nstate 6 4 0 0 0 0 0\n",
    ),
    (
        "join-under-the-mark",
        "load 14\np cnf 1 2\n0 0\n\nstate\n",
        (LEFT, RIGHT, "1 1"),
        "state\nclauses\nwrite 256\npropagate 65535\n",
        "loaded 1 2 1\nstate 1 2 0 0 0 0 1\nloaded 5 4 0\nstate 5 4 0 0 0 0 0\n0 2 1\n2 2 1\n4 3 1\n7 2 1\nwritten 39\np cnf 5 4\n1 -2 0\n2 3 0\n-1 4 5 0\n1 -5 0\ndone 4 0 0\n",
    ),
    (
        "join-under-the-mark-sets-it-again",
        "set state 6 1\n",
        (UNIT, "p cnf 0 1\n0\n", ""),
        "state\n",
        "loaded 1 2 1\nstate 1 2 0 0 0 0 1\n",
    ),
    // the records stay, and no call takes them
    (
        "join-with-fresh-stamps",
        "stamp 1 -1 2 -2 3 -3 4 -4\nstate\n",
        (LEFT, RIGHT, "1 1 2 2 3 3"),
        "state\nstamps\nfailed\nsweep 1\nlearn 1\nexplain 1 64\n",
        "stamped\nstate 4 3 0 0 0 1 0\nloaded 3 4 0\nstate 3 4 0 0 0 0 0\n1 6 1 1\n9 10 -2 -3\n2 5 1 1\n8 11 -3 -3\n3 4 2 1\n7 12 -3 -3\nrefused 9 0\nrefused 9 0\nrefused 9 0\nrefused 9 0\n",
    ),
    (
        "join-leaves-stamp-records",
        "set stamps 3 0 7\nset stamps 11 3 -9\nset stamps 12 0 8\n",
        (LEFT, RIGHT, ""),
        "stamps\nset state 0 7\nstamps\nset state 0 6\n",
        "loaded 6 4 0\n0 0 0 0\n0 0 0 0\n0 0 0 0\n7 0 0 0\n0 0 0 0\n0 0 0 0\n0 0 0 0\n0 0 0 0\n0 0 0 0\n0 0 0 0\n0 0 0 0\n0 0 0 -9\n0 0 0 0\n0 0 0 0\n0 0 0 0\n7 0 0 0\n0 0 0 0\n0 0 0 0\n0 0 0 0\n0 0 0 0\n0 0 0 0\n0 0 0 0\n0 0 0 0\n0 0 0 -9\n8 0 0 0\n0 0 0 0\n",
    ),
    (
        "join-with-another-programme",
        "programme 1 2 4 1\ncodes\n",
        (LEFT, RIGHT, "1 1 2 2 3 3"),
        "codes\nset programme 0 32\ncodes\nset programme 0 4\n",
        "set\ncodes 1 2 4 1\nloaded 3 4 0\ncodes 1 2 3 4\ncodes 1 2 3 4 0 0 0 0 0 0 0 0 0 0 0 0 0 0 0 0 0 0 0 0 0 0 0 0 0 0 0 0\n",
    ),
    (
        "join-with-learnt-clauses",
        "stamp 1 -1 2 -2 3 -3 4 -4\nlearn 4\nlearn 2 4\nwindow\n",
        (LEFT, RIGHT, ""),
        "window\nset sizes 0 0 3\nset sizes 1 0 3\nset window 0 3\nwindow\nset sizes 0 0 0\nset sizes 1 0 0\nset window 0 0\n",
        "stamped\nkept 1\nkept 2\nwindow 2 3\n1 4\n2 2 4\nloaded 6 4 0\nwindow 0 0\nwindow 3 0\n3 0 0 0\n3 0 0 0\n0\n",
    ),
    (
        "join-with-classes-and-values",
        "load 42\np cnf 3 5\n-1 2 0\n-2 1 0\n1 3 0\n-1 -3 0\n2 0\n\npropagate 65535\nvariables\n",
        (LEFT, RIGHT, "1 1 2 2 3 3"),
        "variables\n",
        "loaded 3 5 0\ndone 15 5 9\n1 1\n2 1\n3 -1\nloaded 3 4 0\n1 0\n2 0\n3 0\n",
    ),
    (
        "join-with-classes",
        "load 24\np cnf 2 2\n-1 2 0\n1 -2 0\n\nmerge 65535\nvariables\n",
        (LEFT, RIGHT, "1 1 2 2 3 3"),
        "variables\n",
        "loaded 2 2 0\ndone 2 2 4\n1 0\n1 0\nloaded 3 4 0\n1 0\n2 0\n3 0\n",
    ),
    (
        "join-on-damaged-tables",
        "set clauses 0 0 99\nset clauses 3 1 7\nset clauses 4 2 9\nset clauses 4 0 16384\nset literals 0 0 0\nset literals 9 0 -2147483648\nset literals 16383 0 77\nset variables 0 0 -9\nset variables 2 1 5\nset variables 6 0 3\nset variables 6 1 1\n",
        (LEFT, RIGHT, ""),
        "clauses\nliterals\nvariables\nset state 0 7\nset state 1 5\nclauses\nvariables\nset state 0 6\nset state 1 4\n",
        "loaded 6 4 0\n0 2 1\n2 2 1\n4 3 1\n7 2 1\nliterals 1 -2 2 3 -4 5 6 4 -6\n1 0\n2 0\n3 0\n4 0\n5 0\n6 0\n0 2 1\n2 2 1\n4 3 1\n7 2 1\n0 0 0\n1 0\n2 0\n3 0\n4 0\n5 0\n6 0\n0 0\n",
    ),
    (
        "join-on-a-damaged-state",
        "set state 0 4294967295\nset state 1 4294967295\nset state 2 3\nset state 3 4294967295\nset state 5 1\nset state 6 1\nfailed\n",
        (LEFT, RIGHT, ""),
        "state\n",
        "refused 1 0\nloaded 6 4 0\nstate 6 4 0 0 0 0 0\n",
    ),
    (
        "join-on-a-damaged-programme",
        "set programme 0 0\nset programme 1 9\nset programme 32 255\nrun 0\n",
        (LEFT, RIGHT, ""),
        "codes\nset programme 0 255\ncodes\nset programme 0 4\nrun 0\n",
        "refused 1 0\nloaded 6 4 0\ncodes 1 2 3 4\ncodes 1 2 3 4 0 0 0 0 0 0 0 0 0 0 0 0 0 0 0 0 0 0 0 0 0 0 0 0 0 0 0 0\nran 0\n",
    ),
    (
        "join-on-a-damaged-window",
        "set window 0 65\nset window 1 7\nset sizes 0 0 65\nset sizes 63 0 4294967295\nset learnt 0 0 9\nset learnt 4095 0 -2147483648\n",
        (LEFT, RIGHT, "1 1 2 2 3 3"),
        "window\nset sizes 63 0 64\nset window 0 64\nset sizes 0 0 1\nwindow\nset sizes 63 0 0\nset sizes 0 0 0\nset window 0 0\nstamp 1 -1 2 -2 3 -3\nmerge 65535\n",
        "loaded 3 4 0\nwindow 0 0\nwindow 64 0\n1 0\n0\n0\n0\n0\n0\n0\n0\n0\n0\n0\n0\n0\n0\n0\n0\n0\n0\n0\n0\n0\n0\n0\n0\n0\n0\n0\n0\n0\n0\n0\n0\n0\n0\n0\n0\n0\n0\n0\n0\n0\n0\n0\n0\n0\n0\n0\n0\n0\n0\n0\n0\n0\n0\n0\n0\n0\n0\n0\n0\n0\n0\n0\n64 0 0 0 0 0 0 0 0 0 0 0 0 0 0 0 0 0 0 0 0 0 0 0 0 0 0 0 0 0 0 0 0 0 0 0 0 0 0 0 0 0 0 0 0 0 0 0 0 0 0 0 0 0 0 0 0 0 0 0 0 0 0 0 0\nstamped\ndone 4 0 0\n",
    ),
    (
        "join-into-longer-tables",
        "lend clauses 4097\nlend literals 16400\nlend variables 1025\nlend stamps 2064\nlend sizes 65\nlend learnt 4112\n",
        (LEFT, RIGHT, "2 3"),
        "write 256\nlend clauses 4096\nlend literals 16384\nlend variables 1024\nlend stamps 2048\nlend sizes 64\nlend learnt 4096\nstate\n",
        "loaded 5 4 0\nwritten 39\np cnf 5 4\n1 -2 0\n2 3 0\n-4 5 2 0\n4 -2 0\nstate 5 4 0 0 0 0 0\n",
    ),
    (
        "join-behind-a-smaller-join",
        "join 14 15\np cnf 1 1\n1 0\np cnf 1 1\n-1 0\n\npropagate 65535\n",
        (LEFT, RIGHT, "2 3"),
        "state\nvariables\nliterals\n",
        "loaded 2 2 0\ndone 4 2 2\nloaded 5 4 0\nstate 5 4 0 0 0 0 0\n1 0\n2 0\n3 0\n4 0\n5 0\nliterals 1 -2 2 3 -4 5 2 4 -2\n",
    ),
];
