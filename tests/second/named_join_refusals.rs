//! Named cases of joins that are refused, each with a look at all that was there
//! before: short tables, wrong texts, wrong links, two of them at a time; and lines
//! that are none.

use crate::named::Case;
use crate::named_join::{between, lines, Between, Join, EMPTY, LEFT, RIGHT, UNIT};
use crate::named_learn::{Calls, CHAIN};

/// A name, a join, and its refusal.
type Refused = (&'static str, Join, &'static str);

/// On P2: fresh stamps, another programme, and a learnt clause in the window.
const SET_UP: &str = "stamp 1 -1 2 -2 3 -3 4 -4\nprogramme 1 2 4\nlearn 2 4\n";
const SET_UP_PRINTS: &str = "loaded 4 3 0\nstamped\nset\nkept 2\n";
/// Behind that.
const LOOK: &str = "state\ncodes\nclauses\nliterals\nvariables\nstamps\nwindow\n";
const LOOK_PRINTS: &str = "state 4 3 0 0 0 1 0\ncodes 1 2 4\n0 2 1\n2 2 1\n4 3 1\nliterals -1 2 -2 3 1 3 4\n1 0\n2 0\n3 0\n4 0\n1 6 1 1\n9 10 -2 -3\n2 5 1 1\n8 11 -3 -3\n3 4 2 1\n7 12 -3 -3\n13 14 4 4\n15 16 -4 -4\nwindow 1 2\n2 2 4\n";

pub fn cases() -> Vec<Case> {
    let refused = TEXTS.iter().chain(TWO_REFUSALS).chain(LINKS).map(refused);
    let short = SHORT.iter().map(short).chain([nothing_lent()]);
    let before = BEFORE.iter().map(between);
    refused.chain(short).chain(before).collect()
}

fn refused(&(name, join, refusal): &Refused) -> Case {
    Case {
        name,
        text: CHAIN.as_bytes().to_vec(),
        calls: format!("{SET_UP}{}{LOOK}", lines(join)),
        prints: format!("{SET_UP_PRINTS}refused {refusal}\n{LOOK_PRINTS}"),
    }
}

/// The offset is that in the text at fault.
const TEXTS: &[Refused] = &[
    ("join-2-left-without-bytes", ("", UNIT, ""), "2 0"),
    ("join-2-left-header", ("p cnf x 0\n", UNIT, ""), "2 6"),
    (
        "join-2-left-token",
        ("p cnf 1 1\n1 01 0\n", UNIT, ""),
        "2 12",
    ),
    ("join-2-left-comment-cut-off", ("c", UNIT, ""), "2 1"),
    // the right text does not go on with it
    (
        "join-2-left-unfinished-clause",
        ("p cnf 1 1\n1", " 0\np cnf 0 0\n", ""),
        "2 11",
    ),
    (
        "join-2-left-unfinished-header",
        ("p cnf 1", " 0\np cnf 0 0\n", ""),
        "2 7",
    ),
    ("join-2-right-without-bytes", (UNIT, "", ""), "2 0"),
    ("join-2-both-without-bytes", ("", "", ""), "2 0"),
    ("join-2-right-header", (UNIT, "p dnf 1 1\n1 0\n", ""), "2 2"),
    // a second body is no text
    ("join-2-right-without-header", (UNIT, "1 0\n", ""), "2 0"),
    (
        "join-2-right-token",
        (UNIT, "c\np cnf 2 1\n1 -0 0\n", ""),
        "2 14",
    ),
    (
        "join-2-right-unfinished-clause",
        (LEFT, "p cnf 1 1\n-1\n", ""),
        "2 13",
    ),
    ("join-2-right-cut-off", (LEFT, "p cnf 3", ""), "2 7"),
    ("join-3-left-V-1025", ("p cnf 1025 0\n", EMPTY, ""), "3 6"),
    ("join-3-left-N-4097", ("p cnf 1 4097\n", EMPTY, ""), "3 8"),
    // the right text has such a variable, and the join too
    (
        "join-3-left-literal",
        ("p cnf 1 1\n2 0\n", "p cnf 3 0\n", ""),
        "3 10",
    ),
    (
        "join-3-left-token-behind-clause-N",
        ("p cnf 1 1\n1 0\n-1 0\n", UNIT, ""),
        "3 14",
    ),
    // the clauses of the right text are others
    (
        "join-3-left-too-few-clauses",
        ("p cnf 1 2\n1 0\n", UNIT, ""),
        "3 14",
    ),
    ("join-3-right-V-1025", (EMPTY, "p cnf 1025 0\n", ""), "3 6"),
    ("join-3-right-N-4097", (EMPTY, "p cnf 1 4097\n", ""), "3 8"),
    (
        "join-3-right-literal",
        (LEFT, "p cnf 1 1\n1 2 0\n", ""),
        "3 12",
    ),
    (
        "join-3-right-negative-literal",
        (LEFT, "p cnf 1 1\n-2 0\n", "2 1"),
        "3 10",
    ),
    (
        "join-3-right-token-behind-clause-N",
        (LEFT, "p cnf 1 1\n1 0\n0\n", ""),
        "3 14",
    ),
    (
        "join-3-right-too-few-clauses",
        (LEFT, "p cnf 1 2\n1 0\n", ""),
        "3 14",
    ),
    ("join-3-right-header-alone", (LEFT, "p cnf 1 1", ""), "3 9"),
];

/// The text that is read first holds, whatever is wrong in it and wherever; then
/// the other; then the links.
const TWO_REFUSALS: &[Refused] = &[
    (
        "join-2-left-before-2-right",
        ("p cnf 1 1\n1 x 0\n", "x", ""),
        "2 12",
    ),
    (
        "join-2-left-before-3-right",
        ("p cnf 1 1\n1 x 0\n", "p cnf 1025 0\n", ""),
        "2 12",
    ),
    (
        "join-3-left-before-2-right",
        ("p cnf 1 2\n1 0\n", "", ""),
        "3 14",
    ),
    (
        "join-3-left-before-3-right",
        ("p cnf 1 2\n1 0\n", "p cnf 1025 0\n", ""),
        "3 14",
    ),
    (
        "join-2-left-before-15",
        ("p cnf 1 1\n1", UNIT, "0 0"),
        "2 11",
    ),
    (
        "join-3-left-before-15",
        ("p cnf 1 1\n2 0\n", UNIT, "1"),
        "3 10",
    ),
    (
        "join-2-right-before-15",
        (LEFT, "p cnf 1 1\n1", "4 1"),
        "2 11",
    ),
    (
        "join-3-right-before-15",
        (LEFT, "p cnf 1 1\n2 0\n", "1 2"),
        "3 10",
    ),
    (
        "join-3-right-before-15-left-over",
        (LEFT, "p cnf 1 2\n1 0\n", "1 1 2"),
        "3 14",
    ),
];

/// The index is that of the pair. The left text has the variables 1 to 3, the right
/// one too if nothing else is said.
const LINKS: &[Refused] = &[
    ("join-15-left-nought", (LEFT, RIGHT, "0 1"), "15 0"),
    ("join-15-right-nought", (LEFT, RIGHT, "1 0"), "15 0"),
    ("join-15-both-nought", (LEFT, RIGHT, "0 0"), "15 0"),
    ("join-15-left-4", (LEFT, RIGHT, "4 1"), "15 0"),
    ("join-15-right-4", (LEFT, RIGHT, "1 4"), "15 0"),
    // left has the variable 1, right 1 to 3
    (
        "join-15-left-only-on-the-right",
        (UNIT, RIGHT, "2 1"),
        "15 0",
    ),
    // left has the variables 1 to 3, right 1
    (
        "join-15-right-only-on-the-left",
        (LEFT, UNIT, "1 2"),
        "15 0",
    ),
    // the number that right 2 gets
    ("join-15-in-the-join-only", (LEFT, RIGHT, "1 1 4 2"), "15 1"),
    ("join-15-left-1025", (LEFT, RIGHT, "1025 1"), "15 0"),
    ("join-15-right-1025", (LEFT, RIGHT, "1 1025"), "15 0"),
    // in fewer bits they would be variables
    (
        "join-15-left-2-to-the-8-and-1",
        (LEFT, RIGHT, "257 1"),
        "15 0",
    ),
    (
        "join-15-right-2-to-the-16-and-1",
        (LEFT, RIGHT, "1 65537"),
        "15 0",
    ),
    (
        "join-15-left-2-to-the-31-and-1",
        (LEFT, RIGHT, "2147483649 1"),
        "15 0",
    ),
    (
        "join-15-right-2-to-the-31",
        (LEFT, RIGHT, "1 2147483648"),
        "15 0",
    ),
    (
        "join-15-left-largest",
        (LEFT, RIGHT, "4294967295 1"),
        "15 0",
    ),
    (
        "join-15-right-largest",
        (LEFT, RIGHT, "1 4294967295"),
        "15 0",
    ),
    (
        "join-15-second-left-nought",
        (LEFT, RIGHT, "1 1 0 2"),
        "15 1",
    ),
    (
        "join-15-second-right-nought",
        (LEFT, RIGHT, "1 1 2 0"),
        "15 1",
    ),
    ("join-15-third-left", (LEFT, RIGHT, "1 1 2 2 4 3"), "15 2"),
    ("join-15-third-right", (LEFT, RIGHT, "1 1 2 2 3 4"), "15 2"),
    ("join-15-left-twice", (LEFT, RIGHT, "1 1 1 2"), "15 1"),
    ("join-15-right-twice", (LEFT, RIGHT, "1 1 2 1"), "15 1"),
    ("join-15-pair-twice", (LEFT, RIGHT, "1 1 1 1"), "15 1"),
    (
        "join-15-left-twice-not-in-a-row",
        (LEFT, RIGHT, "3 1 2 2 3 3"),
        "15 2",
    ),
    (
        "join-15-right-twice-not-in-a-row",
        (LEFT, RIGHT, "1 2 2 3 3 2"),
        "15 2",
    ),
    ("join-15-first-of-two", (LEFT, RIGHT, "1 1 2 4 0 3"), "15 1"),
    (
        "join-15-repeat-before-nought",
        (LEFT, RIGHT, "2 2 2 3 0 1"),
        "15 1",
    ),
    (
        "join-15-nought-before-repeat",
        (LEFT, RIGHT, "2 2 0 1 2 3"),
        "15 1",
    ),
    (
        "join-15-one-pair-more-than-variables",
        (LEFT, RIGHT, "1 1 2 2 3 3 4 4"),
        "15 3",
    ),
    ("join-15-one-number", (LEFT, RIGHT, "1"), "15 0"),
    ("join-15-one-number-nought", (LEFT, RIGHT, "0"), "15 0"),
    ("join-15-three-numbers", (LEFT, RIGHT, "1 1 2"), "15 1"),
    (
        "join-15-left-over-used-before",
        (LEFT, RIGHT, "1 1 1"),
        "15 1",
    ),
    (
        "join-15-left-over-out-of-range",
        (LEFT, RIGHT, "1 1 4"),
        "15 1",
    ),
    (
        "join-15-left-over-behind-all",
        (LEFT, RIGHT, "1 1 2 2 3 3 1"),
        "15 3",
    ),
    (
        "join-15-bad-pair-before-left-over",
        (LEFT, RIGHT, "1 1 0 2 3"),
        "15 1",
    ),
    (
        "join-15-repeat-before-left-over",
        (LEFT, RIGHT, "1 1 2 1 3"),
        "15 1",
    ),
    ("join-15-left-V-0", (EMPTY, UNIT, "1 1"), "15 0"),
    ("join-15-right-V-0", (UNIT, EMPTY, "1 1"), "15 0"),
    ("join-15-both-V-0", (EMPTY, EMPTY, "1 1"), "15 0"),
    ("join-15-both-V-0-nought", (EMPTY, EMPTY, "0 0"), "15 0"),
    ("join-15-both-V-0-one-number", (EMPTY, EMPTY, "1"), "15 0"),
    (
        "join-15-empty-clauses",
        ("p cnf 1 1\n0\n", "p cnf 1 1\n0\n", "2 1"),
        "15 0",
    ),
];

/// A name, a table, and how many places it has.
const SHORT: &[(&str, &str, usize)] = &[
    ("join-1-clauses", "clauses", 4_096),
    ("join-1-literals", "literals", 16_384),
    ("join-1-variables", "variables", 1_024),
    ("join-1-stamps", "stamps", 2_048),
    ("join-1-sizes", "sizes", 64),
    ("join-1-learnt", "learnt", 4_096),
];

/// One place short, before a wrong text and a wrong link too.
fn short(&(name, table, stated): &(&'static str, &str, usize)) -> Case {
    let one_less = stated - 1;
    let joins = [
        lines((LEFT, RIGHT, "2 3")),
        lines(("x", RIGHT, "")),
        lines((LEFT, "p cnf 1025 0\n", "")),
        lines((LEFT, RIGHT, "0 0")),
        lines(("p cnf 1024 0\n", UNIT, "")),
    ];
    let joins = joins.concat();
    let accepted = lines((LEFT, RIGHT, "2 3"));
    Case {
        name,
        text: CHAIN.as_bytes().to_vec(),
        calls: format!(
            "{SET_UP}lend {table} {one_less}\n{joins}{LOOK}lend {table} {stated}\n{accepted}"
        ),
        prints: format!(
            "{SET_UP_PRINTS}{}{LOOK_PRINTS}loaded 5 4 0\n",
            "refused 1 0\n".repeat(5)
        ),
    }
}

fn nothing_lent() -> Case {
    let lend = |table: &str, count: usize| format!("lend {table} {count}\n");
    let none: String = SHORT.iter().map(|(_, table, _)| lend(table, 0)).collect();
    let all: String = SHORT
        .iter()
        .map(|(_, table, stated)| lend(table, *stated))
        .collect();
    Case {
        name: "join-1-nothing-lent",
        text: CHAIN.as_bytes().to_vec(),
        calls: format!("{SET_UP}{none}{}{LOOK}{all}", lines((EMPTY, EMPTY, ""))),
        prints: format!("{SET_UP_PRINTS}refused 1 0\n{LOOK_PRINTS}"),
    }
}

/// Refused joins on other tables and states.
const BEFORE: &[Between] = &[
    (
        "join-refused-in-open-propagate",
        "set state 2 1\nset state 3 2\nset state 4 1\n",
        (LEFT, RIGHT, "1 1 1 2"),
        "state\npropagate 1\nstate\n",
        "refused 15 1\nstate 4 3 1 2 1 0 0\nopen 1 0 0\nstate 4 3 1 0 0 0 0\n",
    ),
    (
        "join-refused-in-open-merge",
        "merge 1\n",
        (LEFT, "p cnf", ""),
        "state\nmerge 65535\n",
        "open 1 0 0\nrefused 2 5\nstate 4 3 2 1 0 0 0\ndone 2 0 0\n",
    ),
    (
        "join-refused-in-open-sweep",
        "stamp 1 -1 2 -2 3 -3 4 -4\nsweep 2\n",
        ("p cnf 1 0\n1 0\n", RIGHT, ""),
        "state\nsweep 65535\n",
        "stamped\nopen 2 0 0\nrefused 3 10\nstate 4 3 3 2 0 1 0\ndone 1 0 1\n",
    ),
    (
        "join-refused-under-the-mark",
        "set state 6 1\n",
        (LEFT, RIGHT, "1"),
        "state\nwrite 256\nset state 6 0\n",
        "refused 15 0\nstate 4 3 0 0 0 0 1\nwritten 12\np cnf 4 1\n0\n",
    ),
    // without an open pass the state has no cursor and no change flag
    (
        "join-refused-clears-unused-numbers",
        "set state 3 5\nset state 4 1\nstate\n",
        (LEFT, RIGHT, "1"),
        "state\n",
        "state 4 3 0 5 1 0 0\nrefused 15 0\nstate 4 3 0 0 0 0 0\n",
    ),
    (
        "join-refused-on-damaged-tables",
        "set state 0 5\nset state 1 4\nset clauses 3 0 99\nset clauses 3 2 7\nset literals 8 0 -2147483648\nset variables 4 0 -9\nset variables 4 1 3\nset programme 0 3\nset programme 1 9\nset window 0 1\nset window 1 7\nset sizes 0 0 2\nset learnt 0 0 9\n",
        (LEFT, RIGHT, "1 1 2 1"),
        "state\ncodes\nclauses\nliterals\nvariables\nwindow\n",
        "refused 15 1\nstate 5 4 0 0 0 0 0\ncodes 9 2 3\n0 2 1\n2 2 1\n4 3 1\n99 0 7\nliterals -1 2 -2 3 1 3 4 0 -2147483648\n1 0\n2 0\n3 0\n4 0\n-9 3\nwindow 1 7\n2 9 0\n",
    ),
    // the LF at the end of the left text counts as the first byte of the right
    (
        "join-refused-texts-split-one-byte-early",
        "join 13 15\np cnf 1 1\n1 0\np cnf 1 1\n1 0\n\n",
        (UNIT, UNIT, ""),
        "state\n",
        "refused 2 0\nloaded 2 2 0\nstate 2 2 0 0 0 0 0\n",
    ),
    (
        "join-accepted-behind-a-refused-one",
        "join 14 14 1 2\np cnf 1 1\n1 0\np cnf 1 1\n1 0\n\n",
        (LEFT, RIGHT, "2 3"),
        "write 256\n",
        "refused 15 0\nloaded 5 4 0\nwritten 39\np cnf 5 4\n1 -2 0\n2 3 0\n-4 5 2 0\n4 -2 0\n",
    ),
];

/// Lines that are none, and one with more numbers than a line may have.
pub fn wrong_lines() -> Vec<Case> {
    let too_long = lines((UNIT, UNIT, &["1"; 4_097].join(" ")));
    let too_long = wrong_line(&("join-line-4097-numbers", &too_long, "error 2\n"));
    let lines = WRONG_LINES.iter().map(wrong_line);
    lines.chain([too_long]).collect()
}

fn wrong_line(&(name, calls, prints): &(&'static str, &str, &str)) -> Case {
    Case {
        name,
        text: CHAIN.as_bytes().to_vec(),
        calls: calls.to_string(),
        prints: format!("loaded 4 3 0\n{prints}"),
    }
}

/// The wrong line is the last that is read.
const WRONG_LINES: &[Calls] = &[
    ("join-line-alone", "join\nstate\n", "error 2\n"),
    (
        "join-line-one-count",
        "join 14\np cnf 1 1\n1 0\np cnf 1 1\n-1 0\n\nstate\n",
        "error 2\n",
    ),
    (
        "join-line-left-leading-zero",
        "join 014 15\np cnf 1 1\n1 0\np cnf 1 1\n-1 0\n\nstate\n",
        "error 2\n",
    ),
    (
        "join-line-right-leading-zero",
        "join 14 015\np cnf 1 1\n1 0\np cnf 1 1\n-1 0\n\nstate\n",
        "error 2\n",
    ),
    (
        "join-line-left-negative",
        "join -14 15\np cnf 1 1\n1 0\np cnf 1 1\n-1 0\n\nstate\n",
        "error 2\n",
    ),
    (
        "join-line-right-minus-nought",
        "join 14 -0\np cnf 1 1\n1 0\np cnf 1 1\n-1 0\n\nstate\n",
        "error 2\n",
    ),
    (
        "join-line-left-plus",
        "join +14 15\np cnf 1 1\n1 0\np cnf 1 1\n-1 0\n\nstate\n",
        "error 2\n",
    ),
    (
        "join-line-right-letter",
        "join 14 15x\np cnf 1 1\n1 0\np cnf 1 1\n-1 0\n\nstate\n",
        "error 2\n",
    ),
    (
        "join-line-left-beyond-the-input",
        "join 1048577 15\np cnf 1 1\n1 0\np cnf 1 1\n-1 0\n\nstate\n",
        "error 2\n",
    ),
    (
        "join-line-right-beyond-the-input",
        "join 14 1048577\np cnf 1 1\n1 0\np cnf 1 1\n-1 0\n\nstate\n",
        "error 2\n",
    ),
    // as many as there may be, but there are not so many bytes
    (
        "join-line-most-counts",
        "join 1048576 1048576\np cnf 1 1\n1 0\np cnf 1 1\n-1 0\n\nstate\n",
        "error 2\n",
    ),
    (
        "join-line-left-2-to-the-64",
        "join 18446744073709551630 15\np cnf 1 1\n1 0\np cnf 1 1\n-1 0\n\nstate\n",
        "error 2\n",
    ),
    (
        "join-line-right-2-to-the-32",
        "join 14 4294967311\np cnf 1 1\n1 0\np cnf 1 1\n-1 0\n\nstate\n",
        "error 2\n",
    ),
    (
        "join-line-two-spaces",
        "join 14  15\np cnf 1 1\n1 0\np cnf 1 1\n-1 0\n\nstate\n",
        "error 2\n",
    ),
    (
        "join-line-space-at-end",
        "join 14 15 \np cnf 1 1\n1 0\np cnf 1 1\n-1 0\n\nstate\n",
        "error 2\n",
    ),
    (
        "join-line-space-behind-links",
        "join 14 15 1 1 \np cnf 1 1\n1 0\np cnf 1 1\n-1 0\n\nstate\n",
        "error 2\n",
    ),
    (
        "join-line-two-spaces-in-links",
        "join 14 15 1  1\np cnf 1 1\n1 0\np cnf 1 1\n-1 0\n\nstate\n",
        "error 2\n",
    ),
    (
        "join-line-tab",
        "join 14 15\t1 1\np cnf 1 1\n1 0\np cnf 1 1\n-1 0\n\nstate\n",
        "error 2\n",
    ),
    (
        "join-line-CR",
        "join 14 15 1 1\r\np cnf 1 1\n1 0\np cnf 1 1\n-1 0\n\nstate\n",
        "error 2\n",
    ),
    (
        "join-line-capital",
        "Join 14 15\np cnf 1 1\n1 0\np cnf 1 1\n-1 0\n\nstate\n",
        "error 2\n",
    ),
    (
        "join-line-space-at-start",
        " join 14 15\np cnf 1 1\n1 0\np cnf 1 1\n-1 0\n\nstate\n",
        "error 2\n",
    ),
    (
        "join-line-link-negative",
        "join 14 15 1 -1\np cnf 1 1\n1 0\np cnf 1 1\n-1 0\n\nstate\n",
        "error 2\n",
    ),
    (
        "join-line-link-minus-nought",
        "join 14 15 -0 1\np cnf 1 1\n1 0\np cnf 1 1\n-1 0\n\nstate\n",
        "error 2\n",
    ),
    (
        "join-line-link-leading-zero",
        "join 14 15 1 01\np cnf 1 1\n1 0\np cnf 1 1\n-1 0\n\nstate\n",
        "error 2\n",
    ),
    (
        "join-line-link-two-noughts",
        "join 14 15 00 1\np cnf 1 1\n1 0\np cnf 1 1\n-1 0\n\nstate\n",
        "error 2\n",
    ),
    (
        "join-line-link-plus",
        "join 14 15 +1 1\np cnf 1 1\n1 0\np cnf 1 1\n-1 0\n\nstate\n",
        "error 2\n",
    ),
    (
        "join-line-link-letter",
        "join 14 15 1 x\np cnf 1 1\n1 0\np cnf 1 1\n-1 0\n\nstate\n",
        "error 2\n",
    ),
    (
        "join-line-link-2-to-the-32",
        "join 14 15 1 4294967296\np cnf 1 1\n1 0\np cnf 1 1\n-1 0\n\nstate\n",
        "error 2\n",
    ),
    (
        "join-line-link-2-to-the-64-and-1",
        "join 14 15 18446744073709551617 1\np cnf 1 1\n1 0\np cnf 1 1\n-1 0\n\nstate\n",
        "error 2\n",
    ),
    (
        "join-line-link-comma",
        "join 14 15 1,1\np cnf 1 1\n1 0\np cnf 1 1\n-1 0\n\nstate\n",
        "error 2\n",
    ),
    // the byte behind the texts is no LF
    (
        "join-line-fewer-bytes-than-texts",
        "join 14 13 1 1\np cnf 1 1\n1 0\np cnf 1 1\n-1 0\n\nstate\n",
        "error 2\n",
    ),
    (
        "join-line-more-bytes-than-texts",
        "join 14 17 1 1\np cnf 1 1\n1 0\np cnf 1 1\n-1 0\n\nstate\n",
        "error 2\n",
    ),
    // the input ends
    (
        "join-line-no-LF-behind-the-texts",
        "join 14 15 1 1\np cnf 1 1\n1 0\np cnf 1 1\n-1 0\n",
        "error 2\n",
    ),
    (
        "join-line-texts-cut-off",
        "join 14 15 1 1\np cnf 1 1\n1 0\np cnf 1 1\n",
        "error 2\n",
    ),
    ("join-line-no-LF", "join 0 0", "error 2\n"),
    ("join-line-no-bytes", "join 0 0\n", "error 2\n"),
    (
        "join-line-no-bytes-but-a-line",
        "join 0 0\nstate\n",
        "error 2\n",
    ),
    // the bytes of a join are not lines
    (
        "join-line-behind-a-join",
        "join 14 15 1 1\np cnf 1 1\n1 0\np cnf 1 1\n-1 0\n\nliterals\nstate 1\nstate\n",
        "loaded 1 2 0\nliterals 1 -1\nerror 4\n",
    ),
    (
        "join-line-behind-a-refused-join",
        "join 14 15 1 2\np cnf 1 1\n1 0\np cnf 1 1\n-1 0\n\njoin 14 15 1 2 \nstate\n",
        "refused 15 0\nerror 3\n",
    ),
];
