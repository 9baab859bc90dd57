//! Named cases: texts, good and bad, the pallet cases, refusals by call,
//! repeated literals in loads and in Merge, pairs that a Sweep drops or keeps,
//! values of classes that have several variables, how two intervals lie, and
//! formulas at the limits; each with what a replay of it prints. Those of the
//! programme stand in `named_programmes.rs`, those of the reach in
//! `named_reach.rs`, those of learn in `named_learn.rs` and `named_window.rs`,
//! those of explain in `named_explain.rs` and `named_explain_refusals.rs`, those of
//! joins in `named_join.rs`, `named_join_refusals.rs` and `named_join_limits.rs`.

use crate::{
    named_explain, named_explain_refusals, named_join, named_join_limits, named_join_refusals,
    named_learn, named_programmes, named_reach, named_window,
};

/// The bytes of a load, the calls behind it, a line each, and what a replay of
/// both prints.
pub struct Case {
    pub name: &'static str,
    pub text: Vec<u8>,
    pub calls: String,
    pub prints: String,
}

impl Case {
    /// The lines of a replay.
    pub fn script(&self) -> Vec<u8> {
        let mut script = format!("load {}\n", self.text.len()).into_bytes();
        script.extend(&self.text);
        script.push(b'\n');
        script.extend(self.calls.as_bytes());
        script
    }
}

/// All cases.
pub fn cases() -> Vec<Case> {
    let mut cases = short();
    cases.extend(all_large());
    cases.extend(wrong_lines());
    cases
}

/// The script of all cases but those with a wrong line, behind which no line is
/// read. Behind each short one it looks at the state and the tables, so that a
/// refusal that changed something is seen.
pub fn script() -> Vec<u8> {
    let mut script = Vec::new();
    for case in short() {
        script.extend(case.script());
        script.extend(b"state\ncodes\nclauses\nliterals\nvariables\nwindow\n");
    }
    for case in all_large() {
        script.extend(case.script());
    }
    script
}

fn all_large() -> Vec<Case> {
    let windows = named_window::large();
    let explains = named_explain::large();
    let others = windows.into_iter().chain(explains);
    let joins = named_join_limits::cases();
    large().into_iter().chain(others).chain(joins).collect()
}

/// Cases on small formulas.
fn short() -> Vec<Case> {
    let texts = TEXTS.iter().map(|&(name, text, prints)| Case {
        name,
        text: text.to_vec(),
        calls: if prints.starts_with("loaded") {
            "write 256\n".to_string()
        } else {
            String::new()
        },
        prints: prints.to_string(),
    });
    let passes = CALLS.iter().chain(REPEATS).chain(PAIRS).chain(VALUES);
    let passes = passes.chain(COMPARISONS).map(with_calls);
    let programmes = named_programmes::PROGRAMMES.iter().map(with_calls);
    let reach = named_reach::REACH
        .iter()
        .map(|case| with_calls(&case.lines));
    let learns = named_learn::cases()
        .into_iter()
        .chain(named_window::cases());
    let explains = named_explain::cases()
        .into_iter()
        .chain(named_explain_refusals::cases());
    let joins = named_join::cases()
        .into_iter()
        .chain(named_join_refusals::cases());
    let passes = passes.chain(programmes).chain(reach);
    let others = learns.chain(explains).chain(joins);
    texts.chain(passes).chain(others).collect()
}

/// Cases that end with a wrong line.
fn wrong_lines() -> Vec<Case> {
    let lines = WRONG_LINES.iter().chain(named_programmes::WRONG_LINES);
    let learns = named_learn::WRONG_LINES
        .iter()
        .chain(named_window::WRONG_LINES);
    let too_long = std::iter::once(named_window::too_long());
    lines
        .chain(learns)
        .chain(named_explain_refusals::WRONG_LINES)
        .map(with_calls)
        .chain(too_long)
        .chain(named_join_refusals::wrong_lines())
        .collect()
}

pub fn with_calls(&(name, text, calls, prints): &(&'static str, &str, &str, &str)) -> Case {
    Case {
        name,
        text: text.as_bytes().to_vec(),
        calls: calls.to_string(),
        prints: prints.to_string(),
    }
}

/// A text, and what its load prints; behind a load stands what Write gives.
const TEXTS: &[(&str, &[u8], &str)] = &[
    (
        "document-input",
        b"p cnf 4 3\n-1 2 0\n-2 3 0\n1 3 4 0\n",
        "loaded 4 3 0\nwritten 32\np cnf 4 3\n-1 2 0\n-2 3 0\n1 3 4 0\n",
    ),
    (
        "P1",
        b"p cnf 0 0\n",
        "loaded 0 0 0\nwritten 10\np cnf 0 0\n",
    ),
    ("P10-leading-zero", b"p cnf 1 1\n01 0", "refused 2 10\n"),
    ("P10-beyond-V", b"p cnf 1 1\n2 0", "refused 3 10\n"),
    ("P10-unfinished", b"p cnf 1 1\n1\n", "refused 2 12\n"),
    ("P11-V-1025", b"p cnf 1025 0\n", "refused 3 6\n"),
    ("empty-text", b"", "refused 2 0\n"),
    ("comment-cut-off", b"c a comment", "refused 2 11\n"),
    ("p-alone", b"p", "refused 2 1\n"),
    ("other-format", b"p dnf 1 1\n", "refused 2 2\n"),
    ("two-spaces-behind-p", b"p  cnf 1 1\n", "refused 2 2\n"),
    ("two-spaces-before-V", b"p cnf  1 1\n", "refused 2 6\n"),
    ("two-spaces-before-N", b"p cnf 1  1\n", "refused 2 8\n"),
    ("V-cut-off", b"p cnf 1", "refused 2 7\n"),
    ("N-cut-off", b"p cnf 1 ", "refused 2 8\n"),
    ("V-leading-zero", b"p cnf 01 0", "refused 2 7\n"),
    ("N-leading-zero", b"p cnf 1 00\n", "refused 2 9\n"),
    ("V-plus", b"p cnf +1 0", "refused 2 6\n"),
    ("V-minus", b"p cnf -1 0", "refused 2 6\n"),
    ("header-CR-LF", b"p cnf 1 0\r\n", "refused 2 9\n"),
    ("header-NUL", b"p cnf 1 0\x00", "refused 2 9\n"),
    ("header-space-at-end", b"p cnf 1 0 \n", "refused 2 9\n"),
    ("V-1025-bad-rest", b"p cnf 1025 x", "refused 3 6\n"),
    ("N-4097", b"p cnf 1 4097\n", "refused 3 8\n"),
    (
        "V-30-digits",
        b"p cnf 999999999999999999999999999999 0\n",
        "refused 3 6\n",
    ),
    (
        "N-30-digits",
        b"p cnf 1 999999999999999999999999999999\n",
        "refused 3 8\n",
    ),
    (
        "V-30-digits-letter",
        b"p cnf 999999999999999999999999999999x 0\n",
        "refused 3 6\n",
    ),
    (
        "N-30-digits-letter",
        b"p cnf 1 999999999999999999999999999999x\n",
        "refused 3 8\n",
    ),
    ("minus-nought", b"p cnf 1 1\n-0 0", "refused 2 10\n"),
    ("two-noughts", b"p cnf 1 1\n00 0", "refused 2 10\n"),
    ("digit-letter", b"p cnf 1 1\n1x 0", "refused 2 10\n"),
    ("two-minuses", b"p cnf 1 1\n--1 0", "refused 2 10\n"),
    ("plus", b"p cnf 1 1\n+1 0", "refused 2 10\n"),
    ("minus-alone", b"p cnf 1 1\n- 0", "refused 2 10\n"),
    ("minus-at-end", b"p cnf 1 1\n1 0-", "refused 2 12\n"),
    (
        "comment-behind-header",
        b"p cnf 1 1\nc x\n1 0\n",
        "refused 2 10\n",
    ),
    ("NUL", b"p cnf 1 1\n\x00 0", "refused 2 10\n"),
    ("byte-255", b"p cnf 1 1\n1 \xff 0", "refused 2 12\n"),
    ("form-feed", b"p cnf 1 1\n1\x0c0", "refused 2 10\n"),
    ("literal-above-V", b"p cnf 2 1\n3 0", "refused 3 10\n"),
    (
        "literal-below-minus-V",
        b"p cnf 2 1\n1 -3 0",
        "refused 3 12\n",
    ),
    (
        "literal-30-digits",
        b"p cnf 2 1\n999999999999999999999999999999 0",
        "refused 3 10\n",
    ),
    (
        "literal-minus-30-digits",
        b"p cnf 2 1\n-999999999999999999999999999999 0",
        "refused 3 10\n",
    ),
    (
        "literal-30-digits-letter",
        b"p cnf 2 1\n999999999999999999999999999999x 0",
        "refused 2 10\n",
    ),
    (
        "literals-V-minus-V",
        b"p cnf 2 2\n2 0\n-2 0\n",
        "loaded 2 2 0\nwritten 19\np cnf 2 2\n2 0\n-2 0\n",
    ),
    (
        "literal-behind-clause-N",
        b"p cnf 1 1\n1 0 1",
        "refused 3 14\n",
    ),
    (
        "clause-behind-clause-N",
        b"p cnf 1 1\n1 0 0",
        "refused 3 14\n",
    ),
    (
        "bad-token-behind-clause-N",
        b"p cnf 1 1\n1 0 x",
        "refused 2 14\n",
    ),
    ("nought-behind-N-0", b"p cnf 1 0\n0", "refused 3 10\n"),
    ("too-few-clauses", b"p cnf 1 2\n1 0\n", "refused 3 14\n"),
    ("ends-behind-N", b"p cnf 1 1", "refused 3 9\n"),
    ("unfinished-clause", b"p cnf 1 1\n1", "refused 2 11\n"),
    (
        "unfinished-and-too-few",
        b"p cnf 1 2\n1 0 1",
        "refused 2 15\n",
    ),
    (
        "N-0",
        b"p cnf 3 0\n",
        "loaded 3 0 0\nwritten 10\np cnf 3 0\n",
    ),
    (
        "N-0-no-LF",
        b"p cnf 3 0",
        "loaded 3 0 0\nwritten 10\np cnf 3 0\n",
    ),
    (
        "N-0-separators",
        b"p cnf 3 0\n \t\r\n",
        "loaded 3 0 0\nwritten 10\np cnf 3 0\n",
    ),
    (
        "comment-of-any-bytes",
        b"c \x00\xff\r\nc\np cnf 0 0",
        "loaded 0 0 0\nwritten 10\np cnf 0 0\n",
    ),
    (
        "repeat-and-dropped-clause",
        b"p cnf 3 3\n2 1 2 0 3 1 -3 0 -2 0",
        "loaded 3 3 0\nwritten 21\np cnf 3 2\n2 1 0\n-2 0\n",
    ),
    (
        "empty-clause",
        b"c a\nc\np cnf 3 4\n\t1\r\n1 2 0 0 3 -3 0\n\n  -2 0",
        "loaded 3 4 1\nwritten 12\np cnf 3 1\n0\n",
    ),
];

/// A text, the calls behind its load, and what all of them print.
const CALLS: &[(&str, &str, &str, &str)] = &[
    (
        "short-table",
        "p cnf 0 0\n",
        "lend clauses 4095\nload 10\np cnf 0 0\n\nload 1\nx\nlend clauses 4096\n",
        "loaded 0 0 0\nrefused 1 0\nrefused 1 0\n",
    ),
    (
        "exact-output",
        "p cnf 4 3\n-1 2 0\n-2 3 0\n1 3 4 0\n",
        "write 32\n",
        "loaded 4 3 0\nwritten 32\np cnf 4 3\n-1 2 0\n-2 3 0\n1 3 4 0\n",
    ),
    (
        "short-output",
        "p cnf 4 3\n-1 2 0\n-2 3 0\n1 3 4 0\n",
        "write 31\n",
        "loaded 4 3 0\nrefused 10 32\n",
    ),
    (
        "P2",
        "p cnf 4 3\n-1 2 0\n-2 3 0\n1 3 4 0\n",
        "stamp 1 -1 2 -2 3 -3 4 -4\nstamps\nfailed\nsweep 65535\nwrite 256\n",
        "loaded 4 3 0\nstamped\n1 6 1 1\n9 10 -2 -3\n2 5 1 1\n8 11 -3 -3\n3 4 2 1\n7 12 -3 -3\n13 14 4 4\n15 16 -4 -4\nfailed 0\ndone 3 0 1\nwritten 30\np cnf 4 3\n-1 2 0\n-2 3 0\n3 4 0\n",
    ),
    (
        "P2-run",
        "p cnf 4 3\n-1 2 0\n-2 3 0\n1 3 4 0\n",
        "run 1\nwrite 256\n",
        "loaded 4 3 0\nran 1\nwritten 30\np cnf 4 3\n-1 2 0\n-2 3 0\n3 4 0\n",
    ),
    (
        "P3",
        "p cnf 3 3\n-1 2 0\n-2 3 0\n-1 3 0\n",
        "stamp 1 -1 2 -2 3 -3\nstamps\nfailed\nsweep 65535\nwrite 256\n",
        "loaded 3 3 0\nstamped\n1 6 1 1\n9 10 -2 -3\n2 5 1 1\n8 11 -3 -3\n3 4 2 1\n7 12 -3 -3\nfailed 0\ndone 3 1 2\nwritten 24\np cnf 3 2\n-1 2 0\n-2 3 0\n",
    ),
    (
        "P4",
        "p cnf 3 3\n-1 3 0\n-1 2 0\n-2 3 0\n",
        "stamp 1 -1 2 -2 3 -3\nstamps\nfailed\nsweep 65535\nwrite 256\n",
        "loaded 3 3 0\nstamped\n1 6 1 1\n8 9 -3 -3\n4 5 1 1\n10 11 -3 -3\n2 3 1 1\n7 12 -3 -3\nfailed 0\ndone 3 0 0\nwritten 31\np cnf 3 3\n-1 3 0\n-1 2 0\n-2 3 0\n",
    ),
    (
        "P5",
        "p cnf 4 3\n-1 2 0\n-2 3 0\n-1 3 4 0\n",
        "stamp 1 -1 2 -2 3 -3 4 -4\nstamps\nfailed\nsweep 65535\nwrite 256\n",
        "loaded 4 3 0\nstamped\n1 6 1 1\n9 10 -2 -3\n2 5 1 1\n8 11 -3 -3\n3 4 2 1\n7 12 -3 -3\n13 14 4 4\n15 16 -4 -4\nfailed 0\ndone 3 1 3\nwritten 24\np cnf 4 2\n-1 2 0\n-2 3 0\n",
    ),
    (
        "P6",
        "p cnf 2 2\n-1 2 0\n-1 -2 0\n",
        "stamp 1 -1 2 -2\nstamps\nfailed\nsweep 65535\nwrite 256\nvariables\n",
        "loaded 2 2 0\nstamped\n1 8 1 1\n3 4 2 1\n2 5 1 1\n6 7 1 1\nfailed 1\ndone 2 0 2\nwritten 25\np cnf 2 3\n-1 0\n-1 0\n-1 0\n1 -1\n2 0\n",
    ),
    (
        "P7",
        "p cnf 2 2\n-1 2 0\n-2 1 0\n",
        "merge 65535\nwrite 256\n",
        "loaded 2 2 0\ndone 2 2 4\nwritten 24\np cnf 2 2\n2 -1 0\n-2 1 0\n",
    ),
    (
        "P7-steps",
        "p cnf 2 2\n-1 2 0\n-2 1 0\n",
        "merge 1\nmerge 1\nwrite 256\n",
        "loaded 2 2 0\nopen 1 1 2\ndone 1 1 2\nwritten 24\np cnf 2 2\n2 -1 0\n-2 1 0\n",
    ),
    (
        "P8",
        "p cnf 2 4\n1 2 0\n1 -2 0\n-1 2 0\n-1 -2 0\n",
        "merge 65535\nwrite 256\n",
        "loaded 2 4 0\ndone 0 0 0\nwritten 12\np cnf 2 1\n0\n",
    ),
    (
        "P8-steps",
        "p cnf 2 4\n1 2 0\n1 -2 0\n-1 2 0\n-1 -2 0\n",
        "merge 1\nmerge 1\nwrite 256\n",
        "loaded 2 4 0\ndone 0 0 0\nrefused 5 0\nwritten 12\np cnf 2 1\n0\n",
    ),
    (
        "P9-stamp",
        "p cnf 4 5\n2 3 0\n-3 -1 0\n1 2 0\n-2 4 0\n-4 1 0\n",
        "stamp 1 -1 2 -2 3 -3 4 -4\nstamps\nfailed\nsweep 65535\nwrite 256\n",
        "loaded 4 5 0\nrefused 7 0\n0 0 0 0\n0 0 0 0\n0 0 0 0\n0 0 0 0\n0 0 0 0\n0 0 0 0\n0 0 0 0\n0 0 0 0\nrefused 9 0\nrefused 9 0\nwritten 44\np cnf 4 5\n2 3 0\n-3 -1 0\n1 2 0\n-2 4 0\n-4 1 0\n",
    ),
    // the order under which a stamping of this graph would drop the third clause through itself
    (
        "P9-stamp-minus-2-first",
        "p cnf 4 5\n2 3 0\n-3 -1 0\n1 2 0\n-2 4 0\n-4 1 0\n",
        "stamp -2 1 -1 2 3 -3 4 -4\nsweep 65535\nliterals\n",
        "loaded 4 5 0\nrefused 7 0\nrefused 9 0\nliterals 2 3 -3 -1 1 2 -2 4 -4 1\n",
    ),
    (
        "P9",
        "p cnf 4 5\n2 3 0\n-3 -1 0\n1 2 0\n-2 4 0\n-4 1 0\n",
        "merge 65535\npropagate 65535\nwrite 256\n",
        "loaded 4 5 0\ndone 5 4 9\ndone 10 1 1\nwritten 56\np cnf 4 7\n1 0\n2 -1 0\n-2 1 0\n3 1 0\n-3 -1 0\n4 -1 0\n-4 1 0\n",
    ),
    (
        "P9-steps",
        "p cnf 4 5\n2 3 0\n-3 -1 0\n1 2 0\n-2 4 0\n-4 1 0\n",
        "merge 1\nmerge 1\nmerge 1\nmerge 1\nmerge 1\npropagate 65535\nwrite 256\n",
        "loaded 4 5 0\nopen 1 1 2\nopen 1 1 2\nopen 1 0 1\nopen 1 1 2\ndone 1 1 2\ndone 10 1 1\nwritten 56\np cnf 4 7\n1 0\n2 -1 0\n-2 1 0\n3 1 0\n-3 -1 0\n4 -1 0\n-4 1 0\n",
    ),
    (
        "merged-unsettled",
        "p cnf 4 5\n2 3 0\n-3 -1 0\n1 2 0\n-2 4 0\n-4 1 0\n",
        "merge 65535\nmerge 65535\nvariables\nclauses\n",
        "loaded 4 5 0\ndone 5 4 9\nrefused 6 3\n1 0\n1 0\n-1 0\n1 0\n0 0 0\n2 0 0\n4 1 1\n6 0 0\n8 0 0\n",
    ),
    (
        "short-list",
        "p cnf 4 3\n-1 2 0\n-2 3 0\n1 3 4 0\n",
        "stamp 1 -1 2 -2 3 -3 4\nfailed\nsweep 65535\n",
        "loaded 4 3 0\nrefused 8 0\nrefused 9 0\nrefused 9 0\n",
    ),
    (
        "list-repeats",
        "p cnf 4 3\n-1 2 0\n-2 3 0\n1 3 4 0\n",
        "stamp 1 -1 2 -2 3 -3 4 3\n",
        "loaded 4 3 0\nrefused 8 7\n",
    ),
    (
        "list-with-0",
        "p cnf 4 3\n-1 2 0\n-2 3 0\n1 3 4 0\n",
        "stamp 1 -1 0 -2 3 -3 4 -4\n",
        "loaded 4 3 0\nrefused 8 2\n",
    ),
    (
        "list-smallest-number",
        "p cnf 4 3\n-1 2 0\n-2 3 0\n1 3 4 0\n",
        "stamp 1 -1 2 -2147483648 3 -3 4 -4\n",
        "loaded 4 3 0\nrefused 8 3\n",
    ),
    (
        "unit-unsettled",
        "p cnf 3 3\n1 2 0\n-2 3 0\n3 0\n",
        "merge 65535\nstamp 1 -1 2 -2 3 -3\n",
        "loaded 3 3 0\nrefused 6 3\nrefused 6 3\n",
    ),
    (
        "merge-in-propagate",
        "p cnf 3 2\n1 2 0\n-2 3 0\n",
        "propagate 1\nmerge 65535\n",
        "loaded 3 2 0\nopen 1 0 0\nrefused 4 0\n",
    ),
    (
        "propagate-in-merge",
        "p cnf 3 2\n1 2 0\n-2 3 0\n",
        "merge 1\npropagate 65535\nmerge 65535\n",
        "loaded 3 2 0\nopen 1 0 0\nrefused 4 0\ndone 1 0 0\n",
    ),
    (
        "stamp-in-merge",
        "p cnf 3 2\n1 2 0\n-2 3 0\n",
        "merge 1\nstamp 1 -1 2 -2 3 -3\n",
        "loaded 3 2 0\nopen 1 0 0\nrefused 4 0\n",
    ),
    (
        "propagate-under-mark",
        "p cnf 1 2\n1 0\n-1 0\n",
        "propagate 65535\npropagate 65535\n",
        "loaded 1 2 0\ndone 2 1 2\nrefused 5 0\n",
    ),
    (
        "against-the-order",
        "p cnf 4 4\n-3 4 0\n-2 3 0\n-1 2 0\n1 0\n",
        "propagate 65535\nwrite 256\n",
        "loaded 4 4 0\ndone 20 4 7\nwritten 26\np cnf 4 4\n1 0\n2 0\n3 0\n4 0\n",
    ),
    (
        "against-by-steps",
        "p cnf 4 4\n-3 4 0\n-2 3 0\n-1 2 0\n1 0\n",
        "propagate 1\npropagate 1\npropagate 1\npropagate 1\npropagate 1\npropagate 1\npropagate 1\npropagate 1\npropagate 1\npropagate 1\npropagate 1\npropagate 1\npropagate 1\npropagate 1\npropagate 1\npropagate 1\npropagate 1\npropagate 1\npropagate 1\npropagate 1\nwrite 256\n",
        "loaded 4 4 0\nopen 1 0 0\nopen 1 0 0\nopen 1 0 0\nopen 1 1 1\nopen 1 0 0\nopen 1 0 0\nopen 1 1 2\nopen 1 0 0\nopen 1 0 0\nopen 1 1 2\nopen 1 0 0\nopen 1 0 0\nopen 1 1 2\nopen 1 0 0\nopen 1 0 0\nopen 1 0 0\nopen 1 0 0\nopen 1 0 0\nopen 1 0 0\ndone 1 0 0\nwritten 26\np cnf 4 4\n1 0\n2 0\n3 0\n4 0\n",
    ),
];

/// Repeated literals: a text, the calls behind its load, which look at the
/// tables, and what all of them print. A clause record is printed as start,
/// length, and 1 for standing or 0 for dropped.
const REPEATS: &[(&str, &str, &str, &str)] = &[
    (
        "repeat-of-the-first-at-the-end",
        "p cnf 3 1\n1 2 3 1 0\n",
        "clauses\nliterals\n",
        "loaded 3 1 0\n0 3 1\nliterals 1 2 3\n",
    ),
    (
        "repeats-alone",
        "p cnf 1 3\n1 1 0\n-1 -1 -1 0\n1 1 1 1 0\n",
        "clauses\nliterals\n",
        "loaded 1 3 0\n0 1 1\n1 1 1\n2 1 1\nliterals 1 -1 1\n",
    ),
    (
        "repeat-three-times-between-others",
        "p cnf 5 4\n2 1 2 3 2 4 0\n1 2 3 2 4 2 0\n4 -2 3 -2 1 -2 5 0\n5 4 4 3 5 3 4 2 0\n",
        "clauses\nliterals\n",
        "loaded 5 4 0\n0 4 1\n4 4 1\n8 5 1\n13 4 1\nliterals 2 1 3 4 1 2 3 4 4 -2 3 1 5 5 4 3 2\n",
    ),
    // a literal of the clause before is no repeat
    (
        "same-literals-in-the-next-clause",
        "p cnf 3 3\n1 2 0\n2 1 3 0\n3 2 1 0\n",
        "clauses\nliterals\n",
        "loaded 3 3 0\n0 2 1\n2 3 1\n5 3 1\nliterals 1 2 2 1 3 3 2 1\n",
    ),
    (
        "same-repeats-in-the-next-clause",
        "p cnf 2 4\n1 1 0\n1 1 2 1 0\n2 1 2 0\n2 2 0\n",
        "clauses\nliterals\n",
        "loaded 2 4 0\n0 1 1\n1 2 1\n3 2 1\n5 1 1\nliterals 1 1 2 2 1 2\n",
    ),
    (
        "complements-in-the-next-clause",
        "p cnf 2 3\n1 -2 1 0\n-1 2 -1 0\n-2 1 -2 0\n",
        "clauses\nliterals\n",
        "loaded 2 3 0\n0 2 1\n2 2 1\n4 2 1\nliterals 1 -2 -1 2 -2 1\n",
    ),
    (
        "empty-clause-between",
        "p cnf 2 3\n1 2 1 0\n0\n1 2 0\n",
        "state\nclauses\nliterals\nwrite 12\n",
        "loaded 2 3 1\nstate 2 3 0 0 0 0 1\n0 2 1\n2 0 1\n2 2 1\nliterals 1 2 1 2\nwritten 12\np cnf 2 1\n0\n",
    ),
    (
        "empty-clauses-around",
        "p cnf 2 6\n0 2 2 0 0 0 2 -1 2 0 0",
        "state\nclauses\nliterals\n",
        "loaded 2 6 1\nstate 2 6 0 0 0 0 1\n0 0 1\n0 1 1\n1 0 1\n1 0 1\n1 2 1\n3 0 1\nliterals 2 2 -1\n",
    ),
    (
        "dropped-clause-between",
        "p cnf 3 3\n1 2 0\n1 -1 2 3 0\n3 1 2 0\n",
        "state\nclauses\nliterals\n",
        "loaded 3 3 0\nstate 3 3 0 0 0 0 0\n0 2 1\n2 0 0\n2 3 1\nliterals 1 2 3 1 2\n",
    ),
    (
        "dropped-clause-between-complements",
        "p cnf 2 3\n1 2 0\n2 1 -1 0\n-1 2 0\n",
        "clauses\nliterals\n",
        "loaded 2 3 0\n0 2 1\n2 0 0\n2 2 1\nliterals 1 2 -1 2\n",
    ),
    (
        "dropped-clause-first",
        "p cnf 3 2\n3 1 -3 2 0\n3 -2 1 3 0\n",
        "clauses\nliterals\n",
        "loaded 3 2 0\n0 0 0\n0 3 1\nliterals 3 -2 1\n",
    ),
    (
        "dropped-clauses-then-unit",
        "p cnf 1 3\n1 -1 1 0\n-1 1 0\n1 0\n",
        "state\nclauses\nliterals\n",
        "loaded 1 3 0\nstate 1 3 0 0 0 0 0\n0 0 0\n0 0 0\n0 1 1\nliterals 1\n",
    ),
    (
        "complement-behind-a-repeat",
        "p cnf 2 5\n2 2 -2 0\n-2 -2 1 2 0\n2 0\n1 2 1 2 1 -1 0\n-2 -2 0\n",
        "clauses\nliterals\n",
        "loaded 2 5 0\n0 0 0\n0 0 0\n0 1 1\n1 0 0\n1 1 1\nliterals 2 -2\n",
    ),
    (
        "all-dropped",
        "p cnf 2 2\n1 1 -1 -1 0\n2 1 2 -2 1 0\n",
        "state\nclauses\nliterals\nvariables\n",
        "loaded 2 2 0\nstate 2 2 0 0 0 0 0\n0 0 0\n0 0 0\nliterals\n1 0\n2 0\n",
    ),
    // the text is wrong at 20, behind repeats of a clause that has no end
    (
        "refused-behind-repeats",
        "p cnf 2 2\n1 2 0 1 1 x 0\n",
        "load 18\np cnf 2 1\n1 2 1 0\n\nclauses\nliterals\n",
        "refused 2 20\nloaded 2 1 0\n0 2 1\nliterals 1 2\n",
    ),
    // the second load fills fewer places than the first
    (
        "load-over-a-load",
        "p cnf 3 3\n1 2 3 0\n-3 -2 0\n2 3 0\n",
        "load 20\np cnf 2 2\n3 0\n1 2 0\n\nliterals\nload 18\np cnf 2 2\n2 2 0\n0\n\nstate\nclauses\nliterals\nvariables\nload 18\np cnf 1 1\n1 1 1 0\n\nstate\nclauses\nliterals\nvariables\n",
        "loaded 3 3 0\nrefused 3 10\nliterals 1 2 3 -3 -2 2 3\nloaded 2 2 1\nstate 2 2 0 0 0 0 1\n0 1 1\n1 0 1\nliterals 2\n1 0\n2 0\nloaded 1 1 0\nstate 1 1 0 0 0 0 0\n0 1 1\nliterals 1\n1 0\n",
    ),
    // 2 becomes 1 in both clauses of three
    (
        "merge-repeats-in-two-clauses",
        "p cnf 4 4\n-1 2 0\n-2 1 0\n1 2 3 0\n2 1 4 0\n",
        "clauses\nliterals\nmerge 65535\nvariables\nclauses\nliterals\n",
        "loaded 4 4 0\n0 2 1\n2 2 1\n4 3 1\n7 3 1\nliterals -1 2 -2 1 1 2 3 2 1 4\ndone 4 2 6\n1 0\n1 0\n3 0\n4 0\n0 0 0\n2 0 0\n4 2 1\n7 2 1\nliterals 0 0 0 0 1 3 0 1 4\n",
    ),
    (
        "merge-repeats-in-two-clauses-steps",
        "p cnf 4 4\n-1 2 0\n-2 1 0\n1 2 3 0\n2 1 4 0\n",
        "merge 1\nliterals\nmerge 1\nliterals\nmerge 1\nliterals\nstate\nmerge 1\nliterals\nstate\nclauses\n",
        "loaded 4 4 0\nopen 1 1 2\nliterals 0 0 -2 1 1 2 3 2 1 4\nopen 1 1 2\nliterals 0 0 0 0 1 2 3 2 1 4\nopen 1 0 1\nliterals 0 0 0 0 1 3 0 2 1 4\nstate 4 4 2 3 0 0 0\ndone 1 0 1\nliterals 0 0 0 0 1 3 0 1 4\nstate 4 4 0 0 0 0 0\n0 0 0\n2 0 0\n4 2 1\n7 2 1\n",
    ),
    // the clauses of three with 1 and -2 are dropped; those behind them have 3, 1 and -1 again
    (
        "merge-tautology-between",
        "p cnf 4 6\n1 -2 0\n-1 2 0\n3 1 -2 0\n3 2 4 0\n-2 3 1 0\n-1 4 3 0\n",
        "merge 65535\nvariables\nclauses\nliterals\n",
        "loaded 4 6 0\ndone 6 4 10\n1 0\n1 0\n3 0\n4 0\n0 0 0\n2 0 0\n4 0 0\n7 3 1\n10 0 0\n13 3 1\nliterals 0 0 0 0 0 0 0 3 1 4 0 0 0 -1 4 3\n",
    ),
    (
        "merge-tautology-between-steps",
        "p cnf 4 6\n1 -2 0\n-1 2 0\n3 1 -2 0\n3 2 4 0\n-2 3 1 0\n-1 4 3 0\n",
        "merge 1\nmerge 1\nmerge 1\nliterals\nmerge 1\nliterals\nmerge 1\nliterals\nmerge 1\nclauses\nliterals\n",
        "loaded 4 6 0\nopen 1 1 2\nopen 1 1 2\nopen 1 1 3\nliterals 0 0 0 0 0 0 0 3 2 4 -2 3 1 -1 4 3\nopen 1 0 0\nliterals 0 0 0 0 0 0 0 3 1 4 -2 3 1 -1 4 3\nopen 1 1 3\nliterals 0 0 0 0 0 0 0 3 1 4 0 0 0 -1 4 3\ndone 1 0 0\n0 0 0\n2 0 0\n4 0 0\n7 3 1\n10 0 0\n13 3 1\nliterals 0 0 0 0 0 0 0 3 1 4 0 0 0 -1 4 3\n",
    ),
    // a clause with a repeat and a complement by classes, then its literals again without the complement
    (
        "merge-repeat-and-complement",
        "p cnf 5 7\n1 -2 0\n-1 2 0\n2 -3 0\n-2 3 0\n4 1 2 -3 0\n4 3 5 1 0\n3 5 -1 0\n",
        "merge 5\nmerge 1\nmerge 1\nclauses\nliterals\n",
        "loaded 5 7 0\nopen 5 5 12\nopen 1 0 1\ndone 1 1 3\n0 0 0\n2 0 0\n4 0 0\n6 0 0\n8 0 0\n12 3 1\n16 0 0\nliterals 0 0 0 0 0 0 0 0 0 0 0 0 4 1 5\n",
    ),
    // 2 becomes 1 and 3 becomes -1; 1 comes from 2, 1 and -3, with others between
    (
        "merge-repeats-apart",
        "p cnf 5 7\n-1 2 0\n-2 1 0\n-2 -3 0\n3 2 0\n2 4 1 5 -3 0\n-4 3 5 -2 0\n5 2 -4 1 0\n",
        "merge 65535\nvariables\nclauses\nliterals\n",
        "loaded 5 7 0\ndone 7 4 12\n1 0\n1 0\n-1 0\n4 0\n5 0\n0 0 0\n2 0 0\n4 0 0\n6 0 0\n8 3 1\n13 3 1\n17 3 1\nliterals 0 0 0 0 0 0 0 0 1 4 5 0 0 -4 -1 5 0 5 1 -4\n",
    ),
    (
        "merge-repeats-apart-steps",
        "p cnf 5 7\n-1 2 0\n-2 1 0\n-2 -3 0\n3 2 0\n2 4 1 5 -3 0\n-4 3 5 -2 0\n5 2 -4 1 0\n",
        "merge 0\nmerge 1\nmerge 1\nmerge 1\nmerge 1\nliterals\nmerge 1\nliterals\nmerge 1\nliterals\nmerge 1\nclauses\nliterals\n",
        "loaded 5 7 0\nopen 0 0 0\nopen 1 1 2\nopen 1 1 2\nopen 1 1 2\nopen 1 1 2\nliterals 0 0 0 0 0 0 0 0 2 4 1 5 -3 -4 3 5 -2 5 2 -4 1\nopen 1 0 2\nliterals 0 0 0 0 0 0 0 0 1 4 5 0 0 -4 3 5 -2 5 2 -4 1\nopen 1 0 1\nliterals 0 0 0 0 0 0 0 0 1 4 5 0 0 -4 -1 5 0 5 2 -4 1\ndone 1 0 1\n0 0 0\n2 0 0\n4 0 0\n6 0 0\n8 3 1\n13 3 1\n17 3 1\nliterals 0 0 0 0 0 0 0 0 1 4 5 0 0 -4 -1 5 0 5 1 -4\n",
    ),
    // of the third clause one literal is left, and the next has it again
    (
        "merge-leaves-a-unit",
        "p cnf 3 4\n-1 2 0\n1 -2 0\n1 2 0\n2 1 3 0\n",
        "merge 65535\nvariables\nclauses\nliterals\n",
        "loaded 3 4 0\ndone 4 2 6\n1 0\n1 0\n3 0\n0 0 0\n2 0 0\n4 1 1\n6 2 1\nliterals 0 0 0 0 1 0 1 3\n",
    ),
    // 3 becomes 2, which leaves the pairs by which 2 becomes 1
    (
        "merge-repeats-twice",
        "p cnf 4 5\n-2 3 0\n-3 2 0\n1 -2 -3 0\n-1 3 2 0\n3 1 4 2 0\n",
        "merge 65535\nvariables\nclauses\nliterals\nmerge 65535\nvariables\nclauses\nliterals\n",
        "loaded 4 5 0\ndone 5 2 7\n1 0\n2 0\n2 0\n4 0\n0 0 0\n2 0 0\n4 2 1\n7 2 1\n10 3 1\nliterals 0 0 0 0 1 -2 0 -1 2 0 2 1 4\ndone 5 2 5\n1 0\n1 0\n1 0\n4 0\n0 0 0\n2 0 0\n4 0 0\n7 0 0\n10 2 1\nliterals 0 0 0 0 0 0 0 0 0 0 1 4\n",
    ),
];

/// Pairs, and the same for three literals: a text, the calls behind its load,
/// and what all of them print. A pair is dropped if, for one of its edges
/// p -> q, p holds q and is not its parent.
const PAIRS: &[(&str, &str, &str, &str)] = &[
    // -1 holds 3 by way of -2, so the third clause is dropped, though -1 holds 1 too; of the first two, figure 5 leaves 1
    (
        "implied-from-a-failing-literal",
        "p cnf 3 4\n1 2 0\n1 -2 0\n1 3 0\n2 3 0\n",
        "stamp 1 -1 2 -2 3 -3\nstamps\nsweep 4\nclauses\nliterals\n",
        "loaded 3 4 0\nstamped\n3 4 2 -1\n1 10 -1 -1\n2 5 -1 -1\n6 9 -1 -1\n7 8 -2 -1\n11 12 -3 -3\ndone 4 1 4\n0 1 1\n2 1 1\n4 0 0\n6 2 1\nliterals 1 0 1 0 0 0 2 3\n",
    ),
    (
        "implied-from-a-failing-literal-steps",
        "p cnf 3 4\n1 2 0\n1 -2 0\n1 3 0\n2 3 0\n",
        "stamp 1 -1 2 -2 3 -3\nsweep 3\nstate\nliterals\nsweep 1\nstate\nliterals\n",
        "loaded 3 4 0\nstamped\nopen 3 1 4\nstate 3 4 3 3 0 1 0\nliterals 1 0 1 0 0 0 2 3\ndone 1 0 0\nstate 3 4 0 0 0 0 0\nliterals 1 0 1 0 0 0 2 3\n",
    ),
    (
        "implied-from-a-failing-literal-one-visit",
        "p cnf 3 4\n1 2 0\n1 -2 0\n1 3 0\n2 3 0\n",
        "stamp 1 -1 2 -2 3 -3\nsweep 2\nliterals\nsweep 1\nwrite 256\nsweep 65535\n",
        "loaded 3 4 0\nstamped\nopen 2 0 2\nliterals 1 0 1 0 1 3 2 3\nopen 1 1 2\nwritten 24\np cnf 3 3\n1 0\n1 0\n2 3 0\ndone 1 0 0\n",
    ),
    (
        "implied-from-a-failing-literal-failed",
        "p cnf 3 4\n1 2 0\n1 -2 0\n1 3 0\n2 3 0\n",
        "stamp 1 -1 2 -2 3 -3\nfailed\nsweep 4\nvariables\nwrite 256\n",
        "loaded 3 4 0\nstamped\nfailed 1\ndone 4 1 4\n1 1\n2 0\n3 0\nwritten 28\np cnf 3 4\n1 0\n1 0\n1 0\n2 3 0\n",
    ),
    (
        "implied-from-a-failing-literal-run-1",
        "p cnf 3 4\n1 2 0\n1 -2 0\n1 3 0\n2 3 0\n",
        "run 1\nwrite 256\n",
        "loaded 3 4 0\nran 1\nwritten 28\np cnf 3 4\n1 0\n1 0\n1 0\n2 3 0\n",
    ),
    (
        "implied-from-a-failing-literal-run-2",
        "p cnf 3 4\n1 2 0\n1 -2 0\n1 3 0\n2 3 0\n",
        "run 2\nwrite 256\n",
        "loaded 3 4 0\nran 2\nwritten 20\np cnf 3 2\n1 0\n2 3 0\n",
    ),
    // the same pairs, each with its literals in the other order
    (
        "implied-from-a-failing-literal-turned",
        "p cnf 3 4\n2 1 0\n-2 1 0\n3 1 0\n3 2 0\n",
        "stamp 1 -1 2 -2 3 -3\nstamps\nsweep 4\nliterals\n",
        "loaded 3 4 0\nstamped\n3 4 2 -1\n1 10 -1 -1\n2 5 -1 -1\n6 9 -1 -1\n7 8 -2 -1\n11 12 -3 -3\ndone 4 1 4\nliterals 1 0 1 0 0 0 3 2\n",
    ),
    (
        "implied-from-a-failing-literal-twice",
        "p cnf 3 5\n1 2 0\n1 -2 0\n1 3 0\n2 3 0\n3 1 0\n",
        "stamp 1 -1 2 -2 3 -3\nsweep 4\nliterals\nsweep 1\nliterals\n",
        "loaded 3 5 0\nstamped\nopen 4 1 4\nliterals 1 0 1 0 0 0 2 3 3 1\ndone 1 1 2\nliterals 1 0 1 0 0 0 2 3\n",
    ),
    // -1 leads to 3, 4 and 5 in one line, so (1 4) and (5 1) are dropped and (1 3) stays
    (
        "two-implied-from-a-failing-literal",
        "p cnf 5 7\n1 2 0\n-2 1 0\n1 3 0\n-3 4 0\n-4 5 0\n1 4 0\n5 1 0\n",
        "stamp 1 -1 2 -2 3 -3 4 -4 5 -5\nstamps\nsweep 6\nliterals\nsweep 6\nliterals\n",
        "loaded 5 7 0\nstamped\n3 4 2 -1\n1 14 -1 -1\n2 5 -1 -1\n6 7 -1 -1\n8 13 -1 -1\n17 18 -4 -5\n9 12 3 -1\n16 19 -5 -5\n10 11 4 -1\n15 20 -5 -5\nopen 6 1 4\nliterals 1 0 1 0 1 3 -3 4 -4 5 0 0 5 1\ndone 1 1 2\nliterals 1 0 1 0 1 3 -3 4 -4 5\n",
    ),
    // -1 holds 2 by way of -2 and 3, so (1 2) is dropped, though -2 is the parent of 1
    (
        "both-complements-fail",
        "p cnf 3 4\n1 -2 0\n1 2 0\n2 3 0\n2 -3 0\n",
        "stamp 1 -1 2 -2 3 -3\nstamps\nsweep 2\nliterals\nsweep 2\nliterals\n",
        "loaded 3 4 0\nstamped\n3 4 -2 -1\n1 12 -1 -1\n6 7 3 -1\n2 11 -1 -1\n5 8 -2 -1\n9 10 -2 -1\nopen 2 1 3\nliterals 1 0 0 0 2 3 2 -3\ndone 2 0 2\nliterals 1 0 0 0 2 0 2\n",
    ),
    // -1 holds 1 and is the parent of 2 and of -2: no clause is dropped, and figure 5 leaves 1 of both
    (
        "walked-from-a-failing-literal",
        "p cnf 2 2\n1 2 0\n1 -2 0\n",
        "stamp 1 -1 2 -2\nstamps\nsweep 1\nliterals\nsweep 1\nliterals\n",
        "loaded 2 2 0\nstamped\n3 4 2 -1\n1 8 -1 -1\n2 5 -1 -1\n6 7 -1 -1\nopen 1 0 1\nliterals 1 0 1 -2\ndone 1 0 1\nliterals 1 0 1\n",
    ),
    // -1 is the parent of 2, but -2 holds 1 by way of 3, so (1 2) is dropped
    (
        "implied-by-the-second-edge",
        "p cnf 3 3\n2 3 0\n1 2 0\n-3 1 0\n",
        "stamp 1 -1 2 -2 3 -3\nstamps\nsweep 65535\nliterals\n",
        "loaded 3 3 0\nstamped\n9 10 3 -2\n1 6 -1 -1\n2 3 -1 -1\n7 12 -2 -2\n8 11 -2 -2\n4 5 -1 -1\ndone 3 1 2\nliterals 2 3 0 0 -3 1\n",
    ),
    (
        "implied-by-the-first-edge",
        "p cnf 3 3\n2 3 0\n2 1 0\n-3 1 0\n",
        "stamp 1 -1 2 -2 3 -3\nsweep 65535\nliterals\n",
        "loaded 3 3 0\nstamped\ndone 3 1 2\nliterals 2 3 0 0 -3 1\n",
    ),
    // -1 is the parent of 3, and -3 does not hold 1
    (
        "walked-one-way",
        "p cnf 3 2\n1 2 0\n1 3 0\n",
        "stamp 1 -1 2 -2 3 -3\nstamps\nsweep 65535\nliterals\n",
        "loaded 3 2 0\nstamped\n8 9 -2 -2\n1 6 -1 -1\n2 3 -1 -1\n7 10 -2 -2\n4 5 -1 -1\n11 12 -3 -3\ndone 2 0 0\nliterals 1 2 1 3\n",
    ),
    (
        "walked-one-way-turned",
        "p cnf 3 2\n2 1 0\n3 1 0\n",
        "stamp 1 -1 2 -2 3 -3\nsweep 65535\nliterals\n",
        "loaded 3 2 0\nstamped\ndone 2 0 0\nliterals 2 1 3 1\n",
    ),
    // of the same pair neither is dropped for the other
    (
        "pair-twice",
        "p cnf 2 2\n1 2 0\n1 2 0\n",
        "stamp 1 -1 2 -2\nstamps\nsweep 65535\nliterals\n",
        "loaded 2 2 0\nstamped\n6 7 -2 -2\n1 4 -1 -1\n2 3 -1 -1\n5 8 -2 -2\ndone 2 0 0\nliterals 1 2 1 2\n",
    ),
    (
        "pair-twice-walked-one-way",
        "p cnf 3 3\n1 2 0\n2 1 0\n1 3 0\n",
        "stamp -3 3 1 -1 2 -2\nstamps\nsweep 65535\nliterals\n",
        "loaded 3 3 0\nstamped\n2 3 -3 -3\n5 10 -1 -1\n6 7 -1 -1\n11 12 -2 -2\n8 9 -1 -1\n1 4 -3 -3\ndone 3 0 0\nliterals 1 2 2 1 1 3\n",
    ),
    (
        "implied-pair-twice",
        "p cnf 3 4\n-1 2 0\n-2 3 0\n-1 3 0\n3 -1 0\n",
        "stamp 1 -1 2 -2 3 -3\nsweep 3\nliterals\nsweep 1\nliterals\n",
        "loaded 3 4 0\nstamped\nopen 3 1 2\nliterals -1 2 -2 3 0 0 3 -1\ndone 1 1 2\nliterals -1 2 -2 3\n",
    ),
    (
        "implied-pair-inside-and-behind-the-chain",
        "p cnf 3 4\n-1 2 0\n-1 3 0\n-2 3 0\n-1 3 0\n",
        "stamp 1 -1 2 -2 3 -3\nstamps\nsweep 65535\nliterals\n",
        "loaded 3 4 0\nstamped\n1 6 1 1\n8 9 -3 -3\n2 5 1 1\n10 11 -3 -3\n3 4 2 1\n7 12 -3 -3\ndone 4 2 4\nliterals -1 2 0 0 -2 3\n",
    ),
    // 1 is the parent of 3, and -3 of -1, so the chain is not seen and both stay
    (
        "implied-pair-before-and-behind-the-chain",
        "p cnf 3 4\n-1 3 0\n-1 2 0\n-2 3 0\n-1 3 0\n",
        "stamp 1 -1 2 -2 3 -3\nstamps\nsweep 65535\nliterals\n",
        "loaded 3 4 0\nstamped\n1 6 1 1\n8 9 -3 -3\n4 5 1 1\n10 11 -3 -3\n2 3 1 1\n7 12 -3 -3\ndone 4 0 0\nliterals -1 3 -1 2 -2 3 -1 3\n",
    ),
    // stamps that no walk gives: -1 comes before 2 under 1 and does not hold it, so the pair is not dropped; figure 5 takes out 1, which holds 2
    (
        "apart-in-one-tree",
        "p cnf 2 1\n1 2 0\n",
        "stamp 1 -1 2 -2\nset stamps 0 0 1\nset stamps 0 1 8\nset stamps 0 2 1\nset stamps 0 3 1\nset stamps 1 0 2\nset stamps 1 1 3\nset stamps 1 2 1\nset stamps 1 3 1\nset stamps 2 0 4\nset stamps 2 1 5\nset stamps 2 2 1\nset stamps 2 3 1\nset stamps 3 0 6\nset stamps 3 1 7\nset stamps 3 2 1\nset stamps 3 3 1\nsweep 1\nliterals\n",
        "loaded 2 1 0\nstamped\ndone 1 0 1\nliterals 2\n",
    ),
    // for three literals it is enough that 1 holds 2, its parent or not
    (
        "three-literals-with-a-parent",
        "p cnf 3 2\n-1 2 0\n-1 2 3 0\n",
        "stamp 1 -1 2 -2 3 -3\nsweep 65535\nliterals\n",
        "loaded 3 2 0\nstamped\ndone 2 1 3\nliterals -1 2\n",
    ),
    // for three literals it is enough that -1 holds 1
    (
        "three-literals-from-a-failing-literal",
        "p cnf 4 3\n1 2 0\n1 -2 0\n1 3 4 0\n",
        "stamp 1 -1 2 -2 3 -3 4 -4\nsweep 65535\nliterals\n",
        "loaded 4 3 0\nstamped\ndone 3 1 5\nliterals 1 0 1\n",
    ),
];

/// Values of classes that have several variables: a text, the calls behind its
/// load, and what all of them print. A variable record is printed as class and
/// value; the value is that of the class literal, sign included. In most texts
/// 2 becomes 1 and 3 becomes -1.
const VALUES: &[(&str, &str, &str, &str)] = &[
    // Merge leaves the unit 1 of (1 2); what Write gives is loaded again and comes to the same values
    (
        "true-by-propagate",
        "p cnf 3 5\n-1 2 0\n-2 1 0\n1 3 0\n-1 -3 0\n1 2 0\n",
        "merge 65535\nvariables\npropagate 65535\nvariables\nwrite 256\nload 42\np cnf 3 5\n1 0\n2 -1 0\n-2 1 0\n3 1 0\n-3 -1 0\n\nvariables\npropagate 65535\nvariables\n",
        "loaded 3 5 0\ndone 5 4 9\n1 0\n1 0\n-1 0\ndone 10 1 1\n1 1\n1 1\n-1 -1\nwritten 42\np cnf 3 5\n1 0\n2 -1 0\n-2 1 0\n3 1 0\n-3 -1 0\nloaded 3 5 0\n1 0\n2 0\n3 0\ndone 10 5 9\n1 1\n2 1\n3 -1\n",
    ),
    // Merge leaves the unit -1 of (-2 3)
    (
        "false-by-propagate",
        "p cnf 3 5\n-1 2 0\n-2 1 0\n1 3 0\n-1 -3 0\n-2 3 0\n",
        "merge 65535\nvariables\npropagate 65535\nvariables\nwrite 256\nload 43\np cnf 3 5\n-1 0\n2 -1 0\n-2 1 0\n3 1 0\n-3 -1 0\n\nvariables\npropagate 65535\nvariables\n",
        "loaded 3 5 0\ndone 5 4 9\n1 0\n1 0\n-1 0\ndone 10 1 1\n1 -1\n1 -1\n-1 1\nwritten 43\np cnf 3 5\n-1 0\n2 -1 0\n-2 1 0\n3 1 0\n-3 -1 0\nloaded 3 5 0\n1 0\n2 0\n3 0\ndone 10 5 9\n1 -1\n2 -1\n3 1\n",
    ),
    // -1 leads to 4 and -4, and fails; one value is counted
    (
        "true-by-failed",
        "p cnf 4 6\n-1 2 0\n-2 1 0\n1 3 0\n-1 -3 0\n1 4 0\n2 -4 0\n",
        "merge 65535\nvariables\nstamp 1 -1 2 -2 3 -3 4 -4\nstamps\nvariables\nfailed\nvariables\nfailed\npropagate 65535\nvariables\nwrite 256\n",
        "loaded 4 6 0\ndone 6 4 8\n1 0\n1 0\n-1 0\n4 0\nstamped\n3 4 4 -1\n1 8 -1 -1\n9 10 2 2\n11 12 -2 -2\n13 14 3 3\n15 16 -3 -3\n2 5 -1 -1\n6 7 -1 -1\n1 0\n1 0\n-1 0\n4 0\nfailed 1\n1 1\n1 1\n-1 -1\n4 0\nfailed 0\ndone 12 2 4\n1 1\n1 1\n-1 -1\n4 0\nwritten 42\np cnf 4 5\n1 0\n2 -1 0\n-2 1 0\n3 1 0\n-3 -1 0\n",
    ),
    // 1 leads to 4 and -4, and fails; Sweep leaves -1 of both clauses
    (
        "false-by-failed",
        "p cnf 4 6\n-1 2 0\n-2 1 0\n1 3 0\n-1 -3 0\n-1 4 0\n-2 -4 0\n",
        "merge 65535\nvariables\nstamp 1 -1 2 -2 3 -3 4 -4\nfailed\nvariables\nsweep 65535\nvariables\npropagate 65535\nvariables\nwrite 256\n",
        "loaded 4 6 0\ndone 6 4 8\n1 0\n1 0\n-1 0\n4 0\nstamped\nfailed 1\n1 -1\n1 -1\n-1 1\n4 0\ndone 6 0 2\n1 -1\n1 -1\n-1 1\n4 0\ndone 12 2 2\n1 -1\n1 -1\n-1 1\n4 0\nwritten 43\np cnf 4 5\n-1 0\n2 -1 0\n-2 1 0\n3 1 0\n-3 -1 0\n",
    ),
    // without Failed: Sweep leaves -1 of both clauses, and Propagate sets the value
    (
        "false-by-sweep-and-propagate",
        "p cnf 4 6\n-1 2 0\n-2 1 0\n1 3 0\n-1 -3 0\n-1 4 0\n-2 -4 0\n",
        "merge 65535\nstamp 1 -1 2 -2 3 -3 4 -4\nsweep 65535\nvariables\npropagate 5\nvariables\npropagate 65535\nvariables\n",
        "loaded 4 6 0\ndone 6 4 8\nstamped\ndone 6 0 2\n1 0\n1 0\n-1 0\n4 0\nopen 5 1 1\n1 -1\n1 -1\n-1 1\n4 0\ndone 7 1 1\n1 -1\n1 -1\n-1 1\n4 0\n",
    ),
    // 2 becomes 1 and 4 becomes -3; 1 fails and -3 fails, and two values are counted
    (
        "two-classes-fail",
        "p cnf 6 8\n-1 2 0\n-2 1 0\n3 4 0\n-3 -4 0\n-1 5 0\n-2 -5 0\n3 6 0\n-4 -6 0\n",
        "merge 65535\nvariables\nstamp 1 -1 2 -2 3 -3 4 -4 5 -5 6 -6\nfailed\nvariables\n",
        "loaded 6 8 0\ndone 8 4 8\n1 0\n1 0\n3 0\n-3 0\n5 0\n6 0\nstamped\nfailed 2\n1 -1\n1 -1\n3 1\n-3 -1\n5 0\n6 0\n",
    ),
    // 2 becomes 1 and 4 becomes -3; the second class has the unit -3 and the first has no value
    (
        "value-of-one-class-of-two",
        "p cnf 4 5\n-1 2 0\n-2 1 0\n3 4 0\n-3 -4 0\n-3 4 0\n",
        "merge 65535\npropagate 65535\nvariables\nmerge 65535\nvariables\nwrite 256\n",
        "loaded 4 5 0\ndone 5 4 9\ndone 10 1 1\n1 0\n1 0\n3 -1\n-3 1\ndone 5 0 0\n1 0\n1 0\n3 -1\n-3 1\nwritten 43\np cnf 4 5\n-3 0\n2 -1 0\n-2 1 0\n4 3 0\n-4 -3 0\n",
    ),
    // the same classes; (-2 4) becomes (-1 -3), by which the value of 1 leads to that of 3
    (
        "value-from-class-to-class",
        "p cnf 4 6\n-1 2 0\n-2 1 0\n3 4 0\n-3 -4 0\n-2 4 0\n1 2 0\n",
        "merge 65535\nvariables\npropagate 6\nvariables\nstate\npropagate 65535\nvariables\n",
        "loaded 4 6 0\ndone 6 4 9\n1 0\n1 0\n3 0\n-3 0\nopen 6 1 1\n1 1\n1 1\n3 0\n-3 0\nstate 4 6 1 0 0 0 0\ndone 12 1 2\n1 1\n1 1\n3 -1\n-3 1\n",
    ),
    // 2 becomes 1, which has the value 1; then 4 becomes -3 by the pairs that Propagate leaves
    (
        "merge-beside-a-value",
        "p cnf 4 5\n-1 2 0\n-2 1 0\n1 2 0\n-1 3 4 0\n-2 -3 -4 0\n",
        "merge 65535\npropagate 65535\nvariables\nliterals\nmerge 4\nvariables\nmerge 1\nvariables\nwrite 256\n",
        "loaded 4 5 0\ndone 5 2 5\ndone 10 1 3\n1 1\n1 1\n3 0\n4 0\nliterals 0 0 0 0 0 0 3 4 0 -3 -4\nopen 4 1 2\n1 1\n1 1\n3 0\n-3 0\ndone 1 1 2\n1 1\n1 1\n3 0\n-3 0\nwritten 42\np cnf 4 5\n1 0\n2 -1 0\n-2 1 0\n4 3 0\n-4 -3 0\n",
    ),
    // the first visit sets the value
    (
        "value-in-an-open-propagate",
        "p cnf 3 5\n1 2 0\n-1 2 0\n-2 1 0\n1 3 0\n-1 -3 0\n",
        "merge 65535\npropagate 0\nvariables\npropagate 1\nstate\nvariables\nwrite 256\npropagate 1\nvariables\npropagate 65535\nvariables\n",
        "loaded 3 5 0\ndone 5 4 9\nopen 0 0 0\n1 0\n1 0\n-1 0\nopen 1 1 1\nstate 3 5 1 1 1 0 0\n1 1\n1 1\n-1 -1\nwritten 42\np cnf 3 5\n1 0\n2 -1 0\n-2 1 0\n3 1 0\n-3 -1 0\nopen 1 0 0\n1 1\n1 1\n-1 -1\ndone 8 0 0\n1 1\n1 1\n-1 -1\n",
    ),
    // Merge leaves the units 1 and -1: the first sets the value, at the second the clause is empty
    (
        "value-before-the-mark-of-propagate",
        "p cnf 3 6\n-1 2 0\n-2 1 0\n1 3 0\n-1 -3 0\n1 2 -3 0\n-1 -2 3 0\n",
        "merge 65535\nvariables\npropagate 65535\nvariables\nstate\nclauses\nliterals\nwrite 256\npropagate 65535\n",
        "loaded 3 6 0\ndone 6 4 12\n1 0\n1 0\n-1 0\ndone 6 1 2\n1 1\n1 1\n-1 -1\nstate 3 6 0 0 0 0 1\n0 0 0\n2 0 0\n4 0 0\n6 0 0\n8 0 0\n11 0 1\nliterals\nwritten 12\np cnf 3 1\n0\nrefused 5 0\n",
    ),
    (
        "value-before-the-mark-of-propagate-steps",
        "p cnf 3 6\n-1 2 0\n-2 1 0\n1 3 0\n-1 -3 0\n-1 -2 3 0\n1 2 -3 0\n",
        "merge 65535\npropagate 4\nvariables\npropagate 1\nvariables\npropagate 1\nvariables\nstate\n",
        "loaded 3 6 0\ndone 6 4 12\nopen 4 0 0\n1 0\n1 0\n-1 0\nopen 1 1 1\n1 -1\n1 -1\n-1 1\ndone 1 0 1\n1 -1\n1 -1\n-1 1\nstate 3 6 0 0 0 0 1\n",
    ),
    // 1 fails, and its value is set; 5 fails, which has the opposite value by then
    (
        "value-before-the-mark-of-failed",
        "p cnf 6 8\n-1 2 0\n-2 1 0\n1 3 0\n-1 -3 0\n-1 4 0\n-2 -4 0\n-5 6 0\n-5 -6 0\n",
        "merge 65535\nstamp 1 -1 2 -2 3 -3 4 -4 5 -5 6 -6\nset variables 4 1 1\nfailed\nvariables\nstate\nfailed\nwrite 256\n",
        "loaded 6 8 0\ndone 8 4 8\nstamped\nfailed 1\n1 -1\n1 -1\n-1 1\n4 0\n5 1\n6 0\nstate 6 8 0 0 0 0 1\nrefused 5 0\nwritten 12\np cnf 6 1\n0\n",
    ),
    // 2 becomes -1; stamps that no walk gives: 1 holds -1 and 2 holds -2. So 1 fails, which makes 2 true, and 2 fails
    (
        "opposite-value-by-the-class",
        "p cnf 2 2\n1 2 0\n-1 -2 0\n",
        "merge 65535\nstamp 1 -1 2 -2\nset stamps 0 1 4\nset stamps 1 0 2\nset stamps 1 1 3\nset stamps 1 2 1\nset stamps 1 3 1\nset stamps 2 1 8\nset stamps 3 0 6\nset stamps 3 1 7\nset stamps 3 2 2\nset stamps 3 3 2\nfailed\nvariables\nstate\n",
        "loaded 2 2 0\ndone 2 2 4\nstamped\nfailed 1\n1 -1\n-1 1\nstate 2 2 0 0 0 0 1\n",
    ),
    // 2 becomes 1; under the same stamps 1 fails, which makes 2 false, and 2 fails
    (
        "same-value-by-the-class",
        "p cnf 2 2\n1 -2 0\n-1 2 0\n",
        "merge 65535\nstamp 1 -1 2 -2\nset stamps 0 1 4\nset stamps 1 0 2\nset stamps 1 1 3\nset stamps 1 2 1\nset stamps 1 3 1\nset stamps 2 1 8\nset stamps 3 0 6\nset stamps 3 1 7\nset stamps 3 2 2\nset stamps 3 3 2\nfailed\nvariables\nstate\n",
        "loaded 2 2 0\ndone 2 2 4\nstamped\nfailed 1\n1 -1\n1 -1\nstate 2 2 0 0 0 1 0\n",
    ),
    // 2 becomes -1; of stamps that no walk gives 2 holds -2, so that 2 fails, and 1 is true
    (
        "failed-variable-that-is-merged",
        "p cnf 2 2\n1 2 0\n-1 -2 0\n",
        "merge 65535\nstamp 2 -2 1 -1\nset stamps 2 1 4\nset stamps 3 0 2\nset stamps 3 1 3\nset stamps 3 2 2\nset stamps 3 3 2\nfailed\nvariables\nwrite 256\n",
        "loaded 2 2 0\ndone 2 2 4\nstamped\nfailed 1\n1 1\n-1 -1\nwritten 28\np cnf 2 3\n1 0\n2 1 0\n-2 -1 0\n",
    ),
    // 3 becomes -2, which leaves the pairs by which 2 becomes -1, and so 3 becomes 1; the second Merge leaves the unit 1
    (
        "older-class-by-propagate",
        "p cnf 3 5\n2 3 0\n-2 -3 0\n1 2 -3 0\n-1 -2 3 0\n1 -2 3 0\n",
        "merge 65535\nvariables\nmerge 65535\nvariables\npropagate 65535\nvariables\nwrite 256\n",
        "loaded 3 5 0\ndone 5 2 7\n1 0\n2 0\n-2 0\ndone 5 2 5\n1 0\n-1 0\n1 0\ndone 10 1 1\n1 1\n-1 -1\n1 1\nwritten 42\np cnf 3 5\n1 0\n2 1 0\n-2 -1 0\n3 -1 0\n-3 1 0\n",
    ),
    // the same classes; 1 leads to 4 and -4, and fails
    (
        "older-class-by-failed",
        "p cnf 4 6\n2 3 0\n-2 -3 0\n1 2 -3 0\n-1 -2 3 0\n-1 4 0\n2 -4 0\n",
        "merge 65535\nvariables\nmerge 65535\nvariables\nstamp 1 -1 2 -2 3 -3 4 -4\nfailed\nvariables\n",
        "loaded 4 6 0\ndone 6 2 6\n1 0\n2 0\n-2 0\n4 0\ndone 6 2 4\n1 0\n-1 0\n1 0\n4 0\nstamped\nfailed 1\n1 -1\n-1 1\n1 -1\n4 0\n",
    ),
    (
        "value-by-run",
        "p cnf 3 5\n-1 2 0\n-2 1 0\n1 3 0\n-1 -3 0\n1 2 0\n",
        "run 1\nvariables\nwrite 256\nrun 65535\nvariables\n",
        "loaded 3 5 0\nran 1\n1 1\n1 1\n-1 -1\nwritten 42\np cnf 3 5\n1 0\n2 -1 0\n-2 1 0\n3 1 0\n-3 -1 0\nran 1\n1 1\n1 1\n-1 -1\n",
    ),
    // the units that Sweep leaves are dropped in the next round
    (
        "failed-value-by-run",
        "p cnf 4 6\n-1 2 0\n-2 1 0\n1 3 0\n-1 -3 0\n-1 4 0\n-2 -4 0\n",
        "run 1\nvariables\nwrite 256\nrun 65535\nvariables\n",
        "loaded 4 6 0\nran 1\n1 -1\n1 -1\n-1 1\n4 0\nwritten 53\np cnf 4 7\n-1 0\n2 -1 0\n-2 1 0\n3 1 0\n-3 -1 0\n-1 0\n-1 0\nran 2\n1 -1\n1 -1\n-1 1\n4 0\n",
    ),
    (
        "value-before-the-mark-of-run",
        "p cnf 3 6\n-1 2 0\n-2 1 0\n1 3 0\n-1 -3 0\n1 2 -3 0\n-1 -2 3 0\n",
        "run 65535\nvariables\nstate\n",
        "loaded 3 6 0\nran 1\n1 1\n1 1\n-1 -1\nstate 3 6 0 0 0 0 1\n",
    ),
    (
        "older-class-by-run",
        "p cnf 3 5\n2 3 0\n-2 -3 0\n1 2 -3 0\n-1 -2 3 0\n1 -2 3 0\n",
        "run 65535\nvariables\n",
        "loaded 3 5 0\nran 2\n1 1\n-1 -1\n1 1\n",
    ),
    // the value of 2 is 0 and not 1; with it put back all calls are accepted
    (
        "no-value-at-2",
        "p cnf 3 5\n-1 2 0\n-2 1 0\n1 3 0\n-1 -3 0\n1 2 0\n",
        "merge 65535\npropagate 65535\nstamp 1 -1 2 -2 3 -3\nset variables 1 1 0\npropagate 65535\nmerge 65535\nstamp 1 -1 2 -2 3 -3\nfailed\nsweep 65535\nrun 1\nwrite 256\nstate\nvariables\nset variables 1 1 1\nfailed\nsweep 65535\npropagate 65535\nmerge 65535\nstamp 1 -1 2 -2 3 -3\nrun 1\nwrite 42\n",
        "loaded 3 5 0\ndone 5 4 9\ndone 10 1 1\nstamped\nrefused 1 0\nrefused 1 0\nrefused 1 0\nrefused 1 0\nrefused 1 0\nrefused 1 0\nrefused 1 0\nstate 3 5 0 0 0 1 0\n1 1\n1 0\n-1 -1\nfailed 0\ndone 5 0 0\ndone 5 0 0\ndone 5 0 0\nstamped\nran 1\nwritten 42\np cnf 3 5\n1 0\n2 -1 0\n-2 1 0\n3 1 0\n-3 -1 0\n",
    ),
    // the value of 3 is 0 and not -1
    (
        "no-value-at-3",
        "p cnf 3 5\n-1 2 0\n-2 1 0\n1 3 0\n-1 -3 0\n1 2 0\n",
        "merge 65535\npropagate 65535\nstamp 1 -1 2 -2 3 -3\nset variables 2 1 0\npropagate 65535\nmerge 65535\nstamp 1 -1 2 -2 3 -3\nfailed\nsweep 65535\nrun 1\nwrite 256\nvariables\n",
        "loaded 3 5 0\ndone 5 4 9\ndone 10 1 1\nstamped\nrefused 1 0\nrefused 1 0\nrefused 1 0\nrefused 1 0\nrefused 1 0\nrefused 1 0\nrefused 1 0\n1 1\n1 1\n-1 0\n",
    ),
    // the value of 3 is that of 1, though its class is -1
    (
        "sign-left-out",
        "p cnf 3 5\n-1 2 0\n-2 1 0\n1 3 0\n-1 -3 0\n1 2 0\n",
        "merge 65535\npropagate 65535\nstamp 1 -1 2 -2 3 -3\nset variables 2 1 1\npropagate 65535\nmerge 65535\nstamp 1 -1 2 -2 3 -3\nfailed\nsweep 65535\nrun 1\nwrite 256\nvariables\n",
        "loaded 3 5 0\ndone 5 4 9\ndone 10 1 1\nstamped\nrefused 1 0\nrefused 1 0\nrefused 1 0\nrefused 1 0\nrefused 1 0\nrefused 1 0\nrefused 1 0\n1 1\n1 1\n-1 1\n",
    ),
    (
        "sign-left-out-of-a-false-value",
        "p cnf 3 5\n-1 2 0\n-2 1 0\n1 3 0\n-1 -3 0\n-2 3 0\n",
        "merge 65535\npropagate 65535\nstamp 1 -1 2 -2 3 -3\nset variables 2 1 -1\npropagate 65535\nmerge 65535\nstamp 1 -1 2 -2 3 -3\nfailed\nsweep 65535\nrun 1\nwrite 256\nvariables\n",
        "loaded 3 5 0\ndone 5 4 9\ndone 10 1 1\nstamped\nrefused 1 0\nrefused 1 0\nrefused 1 0\nrefused 1 0\nrefused 1 0\nrefused 1 0\nrefused 1 0\n1 -1\n1 -1\n-1 -1\n",
    ),
    // the value of 2 is the opposite of that of 1
    (
        "wrong-sign",
        "p cnf 3 5\n-1 2 0\n-2 1 0\n1 3 0\n-1 -3 0\n1 2 0\n",
        "merge 65535\npropagate 65535\nstamp 1 -1 2 -2 3 -3\nset variables 1 1 -1\npropagate 65535\nmerge 65535\nstamp 1 -1 2 -2 3 -3\nfailed\nsweep 65535\nrun 1\nwrite 256\nvariables\n",
        "loaded 3 5 0\ndone 5 4 9\ndone 10 1 1\nstamped\nrefused 1 0\nrefused 1 0\nrefused 1 0\nrefused 1 0\nrefused 1 0\nrefused 1 0\nrefused 1 0\n1 1\n1 -1\n-1 -1\n",
    ),
    // the class has lost its value, and the others have not
    (
        "no-value-at-the-class",
        "p cnf 3 5\n-1 2 0\n-2 1 0\n1 3 0\n-1 -3 0\n1 2 0\n",
        "merge 65535\npropagate 65535\nstamp 1 -1 2 -2 3 -3\nset variables 0 1 0\npropagate 65535\nmerge 65535\nstamp 1 -1 2 -2 3 -3\nfailed\nsweep 65535\nrun 1\nwrite 256\nvariables\n",
        "loaded 3 5 0\ndone 5 4 9\ndone 10 1 1\nstamped\nrefused 1 0\nrefused 1 0\nrefused 1 0\nrefused 1 0\nrefused 1 0\nrefused 1 0\nrefused 1 0\n1 0\n1 1\n-1 -1\n",
    ),
    // the class has no value, and 2 has one
    (
        "value-where-the-class-has-none",
        "p cnf 3 4\n-1 2 0\n-2 1 0\n1 3 0\n-1 -3 0\n",
        "merge 65535\nstamp 1 -1 2 -2 3 -3\nset variables 1 1 1\npropagate 65535\nmerge 65535\nstamp 1 -1 2 -2 3 -3\nfailed\nsweep 65535\nrun 1\nwrite 256\nvariables\nset variables 1 1 0\nset variables 2 1 -1\nwrite 256\nset variables 2 1 1\nwrite 256\nset variables 2 1 0\nfailed\nvariables\n",
        "loaded 3 4 0\ndone 4 4 8\nstamped\nrefused 1 0\nrefused 1 0\nrefused 1 0\nrefused 1 0\nrefused 1 0\nrefused 1 0\nrefused 1 0\n1 0\n1 1\n-1 0\nrefused 1 0\nrefused 1 0\nfailed 0\n1 0\n1 0\n-1 0\n",
    ),
    // values that meet the equation and are beyond 1 and -1; beyond them at 2 alone; and the smallest number at the class
    (
        "value-beyond-1",
        "p cnf 3 5\n-1 2 0\n-2 1 0\n1 3 0\n-1 -3 0\n1 2 0\n",
        "merge 65535\npropagate 65535\nstamp 1 -1 2 -2 3 -3\nset variables 0 1 2\nset variables 1 1 2\nset variables 2 1 -2\npropagate 65535\nmerge 65535\nstamp 1 -1 2 -2 3 -3\nfailed\nsweep 65535\nrun 1\nwrite 256\nset variables 0 1 1\nset variables 2 1 -1\nwrite 256\nset variables 1 1 1\nset variables 0 1 -2147483648\nwrite 256\nset variables 0 1 1\nfailed\n",
        "loaded 3 5 0\ndone 5 4 9\ndone 10 1 1\nstamped\nrefused 1 0\nrefused 1 0\nrefused 1 0\nrefused 1 0\nrefused 1 0\nrefused 1 0\nrefused 1 0\nrefused 1 0\nrefused 1 0\nfailed 0\n",
    ),
    // the shape rule comes before the mark
    (
        "wrong-value-under-the-mark",
        "p cnf 3 6\n-1 2 0\n-2 1 0\n1 3 0\n-1 -3 0\n1 2 -3 0\n-1 -2 3 0\n",
        "merge 65535\npropagate 65535\nset variables 2 1 0\npropagate 65535\nwrite 256\nset variables 2 1 -1\npropagate 65535\nwrite 256\n",
        "loaded 3 6 0\ndone 6 4 12\ndone 6 1 2\nrefused 1 0\nrefused 1 0\nrefused 5 0\nwritten 12\np cnf 3 1\n0\n",
    ),
    (
        "wrong-value-in-an-open-merge",
        "p cnf 3 5\n-1 2 0\n-2 1 0\n1 3 0\n-1 -3 0\n1 2 0\n",
        "merge 1\nvariables\nset variables 1 1 1\nmerge 65535\nwrite 256\nset variables 1 1 0\nmerge 65535\nvariables\n",
        "loaded 3 5 0\nopen 1 1 2\n1 0\n1 0\n-1 0\nrefused 1 0\nrefused 1 0\ndone 4 3 7\n1 0\n1 0\n-1 0\n",
    ),
    (
        "wrong-value-in-an-open-propagate",
        "p cnf 3 5\n1 2 0\n-1 2 0\n-2 1 0\n1 3 0\n-1 -3 0\n",
        "merge 65535\npropagate 1\nset variables 2 1 1\npropagate 65535\nwrite 256\nset variables 2 1 -1\npropagate 65535\n",
        "loaded 3 5 0\ndone 5 4 9\nopen 1 1 1\nrefused 1 0\nrefused 1 0\ndone 9 0 0\n",
    ),
    // the caller gives the class a value: the tables have the shape with the last of its variables
    (
        "value-from-the-caller",
        "p cnf 3 4\n-1 2 0\n-2 1 0\n1 3 0\n-1 -3 0\n",
        "merge 65535\nset variables 0 1 -1\nwrite 256\nset variables 1 1 -1\nwrite 256\nset variables 2 1 1\nwrite 256\npropagate 65535\nmerge 65535\nstamp 1 -1 2 -2 3 -3\nfailed\nsweep 65535\nrun 1\nvariables\n",
        "loaded 3 4 0\ndone 4 4 8\nrefused 1 0\nrefused 1 0\nwritten 43\np cnf 3 5\n-1 0\n2 -1 0\n-2 1 0\n3 1 0\n-3 -1 0\ndone 4 0 0\ndone 4 0 0\nstamped\nfailed 0\ndone 4 0 0\nran 1\n1 -1\n1 -1\n-1 1\n",
    ),
    // a record behind those of 1 to V has class 1, and keeps its value; with one variable more it is wrong
    (
        "record-behind-V",
        "p cnf 3 5\n-1 2 0\n-2 1 0\n1 3 0\n-1 -3 0\n1 2 0\n",
        "merge 65535\nset variables 3 0 1\npropagate 65535\nset state 0 4\nvariables\npropagate 65535\nset variables 3 1 1\npropagate 65535\nvariables\n",
        "loaded 3 5 0\ndone 5 4 9\ndone 10 1 1\n1 1\n1 1\n-1 -1\n1 0\nrefused 1 0\ndone 5 0 0\n1 1\n1 1\n-1 -1\n1 1\n",
    ),
];

/// How two intervals lie: a text, the calls behind its load, and what all of
/// them print. Records 2v - 2 and 2v - 1 of the stamp table are those of v and
/// -v. In the pallet case P2 1 is [1,6], 2 [2,5], 3 [3,4], -3 [7,12], -2 [8,11],
/// -1 [9,10], 4 [13,14], -4 [15,16]; other intervals are those that `set` gives.
const COMPARISONS: &[(&str, &str, &str, &str)] = &[
    (
        "P2-same",
        "p cnf 4 3\n-1 2 0\n-2 3 0\n1 3 4 0\n",
        "stamp 1 -1 2 -2 3 -3 4 -4\ncompare 1 1\ncompare 2 2\ncompare 3 3\ncompare -3 -3\ncompare -2 -2\ncompare -1 -1\ncompare 4 4\ncompare -4 -4\n",
        "loaded 4 3 0\nstamped\nsame\nsame\nsame\nsame\nsame\nsame\nsame\nsame\n",
    ),
    (
        "P2-holds",
        "p cnf 4 3\n-1 2 0\n-2 3 0\n1 3 4 0\n",
        "stamp 1 -1 2 -2 3 -3 4 -4\ncompare 1 2\ncompare 1 3\ncompare 2 3\ncompare -3 -2\ncompare -3 -1\ncompare -2 -1\n",
        "loaded 4 3 0\nstamped\nholds\nholds\nholds\nholds\nholds\nholds\n",
    ),
    (
        "P2-held",
        "p cnf 4 3\n-1 2 0\n-2 3 0\n1 3 4 0\n",
        "stamp 1 -1 2 -2 3 -3 4 -4\ncompare 2 1\ncompare 3 1\ncompare 3 2\ncompare -2 -3\ncompare -1 -3\ncompare -1 -2\n",
        "loaded 4 3 0\nstamped\nheld\nheld\nheld\nheld\nheld\nheld\n",
    ),
    (
        "P2-earlier",
        "p cnf 4 3\n-1 2 0\n-2 3 0\n1 3 4 0\n",
        "stamp 1 -1 2 -2 3 -3 4 -4\ncompare 1 -3\ncompare 1 -2\ncompare 1 -1\ncompare 1 4\ncompare 1 -4\ncompare 2 -3\ncompare 2 -2\ncompare 2 -1\ncompare 2 4\ncompare 2 -4\ncompare 3 -3\ncompare 3 -2\ncompare 3 -1\ncompare 3 4\ncompare 3 -4\ncompare -3 4\ncompare -3 -4\ncompare -2 4\ncompare -2 -4\ncompare -1 4\ncompare -1 -4\ncompare 4 -4\n",
        "loaded 4 3 0\nstamped\nearlier\nearlier\nearlier\nearlier\nearlier\nearlier\nearlier\nearlier\nearlier\nearlier\nearlier\nearlier\nearlier\nearlier\nearlier\nearlier\nearlier\nearlier\nearlier\nearlier\nearlier\nearlier\n",
    ),
    (
        "P2-later",
        "p cnf 4 3\n-1 2 0\n-2 3 0\n1 3 4 0\n",
        "stamp 1 -1 2 -2 3 -3 4 -4\ncompare -3 1\ncompare -2 1\ncompare -1 1\ncompare 4 1\ncompare -4 1\ncompare -3 2\ncompare -2 2\ncompare -1 2\ncompare 4 2\ncompare -4 2\ncompare -3 3\ncompare -2 3\ncompare -1 3\ncompare 4 3\ncompare -4 3\ncompare 4 -3\ncompare -4 -3\ncompare 4 -2\ncompare -4 -2\ncompare 4 -1\ncompare -4 -1\ncompare -4 4\n",
        "loaded 4 3 0\nstamped\nlater\nlater\nlater\nlater\nlater\nlater\nlater\nlater\nlater\nlater\nlater\nlater\nlater\nlater\nlater\nlater\nlater\nlater\nlater\nlater\nlater\nlater\n",
    ),
    // 1 fails: it holds both literals of 2, and its complement
    (
        "P6-compared",
        "p cnf 2 2\n-1 2 0\n-1 -2 0\n",
        "stamp 1 -1 2 -2\ncompare 1 1\ncompare 1 -1\ncompare 1 2\ncompare 1 -2\ncompare -1 1\ncompare -1 -1\ncompare -1 2\ncompare -1 -2\ncompare 2 1\ncompare 2 -1\ncompare 2 2\ncompare 2 -2\ncompare -2 1\ncompare -2 -1\ncompare -2 2\ncompare -2 -2\n",
        "loaded 2 2 0\nstamped\nsame\nholds\nholds\nholds\nheld\nsame\nheld\nearlier\nheld\nholds\nsame\nearlier\nheld\nlater\nlater\nsame\n",
    ),
    // all records are 0 as long as nothing has written them
    (
        "compare-before-any-stamp",
        "p cnf 4 3\n-1 2 0\n-2 3 0\n1 3 4 0\n",
        "compare 1 1\ncompare 1 -1\ncompare -1 1\ncompare 1 2\ncompare -4 3\ncompare 4 -4\n",
        "loaded 4 3 0\nsame\nsame\nsame\nsame\nsame\nsame\n",
    ),
    // the records stay when stamps are spent
    (
        "stamps-spent-by-merge",
        "p cnf 4 3\n-1 2 0\n-2 3 0\n1 3 4 0\n",
        "stamp 1 -1 2 -2 3 -3 4 -4\nmerge 65535\nstate\ncompare 4 4\ncompare 1 3\ncompare 3 1\ncompare 1 -1\ncompare -1 1\n",
        "loaded 4 3 0\nstamped\ndone 3 0 0\nstate 4 3 0 0 0 0 0\nsame\nholds\nheld\nearlier\nlater\n",
    ),
    (
        "stamps-spent-by-propagate",
        "p cnf 4 3\n-1 2 0\n-2 3 0\n1 3 4 0\n",
        "stamp 1 -1 2 -2 3 -3 4 -4\npropagate 65535\nstate\ncompare 4 4\ncompare 1 3\ncompare 3 1\ncompare 1 -1\ncompare -1 1\n",
        "loaded 4 3 0\nstamped\ndone 3 0 0\nstate 4 3 0 0 0 0 0\nsame\nholds\nheld\nearlier\nlater\n",
    ),
    (
        "stamps-spent-by-sweep",
        "p cnf 4 3\n-1 2 0\n-2 3 0\n1 3 4 0\n",
        "stamp 1 -1 2 -2 3 -3 4 -4\nsweep 65535\nstate\ncompare 4 4\ncompare 1 3\ncompare 3 1\ncompare 1 -1\ncompare -1 1\n",
        "loaded 4 3 0\nstamped\ndone 3 0 1\nstate 4 3 0 0 0 0 0\nsame\nholds\nheld\nearlier\nlater\n",
    ),
    (
        "stamps-spent-by-run",
        "p cnf 4 3\n-1 2 0\n-2 3 0\n1 3 4 0\n",
        "run 1\nstate\ncompare 4 4\ncompare 1 3\ncompare 3 1\ncompare 1 -1\ncompare -1 1\n",
        "loaded 4 3 0\nran 1\nstate 4 3 0 0 0 0 0\nsame\nholds\nheld\nearlier\nlater\n",
    ),
    (
        "stamps-spent-by-load",
        "p cnf 4 3\n-1 2 0\n-2 3 0\n1 3 4 0\n",
        "stamp 1 -1 2 -2 3 -3 4 -4\nload 10\np cnf 4 0\n\nstate\ncompare 4 4\ncompare 1 3\ncompare 3 1\ncompare 1 -1\ncompare -1 1\n",
        "loaded 4 3 0\nstamped\nloaded 4 0 0\nstate 4 0 0 0 0 0 0\nsame\nholds\nheld\nearlier\nlater\n",
    ),
    (
        "compare-under-the-mark",
        "p cnf 4 3\n-1 2 0\n-2 3 0\n1 3 4 0\n",
        "stamp 1 -1 2 -2 3 -3 4 -4\nset state 6 1\ncompare 4 4\ncompare 1 3\ncompare 3 1\ncompare 1 -1\ncompare -1 1\nset state 5 0\ncompare 4 4\ncompare 1 3\ncompare 3 1\ncompare 1 -1\ncompare -1 1\n",
        "loaded 4 3 0\nstamped\nsame\nholds\nheld\nearlier\nlater\nsame\nholds\nheld\nearlier\nlater\n",
    ),
    // a refused load leaves V, and a refused Stamp the records
    (
        "compare-behind-refusals",
        "p cnf 4 3\n-1 2 0\n-2 3 0\n1 3 4 0\n",
        "stamp 1 -1 2 -2 3 -3 4 -4\nload 1\nx\nstamp -1 1\nstamp -4 4 -3 3 -2 2 -1 -1\ncompare 4 4\ncompare 1 3\ncompare 3 1\ncompare 1 -1\ncompare -1 1\n",
        "loaded 4 3 0\nstamped\nrefused 2 0\nrefused 8 0\nrefused 8 7\nsame\nholds\nheld\nearlier\nlater\n",
    ),
    // -4 is [1,2], 4 [3,4], -3 [5,10], -2 [6,9], -1 [7,8], 1 [11,16]
    (
        "compare-under-a-second-stamp",
        "p cnf 4 3\n-1 2 0\n-2 3 0\n1 3 4 0\n",
        "stamp 1 -1 2 -2 3 -3 4 -4\ncompare 1 -1\nstamp -4 4 -3 3 -2 2 -1 1\ncompare 1 -1\ncompare -1 1\ncompare -3 -1\ncompare 3 1\ncompare 4 -4\n",
        "loaded 4 3 0\nstamped\nearlier\nstamped\nlater\nearlier\nholds\nheld\nlater\n",
    ),
    // 2 becomes 1; each of the four literals has an interval of its own
    (
        "compare-takes-no-class",
        "p cnf 2 2\n-1 2 0\n-2 1 0\n",
        "merge 65535\nstamp 1 -1 2 -2\ncompare 1 2\ncompare 2 1\ncompare -1 -2\ncompare 2 2\n",
        "loaded 2 2 0\ndone 2 2 4\nstamped\nearlier\nlater\nearlier\nsame\n",
    ),
    (
        "equal-beginnings",
        "p cnf 4 0\n",
        "set stamps 0 0 2\nset stamps 0 1 9\nset stamps 2 0 2\nset stamps 2 1 5\ncompare 1 2\ncompare 2 1\n",
        "loaded 4 0 0\nholds\nheld\n",
    ),
    (
        "equal-ends",
        "p cnf 4 0\n",
        "set stamps 0 0 2\nset stamps 0 1 9\nset stamps 2 0 4\nset stamps 2 1 9\ncompare 1 2\ncompare 2 1\n",
        "loaded 4 0 0\nholds\nheld\n",
    ),
    (
        "equal-intervals",
        "p cnf 4 0\n",
        "set stamps 0 0 2\nset stamps 0 1 9\nset stamps 3 0 2\nset stamps 3 1 9\ncompare 1 -2\ncompare -2 1\n",
        "loaded 4 0 0\nsame\nsame\n",
    ),
    (
        "crossing-intervals",
        "p cnf 4 0\n",
        "set stamps 0 0 2\nset stamps 0 1 6\nset stamps 2 0 4\nset stamps 2 1 9\ncompare 1 2\ncompare 2 1\n",
        "loaded 4 0 0\nearlier\nlater\n",
    ),
    (
        "one-ends-where-the-other-begins",
        "p cnf 4 0\n",
        "set stamps 0 0 2\nset stamps 0 1 4\nset stamps 2 0 4\nset stamps 2 1 9\nset stamps 4 0 4\nset stamps 4 1 4\ncompare 1 2\ncompare 2 1\ncompare 3 1\ncompare 1 3\ncompare 3 2\ncompare 2 3\ncompare 3 3\n",
        "loaded 4 0 0\nearlier\nlater\nheld\nholds\nheld\nholds\nsame\n",
    ),
    // 1 and -3 are [5,2], -1 [3,4], 2 [6,1], -2 [6,3], 3 [4,1]
    (
        "end-before-the-beginning",
        "p cnf 4 0\n",
        "set stamps 0 0 5\nset stamps 0 1 2\nset stamps 1 0 3\nset stamps 1 1 4\nset stamps 2 0 6\nset stamps 2 1 1\nset stamps 3 0 6\nset stamps 3 1 3\nset stamps 4 0 4\nset stamps 4 1 1\nset stamps 5 0 5\nset stamps 5 1 2\ncompare 1 1\ncompare 1 -3\ncompare 1 -1\ncompare -1 1\ncompare 1 2\ncompare 2 1\ncompare 1 -2\ncompare -2 1\ncompare 1 3\ncompare 3 1\ncompare 2 -1\ncompare -1 2\n",
        "loaded 4 0 0\nsame\nsame\nheld\nholds\nholds\nheld\nearlier\nlater\nlater\nearlier\nheld\nholds\n",
    ),
    // with m = 4294967295: 1 and 3 are [0,m], -1 [0,0], 2 [m,m], -2 [m,0], -3 [0,m-1], 4 [1,m]
    (
        "times-0-and-4294967295",
        "p cnf 4 0\n",
        "set stamps 0 0 0\nset stamps 0 1 4294967295\nset stamps 1 0 0\nset stamps 1 1 0\nset stamps 2 0 4294967295\nset stamps 2 1 4294967295\nset stamps 3 0 4294967295\nset stamps 3 1 0\nset stamps 4 0 0\nset stamps 4 1 4294967295\nset stamps 5 0 0\nset stamps 5 1 4294967294\nset stamps 6 0 1\nset stamps 6 1 4294967295\ncompare 1 3\ncompare 1 -1\ncompare -1 1\ncompare 1 2\ncompare 2 1\ncompare 1 -2\ncompare -2 1\ncompare -1 2\ncompare 2 -1\ncompare -1 -2\ncompare -2 -1\ncompare 2 -2\ncompare -2 2\ncompare 1 -3\ncompare -3 1\ncompare 1 4\ncompare 4 1\ncompare -3 4\ncompare 4 -3\n",
        "loaded 4 0 0\nsame\nholds\nheld\nholds\nheld\nholds\nheld\nearlier\nlater\nholds\nheld\nholds\nheld\nholds\nheld\nholds\nheld\nearlier\nlater\n",
    ),
    // times are compared without a sign
    (
        "times-above-2147483647",
        "p cnf 4 0\n",
        "set stamps 0 0 2147483647\nset stamps 0 1 2147483647\nset stamps 2 0 2147483648\nset stamps 2 1 2147483648\nset stamps 4 0 2147483647\nset stamps 4 1 2147483648\ncompare 1 2\ncompare 2 1\ncompare 3 1\ncompare 3 2\ncompare 1 3\ncompare 2 3\n",
        "loaded 4 0 0\nearlier\nlater\nholds\nholds\nheld\nheld\n",
    ),
    (
        "parents-and-starts-not-compared",
        "p cnf 4 3\n-1 2 0\n-2 3 0\n1 3 4 0\n",
        "stamp 1 -1 2 -2 3 -3 4 -4\nset stamps 4 2 3\nset stamps 4 3 -4\nset stamps 0 2 3\nset stamps 0 3 -2147483648\ncompare 4 4\ncompare 1 3\ncompare 3 1\ncompare 1 -1\ncompare -1 1\n",
        "loaded 4 3 0\nstamped\nsame\nholds\nheld\nearlier\nlater\n",
    ),
    (
        "records-in-order",
        "p cnf 3 0\n",
        "set stamps 0 0 1\nset stamps 0 1 1\nset stamps 1 0 2\nset stamps 1 1 2\nset stamps 2 0 3\nset stamps 2 1 3\nset stamps 3 0 4\nset stamps 3 1 4\nset stamps 4 0 5\nset stamps 4 1 5\nset stamps 5 0 6\nset stamps 5 1 6\ncompare 1 -1\ncompare -1 2\ncompare 2 -2\ncompare -2 3\ncompare 3 -3\ncompare -3 3\ncompare 3 -2\ncompare -2 2\ncompare 2 -1\ncompare -1 1\n",
        "loaded 3 0 0\nearlier\nearlier\nearlier\nearlier\nearlier\nlater\nlater\nlater\nlater\nlater\n",
    ),
    (
        "compare-up-to-a-V-set-by-hand",
        "p cnf 4 3\n-1 2 0\n-2 3 0\n1 3 4 0\n",
        "stamp 1 -1 2 -2 3 -3 4 -4\nset state 0 5\nset stamps 8 0 14\nset stamps 8 1 15\nset stamps 9 0 1\nset stamps 9 1 16\ncompare 5 4\ncompare -5 5\ncompare 4 -5\nset state 0 1\ncompare 1 -1\ncompare -1 1\nset state 0 4\n",
        "loaded 4 3 0\nstamped\nlater\nholds\nheld\nearlier\nlater\n",
    ),
    (
        "compare-with-V-above-1024",
        "p cnf 2 0\n",
        "set state 0 1025\nset stamps 2046 0 1\nset stamps 2046 1 6\nset stamps 2047 0 2\nset stamps 2047 1 5\ncompare 1024 -1024\ncompare -1024 1024\nset state 0 4294967295\ncompare 1024 -1024\ncompare -1024 1024\ncompare 1024 1024\ncompare -1024 -1024\ncompare 1023 -1023\nset state 0 2\n",
        "loaded 2 0 0\nholds\nheld\nholds\nheld\nsame\nsame\nsame\n",
    ),
    (
        "compare-with-stamps-lent-short",
        "p cnf 4 3\n-1 2 0\n-2 3 0\n1 3 4 0\n",
        "stamp 1 -1 2 -2 3 -3 4 -4\nlend stamps 0\nfailed\ncompare 4 4\ncompare 1 3\ncompare 3 1\ncompare 1 -1\ncompare -1 1\nlend stamps 7\ncompare -4 4\ncompare 4 -4\nlend stamps 8\ncompare -4 4\nlend stamps 2047\ncompare -4 4\nlend stamps 2048\nfailed\n",
        "loaded 4 3 0\nstamped\nrefused 1 0\nsame\nholds\nheld\nearlier\nlater\nlater\nearlier\nlater\nlater\nfailed 0\n",
    ),
    (
        "compare-with-other-tables-lent-short",
        "p cnf 4 3\n-1 2 0\n-2 3 0\n1 3 4 0\n",
        "stamp 1 -1 2 -2 3 -3 4 -4\nlend clauses 0\nlend literals 0\nlend variables 0\nfailed\ncompare 4 4\ncompare 1 3\ncompare 3 1\ncompare 1 -1\ncompare -1 1\nlend clauses 4096\nlend literals 16384\nlend variables 1024\n",
        "loaded 4 3 0\nstamped\nrefused 1 0\nsame\nholds\nheld\nearlier\nlater\n",
    ),
    // no shape is asked for
    (
        "compare-with-wrong-tables",
        "p cnf 4 3\n-1 2 0\n-2 3 0\n1 3 4 0\n",
        "stamp 1 -1 2 -2 3 -3 4 -4\nset clauses 0 0 4294967295\nset literals 0 0 0\nset variables 0 0 -2147483648\nset state 1 4294967295\nfailed\ncompare 4 4\ncompare 1 3\ncompare 3 1\ncompare 1 -1\ncompare -1 1\nset state 1 3\n",
        "loaded 4 3 0\nstamped\nrefused 1 0\nsame\nholds\nheld\nearlier\nlater\n",
    ),
    (
        "open-pass-left-alone",
        "p cnf 4 3\n-1 2 0\n-2 3 0\n1 3 4 0\n",
        "stamp 1 -1 2 -2 3 -3 4 -4\nset state 2 1\nset state 3 2\nset state 4 1\nstate\ncompare 1 2\nstate\n",
        "loaded 4 3 0\nstamped\nstate 4 3 1 2 1 1 0\nholds\nstate 4 3 1 2 1 1 0\n",
    ),
    // of an open Merge a call returns no change flag
    (
        "change-flag-left-alone",
        "p cnf 4 3\n-1 2 0\n-2 3 0\n1 3 4 0\n",
        "stamp 1 -1 2 -2 3 -3 4 -4\nset state 2 2\nset state 3 1\nset state 4 1\ncompare 2 1\nstate\nwrite 0\nstate\n",
        "loaded 4 3 0\nstamped\nheld\nstate 4 3 2 1 1 1 0\nrefused 10 32\nstate 4 3 2 1 0 1 0\n",
    ),
    // where no pass is open a call returns neither cursor nor change flag
    (
        "cursor-left-alone",
        "p cnf 4 3\n-1 2 0\n-2 3 0\n1 3 4 0\n",
        "stamp 1 -1 2 -2 3 -3 4 -4\nset state 3 4294967295\nset state 4 1\ncompare 1 -1\nstate\nwrite 0\nstate\n",
        "loaded 4 3 0\nstamped\nearlier\nstate 4 3 0 4294967295 1 1 0\nrefused 10 32\nstate 4 3 0 0 0 1 0\n",
    ),
    (
        "compare-in-an-open-sweep",
        "p cnf 4 3\n-1 2 0\n-2 3 0\n1 3 4 0\n",
        "stamp 1 -1 2 -2 3 -3 4 -4\nsweep 2\ncompare 1 3\nstate\nsweep 65535\ncompare 1 3\n",
        "loaded 4 3 0\nstamped\nopen 2 0 0\nholds\nstate 4 3 3 2 0 1 0\ndone 1 0 1\nholds\n",
    ),
    (
        "compare-in-an-open-merge",
        "p cnf 4 3\n-1 2 0\n-2 3 0\n1 3 4 0\n",
        "stamp 1 -1 2 -2 3 -3 4 -4\nmerge 0\ncompare 3 2\nstate\nmerge 65535\ncompare 3 2\n",
        "loaded 4 3 0\nstamped\nopen 0 0 0\nheld\nstate 4 3 2 0 0 0 0\ndone 3 0 0\nheld\n",
    ),
    (
        "compare-in-an-open-propagate",
        "p cnf 4 3\n-1 2 0\n-2 3 0\n1 3 4 0\n",
        "stamp 1 -1 2 -2 3 -3 4 -4\npropagate 1\ncompare -4 4\nstate\npropagate 65535\ncompare -4 4\n",
        "loaded 4 3 0\nstamped\nopen 1 0 0\nlater\nstate 4 3 1 1 0 0 0\ndone 2 0 0\nlater\n",
    ),
];

/// Lines of `compare` that are none: a text, the calls behind its load, and what
/// all of them print. The wrong line is the last that is read.
const WRONG_LINES: &[(&str, &str, &str, &str)] = &[
    (
        "compare-0-first",
        "p cnf 4 3\n-1 2 0\n-2 3 0\n1 3 4 0\n",
        "compare 0 1\nstate\n",
        "loaded 4 3 0\nerror 2\n",
    ),
    (
        "compare-0-second",
        "p cnf 4 3\n-1 2 0\n-2 3 0\n1 3 4 0\n",
        "compare 1 0\nstate\n",
        "loaded 4 3 0\nerror 2\n",
    ),
    (
        "compare-above-V-first",
        "p cnf 4 3\n-1 2 0\n-2 3 0\n1 3 4 0\n",
        "compare 5 1\nstate\n",
        "loaded 4 3 0\nerror 2\n",
    ),
    (
        "compare-above-V-second",
        "p cnf 4 3\n-1 2 0\n-2 3 0\n1 3 4 0\n",
        "compare 1 5\nstate\n",
        "loaded 4 3 0\nerror 2\n",
    ),
    (
        "compare-below-minus-V-first",
        "p cnf 4 3\n-1 2 0\n-2 3 0\n1 3 4 0\n",
        "compare -5 1\nstate\n",
        "loaded 4 3 0\nerror 2\n",
    ),
    (
        "compare-below-minus-V-second",
        "p cnf 4 3\n-1 2 0\n-2 3 0\n1 3 4 0\n",
        "compare 1 -5\nstate\n",
        "loaded 4 3 0\nerror 2\n",
    ),
    (
        "compare-V-0",
        "p cnf 0 0\n",
        "compare 1 1\nstate\n",
        "loaded 0 0 0\nerror 2\n",
    ),
    (
        "compare-0-with-V-0",
        "p cnf 0 0\n",
        "compare 0 0\nstate\n",
        "loaded 0 0 0\nerror 2\n",
    ),
    (
        "compare-V-0-by-hand",
        "p cnf 4 3\n-1 2 0\n-2 3 0\n1 3 4 0\n",
        "stamp 1 -1 2 -2 3 -3 4 -4\nset state 0 0\ncompare 1 1\nstate\n",
        "loaded 4 3 0\nstamped\nerror 4\n",
    ),
    // the record of 4 is there, but V is 3
    (
        "compare-above-V-by-hand",
        "p cnf 4 3\n-1 2 0\n-2 3 0\n1 3 4 0\n",
        "stamp 1 -1 2 -2 3 -3 4 -4\nset state 0 3\ncompare 4 1\nstate\n",
        "loaded 4 3 0\nstamped\nerror 4\n",
    ),
    (
        "compare-1025",
        "p cnf 4 3\n-1 2 0\n-2 3 0\n1 3 4 0\n",
        "set state 0 1025\ncompare 1025 1\nstate\n",
        "loaded 4 3 0\nerror 3\n",
    ),
    (
        "compare-minus-1025",
        "p cnf 4 3\n-1 2 0\n-2 3 0\n1 3 4 0\n",
        "set state 0 1025\ncompare 1 -1025\nstate\n",
        "loaded 4 3 0\nerror 3\n",
    ),
    (
        "compare-1025-with-the-largest-V",
        "p cnf 4 3\n-1 2 0\n-2 3 0\n1 3 4 0\n",
        "set state 0 4294967295\ncompare 1 1025\nstate\n",
        "loaded 4 3 0\nerror 3\n",
    ),
    (
        "compare-smallest-number",
        "p cnf 4 3\n-1 2 0\n-2 3 0\n1 3 4 0\n",
        "compare -2147483648 1\nstate\n",
        "loaded 4 3 0\nerror 2\n",
    ),
    (
        "compare-smallest-number-with-the-largest-V",
        "p cnf 4 3\n-1 2 0\n-2 3 0\n1 3 4 0\n",
        "set state 0 4294967295\ncompare 1 -2147483648\nstate\n",
        "loaded 4 3 0\nerror 3\n",
    ),
    // 1 by its last 32 bits
    (
        "compare-2-to-the-32-and-1",
        "p cnf 4 3\n-1 2 0\n-2 3 0\n1 3 4 0\n",
        "compare 4294967297 1\nstate\n",
        "loaded 4 3 0\nerror 2\n",
    ),
    // 1 by its last 64 bits
    (
        "compare-2-to-the-64-and-1",
        "p cnf 4 3\n-1 2 0\n-2 3 0\n1 3 4 0\n",
        "compare 1 18446744073709551617\nstate\n",
        "loaded 4 3 0\nerror 2\n",
    ),
    (
        "compare-no-literal",
        "p cnf 4 3\n-1 2 0\n-2 3 0\n1 3 4 0\n",
        "compare\nstate\n",
        "loaded 4 3 0\nerror 2\n",
    ),
    (
        "compare-one-literal",
        "p cnf 4 3\n-1 2 0\n-2 3 0\n1 3 4 0\n",
        "compare 1\nstate\n",
        "loaded 4 3 0\nerror 2\n",
    ),
    (
        "compare-three-literals",
        "p cnf 4 3\n-1 2 0\n-2 3 0\n1 3 4 0\n",
        "compare 1 2 3\nstate\n",
        "loaded 4 3 0\nerror 2\n",
    ),
    (
        "compare-leading-zero",
        "p cnf 4 3\n-1 2 0\n-2 3 0\n1 3 4 0\n",
        "compare 01 1\nstate\n",
        "loaded 4 3 0\nerror 2\n",
    ),
    (
        "compare-minus-leading-zero",
        "p cnf 4 3\n-1 2 0\n-2 3 0\n1 3 4 0\n",
        "compare 1 -01\nstate\n",
        "loaded 4 3 0\nerror 2\n",
    ),
    (
        "compare-minus-nought",
        "p cnf 4 3\n-1 2 0\n-2 3 0\n1 3 4 0\n",
        "compare -0 1\nstate\n",
        "loaded 4 3 0\nerror 2\n",
    ),
    (
        "compare-plus",
        "p cnf 4 3\n-1 2 0\n-2 3 0\n1 3 4 0\n",
        "compare +1 1\nstate\n",
        "loaded 4 3 0\nerror 2\n",
    ),
    (
        "compare-letter",
        "p cnf 4 3\n-1 2 0\n-2 3 0\n1 3 4 0\n",
        "compare 1 x\nstate\n",
        "loaded 4 3 0\nerror 2\n",
    ),
    (
        "compare-two-spaces",
        "p cnf 4 3\n-1 2 0\n-2 3 0\n1 3 4 0\n",
        "compare 1  2\nstate\n",
        "loaded 4 3 0\nerror 2\n",
    ),
    (
        "compare-space-at-end",
        "p cnf 4 3\n-1 2 0\n-2 3 0\n1 3 4 0\n",
        "compare 1 2 \nstate\n",
        "loaded 4 3 0\nerror 2\n",
    ),
    (
        "compare-behind-good-lines",
        "p cnf 4 3\n-1 2 0\n-2 3 0\n1 3 4 0\n",
        "stamp 1 -1 2 -2 3 -3 4 -4\ncompare 2 3\ncompare 3 2\ncompare 2 5\nstate\n",
        "loaded 4 3 0\nstamped\nholds\nheld\nerror 5\n",
    ),
    // the input ends inside the line
    (
        "compare-no-LF",
        "p cnf 4 3\n-1 2 0\n-2 3 0\n1 3 4 0\n",
        "compare 1 2",
        "loaded 4 3 0\nerror 2\n",
    ),
];

/// Cases at the limits and on all 1,024 variables. A text that Write gives is
/// looked at by its length alone, which the refusal of an output of 0 bytes tells.
fn large() -> Vec<Case> {
    let passes = "merge 65535\npropagate 65535\nwrite 0\n";
    let case = |name, text, calls: &str, prints: &str| Case {
        name,
        text,
        calls: calls.to_string(),
        prints: prints.to_string(),
    };
    vec![
        case(
            "P11-V-1024",
            b"p cnf 1024 0\n".to_vec(),
            "write 256\n",
            "loaded 1024 0 0\nwritten 13\np cnf 1024 0\n",
        ),
        // the literals with the first and the last stamp records, and their neighbours
        case(
            "first-and-last-variable",
            b"p cnf 1024 7\n1 1024 1 0\n-1 -1024 -1024 0\n-1024 1 0\n1024 -1 1024 0\n1024 1 -1024 0\n-1023 1024 2 -1 2 0\n-1024 1 -1 0\n".to_vec(),
            "clauses\nliterals\n",
            "loaded 1024 7 0\n0 2 1\n2 2 1\n4 2 1\n6 2 1\n8 0 0\n8 4 1\n12 0 0\nliterals 1 1024 -1 -1024 -1024 1 1024 -1 -1023 1024 2 -1\n",
        ),
        // 16,384 literals in one clause; Write gives a header of 13 bytes, 4,013 bytes of literals, `0` and LF
        case(
            "all-variables-16-times",
            repeated("p cnf 1024 1\n", &rising(), 16, "0"),
            "clauses\nliterals\nwrite 0\n",
            &format!(
                "loaded 1024 1 0\n0 1024 1\nliterals {}\nrefused 10 4028\n",
                rising().trim_end()
            ),
        ),
        // 16,384 literals in two clauses
        case(
            "8192-literals-twice",
            repeated(
                &format!("p cnf 2 2\n{}0\n", "1 ".repeat(8_192)),
                "2 1 ",
                4_096,
                "0",
            ),
            "clauses\nliterals\nwrite 256\n",
            "loaded 2 2 0\n0 1 1\n1 2 1\nliterals 1 2 1\nwritten 20\np cnf 2 2\n1 0\n2 1 0\n",
        ),
        // literal k, from 1, stands at 8 + 2 k
        case(
            "literal-16385",
            repeated("p cnf 1 1\n", "1 ", 16_385, "0"),
            "",
            "refused 3 32778\n",
        ),
        // the `0` of clause k, from 1, stands at 14 + 2 k
        case(
            "clause-4096",
            repeated("p cnf 1024 4096\n", "0 ", 4_096, ""),
            "write 256\n",
            "loaded 1024 4096 1\nwritten 15\np cnf 1024 1\n0\n",
        ),
        case(
            "clause-4097",
            repeated("p cnf 1024 4096\n", "0 ", 4_097, ""),
            "",
            "refused 3 8208\n",
        ),
        // each literal is a class of its own, and there is no unit
        case(
            "chain",
            chain(1_023, ""),
            passes,
            "loaded 1024 1023 0\ndone 1023 0 0\ndone 1023 0 0\nrefused 10 11104\n",
        ),
        // the first variable is the complement of the last, and the others are classes of their own
        case(
            "ends-opposed",
            chain(1_025, "-1024 -1 0\n1024 1 0\n"),
            passes,
            "loaded 1024 1025 0\ndone 1025 2 4\ndone 1025 0 0\nrefused 10 11122\n",
        ),
        // all 2,048 literals reach each other: the chain leads from 1 to 1024, the next clause to -1023, the chain of the complements to -2, and the last clause back to 1
        case(
            "ring-of-literals",
            chain(1_025, "-1024 -1023 0\n1 2 0\n"),
            passes,
            "loaded 1024 1025 0\ndone 0 0 0\nrefused 5 0\nrefused 10 15\n",
        ),
        // all variables are equal: one class, and no clause is left
        case(
            "ring-of-variables",
            chain(1_024, "-1024 1 0\n"),
            passes,
            "loaded 1024 1024 0\ndone 1024 1024 2048\ndone 1024 0 0\nrefused 10 18268\n",
        ),
        // 2, 4, .. are the complement of 1, and 3, 5, .. are 1; Merge leaves the unit 1, and all records get a value
        case(
            "ring-of-both-signs",
            both_signs(),
            "merge 65535\npropagate 65535\nvariables\nwrite 0\n",
            &format!(
                "loaded 1024 1025 0\ndone 1025 1024 2049\ndone 2050 1 1\n{}refused 10 18272\n",
                "1 1\n-1 -1\n".repeat(512)
            ),
        ),
        // Run stamps in the order 1, -1, 2, -2, ..: v is [v, 2049 - v] and -v [3073 - v, 3072 + v]
        case(
            "compare-along-the-chain",
            chain(1_023, ""),
            "run 1\ncompare 1 1024\ncompare 1024 1\ncompare 1023 1024\ncompare -1024 -1\ncompare -1 -1024\ncompare 1024 -1024\ncompare -1024 1024\ncompare 1 -1\ncompare -1 1\ncompare 1024 1024\ncompare -1024 -1024\n",
            "loaded 1024 1023 0\nran 1\nholds\nheld\nholds\nholds\nheld\nearlier\nlater\nearlier\nlater\nsame\nsame\n",
        ),
        // the last two records
        case(
            "compare-1024-and-its-complement",
            b"p cnf 1024 0\n".to_vec(),
            "set stamps 2046 0 3\nset stamps 2046 1 4\nset stamps 2047 0 5\nset stamps 2047 1 6\ncompare 1024 -1024\ncompare -1024 1024\nset stamps 2047 0 2\ncompare 1024 -1024\ncompare -1024 1024\ncompare 1024 1024\ncompare -1024 -1024\n",
            "loaded 1024 0 0\nearlier\nlater\nheld\nholds\nsame\nsame\n",
        ),
        // as many variables, clauses and literals as there may be: the ring makes all variables equal, so that Merge leaves units and drops the rest
        case(
            "largest",
            chain(4_096, &largest()),
            passes,
            "loaded 1024 4096 0\ndone 4096 2048 14336\ndone 8192 2048 2048\nrefused 10 18272\n",
        ),
    ]
}

fn repeated(header: &str, token: &str, count: usize, end: &str) -> Vec<u8> {
    format!("{header}{}{end}", token.repeat(count)).into_bytes()
}

/// 1 to 1024, a space behind each.
fn rising() -> String {
    (1..=1_024).map(|v| format!("{v} ")).collect()
}

/// The 1,023 pairs by which each of 1,024 variables implies the next, and more
/// clauses behind them.
pub fn chain(clauses: usize, more: &str) -> Vec<u8> {
    let pairs: String = (1..1_024).map(|v| format!("-{v} {} 0\n", v + 1)).collect();
    format!("p cnf 1024 {clauses}\n{pairs}{more}").into_bytes()
}

/// The pairs by which each of 1, -2, 3, .., -1024 implies the next and the last
/// the first, and the pair (1 -2).
fn both_signs() -> Vec<u8> {
    let literal = |v: i32| if v % 2 == 1 { v } else { -v };
    let pairs = (1..=1_024).map(|v| format!("{} {} 0\n", -literal(v), literal(v % 1_024 + 1)));
    format!("p cnf 1024 1025\n{}1 -2 0\n", pairs.collect::<String>()).into_bytes()
}

/// The clause that closes the ring, the 1,024 pairs of a variable and the one
/// 512 places on, and 2,048 clauses of six literals, every second one mixed.
fn largest() -> String {
    let pairs = (0..1_024).map(|v| format!("{} {} 0\n", v + 1, (v + 512) % 1_024 + 1));
    let sixes = (0..2_048).map(|k| six(7 * k, k % 2 == 1));
    let clauses: String = pairs.chain(sixes).collect();
    format!("-1024 1 0\n{clauses}")
}

/// Six literals, whose variables lie 171 places apart around the end; every
/// second one is negative where the clause is mixed.
fn six(from: usize, mixed: bool) -> String {
    let literals = (0..6).map(|j| {
        let sign = if mixed && j % 2 == 1 { "-" } else { "" };
        format!("{sign}{} ", (from + 171 * j) % 1_024 + 1)
    });
    format!("{}0\n", literals.collect::<String>())
}
