//! Named cases of groups: the refusals of both calls one by one and two at a time,
//! and lines that are none.

use crate::named::{with_calls, Case};
use crate::named_groups::on_apart;
use crate::named_learn::{Calls, CHAIN};

/// A name, a text, the calls behind its load, and what all of them print.
type Lines = (&'static str, &'static str, &'static str, &'static str);

/// Most of them stand on a formula in which 1, 3 and 5 are one group, of which 23
/// bytes are written, 2 and 4 the other, of which 17 are, and 6 is in none.
pub fn cases() -> Vec<Case> {
    let on_apart = REFUSALS.iter().chain(TWO_REFUSALS).map(on_apart);
    on_apart.chain(ON_OTHERS.iter().map(with_calls)).collect()
}

const REFUSALS: &[Calls] = &[
    (
        "groups-1-short-clauses",
        "lend clauses 4095\ngroups 6\ngroup 2 17\nlend clauses 4112\ngroups 6\ngroup 2 17\nlend clauses 4096\n",
        "refused 1 0\nrefused 1 0\ngroups 2\n1 2 1 2 1 0\nwritten 17\np cnf 2 1\n-1 2 0\n",
    ),
    (
        "groups-1-short-literals",
        "lend literals 16383\ngroups 6\ngroup 2 17\nlend literals 16385\ngroups 6\ngroup 2 17\nlend literals 16384\n",
        "refused 1 0\nrefused 1 0\ngroups 2\n1 2 1 2 1 0\nwritten 17\np cnf 2 1\n-1 2 0\n",
    ),
    (
        "groups-1-short-variables",
        "lend variables 1023\ngroups 6\ngroup 2 17\nlend variables 1040\ngroups 6\ngroup 2 17\nlend variables 1024\n",
        "refused 1 0\nrefused 1 0\ngroups 2\n1 2 1 2 1 0\nwritten 17\np cnf 2 1\n-1 2 0\n",
    ),
    // neither call reads them, and both are lent them
    (
        "groups-1-short-stamps",
        "lend stamps 2047\ngroups 6\ngroup 2 17\nlend stamps 0\ngroups 6\ngroup 2 17\nlend stamps 2064\ngroups 6\ngroup 2 17\nlend stamps 2048\n",
        "refused 1 0\nrefused 1 0\nrefused 1 0\nrefused 1 0\ngroups 2\n1 2 1 2 1 0\nwritten 17\np cnf 2 1\n-1 2 0\n",
    ),
    (
        "groups-1-damaged-clauses",
        "set clauses 2 0 3\ngroups 6\ngroup 2 17\nset clauses 2 0 4\nset clauses 1 2 2\ngroups 6\ngroup 2 17\nset clauses 1 2 0\ngroups 6\ngroup 2 17\nset clauses 1 2 1\nset clauses 2 1 16381\ngroups 6\ngroup 2 17\nset clauses 2 1 2\ngroups 6\n",
        "refused 1 0\nrefused 1 0\nrefused 1 0\nrefused 1 0\nrefused 1 0\nrefused 1 0\nrefused 1 0\nrefused 1 0\ngroups 2\n1 2 1 2 1 0\n",
    ),
    (
        "groups-1-damaged-literals",
        "set literals 3 0 0\ngroups 6\ngroup 2 17\nset literals 3 0 7\ngroups 6\ngroup 2 17\nset literals 3 0 -2147483648\ngroups 6\ngroup 2 17\nset literals 3 0 2\ngroups 6\ngroup 2 17\nset literals 3 0 4\ngroups 6\n",
        "refused 1 0\nrefused 1 0\nrefused 1 0\nrefused 1 0\nrefused 1 0\nrefused 1 0\nrefused 1 0\nrefused 1 0\ngroups 2\n1 2 1 2 1 0\n",
    ),
    // a class that is larger, or none; one of a variable in a clause; a value that is none, or not that of the class
    (
        "groups-1-damaged-variables",
        "set variables 5 0 7\ngroups 6\ngroup 2 17\nset variables 5 0 0\ngroups 6\nset variables 5 0 6\nset variables 4 0 1\ngroups 6\ngroup 2 17\nset variables 4 0 5\nset variables 5 1 2\ngroups 6\ngroup 2 17\nset variables 5 1 1\nset variables 5 0 1\ngroups 6\nset variables 5 0 6\nset variables 5 1 0\ngroups 6\n",
        "refused 1 0\nrefused 1 0\nrefused 1 0\nrefused 1 0\nrefused 1 0\nrefused 1 0\nrefused 1 0\nrefused 1 0\ngroups 2\n1 2 1 2 1 0\n",
    ),
    // stamps are judged where they are fresh
    (
        "groups-1-damaged-stamps",
        "set stamps 0 0 3\ngroups 6\nset state 5 1\ngroups 6\ngroup 2 17\nset state 5 0\nstamp 1 -1 2 -2 3 -3 4 -4 5 -5 6 -6\nset stamps 0 2 -5\ngroups 6\ngroup 2 17\nset stamps 0 2 3\ngroups 6\n",
        "groups 2\n1 2 1 2 1 0\nrefused 1 0\nrefused 1 0\nstamped\nrefused 1 0\nrefused 1 0\ngroups 2\n1 2 1 2 1 0\n",
    ),
    (
        "groups-1-damaged-programme",
        "set programme 0 0\ngroups 6\ngroup 2 17\nset programme 0 4\ngroups 6\n",
        "refused 1 0\nrefused 1 0\ngroups 2\n1 2 1 2 1 0\n",
    ),
    (
        "groups-1-too-many",
        "set state 0 1025\ngroups 1040\ngroup 2 17\nset state 0 4294967295\ngroups 1040\ngroup 4294967295 17\nset state 0 6\nset state 1 4097\ngroups 6\nset state 1 4294967295\ngroups 6\ngroup 2 17\nset state 1 3\ngroups 6\n",
        "refused 1 0\nrefused 1 0\nrefused 1 0\nrefused 1 0\nrefused 1 0\nrefused 1 0\nrefused 1 0\ngroups 2\n1 2 1 2 1 0\n",
    ),
    // an empty clause stands only under the mark
    (
        "groups-1-empty-clause",
        "set clauses 1 1 0\ngroups 6\ngroup 1 23\nset state 6 1\ngroups 6\ngroup 1 23\nset state 6 0\nset clauses 1 1 2\ngroups 6\n",
        "refused 1 0\nrefused 1 0\nrefused 5 0\nrefused 5 0\ngroups 2\n1 2 1 2 1 0\n",
    ),
    (
        "groups-4-open-propagate",
        "propagate 0\ngroups 6\ngroup 2 17\nstate\npropagate 1\ngroups 6\ngroup 2 17\nstate\npropagate 65535\ngroups 6\ngroup 2 17\n",
        "open 0 0 0\nrefused 4 0\nrefused 4 0\nstate 6 3 1 0 0 0 0\nopen 1 0 0\nrefused 4 0\nrefused 4 0\nstate 6 3 1 1 0 0 0\ndone 2 0 0\ngroups 2\n1 2 1 2 1 0\nwritten 17\np cnf 2 1\n-1 2 0\n",
    ),
    (
        "groups-4-open-merge",
        "merge 1\ngroups 6\ngroup 2 17\nstate\nmerge 65535\ngroups 6\ngroup 2 17\n",
        "open 1 0 0\nrefused 4 0\nrefused 4 0\nstate 6 3 2 1 0 0 0\ndone 2 0 0\ngroups 2\n1 2 1 2 1 0\nwritten 17\np cnf 2 1\n-1 2 0\n",
    ),
    (
        "groups-4-open-sweep",
        "stamp 1 -1 2 -2 3 -3 4 -4 5 -5 6 -6\nsweep 0\ngroups 6\ngroup 2 17\nsweep 2\ngroups 6\ngroup 2 17\nstate\nsweep 1\ngroups 6\ngroup 2 17\n",
        "stamped\nopen 0 0 0\nrefused 4 0\nrefused 4 0\nopen 2 0 0\nrefused 4 0\nrefused 4 0\nstate 6 3 3 2 0 1 0\ndone 1 0 0\ngroups 2\n1 2 1 2 1 0\nwritten 17\np cnf 2 1\n-1 2 0\n",
    ),
    // the change flag stays in Propagate alone
    (
        "groups-4-clear-the-flag",
        "merge 1\nset state 4 1\ngroups 6\nstate\nset state 4 1\ngroup 2 17\nstate\nset state 2 1\nset state 4 1\ngroups 6\nstate\ngroup 2 17\nstate\n",
        "open 1 0 0\nrefused 4 0\nstate 6 3 2 1 0 0 0\nrefused 4 0\nstate 6 3 2 1 0 0 0\nrefused 4 0\nstate 6 3 1 1 1 0 0\nrefused 4 0\nstate 6 3 1 1 1 0 0\n",
    ),
    (
        "groups-5",
        "set state 6 1\ngroups 6\ngroup 2 17\nstate\nset state 6 0\ngroups 6\ngroup 2 17\n",
        "refused 5 0\nrefused 5 0\nstate 6 3 0 0 0 0 1\ngroups 2\n1 2 1 2 1 0\nwritten 17\np cnf 2 1\n-1 2 0\n",
    ),
    (
        "group-17-numbers",
        "group 0 99\ngroup 1 99\ngroup 2 99\ngroup 3 99\ngroup 4 99\ngroup 6 99\ngroup 7 99\ngroup 257 99\ngroup 1024 99\ngroup 65537 99\ngroup 2147483647 99\ngroup 2147483648 99\ngroup 2147483649 99\ngroup 4294967295 99\n",
        "refused 17 0\nwritten 23\np cnf 3 2\n1 -2 0\n2 3 0\nwritten 17\np cnf 2 1\n-1 2 0\nrefused 17 0\nrefused 17 0\nrefused 17 0\nrefused 17 0\nrefused 17 0\nrefused 17 0\nrefused 17 0\nrefused 17 0\nrefused 17 0\nrefused 17 0\nrefused 17 0\n",
    ),
    // the second group is gone with its clause, and comes back with it
    (
        "group-17-behind-dropped-clauses",
        "set clauses 1 1 0\nset clauses 1 2 0\ngroups 6\ngroup 2 99\nset clauses 1 1 2\nset clauses 1 2 1\ngroup 2 99\ngroup 3 99\n",
        "groups 1\n1 0 1 0 1 0\nrefused 17 0\nwritten 17\np cnf 2 1\n-1 2 0\nrefused 17 0\n",
    ),
    (
        "groups-10-leave-everything",
        "groups 5\ngroups 0\ngroup 1 22\ngroup 2 0\nstate\nclauses\nliterals\ngroups 6\ngroup 2 17\n",
        "refused 10 6\nrefused 10 6\nrefused 10 23\nrefused 10 17\nstate 6 3 0 0 0 0 0\n0 2 1\n2 2 1\n4 2 1\nliterals 1 -3 -2 4 3 5\ngroups 2\n1 2 1 2 1 0\nwritten 17\np cnf 2 1\n-1 2 0\n",
    ),
];

/// Two or more of them apply, and the topmost holds.
const TWO_REFUSALS: &[Calls] = &[
    (
        "groups-1-before-4",
        "merge 1\nlend stamps 2047\ngroups 6\ngroup 2 17\nlend stamps 2048\nset variables 5 1 2\ngroups 6\ngroup 2 17\nset variables 5 1 0\ngroups 6\ngroup 2 17\n",
        "open 1 0 0\nrefused 1 0\nrefused 1 0\nrefused 1 0\nrefused 1 0\nrefused 4 0\nrefused 4 0\n",
    ),
    (
        "groups-1-before-5",
        "set state 6 1\nlend literals 16383\ngroups 6\ngroup 2 17\nlend literals 16384\nset variables 5 1 2\ngroups 6\ngroup 2 17\nset variables 5 1 0\ngroups 6\ngroup 2 17\n",
        "refused 1 0\nrefused 1 0\nrefused 1 0\nrefused 1 0\nrefused 5 0\nrefused 5 0\n",
    ),
    (
        "group-1-before-17",
        "lend clauses 4095\ngroup 0 99\ngroup 3 99\nlend clauses 4096\nset variables 5 1 2\ngroup 4294967295 99\nset variables 5 1 0\ngroup 3 99\n",
        "refused 1 0\nrefused 1 0\nrefused 1 0\nrefused 17 0\n",
    ),
    (
        "groups-1-before-10",
        "lend variables 1023\ngroups 5\ngroup 2 16\nlend variables 1024\nset variables 5 1 2\ngroups 0\ngroup 2 0\nset variables 5 1 0\ngroups 5\ngroup 2 16\n",
        "refused 1 0\nrefused 1 0\nrefused 1 0\nrefused 1 0\nrefused 10 6\nrefused 10 17\n",
    ),
    // no pass is open under the mark, so the shape rule fails
    (
        "groups-1-for-4-and-5",
        "merge 1\nset state 6 1\ngroups 6\ngroup 2 17\nset state 6 0\ngroups 6\ngroup 2 17\n",
        "open 1 0 0\nrefused 1 0\nrefused 1 0\nrefused 4 0\nrefused 4 0\n",
    ),
    (
        "group-4-before-17",
        "propagate 0\ngroup 0 99\ngroup 3 99\ngroup 4294967295 99\n",
        "open 0 0 0\nrefused 4 0\nrefused 4 0\nrefused 4 0\n",
    ),
    (
        "groups-4-before-10",
        "merge 1\ngroups 5\ngroups 0\ngroup 2 16\ngroup 2 0\n",
        "open 1 0 0\nrefused 4 0\nrefused 4 0\nrefused 4 0\nrefused 4 0\n",
    ),
    (
        "group-5-before-17",
        "set state 6 1\ngroup 0 99\ngroup 3 99\ngroup 4294967295 99\n",
        "refused 5 0\nrefused 5 0\nrefused 5 0\n",
    ),
    (
        "groups-5-before-10",
        "set state 6 1\ngroups 5\ngroups 0\ngroup 2 16\ngroup 2 0\n",
        "refused 5 0\nrefused 5 0\nrefused 5 0\nrefused 5 0\n",
    ),
    // an output of no bytes
    (
        "group-17-before-10",
        "group 0 0\ngroup 3 0\ngroup 4294967295 0\ngroup 3 1\n",
        "refused 17 0\nrefused 17 0\nrefused 17 0\nrefused 17 0\n",
    ),
    // stamps that are not fresh, units, valued variables and cycles stop a Stamp, and neither of these calls
    (
        "groups-without-9-6-and-7",
        "set clauses 0 1 1\nset variables 1 1 1\nset literals 4 0 -4\nset literals 5 0 2\nstamp 1 -1 2 -2 3 -3 4 -4 5 -5 6 -6\nsweep 1\ngroups 6\ngroup 2 99\n",
        "refused 6 1\nrefused 9 0\ngroups 2\n1 2 0 2 0 0\nwritten 24\np cnf 2 2\n-1 2 0\n-2 1 0\n",
    ),
];

const ON_OTHERS: &[Lines] = &[
    (
        "groups-5-marked-by-a-load",
        "p cnf 3 3\n1 2 0\n0\n3 0\n",
        "groups 3\ngroup 1 99\ngroup 0 0\ngroups 0\nwrite 99\n",
        "loaded 3 3 1\nrefused 5 0\nrefused 5 0\nrefused 5 0\nrefused 5 0\nwritten 12\np cnf 3 1\n0\n",
    ),
    (
        "groups-5-marked-by-propagate",
        "p cnf 3 3\n1 0\n2 3 0\n-1 0\n",
        "groups 3\npropagate 65535\ngroups 3\ngroup 1 99\nstate\n",
        "loaded 3 3 0\ngroups 2\n1 2 2\ndone 3 1 2\nrefused 5 0\nrefused 5 0\nstate 3 3 0 0 0 0 1\n",
    ),
    // with no variable the output is never too short
    (
        "groups-refused-without-variables",
        "p cnf 0 1\n0\n",
        "groups 0\ngroup 1 0\nset state 6 0\ngroups 0\ngroup 1 0\nset state 1 0\ngroups 0\ngroup 1 0\n",
        "loaded 0 1 1\nrefused 5 0\nrefused 5 0\nrefused 1 0\nrefused 1 0\ngroups 0\n\nrefused 17 0\n",
    ),
    (
        "group-17-no-clause",
        "p cnf 2 1\n2 -2 0\n",
        "groups 2\ngroup 0 0\ngroup 1 99\ngroup 2 99\n",
        "loaded 2 1 0\ngroups 0\n0 0\nrefused 17 0\nrefused 17 0\nrefused 17 0\n",
    ),
];

/// Lines of `groups` and `group` that are none. The wrong line is the last that is
/// read.
pub fn wrong_lines() -> Vec<Case> {
    let alone = WRONG_LINES.iter().map(|&(name, line)| Case {
        name,
        text: CHAIN.as_bytes().to_vec(),
        calls: format!("{line}\nstate\n"),
        prints: "loaded 4 3 0\nerror 2\n".to_string(),
    });
    alone
        .chain(WRONG_BEHIND_GOOD.iter().map(with_calls))
        .collect()
}

const WRONG_LINES: &[(&str, &str)] = &[
    ("groups-line-alone", "groups"),
    ("groups-line-empty-output", "groups "),
    ("groups-line-two-numbers", "groups 4 4"),
    ("groups-line-space-at-end", "groups 4 "),
    ("groups-line-two-spaces", "groups  4"),
    ("groups-line-space-at-start", " groups 4"),
    ("groups-line-tab", "groups\t4"),
    ("groups-line-CR", "groups 4\r"),
    ("groups-line-capital", "Groups 4"),
    ("groups-line-letter", "groups x"),
    ("groups-line-minus-1", "groups -1"),
    ("groups-line-minus-nought", "groups -0"),
    ("groups-line-leading-zero", "groups 04"),
    ("groups-line-plus", "groups +4"),
    ("groups-line-131072", "groups 131072"),
    ("groups-line-2-to-the-32-and-4", "groups 4294967300"),
    (
        "groups-line-2-to-the-64-and-4",
        "groups 18446744073709551620",
    ),
    ("group-line-alone", "group"),
    ("group-line-without-an-output", "group 1"),
    ("group-line-three-numbers", "group 1 99 99"),
    ("group-line-space-at-end", "group 1 99 "),
    ("group-line-empty-output", "group 1 "),
    ("group-line-two-spaces", "group 1  99"),
    ("group-line-empty-number", "group  99"),
    ("group-line-tab", "group 1\t99"),
    ("group-line-capital", "GROUP 1 99"),
    ("group-line-letter", "group x 99"),
    ("group-line-minus-1", "group -1 99"),
    ("group-line-minus-nought", "group -0 99"),
    ("group-line-leading-zero", "group 01 99"),
    ("group-line-plus", "group +1 99"),
    (
        "group-line-2-to-the-64-and-1",
        "group 18446744073709551617 99",
    ),
    ("group-line-output-minus-1", "group 1 -1"),
    ("group-line-output-leading-zero", "group 1 099"),
    ("group-line-output-letter", "group 1 99x"),
    ("group-line-output-2-to-the-32-and-99", "group 1 4294967395"),
];

const WRONG_BEHIND_GOOD: &[Lines] = &[
    (
        "groups-line-1041",
        CHAIN,
        "groups 1040\ngroups 1041\nstate\n",
        "loaded 4 3 0\ngroups 1\n1 1 1 1\nerror 3\n",
    ),
    (
        "group-line-2-to-the-32",
        CHAIN,
        "group 4294967295 32\ngroup 4294967296 32\nstate\n",
        "loaded 4 3 0\nrefused 17 0\nerror 3\n",
    ),
    (
        "group-line-output-131073",
        CHAIN,
        "group 1 131072\ngroup 1 131073\nstate\n",
        "loaded 4 3 0\nwritten 32\np cnf 4 3\n-1 2 0\n-2 3 0\n1 3 4 0\nerror 3\n",
    ),
    // the bytes that are written are no lines
    (
        "group-line-behind-good-lines",
        CHAIN,
        "group 1 32\ngroups 4\ngroup 2 32\ngroup 1\nstate\n",
        "loaded 4 3 0\nwritten 32\np cnf 4 3\n-1 2 0\n-2 3 0\n1 3 4 0\ngroups 1\n1 1 1 1\nrefused 17 0\nerror 5\n",
    ),
    // the input ends inside the line
    (
        "groups-line-no-LF",
        CHAIN,
        "groups 4",
        "loaded 4 3 0\nerror 2\n",
    ),
    (
        "group-line-no-LF",
        CHAIN,
        "group 1 99",
        "loaded 4 3 0\nerror 2\n",
    ),
];
