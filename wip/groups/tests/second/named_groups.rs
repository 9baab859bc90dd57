//! Named cases of groups: which variables share one, what is written of one, behind
//! all calls; and formulas that are taken apart, simplified and compared. The refusals
//! and the lines that are none stand in `named_groups_refusals.rs`, large formulas in
//! `named_groups_limits.rs`.

use crate::named::{with_calls, Case};
use crate::named_learn::Calls;

/// A name, a text, the calls behind its load, and what all of them print.
type Lines = (&'static str, &'static str, &'static str, &'static str);

/// 1, 3 and 5 are one group, of which 23 bytes are written, 2 and 4 the other, of
/// which 17 are, and 6 is in none.
const APART: &str = "p cnf 6 3\n1 -3 0\n-2 4 0\n3 5 0\n";

pub fn cases() -> Vec<Case> {
    let others = NUMBERS.iter().chain(TEXTS).chain(BEHIND_CALLS).chain(PARTS);
    let others = others.map(with_calls);
    ON_APART.iter().map(on_apart).chain(others).collect()
}

/// The case of these calls behind the load of the formula above.
pub fn on_apart(&(name, calls, prints): &Calls) -> Case {
    Case {
        name,
        text: APART.as_bytes().to_vec(),
        calls: calls.to_string(),
        prints: format!("loaded 6 3 0\n{prints}"),
    }
}

/// In the order 1, -1, 2, .. -1 is [1,6], -3 [2,5], 5 [3,4], 2 [7,10], 4 [8,9],
/// -4 [11,14], -2 [12,13], -5 [15,20], 3 [16,19], 1 [17,18], 6 [21,22], -6 [23,24].
const ON_APART: &[Calls] = &[
    (
        "groups-interleaved",
        "groups 6\ngroup 1 99\ngroup 2 99\n",
        "groups 2\n1 2 1 2 1 0\nwritten 23\np cnf 3 2\n1 -2 0\n2 3 0\nwritten 17\np cnf 2 1\n-1 2 0\n",
    ),
    (
        "groups-output-sizes",
        "groups 0\ngroups 1\ngroups 5\ngroups 6\ngroups 7\ngroups 1024\ngroups 1040\n",
        "refused 10 6\nrefused 10 6\nrefused 10 6\ngroups 2\n1 2 1 2 1 0\ngroups 2\n1 2 1 2 1 0\ngroups 2\n1 2 1 2 1 0\ngroups 2\n1 2 1 2 1 0\n",
    ),
    (
        "group-output-sizes",
        "group 1 0\ngroup 1 1\ngroup 1 22\ngroup 1 23\ngroup 1 24\ngroup 1 131072\ngroup 2 0\ngroup 2 16\ngroup 2 17\n",
        "refused 10 23\nrefused 10 23\nrefused 10 23\nwritten 23\np cnf 3 2\n1 -2 0\n2 3 0\nwritten 23\np cnf 3 2\n1 -2 0\n2 3 0\nwritten 23\np cnf 3 2\n1 -2 0\n2 3 0\nrefused 10 17\nrefused 10 17\nwritten 17\np cnf 2 1\n-1 2 0\n",
    ),
    (
        "groups-change-no-table",
        "stamp 1 -1 2 -2 3 -3 4 -4 5 -5 6 -6\nprogramme 1 2 4\nlearn 1 2\ngroups 6\ngroups 5\ngroup 1 23\ngroup 2 16\ngroup 3 99\nstate\ncodes\nclauses\nliterals\nvariables\nstamps\nwindow\n",
        "stamped\nset\nkept 2\ngroups 2\n1 2 1 2 1 0\nrefused 10 6\nwritten 23\np cnf 3 2\n1 -2 0\n2 3 0\nrefused 10 17\nrefused 17 0\nstate 6 3 0 0 0 1 0\ncodes 1 2 4\n0 2 1\n2 2 1\n4 2 1\nliterals 1 -3 -2 4 3 5\n1 0\n2 0\n3 0\n4 0\n5 0\n6 0\n17 18 3 -5\n1 6 -1 -1\n7 10 2 2\n12 13 -4 -4\n16 19 -5 -5\n2 5 -1 -1\n8 9 2 2\n11 14 -4 -4\n3 4 -3 -1\n15 20 -5 -5\n21 22 6 6\n23 24 -6 -6\nwindow 1 2\n2 1 2\n",
    ),
    // a state without an open pass has no cursor and no flag
    (
        "groups-clear-the-cursor",
        "set state 3 5\nset state 4 1\ngroups 6\nstate\nset state 3 5\nset state 4 1\ngroups 5\nstate\n",
        "groups 2\n1 2 1 2 1 0\nstate 6 3 0 0 0 0 0\nrefused 10 6\nstate 6 3 0 0 0 0 0\n",
    ),
    (
        "group-clears-the-cursor",
        "set state 3 5\nset state 4 1\ngroup 2 17\nstate\nset state 3 5\nset state 4 1\ngroup 3 17\nstate\n",
        "written 17\np cnf 2 1\n-1 2 0\nstate 6 3 0 0 0 0 0\nrefused 17 0\nstate 6 3 0 0 0 0 0\n",
    ),
    // the window is not lent
    (
        "groups-take-no-window",
        "set window 0 65\nset window 1 7\nlend sizes 0\nlend learnt 0\ngroups 6\ngroup 2 17\ngroup 0 17\ngroups 0\nlend sizes 64\nlend learnt 4096\nset window 0 0\nset window 1 0\n",
        "groups 2\n1 2 1 2 1 0\nwritten 17\np cnf 2 1\n-1 2 0\nrefused 17 0\nrefused 10 6\n",
    ),
    (
        "groups-leave-stamps-fresh",
        "stamp 1 -1 2 -2 3 -3 4 -4 5 -5 6 -6\ngroups 6\nstate\ngroup 1 23\nfailed\ngroups 6\nsweep 2\nstate\nsweep 1\ngroups 6\nstate\n",
        "stamped\ngroups 2\n1 2 1 2 1 0\nstate 6 3 0 0 0 1 0\nwritten 23\np cnf 3 2\n1 -2 0\n2 3 0\nfailed 0\ngroups 2\n1 2 1 2 1 0\nopen 2 0 0\nstate 6 3 3 2 0 1 0\ndone 1 0 0\ngroups 2\n1 2 1 2 1 0\nstate 6 3 0 0 0 0 0\n",
    ),
    // (3 5) becomes (4 5), then (4 -3)
    (
        "groups-literals-written-into-the-table",
        "set literals 4 0 4\ngroups 6\ngroup 2 99\nset literals 5 0 -3\ngroups 6\ngroup 1 99\n",
        "groups 2\n1 2 1 2 2 0\nwritten 23\np cnf 3 2\n-1 2 0\n2 3 0\ngroups 1\n1 1 1 1 0 0\nwritten 31\np cnf 4 3\n1 -3 0\n-2 4 0\n4 -3 0\n",
    ),
    // the second clause is (-2) and leaves its other place as it is
    (
        "groups-unit-written-into-the-table",
        "set clauses 1 1 1\ngroups 6\ngroup 2 99\n",
        "groups 2\n1 2 1 0 1 0\nwritten 15\np cnf 1 1\n-1 0\n",
    ),
    // without the first clause 1 is in none, and its literals still stand in the table
    (
        "groups-clause-dropped-in-the-table",
        "set clauses 0 1 0\nset clauses 0 2 0\ngroups 6\ngroup 1 99\ngroup 2 99\ngroup 3 99\nset clauses 1 1 0\nset clauses 1 2 0\nset clauses 2 1 0\nset clauses 2 2 0\ngroups 6\ngroup 1 99\n",
        "groups 2\n0 1 2 1 2 0\nwritten 17\np cnf 2 1\n-1 2 0\nwritten 16\np cnf 2 1\n1 2 0\nrefused 17 0\ngroups 0\n0 0 0 0 0 0\nrefused 17 0\n",
    ),
    // clauses behind N are not read, and the variables behind V have no place in the output
    (
        "groups-fewer-clauses-and-variables",
        "set state 1 2\ngroups 6\nset state 0 4\ngroups 3\ngroups 4\ngroup 1 99\nset state 1 0\ngroups 4\nset state 0 0\ngroups 0\n",
        "groups 2\n1 2 1 2 0 0\nrefused 10 4\ngroups 2\n1 2 1 2\nwritten 17\np cnf 2 1\n1 -2 0\ngroups 0\n0 0 0 0\ngroups 0\n\n",
    ),
    (
        "groups-records-behind-the-formula",
        "set clauses 3 1 2\nset clauses 3 2 1\nset literals 6 0 2\nset literals 7 0 1\nset variables 6 0 -3\nset stamps 12 0 5\nset clauses 4096 2 1\nset literals 16384 0 6\ngroups 6\ngroup 3 99\nset clauses 3 1 0\nset clauses 3 2 0\nset literals 6 0 0\nset literals 7 0 0\nset variables 6 0 0\n",
        "groups 2\n1 2 1 2 1 0\nrefused 17 0\n",
    ),
    // the value of 3 stands beside the clauses, which are written as they are
    (
        "groups-values-written-into-the-table",
        "set variables 2 1 1\nset variables 5 1 -1\ngroups 6\ngroup 1 99\nwrite 99\n",
        "groups 2\n1 2 1 2 1 0\nwritten 23\np cnf 3 2\n1 -2 0\n2 3 0\nwritten 39\np cnf 6 5\n3 0\n-6 0\n1 -3 0\n-2 4 0\n3 5 0\n",
    ),
    // 6 is -1: a class joins nothing, and 6 is in no clause
    (
        "groups-class-written-into-the-table",
        "set variables 5 0 -1\ngroups 6\ngroup 1 99\nwrite 99\n",
        "groups 2\n1 2 1 2 1 0\nwritten 23\np cnf 3 2\n1 -2 0\n2 3 0\nwritten 44\np cnf 6 5\n6 1 0\n-6 -1 0\n1 -3 0\n-2 4 0\n3 5 0\n",
    ),
];

const NUMBERS: &[Lines] = &[
    (
        "groups-no-variables",
        "p cnf 0 0\n",
        "groups 0\ngroups 1\ngroups 1040\ngroup 0 99\ngroup 1 99\ngroup 1 0\nstamp\ngroups 0\n",
        "loaded 0 0 0\ngroups 0\n\ngroups 0\n\ngroups 0\n\nrefused 17 0\nrefused 17 0\nrefused 17 0\nstamped\ngroups 0\n\n",
    ),
    (
        "groups-no-clause",
        "p cnf 3 0\n",
        "groups 2\ngroups 3\ngroups 4\ngroup 0 99\ngroup 1 99\n",
        "loaded 3 0 0\nrefused 10 3\ngroups 0\n0 0 0\ngroups 0\n0 0 0\nrefused 17 0\nrefused 17 0\n",
    ),
    // P2
    (
        "groups-one-group",
        "p cnf 4 3\n-1 2 0\n-2 3 0\n1 3 4 0\n",
        "groups 4\ngroup 1 99\ngroup 2 99\nwrite 99\n",
        "loaded 4 3 0\ngroups 1\n1 1 1 1\nwritten 32\np cnf 4 3\n-1 2 0\n-2 3 0\n1 3 4 0\nrefused 17 0\nwritten 32\np cnf 4 3\n-1 2 0\n-2 3 0\n1 3 4 0\n",
    ),
    (
        "groups-a-unit-alone",
        "p cnf 1 1\n-1 0\n",
        "groups 0\ngroups 1\ngroup 1 14\ngroup 1 15\n",
        "loaded 1 1 0\nrefused 10 1\ngroups 1\n1\nrefused 10 15\nwritten 15\np cnf 1 1\n-1 0\n",
    ),
    (
        "groups-a-unit-beside-a-pair",
        "p cnf 3 2\n3 0\n-1 2 0\n",
        "groups 3\ngroup 1 99\ngroup 2 99\n",
        "loaded 3 2 0\ngroups 2\n1 1 2\nwritten 17\np cnf 2 1\n-1 2 0\nwritten 14\np cnf 1 1\n1 0\n",
    ),
    (
        "groups-a-unit-in-a-group",
        "p cnf 3 4\n2 0\n-1 2 0\n3 0\n-2 0\n",
        "groups 3\ngroup 1 99\ngroup 2 99\n",
        "loaded 3 4 0\ngroups 2\n1 1 2\nwritten 26\np cnf 2 3\n2 0\n-1 2 0\n-2 0\nwritten 14\np cnf 1 1\n1 0\n",
    ),
    (
        "groups-units-of-all-variables",
        "p cnf 4 4\n4 0\n-3 0\n2 0\n-1 0\n",
        "groups 4\ngroup 1 99\ngroup 2 99\ngroup 3 99\ngroup 4 99\ngroup 5 99\n",
        "loaded 4 4 0\ngroups 4\n1 2 3 4\nwritten 15\np cnf 1 1\n-1 0\nwritten 14\np cnf 1 1\n1 0\nwritten 15\np cnf 1 1\n-1 0\nwritten 14\np cnf 1 1\n1 0\nrefused 17 0\n",
    ),
    // the first clause is of the second group
    (
        "groups-numbered-by-smallest-variable",
        "p cnf 6 3\n4 2 0\n6 5 0\n3 1 0\n",
        "groups 6\ngroup 1 99\ngroup 2 99\ngroup 3 99\n",
        "loaded 6 3 0\ngroups 3\n1 2 1 2 3 3\nwritten 16\np cnf 2 1\n2 1 0\nwritten 16\np cnf 2 1\n2 1 0\nwritten 16\np cnf 2 1\n2 1 0\n",
    ),
    // by its largest variable the second would come first
    (
        "groups-nested",
        "p cnf 5 2\n2 -3 4 0\n5 1 0\n",
        "groups 5\ngroup 1 99\ngroup 2 99\n",
        "loaded 5 2 0\ngroups 2\n1 2 2 2 1\nwritten 16\np cnf 2 1\n2 1 0\nwritten 19\np cnf 3 1\n1 -2 3 0\n",
    ),
    (
        "groups-joined-by-the-last-clause",
        "p cnf 4 3\n1 2 0\n3 4 0\n-2 -3 0\n",
        "groups 4\ngroup 1 99\ngroup 2 99\n",
        "loaded 4 3 0\ngroups 1\n1 1 1 1\nwritten 30\np cnf 4 3\n1 2 0\n3 4 0\n-2 -3 0\nrefused 17 0\n",
    ),
    // 1 and 6 first meet in the last clause, by 2 and 5
    (
        "groups-three-joined-by-the-last-clause",
        "p cnf 7 5\n5 6 0\n3 4 0\n1 2 0\n7 0\n5 -4 2 0\n",
        "groups 7\ngroup 2 99\n",
        "loaded 7 5 0\ngroups 2\n1 1 1 1 1 1 2\nwritten 14\np cnf 1 1\n1 0\n",
    ),
    // each clause is joined to the next alone
    (
        "groups-chain-from-the-last",
        "p cnf 6 5\n5 6 0\n4 5 0\n3 4 0\n2 3 0\n1 2 0\n",
        "groups 6\n",
        "loaded 6 5 0\ngroups 1\n1 1 1 1 1 1\n",
    ),
    (
        "groups-chain-up-and-down",
        "p cnf 8 7\n8 1 0\n7 2 0\n6 3 0\n5 4 0\n8 2 0\n3 7 0\n6 4 0\n",
        "groups 8\n",
        "loaded 8 7 0\ngroups 1\n1 1 1 1 1 1 1 1\n",
    ),
    // a variable joins by both of its literals
    (
        "groups-joined-by-complements",
        "p cnf 5 3\n1 -2 0\n2 3 0\n-4 5 0\n",
        "groups 5\ngroup 1 99\n",
        "loaded 5 3 0\ngroups 2\n1 1 1 2 2\nwritten 23\np cnf 3 2\n1 -2 0\n2 3 0\n",
    ),
    (
        "groups-opposite-units",
        "p cnf 2 3\n1 0\n-1 0\n-2 0\n",
        "groups 2\ngroup 1 99\n",
        "loaded 2 3 0\ngroups 2\n1 2\nwritten 19\np cnf 1 2\n1 0\n-1 0\n",
    ),
    (
        "groups-variables-in-no-clause",
        "p cnf 9 2\n3 7 0\n-5 8 0\n",
        "groups 9\ngroup 1 99\ngroup 2 99\n",
        "loaded 9 2 0\ngroups 2\n0 0 1 0 2 0 1 2 0\nwritten 16\np cnf 2 1\n1 2 0\nwritten 17\np cnf 2 1\n-1 2 0\n",
    ),
    // the clause that would join them is dropped by the load
    (
        "groups-dropped-by-a-load",
        "p cnf 5 4\n1 2 1 0\n2 -2 3 0\n3 4 0\n5 -5 0\n",
        "groups 5\ngroup 1 99\ngroup 2 99\n",
        "loaded 5 4 0\ngroups 2\n1 1 2 2 0\nwritten 16\np cnf 2 1\n1 2 0\nwritten 16\np cnf 2 1\n1 2 0\n",
    ),
    // P8
    (
        "groups-without-assignments",
        "p cnf 3 4\n1 3 0\n1 -3 0\n-1 3 0\n-1 -3 0\n",
        "groups 3\ngroup 1 99\nmerge 65535\ngroups 3\n",
        "loaded 3 4 0\ngroups 1\n1 0 1\nwritten 38\np cnf 2 4\n1 2 0\n1 -2 0\n-1 2 0\n-1 -2 0\ndone 0 0 0\nrefused 5 0\n",
    ),
    // no load has been accepted
    (
        "groups-at-the-start",
        "x",
        "set state 0 0\nset state 1 0\ngroups 0\ngroup 1 0\n",
        "refused 2 0\ngroups 0\n\nrefused 17 0\n",
    ),
];

const TEXTS: &[Lines] = &[
    // literals stay in their order, variables get new numbers in theirs
    (
        "group-literals-in-their-order",
        "p cnf 9 3\n9 -2 5 0\n-4 0\n-5 -9 0\n",
        "groups 9\ngroup 1 99\ngroup 2 99\n",
        "loaded 9 3 0\ngroups 2\n0 1 0 2 1 0 0 0 1\nwritten 27\np cnf 3 2\n3 -1 2 0\n-2 -3 0\nwritten 15\np cnf 1 1\n-1 0\n",
    ),
    (
        "group-clauses-in-their-order",
        "p cnf 6 7\n6 4 0\n5 -1 0\n4 0\n3 1 0\n-6 -4 0\n5 3 1 0\n2 0\n",
        "groups 6\ngroup 1 99\ngroup 2 99\ngroup 3 99\n",
        "loaded 6 7 0\ngroups 3\n1 2 1 3 1 3\nwritten 31\np cnf 3 3\n3 -1 0\n2 1 0\n3 2 1 0\nwritten 14\np cnf 1 1\n1 0\nwritten 28\np cnf 2 3\n2 1 0\n1 0\n-2 -1 0\n",
    ),
    (
        "group-equal-clauses",
        "p cnf 3 4\n3 1 0\n2 0\n3 1 0\n2 0\n",
        "group 1 99\ngroup 2 99\n",
        "loaded 3 4 0\nwritten 22\np cnf 2 2\n2 1 0\n2 1 0\nwritten 18\np cnf 1 2\n1 0\n1 0\n",
    ),
    // numbers of two digits become numbers of one
    (
        "group-numbers-of-more-digits",
        "p cnf 104 3\n104 -12 0\n-11 100 0\n12 99 0\n",
        "group 1 99\ngroup 2 99\n",
        "loaded 104 3 0\nwritten 17\np cnf 2 1\n-1 2 0\nwritten 23\np cnf 3 2\n3 -1 0\n1 2 0\n",
    ),
    (
        "group-clauses-of-all-lengths",
        "p cnf 8 4\n8 7 -6 5 -4 3 0\n-3 0\n1 -2 0\n5 -8 6 0\n",
        "group 1 99\ngroup 2 99\n",
        "loaded 8 4 0\nwritten 17\np cnf 2 1\n1 -2 0\nwritten 40\np cnf 6 3\n6 5 -4 3 -2 1 0\n-1 0\n3 -6 4 0\n",
    ),
    // what was written is loaded, and is one group
    (
        "group-written-and-loaded",
        "p cnf 6 3\n1 -3 0\n-2 4 0\n3 5 0\n",
        "group 1 23\nload 23\np cnf 3 2\n1 -2 0\n2 3 0\n\ngroups 3\ngroup 1 23\ngroup 2 23\nwrite 23\n",
        "loaded 6 3 0\nwritten 23\np cnf 3 2\n1 -2 0\n2 3 0\nloaded 3 2 0\ngroups 1\n1 1 1\nwritten 23\np cnf 3 2\n1 -2 0\n2 3 0\nrefused 17 0\nwritten 23\np cnf 3 2\n1 -2 0\n2 3 0\n",
    ),
    // the texts of a join are its groups again
    (
        "groups-of-a-join",
        "p cnf 0 0\n",
        "join 23 26\np cnf 3 2\n1 -2 0\n2 3 0\np cnf 3 2\n-1 2 3 0\n1 -3 0\n\ngroups 6\ngroup 1 99\ngroup 2 99\njoin 23 26 2 3\np cnf 3 2\n1 -2 0\n2 3 0\np cnf 3 2\n-1 2 3 0\n1 -3 0\n\ngroups 5\n",
        "loaded 0 0 0\nloaded 6 4 0\ngroups 2\n1 1 1 2 2 2\nwritten 23\np cnf 3 2\n1 -2 0\n2 3 0\nwritten 26\np cnf 3 2\n-1 2 3 0\n1 -3 0\nloaded 5 4 0\ngroups 1\n1 1 1 1 1\n",
    ),
];

const BEHIND_CALLS: &[Lines] = &[
    // 1 has a value and is in no clause any more; both clauses lose -1
    (
        "groups-taken-apart-by-propagate",
        "p cnf 5 3\n1 0\n-1 2 3 0\n4 -1 5 0\n",
        "groups 5\npropagate 65535\ngroups 5\ngroup 1 99\ngroup 2 99\ngroup 3 99\n",
        "loaded 5 3 0\ngroups 1\n1 1 1 1 1\ndone 6 1 3\ngroups 2\n0 1 1 2 2\nwritten 16\np cnf 2 1\n1 2 0\nwritten 16\np cnf 2 1\n1 2 0\nrefused 17 0\n",
    ),
    // the unit drops all clauses of 2 and 3
    (
        "groups-clauses-dropped-by-propagate",
        "p cnf 5 4\n2 1 0\n1 0\n3 -2 1 0\n4 -5 0\n",
        "groups 5\npropagate 65535\ngroups 5\nvariables\ngroup 1 99\n",
        "loaded 5 4 0\ngroups 2\n1 1 1 2 2\ndone 12 3 6\ngroups 1\n0 0 0 1 1\n1 1\n2 0\n3 0\n4 0\n5 0\nwritten 17\np cnf 2 1\n1 -2 0\n",
    ),
    (
        "groups-all-dropped-by-propagate",
        "p cnf 3 2\n1 0\n1 -3 0\n",
        "propagate 65535\ngroups 3\ngroup 1 99\nwrite 99\n",
        "loaded 3 2 0\ndone 4 2 3\ngroups 0\n0 0 0\nrefused 17 0\nwritten 14\np cnf 3 1\n1 0\n",
    ),
    // P7 and two clauses more: 2 is 1
    (
        "groups-merged-variables",
        "p cnf 5 4\n-1 2 0\n-2 1 0\n2 3 0\n-2 5 0\n",
        "groups 5\nmerge 65535\nvariables\ngroups 5\ngroup 1 99\nwrite 99\n",
        "loaded 5 4 0\ngroups 1\n1 1 1 0 1\ndone 4 2 4\n1 0\n1 0\n3 0\n4 0\n5 0\ngroups 1\n1 0 1 0 1\nwritten 23\np cnf 3 2\n1 2 0\n-1 3 0\nwritten 37\np cnf 5 4\n2 -1 0\n-2 1 0\n1 3 0\n-1 5 0\n",
    ),
    // 4 is -2, so 2 is in a clause that had 4 alone
    (
        "groups-merged-variables-of-both-signs",
        "p cnf 5 4\n2 4 0\n-2 -4 0\n4 5 0\n1 3 0\n",
        "merge 65535\ngroups 5\ngroup 1 99\ngroup 2 99\n",
        "loaded 5 4 0\ndone 4 2 4\ngroups 2\n1 2 1 0 2\nwritten 16\np cnf 2 1\n1 2 0\nwritten 17\np cnf 2 1\n-1 2 0\n",
    ),
    // P9
    (
        "groups-unit-left-by-merge",
        "p cnf 4 5\n2 3 0\n-3 -1 0\n1 2 0\n-2 4 0\n-4 1 0\n",
        "groups 4\nmerge 65535\ngroups 4\ngroup 1 99\nvariables\n",
        "loaded 4 5 0\ngroups 1\n1 1 1 1\ndone 5 4 9\ngroups 1\n1 0 0 0\nwritten 14\np cnf 1 1\n1 0\n1 0\n1 0\n-1 0\n1 0\n",
    ),
    // P6: 1 fails and is in both clauses
    (
        "groups-valued-variable-in-a-clause",
        "p cnf 2 2\n-1 2 0\n-1 -2 0\n",
        "stamp 1 -1 2 -2\nfailed\nvariables\ngroups 2\ngroup 1 99\nsweep 65535\ngroups 2\ngroup 1 99\n",
        "loaded 2 2 0\nstamped\nfailed 1\n1 -1\n2 0\ngroups 1\n1 1\nwritten 25\np cnf 2 2\n-1 2 0\n-1 -2 0\ndone 2 0 2\ngroups 1\n1 0\nwritten 20\np cnf 1 2\n-1 0\n-1 0\n",
    ),
    // P5
    (
        "groups-clause-dropped-by-sweep",
        "p cnf 4 3\n-1 2 0\n-2 3 0\n-1 3 4 0\n",
        "stamp 1 -1 2 -2 3 -3 4 -4\ngroups 4\nsweep 65535\ngroups 4\ngroup 1 99\n",
        "loaded 4 3 0\nstamped\ngroups 1\n1 1 1 1\ndone 3 1 3\ngroups 1\n1 1 1 0\nwritten 24\np cnf 3 2\n-1 2 0\n-2 3 0\n",
    ),
    // 1 is [1,10], 2 [2,5], -1 [3,4], -2 [6,9], 3 [7,8], -3 [11,12]: 2 goes, for it holds -1, and -2, for 1 holds 2
    (
        "groups-taken-apart-by-sweep",
        "p cnf 3 3\n-1 2 0\n-1 -2 0\n2 3 0\n",
        "stamp 1 -1 2 -2 3 -3\ngroups 3\nsweep 65535\ngroups 3\ngroup 1 99\ngroup 2 99\n",
        "loaded 3 3 0\nstamped\ngroups 1\n1 1 1\ndone 3 0 2\ngroups 2\n1 2 2\nwritten 20\np cnf 1 2\n-1 0\n-1 0\nwritten 16\np cnf 2 1\n1 2 0\n",
    ),
    // the same, looked at between the visits
    (
        "groups-between-two-calls-of-a-sweep",
        "p cnf 3 3\n-1 2 0\n-1 -2 0\n2 3 0\n",
        "stamp 1 -1 2 -2 3 -3\nsweep 1\ngroups 3\ngroup 1 99\nstate\nsweep 1\ngroups 3\ngroup 1 99\nsweep 1\ngroups 3\n",
        "loaded 3 3 0\nstamped\nopen 1 0 1\nrefused 4 0\nrefused 4 0\nstate 3 3 3 1 0 1 0\nopen 1 0 1\nrefused 4 0\nrefused 4 0\ndone 1 0 0\ngroups 2\n1 2 2\n",
    ),
    // what the values leave of them is of one variable less
    (
        "groups-behind-failed-and-propagate",
        "p cnf 5 5\n-1 2 0\n-1 -2 0\n1 3 4 0\n5 0\n2 5 3 0\n",
        "groups 5\npropagate 65535\nstamp 1 -1 2 -2 3 -3 4 -4 5 -5\nfailed\ngroups 5\npropagate 65535\ngroups 5\ngroup 1 99\n",
        "loaded 5 5 0\ngroups 1\n1 1 1 1 1\ndone 10 2 4\nstamped\nfailed 1\ngroups 1\n1 1 1 1 0\ndone 10 2 5\ngroups 1\n0 0 1 1 0\nwritten 16\np cnf 2 1\n1 2 0\n",
    ),
    (
        "groups-behind-run",
        "p cnf 4 3\n-1 2 0\n-2 3 0\n1 3 4 0\n",
        "run 1\ngroups 4\ngroup 1 99\n",
        "loaded 4 3 0\nran 1\ngroups 1\n1 1 1 1\nwritten 30\np cnf 4 3\n-1 2 0\n-2 3 0\n3 4 0\n",
    ),
    (
        "groups-behind-another-load",
        "p cnf 6 3\n1 -3 0\n-2 4 0\n3 5 0\n",
        "groups 6\nload 21\np cnf 3 2\n3 -1 0\n2 0\n\ngroups 3\nload 1\nx\ngroups 3\ngroup 2 14\n",
        "loaded 6 3 0\ngroups 2\n1 2 1 2 1 0\nloaded 3 2 0\ngroups 2\n1 2 1\nrefused 2 0\ngroups 2\n1 2 1\nwritten 14\np cnf 1 1\n1 0\n",
    ),
];

/// Formulas that are taken apart: one Stamp and one Sweep on the whole, then on each
/// group by itself under the order without the other literals.
const PARTS: &[Lines] = &[
    // P2 on 1, 3, 5, 7 and P3 on 2, 4, 6
    (
        "groups-parts-simplified",
        "p cnf 7 6\n-1 3 0\n-2 4 0\n-3 5 0\n-4 6 0\n1 5 7 0\n-2 6 0\n",
        "groups 7\ngroup 1 99\ngroup 2 99\nstamp 1 -1 2 -2 3 -3 4 -4 5 -5 6 -6 7 -7\nsweep 65535\ngroups 7\ngroup 1 99\ngroup 2 99\nload 32\np cnf 4 3\n-1 2 0\n-2 3 0\n1 3 4 0\n\nstamp 1 -1 2 -2 3 -3 4 -4\nsweep 65535\nwrite 99\nload 31\np cnf 3 3\n-1 2 0\n-2 3 0\n-1 3 0\n\nstamp 1 -1 2 -2 3 -3\nsweep 65535\nwrite 99\n",
        "loaded 7 6 0\ngroups 2\n1 2 1 2 1 2 1\nwritten 32\np cnf 4 3\n-1 2 0\n-2 3 0\n1 3 4 0\nwritten 31\np cnf 3 3\n-1 2 0\n-2 3 0\n-1 3 0\nstamped\ndone 6 1 3\ngroups 2\n1 2 1 2 1 2 1\nwritten 30\np cnf 4 3\n-1 2 0\n-2 3 0\n3 4 0\nwritten 24\np cnf 3 2\n-1 2 0\n-2 3 0\nloaded 4 3 0\nstamped\ndone 3 0 1\nwritten 30\np cnf 4 3\n-1 2 0\n-2 3 0\n3 4 0\nloaded 3 3 0\nstamped\ndone 3 1 2\nwritten 24\np cnf 3 2\n-1 2 0\n-2 3 0\n",
    ),
    // the same, each Sweep in several calls
    (
        "groups-parts-simplified-by-several-calls",
        "p cnf 7 6\n-1 3 0\n-2 4 0\n-3 5 0\n-4 6 0\n1 5 7 0\n-2 6 0\n",
        "stamp 1 -1 2 -2 3 -3 4 -4 5 -5 6 -6 7 -7\nsweep 0\nsweep 4\nsweep 1\nsweep 1\nliterals\nload 32\np cnf 4 3\n-1 2 0\n-2 3 0\n1 3 4 0\n\nstamp 1 -1 2 -2 3 -3 4 -4\nsweep 2\nsweep 1\nliterals\nload 31\np cnf 3 3\n-1 2 0\n-2 3 0\n-1 3 0\n\nstamp 1 -1 2 -2 3 -3\nsweep 1\nsweep 1\nsweep 1\nliterals\n",
        "loaded 7 6 0\nstamped\nopen 0 0 0\nopen 4 0 0\nopen 1 0 1\ndone 1 1 2\nliterals -1 3 -2 4 -3 5 -4 6 5 7\nloaded 4 3 0\nstamped\nopen 2 0 0\ndone 1 0 1\nliterals -1 2 -2 3 3 4\nloaded 3 3 0\nstamped\nopen 1 0 0\nopen 1 0 0\ndone 1 1 2\nliterals -1 2 -2 3\n",
    ),
    // (1 3 5) is left (3 5) under this order, whose share is 4 -4 5 -5 1 -1 2 -2 3 -3
    (
        "groups-parts-under-another-order",
        "p cnf 9 6\n-1 3 0\n2 6 0\n-5 1 0\n-7 1 0\n-9 -1 0\n1 3 5 0\n",
        "group 1 99\ngroup 2 99\nstamp 7 2 -7 9 -9 -2 1 -1 -8 3 4 -3 5 -6 6 -5 8 -4\nsweep 65535\nliterals\nload 47\np cnf 5 5\n-1 2 0\n-3 1 0\n-4 1 0\n-5 -1 0\n1 2 3 0\n\nstamp 4 -4 5 -5 1 -1 2 -2 3 -3\nsweep 65535\nliterals\n",
        "loaded 9 6 0\nwritten 47\np cnf 5 5\n-1 2 0\n-3 1 0\n-4 1 0\n-5 -1 0\n1 2 3 0\nwritten 16\np cnf 2 1\n1 2 0\nstamped\ndone 6 0 1\nliterals -1 3 2 6 -5 1 -7 1 -9 -1 3 5\nloaded 5 5 0\nstamped\ndone 5 0 1\nliterals -1 2 -3 1 -4 1 -5 -1 2 3\n",
    ),
    // (3) under this one, whose share is 3 -3 1 -1 2 -2 4 -4 5 -5
    (
        "groups-parts-under-a-third-order",
        "p cnf 9 6\n-1 3 0\n2 6 0\n-5 1 0\n-7 1 0\n-9 -1 0\n1 3 5 0\n",
        "stamp 8 -8 5 -5 1 -1 -2 3 -3 -4 7 6 -7 9 -9 2 4 -6\nsweep 65535\nliterals\nload 47\np cnf 5 5\n-1 2 0\n-3 1 0\n-4 1 0\n-5 -1 0\n1 2 3 0\n\nstamp 3 -3 1 -1 2 -2 4 -4 5 -5\nsweep 65535\nliterals\n",
        "loaded 9 6 0\nstamped\ndone 6 0 2\nliterals -1 3 2 6 -5 1 -7 1 -9 -1 3\nloaded 5 5 0\nstamped\ndone 5 0 2\nliterals -1 2 -3 1 -4 1 -5 -1 2\n",
    ),
    // a Sweep takes the first group apart; its text is of the groups before the Stamp
    (
        "groups-part-that-falls-apart",
        "p cnf 5 4\n-1 4 0\n2 -3 0\n-1 -4 0\n4 5 0\n",
        "groups 5\ngroup 1 99\nstamp 1 -1 2 -2 3 -3 4 -4 5 -5\nsweep 65535\ngroups 5\nliterals\nload 31\np cnf 3 3\n-1 2 0\n-1 -2 0\n2 3 0\n\nstamp 1 -1 2 -2 3 -3\nsweep 65535\ngroups 3\nliterals\n",
        "loaded 5 4 0\ngroups 2\n1 2 2 1 1\nwritten 31\np cnf 3 3\n-1 2 0\n-1 -2 0\n2 3 0\nstamped\ndone 4 0 2\ngroups 3\n1 2 2 3 3\nliterals -1 0 2 -3 -1 0 4 5\nloaded 3 3 0\nstamped\ndone 3 0 2\ngroups 2\n1 2 2\nliterals -1 0 -1 0 2 3\n",
    ),
];
