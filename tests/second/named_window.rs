//! Named cases of the window: what it holds, how the eldest leaves, tables that
//! are lent short or long, damaged windows, loads that empty it, and lines that
//! are none.

use crate::named::{with_calls, Case};
use crate::named_learn::{behind_stamp, Calls, CHAIN};

/// A name, a text, the calls behind its load, and what all of them print.
type Lines = (&'static str, &'static str, &'static str, &'static str);

/// The cases on P2 behind its Stamp, then those of one load and no Stamp.
pub fn cases() -> Vec<Case> {
    let on_a_chain = LENT.iter().chain(DAMAGED).chain(LOADS);
    let others = ON_OTHERS.iter().map(with_calls);
    on_a_chain.map(behind_stamp).chain(others).collect()
}

const LENT: &[Calls] = &[
    (
        "window-63-sizes",
        "lend sizes 63\nlearn 4\nwindow\nlend sizes 64\nlearn 4\nwindow\n",
        "refused 1 0\nwindow 0 0\nkept 1\nwindow 1 1\n1 4\n",
    ),
    (
        "window-4095-learnt",
        "lend learnt 4095\nlearn 4\nwindow\nlend learnt 4096\nlearn 4\nwindow\n",
        "refused 1 0\nwindow 0 0\nkept 1\nwindow 1 1\n1 4\n",
    ),
    (
        "window-nothing-lent",
        "learn 2 4\nlend sizes 0\nlearn 4\nlend learnt 0\nlearn 4\nwindow\nlend sizes 64\nlearn 4\nlend learnt 4096\nlearn 4\nwindow\n",
        "kept 2\nrefused 1 0\nrefused 1 0\nwindow 1 2\n2 2 4\nrefused 1 0\nkept 1\nwindow 2 3\n2 2 4\n1 4\n",
    ),
    // for as many clauses as there are, and more
    (
        "window-short-though-enough",
        "learn 4\nlend sizes 2\nlearn 4\nlend sizes 64\nlend learnt 128\nlearn 4\nlend learnt 4096\nwindow\n",
        "kept 1\nrefused 1 0\nrefused 1 0\nwindow 1 1\n1 4\n",
    ),
    (
        "window-longer",
        "lend sizes 65\nlend learnt 4097\nlearn 4\nlend sizes 80\nlend learnt 4112\nlearn 2\nwindow\nlend sizes 64\nlend learnt 4096\nlearn 3\nwindow\n",
        "kept 1\nkept 1\nwindow 2 2\n1 4\n1 2\nkept 1\nwindow 3 3\n1 4\n1 2\n1 3\n",
    ),
    // the extra places are not judged, lent or not
    (
        "window-extra-places",
        "set sizes 64 0 4294967295\nset sizes 79 0 65\nset learnt 4096 0 -2147483648\nset learnt 4111 0 2147483647\nlearn 4\nlend sizes 80\nlend learnt 4112\nlearn 2\nlend sizes 64\nlend learnt 4096\nset sizes 64 0 0\nset sizes 79 0 0\nset learnt 4096 0 0\nset learnt 4111 0 0\nwindow\n",
        "kept 1\nkept 1\nwindow 2 2\n1 4\n1 2\n",
    ),
    // the calls that take no window do not judge it
    (
        "window-other-calls-do-not-take-it",
        "lend sizes 0\nlend learnt 0\nset window 0 65\nlearn 4\nfailed\nsweep 65535\npropagate 65535\nmerge 65535\nstamp 1 -1 2 -2 3 -3 4 -4\nrun 0\nwrite 256\nprogramme 1\nlearn 4\nset window 0 0\nlearn 4\nlend sizes 64\nlend learnt 4096\nlearn 4\nwindow\n",
        "refused 1 0\nfailed 0\ndone 3 0 1\ndone 3 0 0\ndone 3 0 0\nstamped\nran 0\nwritten 30\np cnf 4 3\n-1 2 0\n-2 3 0\n3 4 0\nset\nrefused 1 0\nrefused 1 0\nkept 1\nwindow 1 1\n1 4\n",
    ),
];

const DAMAGED: &[Calls] = &[
    (
        "window-count-65",
        "set window 0 65\nlearn 4\nset window 0 0\nlearn 4\nwindow\n",
        "refused 1 0\nkept 1\nwindow 1 1\n1 4\n",
    ),
    // the places of 65 clauses are there and all right
    (
        "window-count-65-longer",
        "lend sizes 80\nlend learnt 4112\nset window 0 65\nlearn 4\nset sizes 64 0 1\nset learnt 4096 0 4\nset window 1 1\nlearn 4\nset sizes 64 0 0\nset learnt 4096 0 0\nset window 0 0\nset window 1 0\nlend sizes 64\nlend learnt 4096\nlearn 4\n",
        "refused 1 0\nrefused 1 0\nkept 1\n",
    ),
    (
        "window-count-largest",
        "set window 0 4294967295\nlearn 4\nset window 0 2147483648\nlearn 4\nset window 0 256\nlearn 4\nset window 0 0\nlearn 4\n",
        "refused 1 0\nrefused 1 0\nrefused 1 0\nkept 1\n",
    ),
    (
        "window-total-without-clauses",
        "set window 1 1\nlearn 4\nset window 1 4294967295\nlearn 4\nset window 1 0\nlearn 4\nwindow\n",
        "refused 1 0\nrefused 1 0\nkept 1\nwindow 1 1\n1 4\n",
    ),
    (
        "window-wrong-total",
        "learn 4 2\nlearn 3\nset window 1 2\nlearn 4\nset window 1 4\nlearn 4\nset window 1 0\nlearn 4\nset window 1 4294967295\nlearn 4\nset window 1 3\nlearn 4\nwindow\n",
        "kept 2\nkept 1\nrefused 1 0\nrefused 1 0\nrefused 1 0\nrefused 1 0\nkept 1\nwindow 3 4\n2 4 2\n1 3\n1 4\n",
    ),
    // the total is also judged where the newcomer would be dropped
    (
        "window-wrong-total-dropped",
        "learn 4\nset window 1 2\nlearn -1 3\nset window 1 1\nlearn -1 3\nwindow\n",
        "kept 1\nrefused 1 0\ndropped\nwindow 1 1\n1 4\n",
    ),
    // a clause too few or too many for the total
    (
        "window-wrong-count",
        "learn 4\nlearn 2\nset window 0 1\nlearn 4\nset window 0 3\nset window 1 3\nlearn 4\nset window 0 2\nset window 1 2\nlearn 4\nwindow\n",
        "kept 1\nkept 1\nrefused 1 0\nrefused 1 0\nkept 1\nwindow 3 3\n1 4\n1 2\n1 4\n",
    ),
    // an empty clause counts and adds nothing
    (
        "window-one-clause-more",
        "learn 4\nset window 0 2\nlearn 2\nwindow\n",
        "kept 1\nkept 1\nwindow 3 2\n1 4\n0\n1 2\n",
    ),
    // a clause less, with its size taken from the total: the next goes in its place
    (
        "window-one-clause-less",
        "learn 4\nlearn 2 -3\nset window 0 1\nset window 1 1\nlearn 3\nset sizes 1 0 2\nwindow\n",
        "kept 1\nkept 2\nkept 1\nwindow 2 2\n1 4\n2 3 0\n",
    ),
    (
        "window-literal-0",
        "set window 0 1\nset window 1 1\nset sizes 0 0 1\nlearn 4\nset learnt 0 0 4\nlearn 4\nset learnt 0 0 0\nlearn 4\nset learnt 0 0 2\nset window 1 3\nset sizes 0 0 2\nlearn 4\nset learnt 1 0 3\nlearn 4\nwindow\n",
        "refused 1 0\nkept 1\nrefused 1 0\nrefused 1 0\nkept 1\nwindow 3 4\n2 2 3\n1 4\n1 4\n",
    ),
    (
        "window-literal-out-of-range",
        "learn 4 2\nset learnt 1 0 5\nlearn 4\nset learnt 1 0 -5\nlearn 4\nset learnt 1 0 2147483647\nlearn 4\nset learnt 1 0 -2147483648\nlearn 4\nset learnt 1 0 -3\nlearn 4\nset learnt 1 0 3\nset learnt 0 0 5\nlearn 4\nset learnt 0 0 -4\nlearn 4\nwindow\n",
        "kept 2\nrefused 1 0\nrefused 1 0\nrefused 1 0\nrefused 1 0\nkept 1\nrefused 1 0\nkept 1\nwindow 3 4\n2 -4 3\n1 4\n1 4\n",
    ),
    (
        "window-variable-twice",
        "learn 4 -3 2\nset learnt 2 0 4\nlearn 4\nset learnt 2 0 -4\nlearn 4\nset learnt 2 0 3\nlearn 4\nset learnt 2 0 -3\nlearn 4\nset learnt 2 0 2\nlearn 4\nwindow\n",
        "kept 3\nrefused 1 0\nrefused 1 0\nrefused 1 0\nrefused 1 0\nkept 1\nwindow 2 4\n3 4 -3 2\n1 4\n",
    ),
    // a variable in two clauses is allowed, and what the stamps say of a clause in the window plays no part
    (
        "window-clauses-that-learn-would-not-leave",
        "learn 4\nset sizes 1 0 3\nset learnt 64 0 -1\nset learnt 65 0 3\nset learnt 66 0 4\nset sizes 2 0 2\nset learnt 128 0 1\nset learnt 129 0 2\nset window 0 3\nset window 1 6\nlearn 4\nwindow\n",
        "kept 1\nkept 1\nwindow 4 7\n1 4\n3 -1 3 4\n2 1 2\n1 4\n",
    ),
    // the second and the third clause are judged as the first
    (
        "window-later-clauses",
        "learn 4\nlearn 2 4\nlearn 3\nset learnt 65 0 -2\nlearn 4\nset learnt 65 0 4\nset learnt 128 0 0\nlearn 4\nset learnt 128 0 5\nlearn 4\nset learnt 128 0 3\nset sizes 2 0 2\nset window 1 5\nlearn 4\nset learnt 129 0 3\nlearn 4\nset learnt 129 0 1\nlearn 4\nwindow\n",
        "kept 1\nkept 2\nkept 1\nrefused 1 0\nrefused 1 0\nrefused 1 0\nrefused 1 0\nrefused 1 0\nkept 1\nwindow 4 6\n1 4\n2 2 4\n2 3 1\n1 4\n",
    ),
    (
        "window-behind-the-literals",
        "learn 4 2\nset learnt 2 0 99\nset learnt 3 0 4\nset learnt 63 0 -2147483648\nlearn 4\nwindow\nset sizes 0 0 4\nwindow\n",
        "kept 2\nkept 1\nwindow 2 3\n2 4 2\n1 4\nwindow 2 3\n4 4 2 99 4\n1 4\n",
    ),
    (
        "window-behind-the-count",
        "learn 4\nset sizes 2 0 65\nset sizes 63 0 4294967295\nset learnt 128 0 -2147483648\nset learnt 4095 0 5\nlearn 2\nwindow\nset window 0 3\nset sizes 2 0 2\nwindow\n",
        "kept 1\nkept 1\nwindow 2 2\n1 4\n1 2\nwindow 3 2\n1 4\n1 2\n2 -2147483648 0\n",
    ),
    // the 64 places of the next record get the literals and 0 behind them
    (
        "window-rest-is-0",
        "set sizes 0 0 9\nset learnt 0 0 9\nset learnt 1 0 9\nset learnt 2 0 9\nset learnt 5 0 9\nset learnt 64 0 9\nlearn 1 3 4\nset sizes 0 0 7\nset sizes 1 0 2\nset window 0 2\nwindow\n",
        "shortened 2\nwindow 2 2\n7 3 4 0 0 0 0 0\n2 9 0\n",
    ),
    (
        "window-rest-is-0-behind-an-empty-one",
        "set sizes 0 0 9\nset learnt 0 0 9\nset learnt 1 0 9\nlearn\nset sizes 0 0 2\nwindow\n",
        "kept 0\nwindow 1 0\n2 0 0\n",
    ),
    // a dropped newcomer and a refused one write nothing
    (
        "window-dropped-writes-nothing",
        "set sizes 0 0 9\nset learnt 0 0 9\nset learnt 1 0 8\nlearn -1 3\nlearn 4 4\nset window 0 1\nset sizes 0 0 2\nwindow\n",
        "dropped\nrefused 11 0\nwindow 1 0\n2 9 8\n",
    ),
];

const LOADS: &[Calls] = &[
    (
        "window-load-empties-it",
        "learn 1 3 4\nlearn 4\nload 10\np cnf 1 0\n\nwindow\nset window 0 3\nset sizes 0 0 2\nset sizes 1 0 1\nwindow\n",
        "shortened 2\nkept 1\nloaded 1 0 0\nwindow 0 0\nwindow 3 0\n2 0 0\n1 0\n0\n",
    ),
    (
        "window-load-empties-a-damaged-one",
        "set window 0 4294967295\nset window 1 4294967295\nset sizes 0 0 65\nset sizes 1 0 4294967295\nset learnt 0 0 -2147483648\nset learnt 63 0 7\nset learnt 64 0 7\nlearn 4\nload 10\np cnf 1 0\n\nwindow\nset window 0 2\nwindow\nset window 0 0\nstamp 1 -1\nlearn 1\nwindow\n",
        "refused 1 0\nloaded 1 0 0\nwindow 0 0\nwindow 2 0\n0\n0\nstamped\nkept 1\nwindow 1 1\n1 1\n",
    ),
    // the load sets the mark
    (
        "window-load-with-the-mark-empties-it",
        "learn 4 2\nload 12\np cnf 1 1\n0\n\nwindow\nset window 0 1\nset sizes 0 0 2\nwindow\n",
        "kept 2\nloaded 1 1 1\nwindow 0 0\nwindow 1 0\n2 0 0\n",
    ),
    (
        "window-load-refused-2-leaves-it",
        "learn 4 2\nload 1\nx\nwindow\nlearn 3\nwindow\n",
        "kept 2\nrefused 2 0\nwindow 1 2\n2 4 2\nkept 1\nwindow 2 3\n2 4 2\n1 3\n",
    ),
    (
        "window-load-refused-3-leaves-it",
        "learn 4 2\nload 13\np cnf 1025 0\n\nwindow\nlearn 3\nwindow\n",
        "kept 2\nrefused 3 6\nwindow 1 2\n2 4 2\nkept 1\nwindow 2 3\n2 4 2\n1 3\n",
    ),
    (
        "window-load-refused-1-leaves-it",
        "learn 4 2\nlend clauses 4095\nload 10\np cnf 1 0\n\nlend clauses 4096\nwindow\nlearn 3\nwindow\n",
        "kept 2\nrefused 1 0\nwindow 1 2\n2 4 2\nkept 1\nwindow 2 3\n2 4 2\n1 3\n",
    ),
    (
        "window-load-refused-leaves-a-damaged-one",
        "set window 0 3\nset window 1 4294967295\nset sizes 0 0 65\nset sizes 1 0 2\nset learnt 64 0 7\nload 1\nx\nset sizes 0 0 1\nwindow\nset window 0 0\nset window 1 0\n",
        "refused 2 0\nwindow 3 4294967295\n1 0\n2 7 0\n0\n",
    ),
    (
        "window-load-63-sizes",
        "learn 4 2\nlend sizes 63\nload 10\np cnf 1 0\n\nwindow\nstate\nlend sizes 64\nload 10\np cnf 1 0\n\nwindow\nstate\n",
        "kept 2\nrefused 1 0\nwindow 1 2\n2 4 2\nstate 4 3 0 0 0 1 0\nloaded 1 0 0\nwindow 0 0\nstate 1 0 0 0 0 0 0\n",
    ),
    (
        "window-load-4095-learnt",
        "learn 4 2\nlend learnt 4095\nload 10\np cnf 1 0\n\nwindow\nstate\nlend learnt 4096\nload 10\np cnf 1 0\n\nwindow\nstate\n",
        "kept 2\nrefused 1 0\nwindow 1 2\n2 4 2\nstate 4 3 0 0 0 1 0\nloaded 1 0 0\nwindow 0 0\nstate 1 0 0 0 0 0 0\n",
    ),
    // before the text is looked at
    (
        "window-load-1-before-2-and-3",
        "lend sizes 0\nload 1\nx\nload 13\np cnf 1025 0\n\nlend sizes 64\nlend learnt 0\nload 1\nx\nload 13\np cnf 1025 0\n\nlend learnt 4096\nload 1\nx\nload 13\np cnf 1025 0\n\n",
        "refused 1 0\nrefused 1 0\nrefused 1 0\nrefused 1 0\nrefused 2 0\nrefused 3 6\n",
    ),
    (
        "window-load-longer",
        "learn 4 2\nlend sizes 80\nlend learnt 4112\nload 10\np cnf 1 0\n\nwindow\nlend sizes 64\nlend learnt 4096\n",
        "kept 2\nloaded 1 0 0\nwindow 0 0\n",
    ),
    // the clauses in the window are judged by the V of the state
    (
        "window-load-then-the-old-clause",
        "learn 2\nload 10\np cnf 1 0\n\nstamp 1 -1\nset window 0 1\nset window 1 1\nset sizes 0 0 1\nset learnt 0 0 2\nlearn 1\nset learnt 0 0 -1\nlearn 1\nwindow\n",
        "kept 1\nloaded 1 0 0\nstamped\nrefused 1 0\nkept 1\nwindow 2 2\n1 -1\n1 1\n",
    ),
    (
        "window-later-loads-empty-it-again",
        "learn 2\nload 10\np cnf 1 0\n\nstamp 1 -1\nlearn 1\nload 10\np cnf 2 0\n\nstamp 1 -1 2 -2\nwindow\nlearn 1 2\nlearn 2\nwindow\n",
        "kept 1\nloaded 1 0 0\nstamped\nkept 1\nloaded 2 0 0\nstamped\nwindow 0 0\nkept 2\nkept 1\nwindow 2 3\n2 1 2\n1 2\n",
    ),
];

const ON_OTHERS: &[Lines] = &[
    // Runs and passes that spend the stamps or set the mark leave the window
    (
        "window-stays-under-the-mark",
        "p cnf 2 2\n-1 2 0\n-1 -2 0\n",
        "stamp 1 -1 2 -2\nlearn 2\nset variables 0 1 1\nfailed\nstate\nlearn 2\nwindow\n",
        "loaded 2 2 0\nstamped\nkept 1\nfailed 0\nstate 2 2 0 0 0 0 1\nrefused 5 0\nwindow 1 1\n1 2\n",
    ),
    (
        "window-stays-through-passes",
        "p cnf 3 3\n-1 2 0\n-2 1 0\n1 2 3 0\n",
        "merge 65535\nstamp 1 -1 2 -2 3 -3\nlearn 1 3\nlearn -2\npropagate 65535\nmerge 65535\nrun 1\nwindow\n",
        "loaded 3 3 0\ndone 3 2 5\nstamped\nkept 2\nkept 1\ndone 3 0 0\ndone 3 0 0\nran 1\nwindow 2 3\n2 1 3\n1 -2\n",
    ),
];

/// As many clauses as there may be, of as many literals.
pub fn large() -> Vec<Case> {
    vec![
        free(
            "window-64-clauses",
            units(1, 64) + "window\n",
            "kept 1\n".repeat(64) + "window 64 64\n" + &rows_of_units(1, 64),
        ),
        free(
            "window-65-clauses",
            units(1, 65) + "window\n",
            "kept 1\n".repeat(65) + "window 64 64\n" + &rows_of_units(2, 65),
        ),
        free(
            "window-66-clauses",
            units(1, 66) + "window\n",
            "kept 1\n".repeat(66) + "window 64 64\n" + &rows_of_units(3, 66),
        ),
        free(
            "window-all-64-leave",
            units(1, 100) + &units(1, 28) + "window\n",
            "kept 1\n".repeat(128) + "window 64 64\n" + &rows_of_units(65, 100) + &rows_of_units(1, 28),
        ),
        // 67 literals; then 3 leave and 1 comes, 2 leave and 4 come, 1 leaves and none comes
        free(
            "window-total-falls",
            format!(
                "learn 1 2 3\nlearn 4 5\n{}window\nlearn 68\nwindow\nlearn 69 -70 71 72\nwindow\nlearn\nwindow\n",
                units(6, 67)
            ),
            format!(
                "kept 3\nkept 2\n{}window 64 67\n3 1 2 3\n2 4 5\n{}kept 1\nwindow 64 65\n2 4 5\n{}1 68\nkept 4\nwindow 64 67\n{}1 68\n4 69 -70 71 72\nkept 0\nwindow 64 66\n{}1 68\n4 69 -70 71 72\n0\n",
                "kept 1\n".repeat(62),
                rows_of_units(6, 67),
                rows_of_units(6, 67),
                rows_of_units(6, 67),
                rows_of_units(7, 67)
            ),
        ),
        // an empty clause leaves
        free(
            "window-empty-clauses-leave",
            format!("learn\nlearn\n{}learn 63\nwindow\nlearn 64\nwindow\n", units(1, 62)),
            format!(
                "kept 0\nkept 0\n{}kept 1\nwindow 64 63\n0\n{}kept 1\nwindow 64 64\n{}",
                "kept 1\n".repeat(62),
                rows_of_units(1, 63),
                rows_of_units(1, 64)
            ),
        ),
        free(
            "learn-64-literals",
            format!("learn{}\nlearn{}\nwindow\n", rising(1, 64), falling(-37, -100)),
            format!("kept 64\nkept 64\nwindow 2 128\n64{}\n64{}\n", rising(1, 64), falling(-37, -100)),
        ),
        free(
            "learn-11-65-literals",
            format!(
                "learn{}\nlearn{}\nlearn{}\nlearn{}\nwindow\n",
                rising(1, 65),
                rising(1, 66),
                rising(1, 100),
                rising(1, 63)
            ),
            format!(
                "{}kept 63\nwindow 1 63\n63{}\n",
                "refused 11 0\n".repeat(3),
                rising(1, 63)
            ),
        ),
        // the last of 64 literals is wrong
        free(
            "learn-11-64th-literal",
            ["0", "1", "-1", "63", "-63", "101", "-101", "64"]
                .map(|last| format!("learn{} {last}\n", rising(1, 63)))
                .concat()
                + "window\n",
            format!(
                "{}kept 64\nwindow 1 64\n64{}\n",
                "refused 11 0\n".repeat(7),
                rising(1, 64)
            ),
        ),
        free(
            "learn-11-4096-literals",
            format!("learn{}\nlearn{}\nwindow\n", " 1".repeat(4_096), " 0".repeat(65)),
            "refused 11 0\nrefused 11 0\nwindow 0 0\n".to_string(),
        ),
        free(
            "learn-9-before-11-65-literals",
            format!("set state 5 0\nlearn{}\nset state 5 1\nlearn{}\n", rising(1, 65), rising(1, 65)),
            "refused 9 0\nrefused 11 0\n".to_string(),
        ),
        // 64 clauses of 64 literals, and one more; then one of one literal
        free(
            "window-4096-literals",
            (1..=65).map(|k| format!("learn{}\n", turned(k))).collect::<String>()
                + "window\nlearn 100\nwindow\n",
            format!(
                "{}window 64 4096\n{}kept 1\nwindow 64 4033\n{}1 100\n",
                "kept 64\n".repeat(65),
                rows_of_turned(2, 65),
                rows_of_turned(3, 65)
            ),
        ),
        // with 64 clauses of 64 literals each rule of the window is still judged in the last
        free(
            "window-last-place",
            (1..=64).map(|k| format!("learn{}\n", turned(k))).collect::<String>()
                + "set learnt 4095 0 0\nlearn 1\nset learnt 4095 0 101\nlearn 1\nset learnt 4095 0 65\nlearn 1\nset learnt 4095 0 -28\nset window 1 4095\nlearn 1\nset window 1 4096\nset sizes 63 0 65\nlearn 1\nset window 1 4097\nlearn 1\nset sizes 63 0 63\nset window 1 4095\nlearn 1\nwindow\n",
            format!(
                "{}{}kept 1\nwindow 64 4032\n{}63{}\n1 1\n",
                "kept 64\n".repeat(64),
                "refused 1 0\n".repeat(6),
                rows_of_turned(2, 63),
                turned(64).rsplit_once(' ').map_or("", |(front, _)| front)
            ),
        ),
        // 65 good literals from place 0 on, of which a record holds 64
        free(
            "window-size-65",
            format!(
                "learn{}\nlearn 65\nset sizes 0 0 65\nset window 1 66\nlearn 1\nset sizes 0 0 64\nset window 1 65\nlearn 1\nwindow\n",
                rising(1, 64)
            ),
            format!(
                "kept 64\nkept 1\nrefused 1 0\nkept 1\nwindow 3 66\n64{}\n1 65\n1 1\n",
                rising(1, 64)
            ),
        ),
        // sizes that make the total only by their last 32 bits
        free(
            "window-sizes-past-2-to-the-32",
            "learn 1\nlearn 2\nset sizes 0 0 4294967295\nset sizes 1 0 3\nlearn 1\nset sizes 1 0 1\nset window 1 0\nlearn 1\n"
                .to_string(),
            "kept 1\nkept 1\nrefused 1 0\nrefused 1 0\n".to_string(),
        ),
        // all that lies behind the literals moves with its clause, and the last record is overwritten whole
        free(
            "window-places-behind-the-literals-move",
            units(1, 64)
                + "set learnt 66 0 77\nset learnt 127 0 -5\nset learnt 4034 0 8\nset learnt 4095 0 9\nlearn 65\nset sizes 0 0 64\nset sizes 62 0 64\nset sizes 63 0 64\nwindow\n",
            format!(
                "{}window 64 64\n64 2 0 77{} -5\n{}64 64 0 8{} 9\n64 65{}\n",
                "kept 1\n".repeat(65),
                " 0".repeat(60),
                rows_of_units(3, 63),
                " 0".repeat(60),
                " 0".repeat(63)
            ),
        ),
        // in record 0 what lies behind the literals leaves with the eldest
        free(
            "window-the-eldest-leaves-whole",
            units(1, 64)
                + "set learnt 1 0 7\nset learnt 63 0 7\nlearn 65\nset sizes 0 0 64\nwindow\n",
            format!(
                "{}window 64 64\n64 2{}\n{}",
                "kept 1\n".repeat(65),
                " 0".repeat(63),
                rows_of_units(3, 65)
            ),
        ),
        // 64 empty clauses that `set` has made
        free(
            "window-count-64",
            "set window 0 64\nlearn 7\nwindow\n".to_string(),
            format!("kept 1\nwindow 64 1\n{}1 7\n", "0\n".repeat(63)),
        ),
        free(
            "window-printed-with-a-large-count",
            "learn 7\nset window 0 65\nset window 1 9\nwindow\nset window 0 4294967295\nwindow\nset window 0 0\nwindow\nset window 1 0\n"
                .to_string(),
            format!(
                "kept 1\nwindow 65 9\n1 7\n{}window 4294967295 9\n1 7\n{}window 0 9\n",
                "0\n".repeat(63),
                "0\n".repeat(63)
            ),
        ),
        // of a record 64 places are printed, whatever its size
        free(
            "window-printed-with-a-large-size",
            "learn 7\nlearn 8\nset sizes 0 0 4294967295\nset sizes 1 0 65\nwindow\n".to_string(),
            format!(
                "kept 1\nkept 1\nwindow 2 2\n4294967295 7{}\n65 8{}\n",
                " 0".repeat(63),
                " 0".repeat(63)
            ),
        ),
        // whatever is lent
        free(
            "window-printed-with-nothing-lent",
            units(1, 64) + "lend sizes 0\nlend learnt 0\nwindow\nlend sizes 64\nlend learnt 4096\n",
            "kept 1\n".repeat(64) + "window 64 64\n" + &rows_of_units(1, 64),
        ),
        // the first and the last places
        free(
            "window-load-empties-all-places",
            (1..=64).map(|k| format!("learn{}\n", turned(k))).collect::<String>()
                + "load 10\np cnf 1 0\n\nwindow\nset window 0 64\nwindow\n"
                + &(0..64).map(|k| format!("set sizes {k} 0 64\n")).collect::<String>()
                + "window\n",
            format!(
                "{}loaded 1 0 0\nwindow 0 0\nwindow 64 0\n{}window 64 0\n{}",
                "kept 64\n".repeat(64),
                "0\n".repeat(64),
                format!("64{}\n", " 0".repeat(64)).repeat(64)
            ),
        ),
        // v implies v + 1: each literal but the last goes, of the complements each but the first
        case(
            "learn-64-literals-of-a-chain",
            chain_of_70(),
            format!(
                "stamp{}\nlearn{}\nlearn{}\nlearn -1{}\nlearn{}\nwindow\nset sizes 0 0 64\nwindow\n",
                both_signs(70),
                rising(1, 64),
                falling(-1, -64),
                rising(2, 64),
                rising(1, 65)
            ),
            format!(
                "loaded 70 69 0\nstamped\nshortened 1\nshortened 1\ndropped\nrefused 11 0\nwindow 2 2\n1 64\n1 -1\nwindow 2 2\n64 64{}\n1 -1\n",
                " 0".repeat(63)
            ),
        ),
        // P2 with a full window: what is dropped or refused moves nothing
        case(
            "window-full-and-nothing-leaves",
            CHAIN.as_bytes().to_vec(),
            format!(
                "stamp{}\nlearn 1 4\n{}learn -1 3\nlearn -1 3 4\nlearn 4 4\nlearn 0\nwindow\nlearn 1 3 4\nwindow\n",
                both_signs(4),
                "learn 4\n".repeat(63)
            ),
            format!(
                "loaded 4 3 0\nstamped\nkept 2\n{}dropped\ndropped\nrefused 11 0\nrefused 11 0\nwindow 64 65\n2 1 4\n{}shortened 2\nwindow 64 65\n{}2 3 4\n",
                "kept 1\n".repeat(63),
                "1 4\n".repeat(63),
                "1 4\n".repeat(63)
            ),
        ),
        // the first and the last variable that there may be
        case(
            "learn-1024",
            b"p cnf 1024 0\n".to_vec(),
            format!(
                "stamp{}\nlearn 1024 1 -1023\nlearn -1024\nlearn 1025\nlearn -1025\nlearn 1024 -1024\nwindow\n",
                both_signs(1_024)
            ),
            "loaded 1024 0 0\nstamped\nkept 3\nkept 1\nrefused 11 0\nrefused 11 0\nrefused 11 0\nwindow 2 4\n3 1024 1 -1023\n1 -1024\n"
                .to_string(),
        ),
    ]
}

fn case(name: &'static str, text: Vec<u8>, calls: String, prints: String) -> Case {
    Case {
        name,
        text,
        calls,
        prints,
    }
}

/// A case on 100 variables without a clause, behind the Stamp, so that every
/// newcomer is kept whole.
fn free(name: &'static str, calls: String, prints: String) -> Case {
    case(
        name,
        b"p cnf 100 0\n".to_vec(),
        format!("stamp{}\n{calls}", both_signs(100)),
        format!("loaded 100 0 0\nstamped\n{prints}"),
    )
}

/// 1, -1, 2, -2, .., a space before each.
fn both_signs(variables: i32) -> String {
    (1..=variables).map(|v| format!(" {v} -{v}")).collect()
}

/// These literals, a space before each.
fn rising(first: i32, last: i32) -> String {
    (first..=last).map(|l| format!(" {l}")).collect()
}

fn falling(first: i32, last: i32) -> String {
    (last..=first).rev().map(|l| format!(" {l}")).collect()
}

/// The 64 literals from k + 1 on, around the end at 100, every second one
/// negative.
fn turned(k: i32) -> String {
    (0..64)
        .map(|j| {
            let variable = (k + j) % 100 + 1;
            format!(" {}", if j % 2 == 0 { variable } else { -variable })
        })
        .collect()
}

/// Lines that learn these units.
fn units(first: i32, last: i32) -> String {
    (first..=last).map(|l| format!("learn {l}\n")).collect()
}

/// What `window` prints for these clauses.
fn rows_of_units(first: i32, last: i32) -> String {
    (first..=last).map(|l| format!("1 {l}\n")).collect()
}

fn rows_of_turned(first: i32, last: i32) -> String {
    (first..=last)
        .map(|k| format!("64{}\n", turned(k)))
        .collect()
}

/// v implies v + 1.
fn chain_of_70() -> Vec<u8> {
    let pairs: String = (1..70).map(|v| format!("-{v} {} 0\n", v + 1)).collect();
    format!("p cnf 70 69\n{pairs}").into_bytes()
}

/// A line with one literal more than there may be.
pub fn too_long() -> Case {
    case(
        "learn-line-4097-literals",
        CHAIN.as_bytes().to_vec(),
        format!("learn{}\nstate\n", " 1".repeat(4_097)),
        "loaded 4 3 0\nerror 2\n".to_string(),
    )
}

/// Lines of `window`, `lend` and `set` that are none. The wrong line is the last
/// that is read.
pub const WRONG_LINES: &[Lines] = &[
    (
        "window-line-space-at-end",
        CHAIN,
        "window \nstate\n",
        "loaded 4 3 0\nerror 2\n",
    ),
    (
        "window-line-with-a-number",
        CHAIN,
        "window 1\nstate\n",
        "loaded 4 3 0\nerror 2\n",
    ),
    (
        "lend-81-sizes",
        CHAIN,
        "lend sizes 80\nlend sizes 81\nstate\n",
        "loaded 4 3 0\nerror 3\n",
    ),
    (
        "lend-4113-learnt",
        CHAIN,
        "lend learnt 4112\nlend learnt 4113\nstate\n",
        "loaded 4 3 0\nerror 3\n",
    ),
    (
        "lend-minus-1-sizes",
        CHAIN,
        "lend sizes -1\nstate\n",
        "loaded 4 3 0\nerror 2\n",
    ),
    (
        "lend-window",
        CHAIN,
        "lend window 2\nstate\n",
        "loaded 4 3 0\nerror 2\n",
    ),
    (
        "set-sizes-record-80",
        CHAIN,
        "set sizes 79 0 4294967295\nset sizes 80 0 0\nstate\n",
        "loaded 4 3 0\nerror 3\n",
    ),
    (
        "set-sizes-record-minus-1",
        CHAIN,
        "set sizes -1 0 0\nstate\n",
        "loaded 4 3 0\nerror 2\n",
    ),
    (
        "set-sizes-field-1",
        CHAIN,
        "set sizes 0 1 0\nstate\n",
        "loaded 4 3 0\nerror 2\n",
    ),
    (
        "set-sizes-minus-1",
        CHAIN,
        "set sizes 0 0 -1\nstate\n",
        "loaded 4 3 0\nerror 2\n",
    ),
    (
        "set-sizes-2-to-the-32",
        CHAIN,
        "set sizes 0 0 4294967296\nstate\n",
        "loaded 4 3 0\nerror 2\n",
    ),
    (
        "set-sizes-without-a-field",
        CHAIN,
        "set sizes 0 1\nstate\n",
        "loaded 4 3 0\nerror 2\n",
    ),
    (
        "set-learnt-place-4112",
        CHAIN,
        "set learnt 4111 0 -2147483648\nset learnt 4112 0 0\nstate\n",
        "loaded 4 3 0\nerror 3\n",
    ),
    (
        "set-learnt-place-minus-1",
        CHAIN,
        "set learnt -1 0 0\nstate\n",
        "loaded 4 3 0\nerror 2\n",
    ),
    (
        "set-learnt-field-1",
        CHAIN,
        "set learnt 0 1 0\nstate\n",
        "loaded 4 3 0\nerror 2\n",
    ),
    (
        "set-learnt-2-to-the-31",
        CHAIN,
        "set learnt 0 0 2147483647\nset learnt 0 0 2147483648\nstate\n",
        "loaded 4 3 0\nerror 3\n",
    ),
    (
        "set-learnt-below-the-smallest",
        CHAIN,
        "set learnt 0 0 -2147483649\nstate\n",
        "loaded 4 3 0\nerror 2\n",
    ),
    (
        "set-learnt-without-a-field",
        CHAIN,
        "set learnt 0 1\nstate\n",
        "loaded 4 3 0\nerror 2\n",
    ),
    (
        "set-window-field-2",
        CHAIN,
        "set window 1 4294967295\nset window 2 0\nstate\n",
        "loaded 4 3 0\nerror 3\n",
    ),
    (
        "set-window-field-minus-1",
        CHAIN,
        "set window -1 0\nstate\n",
        "loaded 4 3 0\nerror 2\n",
    ),
    (
        "set-window-field-leading-zero",
        CHAIN,
        "set window 00 1\nstate\n",
        "loaded 4 3 0\nerror 2\n",
    ),
    (
        "set-window-minus-1",
        CHAIN,
        "set window 0 -1\nstate\n",
        "loaded 4 3 0\nerror 2\n",
    ),
    (
        "set-window-2-to-the-32",
        CHAIN,
        "set window 0 4294967295\nset window 0 4294967296\nstate\n",
        "loaded 4 3 0\nerror 3\n",
    ),
    (
        "set-window-without-a-value",
        CHAIN,
        "set window 0\nstate\n",
        "loaded 4 3 0\nerror 2\n",
    ),
    (
        "set-window-with-a-record",
        CHAIN,
        "set window 0 0 0\nstate\n",
        "loaded 4 3 0\nerror 2\n",
    ),
];
