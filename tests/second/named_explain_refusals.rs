//! Named cases of explain: the refusals one by one and two at a time, and lines
//! that are none.

use crate::named::{with_calls, Case};
use crate::named_learn::{behind_stamp, Calls, CHAIN};

/// A name, a text, the calls behind its load, and what all of them print.
type Lines = (&'static str, &'static str, &'static str, &'static str);

/// The cases on P2 behind its Stamp, in which clause 3 is shortened by the chain
/// `1 2 3 0`, of 8 bytes; then those on other formulas.
pub fn cases() -> Vec<Case> {
    let on_a_chain = REFUSALS.iter().chain(TWO_REFUSALS).map(behind_stamp);
    on_a_chain.chain(ON_OTHERS.iter().map(with_calls)).collect()
}

const REFUSALS: &[Calls] = &[
    (
        "explain-1-short-clauses",
        "lend clauses 4095\nexplain 3 8\nlend clauses 4096\nexplain 3 8\nlend clauses 4112\nexplain 3 8\nlend clauses 4096\n",
        "refused 1 0\nexplained 2 1 8\n1 2 3 0\nexplained 2 1 8\n1 2 3 0\n",
    ),
    (
        "explain-1-short-literals",
        "lend literals 16383\nexplain 3 8\nlend literals 16384\nexplain 3 8\nlend literals 16385\nexplain 3 8\nlend literals 16384\n",
        "refused 1 0\nexplained 2 1 8\n1 2 3 0\nexplained 2 1 8\n1 2 3 0\n",
    ),
    (
        "explain-1-short-variables",
        "lend variables 1023\nexplain 3 8\nlend variables 1024\nexplain 3 8\nlend variables 1040\nexplain 3 8\nlend variables 1024\n",
        "refused 1 0\nexplained 2 1 8\n1 2 3 0\nexplained 2 1 8\n1 2 3 0\n",
    ),
    (
        "explain-1-short-stamps",
        "lend stamps 2047\nexplain 3 8\nlend stamps 0\nexplain 3 8\nlend stamps 2048\nexplain 3 8\nlend stamps 2064\nexplain 3 8\nlend stamps 2048\n",
        "refused 1 0\nrefused 1 0\nexplained 2 1 8\n1 2 3 0\nexplained 2 1 8\n1 2 3 0\n",
    ),
    (
        "explain-1-damaged-tables",
        "set literals 0 0 0\nexplain 3 8\nset literals 0 0 -1\nset variables 3 1 2\nexplain 3 8\nset variables 3 1 0\nset variables 2 0 -2\nexplain 3 8\nset variables 2 0 3\nset clauses 2 0 1\nexplain 3 8\nset clauses 2 0 4\nset clauses 2 2 2\nexplain 3 8\nset clauses 2 2 1\nexplain 3 8\n",
        "refused 1 0\nrefused 1 0\nrefused 1 0\nrefused 1 0\nrefused 1 0\nexplained 2 1 8\n1 2 3 0\n",
    ),
    // times, parents and starts; the parent of 3 above or below, itself, past the variables, 0
    (
        "explain-1-damaged-stamps",
        "set stamps 0 0 2\nexplain 3 8\nset stamps 0 0 1\nset stamps 4 2 1\nexplain 3 8\nset stamps 4 2 3\nexplain 3 8\nset stamps 4 2 -3\nexplain 3 8\nset stamps 4 2 5\nexplain 3 8\nset stamps 4 2 0\nexplain 3 8\nset stamps 4 2 2\nset stamps 2 2 3\nexplain 3 8\nset stamps 2 2 1\nset stamps 4 3 2\nexplain 3 8\nset stamps 4 3 1\nexplain 3 8\n",
        "refused 1 0\nrefused 1 0\nrefused 1 0\nrefused 1 0\nrefused 1 0\nrefused 1 0\nrefused 1 0\nrefused 1 0\nexplained 2 1 8\n1 2 3 0\n",
    ),
    // no call reads them
    (
        "explain-records-behind-the-formula",
        "set stamps 8 0 1\nset stamps 8 2 -2147483648\nset stamps 2047 2 9\nset clauses 3 1 9\nset literals 7 0 5\nset literals 16384 0 -2147483648\nset variables 4 0 77\nexplain 3 8\nexplain 4 8\nset clauses 3 1 0\nset literals 7 0 0\nset variables 4 0 0\n",
        "explained 2 1 8\n1 2 3 0\nrefused 13 0\n",
    ),
    (
        "explain-1-damaged-programme",
        "set programme 0 0\nexplain 3 8\nset programme 0 4\nexplain 3 8\n",
        "refused 1 0\nexplained 2 1 8\n1 2 3 0\n",
    ),
    (
        "explain-1-too-many",
        "set state 0 4294967295\nexplain 3 8\nset state 0 1025\nexplain 3 8\nset state 0 4\nset state 1 4097\nexplain 3 8\nset state 1 4294967295\nexplain 4294967295 8\nset state 1 3\nexplain 3 8\n",
        "refused 1 0\nrefused 1 0\nrefused 1 0\nrefused 1 0\nexplained 2 1 8\n1 2 3 0\n",
    ),
    // an empty clause stands only under the mark
    (
        "explain-1-empty-clause",
        "set clauses 2 1 0\nexplain 3 8\nset state 6 1\nexplain 3 8\nset state 5 0\nexplain 3 8\nset clauses 2 1 3\nset state 6 0\nset state 5 1\nexplain 3 8\n",
        "refused 1 0\nrefused 5 0\nrefused 5 0\nexplained 2 1 8\n1 2 3 0\n",
    ),
    (
        "explain-4-open-propagate",
        "propagate 0\nexplain 3 8\nstate\npropagate 65535\nexplain 3 8\n",
        "open 0 0 0\nrefused 4 0\nstate 4 3 1 0 0 0 0\ndone 3 0 0\nrefused 9 0\n",
    ),
    (
        "explain-4-open-merge",
        "merge 1\nexplain 3 8\nstate\nmerge 65535\nexplain 3 8\n",
        "open 1 0 0\nrefused 4 0\nstate 4 3 2 1 0 0 0\ndone 2 0 0\nrefused 9 0\n",
    ),
    // a Sweep would resume it; explain resumes none
    (
        "explain-4-open-sweep",
        "sweep 0\nexplain 3 8\nstate\nsweep 2\nexplain 3 8\nexplain 1 0\nstate\nliterals\nsweep 65535\nexplain 3 8\nstate\n",
        "open 0 0 0\nrefused 4 0\nstate 4 3 3 0 0 1 0\nopen 2 0 0\nrefused 4 0\nrefused 4 0\nstate 4 3 3 2 0 1 0\nliterals -1 2 -2 3 1 3 4\ndone 1 0 1\nrefused 9 0\nstate 4 3 0 0 0 0 0\n",
    ),
    (
        "explain-4-clears-the-flag",
        "sweep 1\nset state 4 1\nexplain 3 8\nstate\npropagate 0\nset state 2 1\nset state 4 1\nexplain 3 8\nstate\n",
        "open 1 0 0\nrefused 4 0\nstate 4 3 3 1 0 1 0\nrefused 4 0\nrefused 4 0\nstate 4 3 1 1 1 1 0\n",
    ),
    (
        "explain-5-with-fresh-stamps",
        "set state 6 1\nexplain 3 8\nset state 6 0\nexplain 3 8\n",
        "refused 5 0\nexplained 2 1 8\n1 2 3 0\n",
    ),
    (
        "explain-9",
        "set state 5 0\nexplain 3 8\nset state 5 1\nexplain 3 8\n",
        "refused 9 0\nexplained 2 1 8\n1 2 3 0\n",
    ),
    (
        "explain-9-behind-a-sweep",
        "sweep 65535\nexplain 3 8\nexplain 1 0\nstamp 1 -1 2 -2 3 -3 4 -4\nexplain 3 0\n",
        "done 3 0 1\nrefused 9 0\nrefused 9 0\nstamped\nexplained 0 0 0\n",
    ),
    (
        "explain-9-behind-a-run",
        "run 1\nexplain 3 8\n",
        "ran 1\nrefused 9 0\n",
    ),
    (
        "explain-13-numbers",
        "explain 0 8\nexplain 1 8\nexplain 3 8\nexplain 4 8\nexplain 5 8\nexplain 4096 8\nexplain 4097 8\nexplain 65539 8\nexplain 2147483647 8\nexplain 2147483648 8\nexplain 4294967295 8\n",
        "refused 13 0\nexplained 0 0 0\nexplained 2 1 8\n1 2 3 0\nrefused 13 0\nrefused 13 0\nrefused 13 0\nrefused 13 0\nrefused 13 0\nrefused 13 0\nrefused 13 0\nrefused 13 0\n",
    ),
    (
        "explain-13-fewer-clauses",
        "set state 1 2\nexplain 3 8\nexplain 2 8\nset state 1 0\nexplain 1 8\nset state 1 3\nexplain 3 8\n",
        "refused 13 0\nexplained 0 0 0\nrefused 13 0\nexplained 2 1 8\n1 2 3 0\n",
    ),
    (
        "explain-13-dropped",
        "set clauses 2 1 0\nset clauses 2 2 0\nexplain 3 8\nexplain 3 0\nexplain 2 0\nset clauses 0 1 0\nset clauses 0 2 0\nexplain 1 8\nexplain 2 0\n",
        "refused 13 0\nrefused 13 0\nexplained 0 0 0\nrefused 13 0\nexplained 0 0 0\n",
    ),
    (
        "explain-10-leaves-everything",
        "explain 3 7\nexplain 3 0\nstate\nclauses\nliterals\nexplain 3 8\n",
        "refused 10 8\nrefused 10 8\nstate 4 3 0 0 0 1 0\n0 2 1\n2 2 1\n4 3 1\nliterals -1 2 -2 3 1 3 4\nexplained 2 1 8\n1 2 3 0\n",
    ),
];

/// Two or more of them apply, and the topmost holds.
const TWO_REFUSALS: &[Calls] = &[
    (
        "explain-1-before-4",
        "sweep 0\nlend stamps 2047\nexplain 3 8\nlend stamps 2048\nset variables 0 1 2\nexplain 3 8\nset variables 0 1 0\nexplain 3 8\n",
        "open 0 0 0\nrefused 1 0\nrefused 1 0\nrefused 4 0\n",
    ),
    (
        "explain-1-before-5",
        "set state 6 1\nlend stamps 2047\nexplain 3 8\nlend stamps 2048\nset variables 0 1 2\nexplain 3 8\nset variables 0 1 0\nexplain 3 8\n",
        "refused 1 0\nrefused 1 0\nrefused 5 0\n",
    ),
    (
        "explain-1-before-9",
        "set state 5 0\nlend clauses 4095\nexplain 3 8\nlend clauses 4096\nset variables 0 1 2\nexplain 3 8\nset variables 0 1 0\nexplain 3 8\n",
        "refused 1 0\nrefused 1 0\nrefused 9 0\n",
    ),
    (
        "explain-1-before-13",
        "lend literals 0\nexplain 0 8\nexplain 4 8\nlend literals 16384\nset variables 0 1 2\nexplain 4294967295 8\nset variables 0 1 0\nexplain 0 8\n",
        "refused 1 0\nrefused 1 0\nrefused 1 0\nrefused 13 0\n",
    ),
    (
        "explain-1-before-10",
        "lend variables 0\nexplain 3 0\nlend variables 1024\nset stamps 4 2 1\nexplain 3 7\nset stamps 4 2 2\nexplain 3 7\n",
        "refused 1 0\nrefused 1 0\nrefused 10 8\n",
    ),
    // no pass is open under the mark, so the shape rule fails
    (
        "explain-1-for-4-and-5",
        "sweep 0\nset state 6 1\nexplain 3 8\nset state 6 0\nexplain 3 8\n",
        "open 0 0 0\nrefused 1 0\nrefused 4 0\n",
    ),
    (
        "explain-4-before-9",
        "propagate 0\nexplain 3 8\nset state 2 3\nset state 5 0\nexplain 3 8\nset state 2 0\nexplain 3 8\n",
        "open 0 0 0\nrefused 4 0\nrefused 4 0\nrefused 9 0\n",
    ),
    (
        "explain-4-before-13",
        "sweep 0\nexplain 0 8\nexplain 4 8\nexplain 4294967295 0\n",
        "open 0 0 0\nrefused 4 0\nrefused 4 0\nrefused 4 0\n",
    ),
    (
        "explain-4-before-10",
        "sweep 1\nexplain 3 7\nexplain 3 0\n",
        "open 1 0 0\nrefused 4 0\nrefused 4 0\n",
    ),
    (
        "explain-5-before-9",
        "set state 6 1\nset state 5 0\nexplain 3 8\n",
        "refused 5 0\n",
    ),
    (
        "explain-5-before-13",
        "set state 6 1\nexplain 0 8\nexplain 4 8\nset state 5 0\nexplain 4294967295 8\n",
        "refused 5 0\nrefused 5 0\nrefused 5 0\n",
    ),
    (
        "explain-5-before-10",
        "set state 6 1\nexplain 3 7\nexplain 3 0\n",
        "refused 5 0\nrefused 5 0\n",
    ),
    (
        "explain-9-before-13",
        "set state 5 0\nexplain 0 8\nexplain 4 8\nexplain 4294967295 0\nset clauses 2 1 0\nset clauses 2 2 0\nexplain 3 8\n",
        "refused 9 0\nrefused 9 0\nrefused 9 0\nrefused 9 0\n",
    ),
    (
        "explain-9-before-10",
        "set state 5 0\nexplain 3 7\nexplain 3 0\n",
        "refused 9 0\nrefused 9 0\n",
    ),
    // an output of no bytes
    (
        "explain-13-before-10",
        "explain 0 0\nexplain 4 0\nexplain 4294967295 0\nset clauses 2 1 0\nset clauses 2 2 0\nexplain 3 0\n",
        "refused 13 0\nrefused 13 0\nrefused 13 0\nrefused 13 0\n",
    ),
];

const ON_OTHERS: &[Lines] = &[
    (
        "explain-5-marked-by-a-load",
        "p cnf 1 2\n0\n1 0\n",
        "explain 1 0\nexplain 2 0\nexplain 0 0\nexplain 3 0\n",
        "loaded 1 2 1\nrefused 5 0\nrefused 5 0\nrefused 5 0\nrefused 5 0\n",
    ),
    // P8
    (
        "explain-5-marked-by-merge",
        "p cnf 2 4\n1 2 0\n1 -2 0\n-1 2 0\n-1 -2 0\n",
        "explain 1 99\nmerge 65535\nexplain 1 99\n",
        "loaded 2 4 0\nrefused 9 0\ndone 0 0 0\nrefused 5 0\n",
    ),
    (
        "explain-9-behind-a-load",
        CHAIN,
        "explain 3 8\nexplain 0 0\nexplain 4 0\n",
        "loaded 4 3 0\nrefused 9 0\nrefused 9 0\nrefused 9 0\n",
    ),
    // the places of clause 1 are 0, and its start is that of clause 2
    (
        "explain-13-dropped-by-a-load",
        "p cnf 2 3\n2 1 -2 0\n1 2 0\n-1 1 0\n",
        "stamp 1 -1 2 -2\nexplain 1 99\nexplain 2 99\nexplain 3 99\n",
        "loaded 2 3 0\nstamped\nrefused 13 0\nexplained 0 0 0\nrefused 13 0\n",
    ),
];

/// Lines of `explain` that are none. The wrong line is the last that is read.
pub const WRONG_LINES: &[Lines] = &[
    (
        "explain-line-alone",
        CHAIN,
        "explain\nstate\n",
        "loaded 4 3 0\nerror 2\n",
    ),
    (
        "explain-line-without-an-output",
        CHAIN,
        "explain 3\nstate\n",
        "loaded 4 3 0\nerror 2\n",
    ),
    (
        "explain-line-three-numbers",
        CHAIN,
        "explain 3 8 8\nstate\n",
        "loaded 4 3 0\nerror 2\n",
    ),
    (
        "explain-line-space-at-end",
        CHAIN,
        "explain 3 8 \nstate\n",
        "loaded 4 3 0\nerror 2\n",
    ),
    (
        "explain-line-empty-output",
        CHAIN,
        "explain 3 \nstate\n",
        "loaded 4 3 0\nerror 2\n",
    ),
    (
        "explain-line-two-spaces",
        CHAIN,
        "explain  8\nstate\n",
        "loaded 4 3 0\nerror 2\n",
    ),
    (
        "explain-line-tab",
        CHAIN,
        "explain 3\t8\nstate\n",
        "loaded 4 3 0\nerror 2\n",
    ),
    (
        "explain-line-capital",
        CHAIN,
        "Explain 3 8\nstate\n",
        "loaded 4 3 0\nerror 2\n",
    ),
    (
        "explain-line-letter",
        CHAIN,
        "explain x 8\nstate\n",
        "loaded 4 3 0\nerror 2\n",
    ),
    (
        "explain-line-minus-1",
        CHAIN,
        "explain -1 8\nstate\n",
        "loaded 4 3 0\nerror 2\n",
    ),
    (
        "explain-line-minus-nought",
        CHAIN,
        "explain -0 8\nstate\n",
        "loaded 4 3 0\nerror 2\n",
    ),
    (
        "explain-line-leading-zero",
        CHAIN,
        "explain 03 8\nstate\n",
        "loaded 4 3 0\nerror 2\n",
    ),
    (
        "explain-line-plus",
        CHAIN,
        "explain +3 8\nstate\n",
        "loaded 4 3 0\nerror 2\n",
    ),
    (
        "explain-line-2-to-the-32",
        CHAIN,
        "explain 4294967295 8\nexplain 4294967296 8\nstate\n",
        "loaded 4 3 0\nrefused 9 0\nerror 3\n",
    ),
    (
        "explain-line-2-to-the-64-and-3",
        CHAIN,
        "explain 18446744073709551619 8\nstate\n",
        "loaded 4 3 0\nerror 2\n",
    ),
    (
        "explain-line-output-131073",
        CHAIN,
        "explain 3 131072\nexplain 3 131073\nstate\n",
        "loaded 4 3 0\nrefused 9 0\nerror 3\n",
    ),
    (
        "explain-line-output-minus-1",
        CHAIN,
        "explain 3 -1\nstate\n",
        "loaded 4 3 0\nerror 2\n",
    ),
    (
        "explain-line-output-leading-zero",
        CHAIN,
        "explain 3 08\nstate\n",
        "loaded 4 3 0\nerror 2\n",
    ),
    (
        "explain-line-output-2-to-the-32-and-8",
        CHAIN,
        "explain 3 4294967304\nstate\n",
        "loaded 4 3 0\nerror 2\n",
    ),
    (
        "explain-line-behind-good-lines",
        CHAIN,
        "stamp 1 -1 2 -2 3 -3 4 -4\nexplain 3 8\nexplain 3 7\nexplain 3 8x\nstate\n",
        "loaded 4 3 0\nstamped\nexplained 2 1 8\n1 2 3 0\nrefused 10 8\nerror 5\n",
    ),
    // the input ends inside the line
    (
        "explain-line-no-LF",
        CHAIN,
        "explain 3 8",
        "loaded 4 3 0\nerror 2\n",
    ),
];
