//! Named cases of the programme: what is set and what is refused, damaged
//! programmes, what a load puts back, runs under other programmes than the
//! constant one, and lines that are none.

/// A name, a text, the calls behind its load, and what all of them print.
type Lines = (&'static str, &'static str, &'static str, &'static str);

const PAIR: &str = "p cnf 2 1\n1 2 0\n";
/// P2.
const DOCUMENT_INPUT: &str = "p cnf 4 3\n-1 2 0\n-2 3 0\n1 3 4 0\n";
/// P6: 1 implies 2 and -2.
const FAILS: &str = "p cnf 2 2\n-1 2 0\n-1 -2 0\n";
/// Its load sets the mark.
const MARKED: &str = "p cnf 1 1\n0\n";
/// 1 implies 2 and -2; without 1 no value of 3 and 4 is left.
const OPPOSED: &str = "p cnf 4 6\n-1 2 0\n-1 -2 0\n1 3 4 0\n1 3 -4 0\n1 -3 4 0\n1 -3 -4 0\n";
const P9: &str = "p cnf 4 5\n2 3 0\n-3 -1 0\n1 2 0\n-2 4 0\n-4 1 0\n";
/// 1 and 2 imply 4; 3 takes -1 from -4, so that the last clause is dropped only
/// where 1 is entered before 2.
const ONE_FIRST: &str = "p cnf 5 4\n-1 4 0\n-2 4 0\n-3 -1 0\n-1 4 5 0\n";
/// 1 and 2 imply 4; 3 takes -2 from -4, so that the fourth clause is dropped only
/// where 2 is entered before 1. The unit makes the first round change something.
const TWO_SECOND: &str = "p cnf 6 5\n-2 4 0\n-1 4 0\n-3 -2 0\n-2 4 5 0\n6 0\n";

/// Cases without a wrong line.
pub const PROGRAMMES: &[Lines] = &[
    // no load has been accepted
    (
        "programme-at-the-start",
        "x",
        "codes\nset programme 0 32\ncodes\nset programme 0 4\n",
        "refused 2 0\ncodes 1 2 3 4\ncodes 1 2 3 4 0 0 0 0 0 0 0 0 0 0 0 0 0 0 0 0 0 0 0 0 0 0 0 0 0 0 0 0\n",
    ),
    (
        "programme-the-constant-one",
        PAIR,
        "programme 1 2 3 4\ncodes\n",
        "loaded 2 1 0\nset\ncodes 1 2 3 4\n",
    ),
    (
        "programme-settle-alone",
        PAIR,
        "programme 1\ncodes\n",
        "loaded 2 1 0\nset\ncodes 1\n",
    ),
    (
        "programme-two-in-one",
        PAIR,
        "programme 1 2 4 1 2 3 4\ncodes\n",
        "loaded 2 1 0\nset\ncodes 1 2 4 1 2 3 4\n",
    ),
    (
        "programme-settles-alone",
        PAIR,
        "programme 1 1 1\ncodes\n",
        "loaded 2 1 0\nset\ncodes 1 1 1\n",
    ),
    (
        "programme-stamp-last",
        PAIR,
        "programme 1 2\ncodes\n",
        "loaded 2 1 0\nset\ncodes 1 2\n",
    ),
    (
        "programme-failed-last",
        PAIR,
        "programme 1 2 3\ncodes\n",
        "loaded 2 1 0\nset\ncodes 1 2 3\n",
    ),
    (
        "programme-settle-last",
        PAIR,
        "programme 1 2 3 4 1\ncodes\n",
        "loaded 2 1 0\nset\ncodes 1 2 3 4 1\n",
    ),
    (
        "programme-settle-behind-stamp",
        PAIR,
        "programme 1 2 1 2 4\ncodes\n",
        "loaded 2 1 0\nset\ncodes 1 2 1 2 4\n",
    ),
    (
        "programme-settle-behind-failed",
        PAIR,
        "programme 1 2 3 1 2 4\ncodes\n",
        "loaded 2 1 0\nset\ncodes 1 2 3 1 2 4\n",
    ),
    (
        "programme-failed-behind-failed",
        PAIR,
        "programme 1 2 3 3 4\ncodes\n",
        "loaded 2 1 0\nset\ncodes 1 2 3 3 4\n",
    ),
    (
        "programme-32-codes",
        PAIR,
        "programme 1 2 3 4 1 2 3 4 1 2 3 4 1 2 3 4 1 2 3 4 1 2 3 4 1 2 3 4 1 2 3 4\ncodes\n",
        "loaded 2 1 0\nset\ncodes 1 2 3 4 1 2 3 4 1 2 3 4 1 2 3 4 1 2 3 4 1 2 3 4 1 2 3 4 1 2 3 4\n",
    ),
    (
        "programme-stamp-behind-failed",
        PAIR,
        "programme 1 2 3 2\ncodes\n",
        "loaded 2 1 0\nrefused 12 3\ncodes 1 2 3 4\n",
    ),
    (
        "programme-stamp-behind-stamp",
        PAIR,
        "programme 1 2 2\ncodes\n",
        "loaded 2 1 0\nrefused 12 2\ncodes 1 2 3 4\n",
    ),
    (
        "programme-stamp-behind-sweep",
        PAIR,
        "programme 1 2 4 2 4\ncodes\n",
        "loaded 2 1 0\nrefused 12 3\ncodes 1 2 3 4\n",
    ),
    (
        "programme-sweep-behind-sweep",
        PAIR,
        "programme 1 2 4 4\ncodes\n",
        "loaded 2 1 0\nrefused 12 3\ncodes 1 2 3 4\n",
    ),
    // the failed behind the sweep is the first
    (
        "programme-sweep-behind-sweep-and-failed",
        PAIR,
        "programme 1 2 3 4 3 4\ncodes\n",
        "loaded 2 1 0\nrefused 12 4\ncodes 1 2 3 4\n",
    ),
    (
        "programme-failed-behind-sweep",
        PAIR,
        "programme 1 2 4 3\ncodes\n",
        "loaded 2 1 0\nrefused 12 3\ncodes 1 2 3 4\n",
    ),
    (
        "programme-failed-behind-settle",
        PAIR,
        "programme 1 3\ncodes\n",
        "loaded 2 1 0\nrefused 12 1\ncodes 1 2 3 4\n",
    ),
    (
        "programme-sweep-behind-settle",
        PAIR,
        "programme 1 4\ncodes\n",
        "loaded 2 1 0\nrefused 12 1\ncodes 1 2 3 4\n",
    ),
    (
        "programme-settle-between-stamp-and-failed",
        PAIR,
        "programme 1 2 1 3\ncodes\n",
        "loaded 2 1 0\nrefused 12 3\ncodes 1 2 3 4\n",
    ),
    (
        "programme-settle-between-stamp-and-sweep",
        PAIR,
        "programme 1 2 3 1 4\ncodes\n",
        "loaded 2 1 0\nrefused 12 4\ncodes 1 2 3 4\n",
    ),
    (
        "programme-stamp-first",
        PAIR,
        "programme 2 3 4\ncodes\n",
        "loaded 2 1 0\nrefused 12 0\ncodes 1 2 3 4\n",
    ),
    (
        "programme-failed-first",
        PAIR,
        "programme 3\ncodes\n",
        "loaded 2 1 0\nrefused 12 0\ncodes 1 2 3 4\n",
    ),
    (
        "programme-sweep-first",
        PAIR,
        "programme 4 1 2 4\ncodes\n",
        "loaded 2 1 0\nrefused 12 0\ncodes 1 2 3 4\n",
    ),
    (
        "programme-code-0",
        PAIR,
        "programme 0\ncodes\n",
        "loaded 2 1 0\nrefused 12 0\ncodes 1 2 3 4\n",
    ),
    (
        "programme-code-0-in-the-middle",
        PAIR,
        "programme 1 2 0 4\ncodes\n",
        "loaded 2 1 0\nrefused 12 2\ncodes 1 2 3 4\n",
    ),
    (
        "programme-code-5",
        PAIR,
        "programme 5\ncodes\n",
        "loaded 2 1 0\nrefused 12 0\ncodes 1 2 3 4\n",
    ),
    (
        "programme-code-5-in-the-middle",
        PAIR,
        "programme 1 2 3 5 4\ncodes\n",
        "loaded 2 1 0\nrefused 12 3\ncodes 1 2 3 4\n",
    ),
    (
        "programme-code-5-at-the-end",
        PAIR,
        "programme 1 2 3 4 5\ncodes\n",
        "loaded 2 1 0\nrefused 12 4\ncodes 1 2 3 4\n",
    ),
    (
        "programme-code-255",
        PAIR,
        "programme 1 255\ncodes\n",
        "loaded 2 1 0\nrefused 12 1\ncodes 1 2 3 4\n",
    ),
    (
        "programme-first-of-two",
        PAIR,
        "programme 1 3 0 4\ncodes\n",
        "loaded 2 1 0\nrefused 12 1\ncodes 1 2 3 4\n",
    ),
    (
        "programme-code-32-wrong",
        PAIR,
        "programme 1 2 3 4 1 2 3 4 1 2 3 4 1 2 3 4 1 2 3 4 1 2 3 4 1 2 3 4 1 2 3 2\ncodes\n",
        "loaded 2 1 0\nrefused 12 31\ncodes 1 2 3 4\n",
    ),
    (
        "programme-33-codes",
        PAIR,
        "programme 1 1 1 1 1 1 1 1 1 1 1 1 1 1 1 1 1 1 1 1 1 1 1 1 1 1 1 1 1 1 1 1 1\ncodes\n",
        "loaded 2 1 0\nrefused 12 0\ncodes 1 2 3 4\n",
    ),
    // the length is wrong before any code is
    (
        "programme-33-codes-one-wrong",
        PAIR,
        "programme 1 2 0 1 1 1 1 1 1 1 1 1 1 1 1 1 1 1 1 1 1 1 1 1 1 1 1 1 1 1 1 1 1\ncodes\n",
        "loaded 2 1 0\nrefused 12 0\ncodes 1 2 3 4\n",
    ),
    (
        "programme-64-codes",
        PAIR,
        "programme 1 2 3 4 1 2 3 4 1 2 3 4 1 2 3 4 1 2 3 4 1 2 3 4 1 2 3 4 1 2 3 4 1 2 3 4 1 2 3 4 1 2 3 4 1 2 3 4 1 2 3 4 1 2 3 4 1 2 3 4 1 2 3 4\ncodes\n",
        "loaded 2 1 0\nrefused 12 0\ncodes 1 2 3 4\n",
    ),
    (
        "programme-none",
        PAIR,
        "programme\ncodes\n",
        "loaded 2 1 0\nrefused 12 0\ncodes 1 2 3 4\n",
    ),
    (
        "programme-refused-stays",
        PAIR,
        "programme 1 2 4\nprogramme 1 2 2\nprogramme\ncodes\n",
        "loaded 2 1 0\nset\nrefused 12 2\nrefused 12 0\ncodes 1 2 4\n",
    ),
    (
        "programme-in-an-open-propagate",
        PAIR,
        "propagate 0\nprogramme 1 2 4\nprogramme 1 4\nstate\ncodes\nrun 1\npropagate 65535\nrun 1\n",
        "loaded 2 1 0\nopen 0 0 0\nset\nrefused 12 1\nstate 2 1 1 0 0 0 0\ncodes 1 2 4\nrefused 4 0\ndone 1 0 0\nran 1\n",
    ),
    (
        "programme-in-an-open-merge",
        PAIR,
        "merge 0\nprogramme 1\nprogramme\nstate\ncodes\nmerge 65535\n",
        "loaded 2 1 0\nopen 0 0 0\nset\nrefused 12 0\nstate 2 1 2 0 0 0 0\ncodes 1\ndone 1 0 0\n",
    ),
    (
        "programme-in-an-open-sweep",
        PAIR,
        "stamp 1 -1 2 -2\nsweep 0\nprogramme 1 2\nprogramme 2\nstate\ncodes\nsweep 65535\n",
        "loaded 2 1 0\nstamped\nopen 0 0 0\nset\nrefused 12 0\nstate 2 1 3 0 0 1 0\ncodes 1 2\ndone 1 0 0\n",
    ),
    (
        "programme-under-the-mark",
        MARKED,
        "programme 1 2\nprogramme 1 2 0\nstate\ncodes\nrun 1\nwrite 256\n",
        "loaded 1 1 1\nset\nrefused 12 2\nstate 1 1 0 0 0 0 1\ncodes 1 2\nrefused 5 0\nwritten 12\np cnf 1 1\n0\n",
    ),
    // the stamps stay fresh
    (
        "programme-under-fresh-stamps",
        FAILS,
        "stamp 1 -1 2 -2\nprogramme 1\nstate\nfailed\nsweep 65535\n",
        "loaded 2 2 0\nstamped\nset\nstate 2 2 0 0 0 1 0\nfailed 1\ndone 2 0 2\n",
    ),
    // of an open Propagate the cursor and the change flag come back
    (
        "programme-change-flag-stays",
        PAIR,
        "set state 2 1\nset state 4 1\nprogramme 1\nstate\nprogramme 2\nstate\n",
        "loaded 2 1 0\nset\nstate 2 1 1 0 1 0 0\nrefused 12 0\nstate 2 1 1 0 1 0 0\n",
    ),
    // where no pass is open a call returns neither; looking and setting by hand are no calls
    (
        "programme-cursor-comes-back-0",
        PAIR,
        "set state 3 7\nset state 4 1\ncodes\nset programme 1 1\nstate\nprogramme 1\nstate\nset state 3 7\nset state 4 1\nprogramme 2\nstate\n",
        "loaded 2 1 0\ncodes 1 2 3 4\nstate 2 1 0 7 1 0 0\nset\nstate 2 1 0 0 0 0 0\nrefused 12 0\nstate 2 1 0 0 0 0 0\n",
    ),
    (
        "programme-short-table",
        PAIR,
        "lend stamps 2047\nprogramme 1\nprogramme 2\nlend stamps 2064\nprogramme 2\nprogramme 1\nlend stamps 2048\ncodes\n",
        "loaded 2 1 0\nrefused 1 0\nrefused 1 0\nrefused 12 0\nset\ncodes 1\n",
    ),
    (
        "programme-damaged-table",
        PAIR,
        "set variables 0 0 0\nprogramme 1\nprogramme 2\nset variables 0 0 1\ncodes\nprogramme 1\ncodes\n",
        "loaded 2 1 0\nrefused 1 0\nrefused 1 0\ncodes 1 2 3 4\nset\ncodes 1\n",
    ),
    (
        "damaged-length-0",
        PAIR,
        "set programme 0 0\ncodes\nprogramme 1\nprogramme 2\npropagate 1\nmerge 1\nstamp 1 -1 2 -2\nfailed\nsweep 1\nrun 1\nwrite 256\ncodes\nload 16\np cnf 2 1\n1 2 0\n\ncodes\nwrite 256\n",
        "loaded 2 1 0\ncodes\nrefused 1 0\nrefused 1 0\nrefused 1 0\nrefused 1 0\nrefused 1 0\nrefused 1 0\nrefused 1 0\nrefused 1 0\nrefused 1 0\ncodes\nloaded 2 1 0\ncodes 1 2 3 4\nwritten 16\np cnf 2 1\n1 2 0\n",
    ),
    (
        "damaged-length-33",
        PAIR,
        "set programme 0 33\ncodes\nprogramme 1\nprogramme 2\npropagate 1\nmerge 1\nstamp 1 -1 2 -2\nfailed\nsweep 1\nrun 1\nwrite 256\ncodes\nload 16\np cnf 2 1\n1 2 0\n\ncodes\nwrite 256\n",
        "loaded 2 1 0\ncodes 1 2 3 4 0 0 0 0 0 0 0 0 0 0 0 0 0 0 0 0 0 0 0 0 0 0 0 0 0 0 0 0\nrefused 1 0\nrefused 1 0\nrefused 1 0\nrefused 1 0\nrefused 1 0\nrefused 1 0\nrefused 1 0\nrefused 1 0\nrefused 1 0\ncodes 1 2 3 4 0 0 0 0 0 0 0 0 0 0 0 0 0 0 0 0 0 0 0 0 0 0 0 0 0 0 0 0\nloaded 2 1 0\ncodes 1 2 3 4\nwritten 16\np cnf 2 1\n1 2 0\n",
    ),
    (
        "damaged-length-255",
        PAIR,
        "set programme 0 255\ncodes\nprogramme 1\nprogramme 2\npropagate 1\nmerge 1\nstamp 1 -1 2 -2\nfailed\nsweep 1\nrun 1\nwrite 256\ncodes\nload 16\np cnf 2 1\n1 2 0\n\ncodes\nwrite 256\n",
        "loaded 2 1 0\ncodes 1 2 3 4 0 0 0 0 0 0 0 0 0 0 0 0 0 0 0 0 0 0 0 0 0 0 0 0 0 0 0 0\nrefused 1 0\nrefused 1 0\nrefused 1 0\nrefused 1 0\nrefused 1 0\nrefused 1 0\nrefused 1 0\nrefused 1 0\nrefused 1 0\ncodes 1 2 3 4 0 0 0 0 0 0 0 0 0 0 0 0 0 0 0 0 0 0 0 0 0 0 0 0 0 0 0 0\nloaded 2 1 0\ncodes 1 2 3 4\nwritten 16\np cnf 2 1\n1 2 0\n",
    ),
    // the code behind the others is 0
    (
        "damaged-length-5",
        PAIR,
        "set programme 0 5\ncodes\nprogramme 1\nprogramme 2\npropagate 1\nmerge 1\nstamp 1 -1 2 -2\nfailed\nsweep 1\nrun 1\nwrite 256\ncodes\nload 16\np cnf 2 1\n1 2 0\n\ncodes\nwrite 256\n",
        "loaded 2 1 0\ncodes 1 2 3 4 0\nrefused 1 0\nrefused 1 0\nrefused 1 0\nrefused 1 0\nrefused 1 0\nrefused 1 0\nrefused 1 0\nrefused 1 0\nrefused 1 0\ncodes 1 2 3 4 0\nloaded 2 1 0\ncodes 1 2 3 4\nwritten 16\np cnf 2 1\n1 2 0\n",
    ),
    // no code is wrong
    (
        "damaged-length-33-of-settles",
        PAIR,
        "set programme 1 1\nset programme 2 1\nset programme 3 1\nset programme 4 1\nset programme 5 1\nset programme 6 1\nset programme 7 1\nset programme 8 1\nset programme 9 1\nset programme 10 1\nset programme 11 1\nset programme 12 1\nset programme 13 1\nset programme 14 1\nset programme 15 1\nset programme 16 1\nset programme 17 1\nset programme 18 1\nset programme 19 1\nset programme 20 1\nset programme 21 1\nset programme 22 1\nset programme 23 1\nset programme 24 1\nset programme 25 1\nset programme 26 1\nset programme 27 1\nset programme 28 1\nset programme 29 1\nset programme 30 1\nset programme 31 1\nset programme 32 1\nset programme 0 33\ncodes\nprogramme 1\nprogramme 2\npropagate 1\nmerge 1\nstamp 1 -1 2 -2\nfailed\nsweep 1\nrun 1\nwrite 256\ncodes\nload 16\np cnf 2 1\n1 2 0\n\ncodes\nwrite 256\n",
        "loaded 2 1 0\ncodes 1 1 1 1 1 1 1 1 1 1 1 1 1 1 1 1 1 1 1 1 1 1 1 1 1 1 1 1 1 1 1 1\nrefused 1 0\nrefused 1 0\nrefused 1 0\nrefused 1 0\nrefused 1 0\nrefused 1 0\nrefused 1 0\nrefused 1 0\nrefused 1 0\ncodes 1 1 1 1 1 1 1 1 1 1 1 1 1 1 1 1 1 1 1 1 1 1 1 1 1 1 1 1 1 1 1 1\nloaded 2 1 0\ncodes 1 2 3 4\nwritten 16\np cnf 2 1\n1 2 0\n",
    ),
    (
        "damaged-code-0",
        PAIR,
        "set programme 1 0\ncodes\nprogramme 1\nprogramme 2\npropagate 1\nmerge 1\nstamp 1 -1 2 -2\nfailed\nsweep 1\nrun 1\nwrite 256\ncodes\nload 16\np cnf 2 1\n1 2 0\n\ncodes\nwrite 256\n",
        "loaded 2 1 0\ncodes 0 2 3 4\nrefused 1 0\nrefused 1 0\nrefused 1 0\nrefused 1 0\nrefused 1 0\nrefused 1 0\nrefused 1 0\nrefused 1 0\nrefused 1 0\ncodes 0 2 3 4\nloaded 2 1 0\ncodes 1 2 3 4\nwritten 16\np cnf 2 1\n1 2 0\n",
    ),
    (
        "damaged-code-5",
        PAIR,
        "set programme 4 5\ncodes\nprogramme 1\nprogramme 2\npropagate 1\nmerge 1\nstamp 1 -1 2 -2\nfailed\nsweep 1\nrun 1\nwrite 256\ncodes\nload 16\np cnf 2 1\n1 2 0\n\ncodes\nwrite 256\n",
        "loaded 2 1 0\ncodes 1 2 3 5\nrefused 1 0\nrefused 1 0\nrefused 1 0\nrefused 1 0\nrefused 1 0\nrefused 1 0\nrefused 1 0\nrefused 1 0\nrefused 1 0\ncodes 1 2 3 5\nloaded 2 1 0\ncodes 1 2 3 4\nwritten 16\np cnf 2 1\n1 2 0\n",
    ),
    (
        "damaged-code-255",
        PAIR,
        "set programme 3 255\ncodes\nprogramme 1\nprogramme 2\npropagate 1\nmerge 1\nstamp 1 -1 2 -2\nfailed\nsweep 1\nrun 1\nwrite 256\ncodes\nload 16\np cnf 2 1\n1 2 0\n\ncodes\nwrite 256\n",
        "loaded 2 1 0\ncodes 1 2 255 4\nrefused 1 0\nrefused 1 0\nrefused 1 0\nrefused 1 0\nrefused 1 0\nrefused 1 0\nrefused 1 0\nrefused 1 0\nrefused 1 0\ncodes 1 2 255 4\nloaded 2 1 0\ncodes 1 2 3 4\nwritten 16\np cnf 2 1\n1 2 0\n",
    ),
    (
        "damaged-no-settle",
        PAIR,
        "set programme 1 2\ncodes\nprogramme 1\nprogramme 2\npropagate 1\nmerge 1\nstamp 1 -1 2 -2\nfailed\nsweep 1\nrun 1\nwrite 256\ncodes\nload 16\np cnf 2 1\n1 2 0\n\ncodes\nwrite 256\n",
        "loaded 2 1 0\ncodes 2 2 3 4\nrefused 1 0\nrefused 1 0\nrefused 1 0\nrefused 1 0\nrefused 1 0\nrefused 1 0\nrefused 1 0\nrefused 1 0\nrefused 1 0\ncodes 2 2 3 4\nloaded 2 1 0\ncodes 1 2 3 4\nwritten 16\np cnf 2 1\n1 2 0\n",
    ),
    (
        "damaged-no-stamp",
        PAIR,
        "set programme 2 1\ncodes\nprogramme 1\nprogramme 2\npropagate 1\nmerge 1\nstamp 1 -1 2 -2\nfailed\nsweep 1\nrun 1\nwrite 256\ncodes\nload 16\np cnf 2 1\n1 2 0\n\ncodes\nwrite 256\n",
        "loaded 2 1 0\ncodes 1 1 3 4\nrefused 1 0\nrefused 1 0\nrefused 1 0\nrefused 1 0\nrefused 1 0\nrefused 1 0\nrefused 1 0\nrefused 1 0\nrefused 1 0\ncodes 1 1 3 4\nloaded 2 1 0\ncodes 1 2 3 4\nwritten 16\np cnf 2 1\n1 2 0\n",
    ),
    (
        "damaged-two-sweeps",
        PAIR,
        "set programme 3 4\ncodes\nprogramme 1\nprogramme 2\npropagate 1\nmerge 1\nstamp 1 -1 2 -2\nfailed\nsweep 1\nrun 1\nwrite 256\ncodes\nload 16\np cnf 2 1\n1 2 0\n\ncodes\nwrite 256\n",
        "loaded 2 1 0\ncodes 1 2 4 4\nrefused 1 0\nrefused 1 0\nrefused 1 0\nrefused 1 0\nrefused 1 0\nrefused 1 0\nrefused 1 0\nrefused 1 0\nrefused 1 0\ncodes 1 2 4 4\nloaded 2 1 0\ncodes 1 2 3 4\nwritten 16\np cnf 2 1\n1 2 0\n",
    ),
    // the code before last is a settle
    (
        "damaged-code-32",
        PAIR,
        "set programme 2 1\nset programme 3 1\nset programme 4 1\nset programme 5 1\nset programme 6 1\nset programme 7 1\nset programme 8 1\nset programme 9 1\nset programme 10 1\nset programme 11 1\nset programme 12 1\nset programme 13 1\nset programme 14 1\nset programme 15 1\nset programme 16 1\nset programme 17 1\nset programme 18 1\nset programme 19 1\nset programme 20 1\nset programme 21 1\nset programme 22 1\nset programme 23 1\nset programme 24 1\nset programme 25 1\nset programme 26 1\nset programme 27 1\nset programme 28 1\nset programme 29 1\nset programme 30 1\nset programme 31 1\nset programme 32 4\nset programme 0 32\ncodes\nprogramme 1\nprogramme 2\npropagate 1\nmerge 1\nstamp 1 -1 2 -2\nfailed\nsweep 1\nrun 1\nwrite 256\ncodes\nload 16\np cnf 2 1\n1 2 0\n\ncodes\nwrite 256\n",
        "loaded 2 1 0\ncodes 1 1 1 1 1 1 1 1 1 1 1 1 1 1 1 1 1 1 1 1 1 1 1 1 1 1 1 1 1 1 1 4\nrefused 1 0\nrefused 1 0\nrefused 1 0\nrefused 1 0\nrefused 1 0\nrefused 1 0\nrefused 1 0\nrefused 1 0\nrefused 1 0\ncodes 1 1 1 1 1 1 1 1 1 1 1 1 1 1 1 1 1 1 1 1 1 1 1 1 1 1 1 1 1 1 1 4\nloaded 2 1 0\ncodes 1 2 3 4\nwritten 16\np cnf 2 1\n1 2 0\n",
    ),
    (
        "damaged-programme-in-an-open-pass",
        PAIR,
        "propagate 0\nset programme 0 0\nmerge 1\npropagate 1\nprogramme 1\nset programme 0 4\nmerge 1\npropagate 1\n",
        "loaded 2 1 0\nopen 0 0 0\nrefused 1 0\nrefused 1 0\nrefused 1 0\nrefused 4 0\ndone 1 0 0\n",
    ),
    (
        "damaged-programme-under-the-mark",
        MARKED,
        "set programme 2 9\npropagate 1\nrun 1\nprogramme 1\nwrite 256\nset programme 2 2\npropagate 1\nwrite 256\n",
        "loaded 1 1 1\nrefused 1 0\nrefused 1 0\nrefused 1 0\nrefused 1 0\nrefused 5 0\nwritten 12\np cnf 1 1\n0\n",
    ),
    (
        "damaged-programme-and-a-refused-load",
        PAIR,
        "set programme 0 0\nload 1\nx\nset programme 5 9\nload 9\np cnf 1 1\nwrite 256\nset programme 0 5\ncodes\n",
        "loaded 2 1 0\nrefused 2 0\nrefused 3 9\nrefused 1 0\ncodes 1 2 3 4 9\n",
    ),
    (
        "damaged-programme-put-right-by-hand",
        PAIR,
        "set programme 0 0\nrun 1\nset programme 0 4\nrun 1\ncodes\n",
        "loaded 2 1 0\nrefused 1 0\nran 1\ncodes 1 2 3 4\n",
    ),
    // a shorter one keeps the rules, and Run follows it: no sweep spends the stamps
    (
        "programme-set-by-hand",
        PAIR,
        "set programme 0 3\nrun 1\nstate\ncodes\n",
        "loaded 2 1 0\nran 1\nstate 2 1 0 0 0 1 0\ncodes 1 2 3\n",
    ),
    // the calls leave what stands there
    (
        "behind-the-length-not-judged",
        PAIR,
        "set programme 5 9\nset programme 32 255\nrun 1\nstamp 1 -1 2 -2\nwrite 256\npropagate 65535\ncodes\nset programme 0 5\ncodes\nrun 1\n",
        "loaded 2 1 0\nran 1\nstamped\nwritten 16\np cnf 2 1\n1 2 0\ndone 1 0 0\ncodes 1 2 3 4\ncodes 1 2 3 4 9\nrefused 1 0\n",
    ),
    (
        "behind-the-length-0-after-a-shorter-one",
        PAIR,
        "programme 1 2 3 4 1 2 3 4\nprogramme 1 2\nset programme 0 32\ncodes\n",
        "loaded 2 1 0\nset\nset\ncodes 1 2 0 0 0 0 0 0 0 0 0 0 0 0 0 0 0 0 0 0 0 0 0 0 0 0 0 0 0 0 0 0\n",
    ),
    (
        "behind-the-length-0-after-the-constant-one",
        PAIR,
        "set programme 32 7\nset programme 5 1\nprogramme 1 2 3 4\nset programme 0 32\ncodes\n",
        "loaded 2 1 0\nset\ncodes 1 2 3 4 0 0 0 0 0 0 0 0 0 0 0 0 0 0 0 0 0 0 0 0 0 0 0 0 0 0 0 0\n",
    ),
    (
        "behind-the-length-0-after-a-load",
        PAIR,
        "programme 1 2 3 4 1 2 3 4 1 2 3 4 1 2 3 4 1 2 3 4 1 2 3 4 1 2 3 4 1 2 3 4\nset programme 0 1\nload 16\np cnf 2 1\n1 2 0\n\ncodes\nset programme 0 32\ncodes\n",
        "loaded 2 1 0\nset\nloaded 2 1 0\ncodes 1 2 3 4\ncodes 1 2 3 4 0 0 0 0 0 0 0 0 0 0 0 0 0 0 0 0 0 0 0 0 0 0 0 0 0 0 0 0\n",
    ),
    (
        "behind-the-length-as-before-a-refusal",
        PAIR,
        "set programme 6 9\nprogramme 2\nset programme 0 6\ncodes\n",
        "loaded 2 1 0\nrefused 12 0\ncodes 1 2 3 4 0 9\n",
    ),
    (
        "load-puts-the-constant-one-back",
        PAIR,
        "programme 1 2 4\ncodes\nload 16\np cnf 2 1\n1 2 0\n\ncodes\n",
        "loaded 2 1 0\nset\ncodes 1 2 4\nloaded 2 1 0\ncodes 1 2 3 4\n",
    ),
    (
        "marked-load-puts-the-constant-one-back",
        PAIR,
        "programme 1 2 4\nload 12\np cnf 1 1\n0\n\ncodes\n",
        "loaded 2 1 0\nset\nloaded 1 1 1\ncodes 1 2 3 4\n",
    ),
    (
        "refused-load-keeps-the-programme",
        PAIR,
        "programme 1 2 4\nload 1\nx\nload 13\np cnf 1025 0\n\nlend variables 1023\nload 10\np cnf 0 0\n\nlend variables 1024\ncodes\n",
        "loaded 2 1 0\nset\nrefused 2 0\nrefused 3 6\nrefused 1 0\ncodes 1 2 4\n",
    ),
    // P2: the third clause is shortened in the first round
    (
        "run-of-the-constant-one",
        DOCUMENT_INPUT,
        "programme 1 2 3 4\nrun 65535\nstate\nwrite 256\n",
        "loaded 4 3 0\nset\nran 2\nstate 4 3 0 0 0 0 0\nwritten 30\np cnf 4 3\n-1 2 0\n-2 3 0\n3 4 0\n",
    ),
    // nothing is stamped, so nothing is shortened
    (
        "run-of-settle-alone",
        DOCUMENT_INPUT,
        "programme 1\nrun 65535\nstate\nwrite 256\ncodes\n",
        "loaded 4 3 0\nset\nran 1\nstate 4 3 0 0 0 0 0\nwritten 32\np cnf 4 3\n-1 2 0\n-2 3 0\n1 3 4 0\ncodes 1\n",
    ),
    // the stamps of P2 are fresh behind the run
    (
        "run-that-stamps-last",
        DOCUMENT_INPUT,
        "programme 1 2\nrun 65535\nstate\nstamps\nsweep 65535\n",
        "loaded 4 3 0\nset\nran 1\nstate 4 3 0 0 0 1 0\n1 6 1 1\n9 10 -2 -3\n2 5 1 1\n8 11 -3 -3\n3 4 2 1\n7 12 -3 -3\n13 14 4 4\n15 16 -4 -4\ndone 3 0 1\n",
    ),
    // the settle spends the stamps
    (
        "run-that-settles-last",
        DOCUMENT_INPUT,
        "programme 1 2 1\nrun 65535\nstate\nsweep 65535\n",
        "loaded 4 3 0\nset\nran 1\nstate 4 3 0 0 0 0 0\nrefused 9 0\n",
    ),
    // the unit makes the first round change something; the second shortens nothing either
    (
        "programme-in-every-round",
        "p cnf 5 4\n-1 2 0\n-2 3 0\n1 3 4 0\n5 0\n",
        "programme 1\nrun 65535\nwrite 256\n",
        "loaded 5 4 0\nset\nran 2\nwritten 36\np cnf 5 4\n5 0\n-1 2 0\n-2 3 0\n1 3 4 0\n",
    ),
    (
        "programme-in-every-run",
        DOCUMENT_INPUT,
        "programme 1\nrun 1\nrun 2\npropagate 65535\nrun 1\nwrite 256\ncodes\n",
        "loaded 4 3 0\nset\nran 1\nran 1\ndone 3 0 0\nran 1\nwritten 32\np cnf 4 3\n-1 2 0\n-2 3 0\n1 3 4 0\ncodes 1\n",
    ),
    (
        "run-0-of-another",
        PAIR,
        "programme 1 2 4\nrun 0\ncodes\n",
        "loaded 2 1 0\nset\nran 0\ncodes 1 2 4\n",
    ),
    (
        "run-of-another-with-no-variables",
        "p cnf 0 0\n",
        "programme 1 2 3 3 4 1 1 2\nrun 65535\nstate\n",
        "loaded 0 0 0\nset\nran 1\nstate 0 0 0 0 0 1 0\n",
    ),
    // P9: a settle makes classes and propagates the unit that Merge leaves
    (
        "run-of-settle-alone-merges",
        P9,
        "programme 1\nrun 65535\nvariables\nwrite 256\n",
        "loaded 4 5 0\nset\nran 2\n1 1\n1 1\n-1 -1\n1 1\nwritten 56\np cnf 4 7\n1 0\n2 -1 0\n-2 1 0\n3 1 0\n-3 -1 0\n4 -1 0\n-4 1 0\n",
    ),
    // P6: 1 fails, and the sweep shortens both clauses to -1
    (
        "run-with-failed",
        FAILS,
        "run 1\nwrite 256\nvariables\n",
        "loaded 2 2 0\nran 1\nwritten 25\np cnf 2 3\n-1 0\n-1 0\n-1 0\n1 -1\n2 0\n",
    ),
    (
        "run-without-failed",
        FAILS,
        "programme 1 2 4\nrun 1\nwrite 256\nvariables\n",
        "loaded 2 2 0\nset\nran 1\nwritten 20\np cnf 2 2\n-1 0\n-1 0\n1 0\n2 0\n",
    ),
    // the second one finds the value there
    (
        "run-with-failed-twice",
        FAILS,
        "programme 1 2 3 3 4\nrun 1\nwrite 256\nvariables\n",
        "loaded 2 2 0\nset\nran 1\nwritten 25\np cnf 2 3\n-1 0\n-1 0\n-1 0\n1 -1\n2 0\n",
    ),
    // the clauses stay until the next run propagates the value
    (
        "run-that-fails-last",
        FAILS,
        "programme 1 2 3\nrun 1\nstate\nwrite 256\nrun 65535\nwrite 256\n",
        "loaded 2 2 0\nset\nran 1\nstate 2 2 0 0 0 1 0\nwritten 30\np cnf 2 3\n-1 0\n-1 2 0\n-1 -2 0\nran 2\nwritten 15\np cnf 2 1\n-1 0\n",
    ),
    // the second settle propagates the units that the first sweep leaves
    (
        "run-of-two-in-one",
        FAILS,
        "programme 1 2 4 1 2 3 4\nrun 1\nwrite 256\nvariables\n",
        "loaded 2 2 0\nset\nran 1\nwritten 15\np cnf 2 1\n-1 0\n1 -1\n2 0\n",
    ),
    // the second round propagates, the third changes nothing
    (
        "rounds-of-the-constant-one",
        FAILS,
        "run 65535\nwrite 256\n",
        "loaded 2 2 0\nran 3\nwritten 15\np cnf 2 1\n-1 0\n",
    ),
    (
        "rounds-of-two-in-one",
        FAILS,
        "programme 1 2 4 1 2 3 4\nrun 65535\nwrite 256\n",
        "loaded 2 2 0\nset\nran 2\nwritten 15\np cnf 2 1\n-1 0\n",
    ),
    (
        "rounds-of-32-codes",
        FAILS,
        "programme 1 2 3 4 1 2 3 4 1 2 3 4 1 2 3 4 1 2 3 4 1 2 3 4 1 2 3 4 1 2 3 4\nrun 65535\nwrite 256\n",
        "loaded 2 2 0\nset\nran 2\nwritten 15\np cnf 2 1\n-1 0\n",
    ),
    // 1 fails; behind its value the last four clauses make 3 and its complement one
    (
        "mark-in-the-second-round",
        OPPOSED,
        "run 65535\nstate\nwrite 256\n",
        "loaded 4 6 0\nran 2\nstate 4 6 0 0 0 0 1\nwritten 12\np cnf 4 1\n0\n",
    ),
    // the codes behind it are not followed
    (
        "mark-in-the-second-settle",
        OPPOSED,
        "programme 1 2 3 1 2 3 4\nrun 65535\nstate\nwrite 256\ncodes\nprogramme 1 2 4\ncodes\n",
        "loaded 4 6 0\nset\nran 1\nstate 4 6 0 0 0 0 1\nwritten 12\np cnf 4 1\n0\ncodes 1 2 3 1 2 3 4\nset\ncodes 1 2 4\n",
    ),
    (
        "mark-not-met-by-settle-alone",
        OPPOSED,
        "programme 1\nrun 65535\nstate\n",
        "loaded 4 6 0\nset\nran 1\nstate 4 6 0 0 0 0 0\n",
    ),
    // the fourth clause is dropped because 1, the first of the list, holds 4; with the list of the next round 2 would hold it
    (
        "both-stamps-of-a-round-take-its-list",
        ONE_FIRST,
        "programme 1 2 1 2 4\nrun 1\nclauses\n",
        "loaded 5 4 0\nset\nran 1\n0 2 1\n2 2 1\n4 2 1\n6 0 0\n",
    ),
    // 1, the first of the list, holds 4; the fourth clause would be dropped if 2 held it
    (
        "both-sweeps-of-a-round-under-its-list",
        TWO_SECOND,
        "programme 1 2 4 1 2 4\nrun 1\nclauses\n",
        "loaded 6 5 0\nset\nran 1\n0 2 1\n2 2 1\n4 2 1\n6 3 1\n9 0 0\n",
    ),
    (
        "next-round-turns-the-list",
        TWO_SECOND,
        "programme 1 2 4 1 2 4\nrun 2\nclauses\n",
        "loaded 6 5 0\nset\nran 2\n0 2 1\n2 2 1\n4 2 1\n6 0 0\n9 0 0\n",
    ),
    (
        "rounds-until-nothing-changes",
        TWO_SECOND,
        "programme 1 2 4\nrun 65535\nwrite 256\n",
        "loaded 6 5 0\nset\nran 3\nwritten 36\np cnf 6 4\n6 0\n-2 4 0\n-1 4 0\n-3 -2 0\n",
    ),
];

/// Lines of `programme`, `codes` and `set programme` that are none. The wrong
/// line is the last that is read.
pub const WRONG_LINES: &[Lines] = &[
    (
        "programme-line-65-codes",
        PAIR,
        "programme 1 1 1 1 1 1 1 1 1 1 1 1 1 1 1 1 1 1 1 1 1 1 1 1 1 1 1 1 1 1 1 1 1 1 1 1 1 1 1 1 1 1 1 1 1 1 1 1 1 1 1 1 1 1 1 1 1 1 1 1 1 1 1 1 1\nstate\n",
        "loaded 2 1 0\nerror 2\n",
    ),
    (
        "programme-line-256",
        PAIR,
        "programme 1 256\nstate\n",
        "loaded 2 1 0\nerror 2\n",
    ),
    // 1 by its last 8 bits
    (
        "programme-line-257",
        PAIR,
        "programme 257\nstate\n",
        "loaded 2 1 0\nerror 2\n",
    ),
    (
        "programme-line-2-to-the-32-and-1",
        PAIR,
        "programme 4294967297\nstate\n",
        "loaded 2 1 0\nerror 2\n",
    ),
    (
        "programme-line-2-to-the-64-and-1",
        PAIR,
        "programme 18446744073709551617\nstate\n",
        "loaded 2 1 0\nerror 2\n",
    ),
    (
        "programme-line-minus-1",
        PAIR,
        "programme -1\nstate\n",
        "loaded 2 1 0\nerror 2\n",
    ),
    (
        "programme-line-minus-nought",
        PAIR,
        "programme -0\nstate\n",
        "loaded 2 1 0\nerror 2\n",
    ),
    (
        "programme-line-plus",
        PAIR,
        "programme +1\nstate\n",
        "loaded 2 1 0\nerror 2\n",
    ),
    (
        "programme-line-letter",
        PAIR,
        "programme 1 2 x 4\nstate\n",
        "loaded 2 1 0\nerror 2\n",
    ),
    (
        "programme-line-leading-zero",
        PAIR,
        "programme 01\nstate\n",
        "loaded 2 1 0\nerror 2\n",
    ),
    (
        "programme-line-two-spaces",
        PAIR,
        "programme 1  2\nstate\n",
        "loaded 2 1 0\nerror 2\n",
    ),
    (
        "programme-line-space-at-end",
        PAIR,
        "programme 1 \nstate\n",
        "loaded 2 1 0\nerror 2\n",
    ),
    (
        "programme-line-space-alone",
        PAIR,
        "programme \nstate\n",
        "loaded 2 1 0\nerror 2\n",
    ),
    (
        "programme-line-tab",
        PAIR,
        "programme\t1\nstate\n",
        "loaded 2 1 0\nerror 2\n",
    ),
    (
        "programme-line-other-letters",
        PAIR,
        "Programme 1\nstate\n",
        "loaded 2 1 0\nerror 2\n",
    ),
    // the input ends inside the line
    (
        "programme-line-no-LF",
        PAIR,
        "programme 1",
        "loaded 2 1 0\nerror 2\n",
    ),
    (
        "programme-line-behind-good-ones",
        PAIR,
        "programme 1\ncodes\nprogramme 1 2 x\ncodes\n",
        "loaded 2 1 0\nset\ncodes 1\nerror 4\n",
    ),
    (
        "codes-line-number",
        PAIR,
        "codes 1\nstate\n",
        "loaded 2 1 0\nerror 2\n",
    ),
    (
        "codes-line-space-at-end",
        PAIR,
        "codes \nstate\n",
        "loaded 2 1 0\nerror 2\n",
    ),
    (
        "codes-line-one-letter-less",
        PAIR,
        "code\nstate\n",
        "loaded 2 1 0\nerror 2\n",
    ),
    (
        "set-programme-no-number",
        PAIR,
        "set programme\nstate\n",
        "loaded 2 1 0\nerror 2\n",
    ),
    (
        "set-programme-field-alone",
        PAIR,
        "set programme 1\nstate\n",
        "loaded 2 1 0\nerror 2\n",
    ),
    (
        "set-programme-three-numbers",
        PAIR,
        "set programme 1 0 1\nstate\n",
        "loaded 2 1 0\nerror 2\n",
    ),
    (
        "set-programme-field-33",
        PAIR,
        "set programme 33 1\nstate\n",
        "loaded 2 1 0\nerror 2\n",
    ),
    (
        "set-programme-field-minus-1",
        PAIR,
        "set programme -1 1\nstate\n",
        "loaded 2 1 0\nerror 2\n",
    ),
    (
        "set-programme-field-leading-zero",
        PAIR,
        "set programme 01 1\nstate\n",
        "loaded 2 1 0\nerror 2\n",
    ),
    (
        "set-programme-field-letter",
        PAIR,
        "set programme x 1\nstate\n",
        "loaded 2 1 0\nerror 2\n",
    ),
    (
        "set-programme-value-256",
        PAIR,
        "set programme 1 256\nstate\n",
        "loaded 2 1 0\nerror 2\n",
    ),
    (
        "set-programme-length-256",
        PAIR,
        "set programme 0 256\nstate\n",
        "loaded 2 1 0\nerror 2\n",
    ),
    (
        "set-programme-value-minus-1",
        PAIR,
        "set programme 1 -1\nstate\n",
        "loaded 2 1 0\nerror 2\n",
    ),
    (
        "set-programme-value-leading-zero",
        PAIR,
        "set programme 1 01\nstate\n",
        "loaded 2 1 0\nerror 2\n",
    ),
    (
        "set-programme-value-letter",
        PAIR,
        "set programme 1 x\nstate\n",
        "loaded 2 1 0\nerror 2\n",
    ),
    (
        "set-programme-space-at-end",
        PAIR,
        "set programme 1 1 \nstate\n",
        "loaded 2 1 0\nerror 2\n",
    ),
    (
        "lend-programme",
        PAIR,
        "lend programme 32\nstate\n",
        "loaded 2 1 0\nerror 2\n",
    ),
    // the programme is no field of the state
    (
        "set-state-programme",
        PAIR,
        "set state 7 1\nstate\n",
        "loaded 2 1 0\nerror 2\n",
    ),
];
