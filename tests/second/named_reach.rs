//! Named cases of the reach: Sweeps that drop pairs and keep every arrow, that
//! shorten longer clauses and add arrows, and that shorten pairs and lose some;
//! stopped, resumed, and with refused and with other calls between.

/// A name, a text, the calls behind its load, and what all of them print.
type Lines = (&'static str, &'static str, &'static str, &'static str);

/// Some p and q such that p reaches q, and by the same clauses -q reaches -p.
type Arrows = &'static [(i32, i32)];

/// A case whose calls begin with the Stamp, and all its arrows: nothing else is
/// reached, each literal by itself apart.
pub struct ReachCase {
    pub lines: Lines,
    /// Reached right behind the Stamp, and at the end.
    pub kept: Arrows,
    /// Reached right behind the Stamp alone.
    pub lost: Arrows,
    /// Reached at the end alone.
    pub added: Arrows,
}

/// P3.
const TRANSITIVE: &str = "p cnf 3 3\n-1 2 0\n-2 3 0\n-1 3 0\n";
/// The same with the short cut before the second step.
const SHORT_CUT_INSIDE: &str = "p cnf 3 3\n-1 2 0\n-1 3 0\n-2 3 0\n";
/// 1, 2, 3 and 4 in a line with all short cuts; 5 leads to 3, and 6 to -2.
const LONG_CHAIN: &str =
    "p cnf 6 8\n-1 2 0\n-2 3 0\n-3 4 0\n-1 3 0\n-2 4 0\n-1 4 0\n-5 3 0\n-6 -2 0\n";
const LONG_CHAIN_ARROWS: Arrows = &[
    (1, 2),
    (1, 3),
    (1, 4),
    (1, -6),
    (2, 3),
    (2, 4),
    (2, -6),
    (3, 4),
    (5, 3),
    (5, 4),
];

pub const REACH: &[ReachCase] = &[
    // the third clause is dropped, and 1 still reaches 3 over 2
    ReachCase {
        lines: (
            "reach-stopped-at-each-visit",
            TRANSITIVE,
            "stamp 1 -1 2 -2 3 -3\nsweep 0\nstate\nsweep 1\nsweep 1\nliterals\nstate\nsweep 1\nliterals\nstate\n",
            "loaded 3 3 0\nstamped\nopen 0 0 0\nstate 3 3 3 0 0 1 0\nopen 1 0 0\nopen 1 0 0\nliterals -1 2 -2 3 -1 3\nstate 3 3 3 2 0 1 0\ndone 1 1 2\nliterals -1 2 -2 3\nstate 3 3 0 0 0 0 0\n",
        ),
        kept: &[(1, 2), (1, 3), (2, 3)],
        lost: &[],
        added: &[],
    },
    // the Sweep stays open, with the last step of the chain still to visit
    ReachCase {
        lines: (
            "reach-stopped-behind-a-dropped-pair",
            SHORT_CUT_INSIDE,
            "stamp 1 -1 2 -2 3 -3\nstamps\nsweep 2\nclauses\nliterals\n",
            "loaded 3 3 0\nstamped\n1 6 1 1\n8 9 -3 -3\n2 5 1 1\n10 11 -3 -3\n3 4 2 1\n7 12 -3 -3\nopen 2 1 2\n0 2 1\n2 0 0\n4 2 1\nliterals -1 2 0 0 -2 3\n",
        ),
        kept: &[(1, 2), (1, 3), (2, 3)],
        lost: &[],
        added: &[],
    },
    // P2: 1 goes, and (3 4) gives two edges that were not there
    ReachCase {
        lines: (
            "reach-added-by-a-clause-of-three",
            "p cnf 4 3\n-1 2 0\n-2 3 0\n1 3 4 0\n",
            "stamp 1 -1 2 -2 3 -3 4 -4\nsweep 2\nliterals\nsweep 1\nliterals\n",
            "loaded 4 3 0\nstamped\nopen 2 0 0\nliterals -1 2 -2 3 1 3 4\ndone 1 0 1\nliterals -1 2 -2 3 3 4\n",
        ),
        kept: &[(1, 2), (1, 3), (2, 3)],
        lost: &[],
        added: &[(-3, 4)],
    },
    // a pair is dropped; the last clause becomes (3 -4), so that 5 reaches 3 over 4
    ReachCase {
        lines: (
            "reach-added-over-two-arrows",
            "p cnf 5 5\n-1 2 0\n-2 3 0\n-1 3 0\n-5 4 0\n1 3 -4 0\n",
            "stamp 1 -1 2 -2 3 -3 4 -4 5 -5\nstamps\nsweep 65535\nliterals\n",
            "loaded 5 5 0\nstamped\n1 6 1 1\n9 10 -2 -3\n2 5 1 1\n8 11 -3 -3\n3 4 2 1\n7 12 -3 -3\n18 19 5 5\n13 16 -4 -4\n17 20 5 5\n14 15 -4 -4\ndone 5 1 3\nliterals -1 2 -2 3 0 0 -5 4 3 -4\n",
        ),
        kept: &[(1, 2), (1, 3), (2, 3), (5, 4)],
        lost: &[],
        added: &[(4, 3), (5, 3)],
    },
    // the third clause becomes one that stands already, which the stamps do not show: 2 lies under 1, and 3 under 4
    ReachCase {
        lines: (
            "reach-shortened-to-a-pair-that-stands",
            "p cnf 4 4\n-1 2 0\n2 3 0\n1 2 3 0\n-4 3 0\n",
            "stamp 1 4 -1 2 -2 3 -3 -4\nstamps\nsweep 65535\nliterals\n",
            "loaded 4 4 0\nstamped\n1 4 1 1\n10 11 -2 -2\n2 3 1 1\n9 12 -2 -2\n6 7 4 4\n13 16 -3 -3\n5 8 4 4\n14 15 -3 -3\ndone 4 0 1\nliterals -1 2 2 3 2 3 0 -4 3\n",
        ),
        kept: &[(1, 2), (-2, 3), (4, 3)],
        lost: &[],
        added: &[],
    },
    // no pair comes of a clause that keeps one literal or three
    ReachCase {
        lines: (
            "reach-shortened-to-one-and-to-three",
            "p cnf 5 4\n-1 2 0\n-2 3 0\n1 2 3 0\n1 2 4 5 0\n",
            "stamp 1 -1 2 -2 3 -3 4 -4 5 -5\nsweep 3\nliterals\nsweep 1\nliterals\n",
            "loaded 5 4 0\nstamped\nopen 3 0 2\nliterals -1 2 -2 3 3 0 0 1 2 4 5\ndone 1 0 1\nliterals -1 2 -2 3 3 0 0 2 4 5\n",
        ),
        kept: &[(1, 2), (1, 3), (2, 3)],
        lost: &[],
        added: &[],
    },
    // P6, stopped where the first clause is -1 and the second is whole
    ReachCase {
        lines: (
            "reach-lost-by-a-shortened-pair",
            "p cnf 2 2\n-1 2 0\n-1 -2 0\n",
            "stamp 1 -1 2 -2\nsweep 1\nliterals\nstate\n",
            "loaded 2 2 0\nstamped\nopen 1 0 1\nliterals -1 0 -1 -2\nstate 2 2 3 1 0 1 0\n",
        ),
        kept: &[(1, -2)],
        lost: &[(1, 2), (1, -1)],
        added: &[],
    },
    // up to the first stop a pair is dropped and none is shortened
    ReachCase {
        lines: (
            "reach-lost-behind-a-dropped-pair",
            "p cnf 5 5\n-1 2 0\n-2 3 0\n-1 3 0\n-4 5 0\n-4 -5 0\n",
            "stamp 1 -1 2 -2 3 -3 4 -4 5 -5\nstamps\nsweep 3\nliterals\nsweep 65535\nliterals\n",
            "loaded 5 5 0\nstamped\n1 6 1 1\n9 10 -2 -3\n2 5 1 1\n8 11 -3 -3\n3 4 2 1\n7 12 -3 -3\n13 20 4 4\n15 16 5 4\n14 17 4 4\n18 19 4 4\nopen 3 1 2\nliterals -1 2 -2 3 0 0 -4 5 -4 -5\ndone 2 0 2\nliterals -1 2 -2 3 0 0 -4 0 -4\n",
        ),
        kept: &[(1, 2), (1, 3), (2, 3)],
        lost: &[(4, 5), (4, -5), (4, -4)],
        added: &[],
    },
    ReachCase {
        lines: (
            "reach-with-refused-sweeps",
            TRANSITIVE,
            "stamp 1 -1 2 -2 3 -3\nsweep 1\nlend literals 16383\nsweep 1\nlend literals 16384\nsweep 1\nlend stamps 2047\nsweep 65535\nlend stamps 2048\nstate\nsweep 65535\nsweep 65535\nliterals\nstate\n",
            "loaded 3 3 0\nstamped\nopen 1 0 0\nrefused 1 0\nopen 1 0 0\nrefused 1 0\nstate 3 3 3 2 0 1 0\ndone 1 1 2\nrefused 9 0\nliterals -1 2 -2 3\nstate 3 3 0 0 0 0 0\n",
        ),
        kept: &[(1, 2), (1, 3), (2, 3)],
        lost: &[],
        added: &[],
    },
    ReachCase {
        lines: (
            "reach-with-other-calls-refused",
            SHORT_CUT_INSIDE,
            "stamp 1 -1 2 -2 3 -3\nsweep 2\nfailed\nstamp 1 -1 2 -2 3 -3\npropagate 65535\nmerge 65535\nrun 1\nliterals\nstate\nsweep 1\nfailed\nstate\n",
            "loaded 3 3 0\nstamped\nopen 2 1 2\nrefused 4 0\nrefused 4 0\nrefused 4 0\nrefused 4 0\nrefused 4 0\nliterals -1 2 0 0 -2 3\nstate 3 3 3 2 0 1 0\ndone 1 0 0\nrefused 9 0\nstate 3 3 0 0 0 0 0\n",
        ),
        kept: &[(1, 2), (1, 3), (2, 3)],
        lost: &[],
        added: &[],
    },
    // 1 leads to 4 over 2 and to -4 over 3, so it fails; no pair is shortened, for -2 lies under 5 and -3 under 6
    ReachCase {
        lines: (
            "reach-with-failed-between",
            "p cnf 6 7\n-1 2 0\n-2 4 0\n-1 3 0\n-3 -4 0\n-5 -2 0\n-6 -3 0\n-1 4 0\n",
            "stamp 5 6 1 -1 2 -2 3 -3 4 -4 -5 -6\nstamps\nfailed\nsweep 3\nfailed\nsweep 4\nvariables\nliterals\n",
            "loaded 6 7 0\nstamped\n11 24 1 1\n3 4 -2 5\n12 17 1 1\n2 5 5 5\n18 23 1 1\n8 9 6 6\n13 14 2 1\n19 20 3 1\n1 6 5 5\n15 16 2 1\n7 10 6 6\n21 22 3 1\nfailed 1\nopen 3 0 0\nrefused 4 0\ndone 4 1 2\n1 -1\n2 0\n3 0\n4 0\n5 0\n6 0\nliterals -1 2 -2 4 -1 3 -3 -4 -5 -2 -6 -3\n",
        ),
        kept: &[
            (1, 2),
            (1, -2),
            (1, 3),
            (1, -3),
            (1, 4),
            (1, -4),
            (1, -5),
            (1, -6),
            (1, -1),
            (2, 4),
            (2, -5),
            (2, -3),
            (3, -4),
            (3, -6),
        ],
        lost: &[],
        added: &[],
    },
    ReachCase {
        lines: (
            "reach-with-programmes-between",
            TRANSITIVE,
            "stamp 1 -1 2 -2 3 -3\nprogramme 1 2 4\nsweep 2\nprogramme 1\nprogramme 4\ncodes\nsweep 2\nprogramme 1 2 3 4\ncodes\nliterals\n",
            "loaded 3 3 0\nstamped\nset\nopen 2 0 0\nset\nrefused 12 0\ncodes 1\ndone 1 1 2\nset\ncodes 1 2 3 4\nliterals -1 2 -2 3\n",
        ),
        kept: &[(1, 2), (1, 3), (2, 3)],
        lost: &[],
        added: &[],
    },
    // 1 holds 3 and 4, and 2 holds 4
    ReachCase {
        lines: (
            "reach-long-chain",
            LONG_CHAIN,
            "stamp 1 -1 2 -2 3 -3 4 -4 5 -5 6 -6\nstamps\nsweep 4\nliterals\nsweep 1\nsweep 65535\nliterals\n",
            "loaded 6 8 0\nstamped\n1 10 1 1\n14 15 -2 -4\n2 9 1 1\n13 16 -3 -4\n3 6 2 1\n12 19 -4 -4\n4 5 3 1\n11 20 -4 -4\n21 22 5 5\n17 18 -3 -4\n23 24 6 6\n7 8 2 1\nopen 4 1 2\nliterals -1 2 -2 3 -3 4 0 0 -2 4 -1 4 -5 3 -6 -2\nopen 1 1 2\ndone 3 1 2\nliterals -1 2 -2 3 -3 4 0 0 0 0 0 0 -5 3 -6 -2\n",
        ),
        kept: LONG_CHAIN_ARROWS,
        lost: &[],
        added: &[],
    },
    // 3 and 4 lie under 5; the same pairs are dropped, for -3 holds -1, and -4 holds -2 and -1
    ReachCase {
        lines: (
            "reach-long-chain-by-the-complements",
            LONG_CHAIN,
            "stamp 5 1 -1 2 -2 3 -3 4 -4 -5 6 -6\nstamps\nsweep 65535\nliterals\n",
            "loaded 6 8 0\nstamped\n7 12 1 1\n16 17 -2 -4\n8 11 1 1\n15 18 -3 -4\n2 5 5 5\n14 21 -4 -4\n3 4 3 5\n13 22 -4 -4\n1 6 5 5\n19 20 -3 -4\n23 24 6 6\n9 10 2 1\ndone 8 3 6\nliterals -1 2 -2 3 -3 4 0 0 0 0 0 0 -5 3 -6 -2\n",
        ),
        kept: LONG_CHAIN_ARROWS,
        lost: &[],
        added: &[],
    },
    // besides, -2 and -1 lie under 6: nothing is dropped
    ReachCase {
        lines: (
            "reach-long-chain-not-seen",
            LONG_CHAIN,
            "stamp 5 6 1 -1 2 -2 3 -3 4 -4 -5 -6\nstamps\nsweep 65535\nliterals\n",
            "loaded 6 8 0\nstamped\n13 18 1 1\n9 10 -2 6\n14 17 1 1\n8 11 6 6\n2 5 5 5\n20 23 -4 -4\n3 4 3 5\n19 24 -4 -4\n1 6 5 5\n21 22 -3 -4\n7 12 6 6\n15 16 2 1\ndone 8 0 0\nliterals -1 2 -2 3 -3 4 -1 3 -2 4 -1 4 -5 3 -6 -2\n",
        ),
        kept: LONG_CHAIN_ARROWS,
        lost: &[],
        added: &[],
    },
    // (-1 3) is dropped for the chain 1, 2, 3, whose first step is dropped itself, for -2 leads to -1 over 4; left is 1, -4, 2, 3
    ReachCase {
        lines: (
            "reach-chain-with-a-dropped-step",
            "p cnf 4 5\n2 4 0\n-1 2 0\n-4 -1 0\n-2 3 0\n-1 3 0\n",
            "stamp 1 -1 2 -2 3 -3 4 -4\nstamps\nsweep 2\nliterals\nsweep 65535\nliterals\n",
            "loaded 4 5 0\nstamped\n1 8 1 1\n12 13 4 -3\n2 5 1 1\n10 15 -3 -3\n3 4 2 1\n9 16 -3 -3\n11 14 -2 -3\n6 7 1 1\nopen 2 1 2\nliterals 2 4 0 0 -4 -1 -2 3 -1 3\ndone 3 1 2\nliterals 2 4 0 0 -4 -1 -2 3\n",
        ),
        kept: &[(1, 2), (1, 3), (1, -4), (2, 3), (-4, 2), (-4, 3)],
        lost: &[],
        added: &[],
    },
    // of a step that stands twice both stay, of a short cut that stands twice none
    ReachCase {
        lines: (
            "reach-doubled-clauses",
            "p cnf 3 5\n-1 2 0\n2 -1 0\n-2 3 0\n-1 3 0\n3 -1 0\n",
            "stamp 1 -1 2 -2 3 -3\nsweep 4\nliterals\nsweep 0\nsweep 65535\nliterals\n",
            "loaded 3 5 0\nstamped\nopen 4 1 2\nliterals -1 2 2 -1 -2 3 0 0 3 -1\nopen 0 0 0\ndone 1 1 2\nliterals -1 2 2 -1 -2 3\n",
        ),
        kept: &[(1, 2), (1, 3), (2, 3)],
        lost: &[],
        added: &[],
    },
];
