//! Named cases of joins at the limits: as many variables, clauses, literals and
//! links as there may be, and one more of each.

use crate::named::Case;
use crate::named_join::{lines, EMPTY, UNIT};
use crate::named_learn::CHAIN;

/// In all of them the join is refused with 3 at 0 exactly if it is above a limit.
pub fn cases() -> Vec<Case> {
    variables()
        .into_iter()
        .chain(clauses())
        .chain(literals())
        .chain(links())
        .collect()
}

fn case(name: &'static str, join: (&str, &str, &str), after: &str, prints: &str) -> Case {
    Case {
        name,
        text: CHAIN.as_bytes().to_vec(),
        calls: format!("{}{after}", lines(join)),
        prints: format!("loaded 4 3 0\n{prints}"),
    }
}

/// Each number with itself.
fn equal_links(count: usize) -> String {
    let pairs: Vec<String> = (1..=count).map(|v| format!("{v} {v}")).collect();
    pairs.join(" ")
}

/// The first with the last, and so on.
fn crossed_links(count: usize) -> String {
    let pairs: Vec<String> = (1..=count)
        .map(|v| format!("{v} {}", count + 1 - v))
        .collect();
    pairs.join(" ")
}

fn variables() -> Vec<Case> {
    let most = "p cnf 1024 1\n1 -1024 0\n";
    let other = "p cnf 1024 2\n-1 2 0\n1023 -1024 0\n";
    let state = "state\n";
    vec![
        case(
            "join-V-1023-and-1",
            ("p cnf 1023 1\n-1023 0\n", UNIT, ""),
            "write 256\n",
            "loaded 1024 2 0\nwritten 28\np cnf 1024 2\n-1023 0\n1024 0\n",
        ),
        case(
            "join-V-1-and-1023",
            (UNIT, "p cnf 1023 1\n-1023 1 0\n", ""),
            "write 256\n",
            "loaded 1024 2 0\nwritten 27\np cnf 1024 2\n1 0\n-1024 2 0\n",
        ),
        case(
            "join-V-1024-and-0",
            (most, EMPTY, ""),
            "write 256\n",
            "loaded 1024 1 0\nwritten 23\np cnf 1024 1\n1 -1024 0\n",
        ),
        case(
            "join-V-0-and-1024",
            (EMPTY, most, ""),
            "write 256\n",
            "loaded 1024 1 0\nwritten 23\np cnf 1024 1\n1 -1024 0\n",
        ),
        case(
            "join-V-1024-and-1-linked",
            (most, UNIT, "1024 1"),
            "write 256\n",
            "loaded 1024 2 0\nwritten 30\np cnf 1024 2\n1 -1024 0\n1024 0\n",
        ),
        case(
            "join-V-1-and-1024-linked",
            (UNIT, most, "1 1024"),
            "write 256\n",
            "loaded 1024 2 0\nwritten 24\np cnf 1024 2\n1 0\n2 -1 0\n",
        ),
        case(
            "join-V-1024-crossed",
            (most, other, &crossed_links(1_024)),
            "write 256\n",
            "loaded 1024 3 0\nwritten 43\np cnf 1024 3\n1 -1024 0\n-1024 1023 0\n2 -1 0\n",
        ),
        case(
            "join-V-1024-and-1",
            ("p cnf 1024 0\n", "p cnf 1 0\n", ""),
            state,
            "refused 3 0\nstate 4 3 0 0 0 0 0\n",
        ),
        case(
            "join-V-1-and-1024",
            (UNIT, "p cnf 1024 0\n", ""),
            state,
            "refused 3 0\nstate 4 3 0 0 0 0 0\n",
        ),
        case(
            "join-V-512-and-513",
            ("p cnf 512 0\n", "p cnf 513 0\n", ""),
            state,
            "refused 3 0\nstate 4 3 0 0 0 0 0\n",
        ),
        case(
            "join-V-512-and-513-one-linked",
            ("p cnf 512 0\n", "p cnf 513 1\n513 0\n", "1 1"),
            "write 256\n",
            "loaded 1024 1 0\nwritten 20\np cnf 1024 1\n1024 0\n",
        ),
        case(
            "join-V-1024-and-1024",
            (most, most, ""),
            state,
            "refused 3 0\nstate 4 3 0 0 0 0 0\n",
        ),
        case(
            "join-V-1024-and-1024-all-but-one-linked",
            (most, most, &equal_links(1_023)),
            state,
            "refused 3 0\nstate 4 3 0 0 0 0 0\n",
        ),
        // a wrong link before the limit
        case(
            "join-15-before-V-1025",
            ("p cnf 1024 0\n", "p cnf 3 0\n", "1 1 1025 2"),
            state,
            "refused 15 1\nstate 4 3 0 0 0 0 0\n",
        ),
        case(
            "join-15-left-over-before-V-2048",
            (most, most, "1"),
            state,
            "refused 15 0\nstate 4 3 0 0 0 0 0\n",
        ),
    ]
}

/// A text of so many clauses.
fn of_clauses(clause: &str, count: usize) -> String {
    format!("p cnf 1 {count}\n{}", clause.repeat(count))
}

fn clauses() -> Vec<Case> {
    let most = of_clauses("0 ", 4_096);
    let half = of_clauses("0 ", 2_048);
    let one = "p cnf 1 1\n0\n";
    let state = "state\n";
    vec![
        case(
            "join-N-2048-and-2048",
            (&half, &half, "1 1"),
            "write 256\nstate\n",
            "loaded 1 4096 1\nwritten 12\np cnf 1 1\n0\nstate 1 4096 0 0 0 0 1\n",
        ),
        case(
            "join-N-4096-and-1",
            (&most, one, ""),
            state,
            "refused 3 0\nstate 4 3 0 0 0 0 0\n",
        ),
        // a clause that a load drops is counted too
        case(
            "join-N-1-dropped-and-4096",
            ("p cnf 1 1\n1 -1 0\n", &most, "1 1"),
            state,
            "refused 3 0\nstate 4 3 0 0 0 0 0\n",
        ),
        case(
            "join-15-before-N-4097",
            (&most, one, "1 1 1 1"),
            state,
            "refused 15 1\nstate 4 3 0 0 0 0 0\n",
        ),
    ]
}

/// A text of one clause that is written with so many literals, of which one is kept.
fn of_literals(count: usize) -> String {
    format!("p cnf 1 1\n{}0\n", "1 ".repeat(count))
}

/// The same with both signs, so that a load drops the clause.
fn of_both_signs(count: usize) -> String {
    format!("p cnf 1 1\n{}0\n", "1 -1 ".repeat(count / 2))
}

/// The literals are counted as written: with repeats, and with those of clauses that
/// have v and -v.
fn literals() -> Vec<Case> {
    vec![
        case(
            "join-8192-literals-and-8192",
            (&of_literals(8_192), &of_both_signs(8_192), ""),
            "clauses\nliterals\n",
            "loaded 2 2 0\n0 1 1\n1 0 0\nliterals 1\n",
        ),
        case(
            "join-8192-literals-and-8193",
            (&of_both_signs(8_192), &of_literals(8_193), "1 1"),
            "state\n",
            "refused 3 0\nstate 4 3 0 0 0 0 0\n",
        ),
        case(
            "join-15-before-16385-literals",
            (&of_literals(16_384), UNIT, "1 2"),
            "state\n",
            "refused 15 0\nstate 4 3 0 0 0 0 0\n",
        ),
    ]
}

/// A line has 4,096 numbers at most, and 1,024 pairs can be good.
fn links() -> Vec<Case> {
    let most = "p cnf 1024 0\n";
    let all = equal_links(1_024);
    let state = "state\n";
    vec![
        case(
            "join-1024-links-and-a-number",
            (most, most, &format!("{all} 1")),
            state,
            "refused 15 1024\nstate 4 3 0 0 0 0 0\n",
        ),
        case(
            "join-the-last-of-1024-links",
            (most, "p cnf 1023 0\n", &all),
            state,
            "refused 15 1023\nstate 4 3 0 0 0 0 0\n",
        ),
        case(
            "join-4096-numbers",
            (UNIT, UNIT, &["1"; 4_096].join(" ")),
            state,
            "refused 15 1\nstate 4 3 0 0 0 0 0\n",
        ),
    ]
}
