//! The named cases, the pallet cases P1 to P11 among them.

use crate::compare_reach::{Reach, Stamped};
use crate::named;
use crate::named_reach::{ReachCase, REACH};
use crate::replay::Replay;
use crate::tables::literal_of;
use crate::unhide::unhide;

/// Prints `ok` or what differs for each case; the result is the exit status.
pub fn cases() -> i32 {
    let mut status = 0;
    for (name, input, prints) in UNHIDDEN {
        if !told(name, unhide(input), prints) {
            status = 1;
        }
    }
    for case in named::cases() {
        let mut replay = Replay::new();
        replay.take(&case.script());
        let reach = REACH.iter().find(|reach| reach.lines.0 == case.name);
        if let Some(Err(difference)) = reach.map(reach_agrees) {
            println!("{} {difference}", case.name);
            status = 1;
        } else if !told(case.name, replay.output, &case.prints) {
            status = 1;
        }
    }
    status
}

/// The arrows of the case are those that are written; behind each line the reach
/// is such as Sweeps may leave.
fn reach_agrees(case: &ReachCase) -> Result<(), String> {
    let (name, text, calls, prints) = case.lines;
    let mut lines = calls.split_inclusive('\n');
    let stamp = lines.next().unwrap_or("");
    let mut replay = Replay::new();
    replay.take(&named::with_calls(&(name, text, stamp, prints)).script());
    let stamped = Stamped::of(&replay.formula);
    let then = Reach::of(&replay.formula);
    for line in lines {
        replay.take(line.as_bytes());
        stamped.compare(&replay.formula)?;
    }
    arrows_agree(case, &then, &Reach::of(&replay.formula), replay.formula.v())
}

/// An arrow from p to q is also one from -q to -p, and each literal reaches itself.
fn arrows_agree(case: &ReachCase, then: &Reach, now: &Reach, v: usize) -> Result<(), String> {
    for p in (0..2 * v).map(literal_of) {
        for q in (0..2 * v).map(literal_of) {
            let is_in =
                |arrows: &[(i32, i32)]| arrows.contains(&(p, q)) || arrows.contains(&(-q, -p));
            let is_kept = p == q || is_in(case.kept);
            let wanted = (is_kept || is_in(case.lost), is_kept || is_in(case.added));
            let found = (then.has(p, q), now.has(p, q));
            if found != wanted {
                return Err(format!(
                    "reach from {p} to {q} found {found:?}, wanted {wanted:?}"
                ));
            }
        }
    }
    Ok(())
}

/// Prints whether what was found is what is wanted.
fn told(name: &str, found: Vec<u8>, wanted: &str) -> bool {
    let same = found == wanted.as_bytes();
    if same {
        println!("{name} ok");
    } else {
        let found = String::from_utf8_lossy(&found);
        println!("{name} found {found:?}, wanted {wanted:?}");
    }
    same
}

/// An input of the program `unhide`, and what it prints. In the second and the
/// third a chain from -1, which fails, implies the pairs that are gone. In the
/// last two 2 becomes 1 and 3 becomes -1, and 1 has a value: by a unit that Merge
/// leaves, and by failing.
const UNHIDDEN: &[(&str, &[u8], &str)] = &[
    (
        "unhide-P2",
        b"p cnf 4 3\n-1 2 0\n-2 3 0\n1 3 4 0\n",
        "p cnf 4 3\n-1 2 0\n-2 3 0\n3 4 0\n",
    ),
    (
        "unhide-implied-pair",
        b"p cnf 3 4\n1 2 0\n1 -2 0\n1 3 0\n2 3 0\n",
        "p cnf 3 4\n1 0\n1 0\n1 0\n2 3 0\n",
    ),
    (
        "unhide-two-implied-pairs",
        b"p cnf 5 7\n1 2 0\n-2 1 0\n1 3 0\n-3 4 0\n-4 5 0\n1 4 0\n5 1 0\n",
        "p cnf 5 6\n1 0\n1 0\n1 0\n1 3 0\n-3 4 0\n-4 5 0\n",
    ),
    (
        "unhide-class-with-a-value",
        b"p cnf 3 5\n-1 2 0\n-2 1 0\n1 3 0\n-1 -3 0\n1 2 0\n",
        "p cnf 3 5\n1 0\n2 -1 0\n-2 1 0\n3 1 0\n-3 -1 0\n",
    ),
    (
        "unhide-class-that-fails",
        b"p cnf 4 6\n-1 2 0\n-2 1 0\n1 3 0\n-1 -3 0\n-1 4 0\n-2 -4 0\n",
        "p cnf 4 7\n-1 0\n2 -1 0\n-2 1 0\n3 1 0\n-3 -1 0\n-1 0\n-1 0\n",
    ),
];
