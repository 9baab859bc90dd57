//! Texts at the limits: 1,024 variables, 4,096 clauses, 16,384 literals, and
//! one more of each.

use crate::formulas::{clause, plain_text, Draft};
use crate::random::Random;
use crate::repeats::{add_complement, drawn};

const V: usize = 1_024;
const N: usize = 4_096;

pub fn text(random: &mut Random) -> Vec<u8> {
    let mut draft = Draft {
        variables: V,
        clauses: Vec::new(),
    };
    match random.below(13) {
        0 => four_literals_each(random, &mut draft),
        1 => {
            four_literals_each(random, &mut draft);
            let last = random.below(N);
            draft.clauses[last].push(1);
        }
        2 => {
            four_literals_each(random, &mut draft);
            draft.clauses[N - 1].pop();
            draft.clauses.push(vec![]);
        }
        3 => {
            four_literals_each(random, &mut draft);
            let mut text = plain_text(&draft);
            text.extend_from_slice(random.pick(&["0", "1 0", "x"]).as_bytes());
            return text;
        }
        4 => implications(random, &mut draft, true),
        5 => implications(random, &mut draft, false),
        6 => line(random, &mut draft, false),
        7 => line(random, &mut draft, true),
        8 => propagation(random, &mut draft),
        9 => repeated(random, &mut draft),
        10 => widest(random, &mut draft),
        11 => many_repeats(random, &mut draft),
        _ => two_sided_ring(&mut draft),
    }
    plain_text(&draft)
}

/// 4,096 clauses of four literals.
fn four_literals_each(random: &mut Random, draft: &mut Draft) {
    for _ in 0..N {
        draft.clauses.push(clause(random, V, 4));
    }
}

/// Implications to larger variables, or between any literals, and clauses of
/// three.
fn implications(random: &mut Random, draft: &mut Draft, upward: bool) {
    for _ in 0..random.between(1_000, 3_000) {
        let mut pair = clause(random, V, 2);
        if upward {
            pair.sort_by_key(|l| l.abs());
            pair = vec![-pair[0].abs(), pair[1].abs()];
        }
        draft.clauses.push(pair);
    }
    for _ in 0..random.between(0, 1_000) {
        draft.clauses.push(clause(random, V, 3));
    }
}

/// One line of implications through all variables, in random order; a ring if
/// it is closed.
fn line(random: &mut Random, draft: &mut Draft, closed: bool) {
    let mut order: Vec<i32> = (1..=V as i32).collect();
    random.shuffle(&mut order);
    for pair in order.windows(2) {
        draft.clauses.push(vec![-pair[0], pair[1]]);
    }
    if closed {
        draft.clauses.push(vec![-order[V - 1], order[0]]);
    }
    for _ in 0..500 {
        draft.clauses.push(clause(random, V, 3));
    }
    if random.once_in(2) {
        random.shuffle(&mut draft.clauses);
    }
}

/// A line of implications in reverse order with its first literal as a unit,
/// so that a time through sets few values.
fn propagation(random: &mut Random, draft: &mut Draft) {
    let last = random.between(50, V);
    for variable in (2..=last as i32).rev() {
        draft.clauses.push(vec![1 - variable, variable]);
    }
    draft.clauses.push(vec![1]);
}

/// One clause that is written with all 16,384 literals.
fn repeated(random: &mut Random, draft: &mut Draft) {
    let signs = random.between(1, 2);
    let mut long = Vec::new();
    for index in 0..16_384 {
        let variable = (index % V) as i32 + 1;
        let negative = signs == 2 && index / V == 7 && variable == 500;
        long.push(if negative { -variable } else { variable });
    }
    draft.clauses.push(long);
}

/// A few clauses that are written with together 16,384 literals of few or many
/// variables, some with both signs; sometimes there is one literal more.
fn many_repeats(random: &mut Random, draft: &mut Draft) {
    let mut pool: Vec<i32> = (1..=V as i32).collect();
    random.shuffle(&mut pool);
    pool.truncate(random.pick(&[1, 2, 10, 300, V]));
    let count = random.between(1, 8);
    let mut rest = 16_384;
    for left in (1..=count).rev() {
        let length = rest / left;
        rest -= length;
        let mut long = drawn(random, &pool, length);
        if random.once_in(4) {
            long.pop();
            add_complement(random, &mut long);
        }
        draft.clauses.push(long);
    }
    if random.once_in(4) {
        draft.clauses[count - 1].push(pool[0]);
    }
}

/// 16 clauses of all variables.
fn widest(random: &mut Random, draft: &mut Draft) {
    for _ in 0..16 {
        let mut wide: Vec<i32> = (1..=V as i32).collect();
        random.shuffle(&mut wide);
        for l in &mut wide {
            if random.once_in(30) {
                *l = -*l;
            }
        }
        draft.clauses.push(wide);
    }
}

/// All 2,048 literals reach each other: 1 reaches -1 through most variables,
/// and -1 reaches 1 through the last.
fn two_sided_ring(draft: &mut Draft) {
    let last = V as i32;
    for variable in 1..last - 1 {
        draft.clauses.push(vec![-variable, variable + 1]);
    }
    draft.clauses.push(vec![1 - last, -1]);
    draft.clauses.push(vec![1, last]);
    draft.clauses.push(vec![1, -last]);
}
