//! Formulas in which a Sweep drops and shortens many clauses, by chains of all
//! lengths. There is no unit and no cycle, so that Stamp takes them as they are.

use crate::formulas::{clause, Draft};
use crate::random::Random;

/// A formula with this many variables, at least 3.
pub fn draft(random: &mut Random, variables: usize) -> Draft {
    // Implications lead along this line, and so the complements along its
    // reverse: there is no cycle.
    let line = clause(random, variables, variables);
    let has_roots = variables >= 6 && random.once_in(2);
    let (roots, chain) = line.split_at(if has_roots { variables / 2 } else { 0 });
    let mut clauses = if has_roots {
        implications_from_roots(random, roots, chain)
    } else {
        implications(random, chain)
    };
    if random.once_in(3) {
        random.shuffle(&mut clauses);
    }
    for _ in 0..random.between(2, 7) {
        let longer = longer(random, chain);
        let place = random.below(clauses.len() + 1);
        clauses.insert(place, longer);
    }
    Draft { variables, clauses }
}

/// A chain, and for most of its literals a root that implies it. Where the walk
/// starts at these roots, many literals of the chain lie apart though their
/// complements hold one another.
fn implications_from_roots(random: &mut Random, roots: &[i32], chain: &[i32]) -> Vec<Vec<i32>> {
    let mut pairs = Vec::new();
    for step in chain.windows(2) {
        pairs.push(vec![-step[0], step[1]]);
    }
    for (root, l) in roots.iter().zip(chain.iter().rev()) {
        if random.below(5) > 0 {
            pairs.push(vec![-root, *l]);
        }
    }
    pairs
}

/// Each literal is implied by some before it, often by the one right before it, so
/// that chains are long and some literals have two of them.
fn implications(random: &mut Random, line: &[i32]) -> Vec<Vec<i32>> {
    let mut pairs = Vec::new();
    for to in 1..line.len() {
        for _ in 0..random.pick(&[0, 1, 1, 1, 2]) {
            let any = random.below(to);
            let from = random.pick(&[to - 1, to - 1, any]);
            let mut pair = vec![-line[from], line[to]];
            random.shuffle(&mut pair);
            pairs.push(pair);
        }
    }
    pairs
}

/// Three to seven literals of the chain. With all signs as there, or all against
/// it, a Sweep shortens the clause; else it often drops it.
fn longer(random: &mut Random, chain: &[i32]) -> Vec<i32> {
    let mut longer = chain.to_vec();
    random.shuffle(&mut longer);
    longer.truncate(random.between(3, 7));
    let share_against = random.pick(&[0, 0, 0, 1, 2, 4]);
    for l in &mut longer {
        if random.below(4) < share_against {
            *l = -*l;
        }
    }
    longer
}
