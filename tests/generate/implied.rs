//! Formulas in which literals fail and chains of implications imply pairs.
//! There is no unit and no cycle, so that Stamp takes them as they are.

use crate::formulas::{clause, Draft};
use crate::random::Random;

/// A formula with this many variables, at least 3.
pub fn draft(random: &mut Random, variables: usize) -> Draft {
    let line = line(random, variables);
    let mut clauses = Vec::new();
    for _ in 0..random.between(1, 2) {
        failing(random, &line, &mut clauses);
    }
    if random.once_in(4) {
        let again = clauses[random.below(clauses.len())].clone();
        clauses.push(again);
    }
    if random.once_in(3) {
        random.shuffle(&mut clauses);
    }
    for pair in &mut clauses {
        random.shuffle(pair);
    }
    for _ in 0..random.below(4) {
        let length = random.between(3, 5);
        let longer = clause(random, variables, length);
        let place = random.below(clauses.len() + 1);
        clauses.insert(place, longer);
    }
    Draft { variables, clauses }
}

/// All literals, the complement of each as far from the end as it is from the
/// beginning. Implications lead to later places only, and so do those that
/// they give by complements: there is no cycle. Often variable 1 comes first,
/// so that the order 1, -1, 2, .. starts at a literal that fails.
fn line(random: &mut Random, variables: usize) -> Vec<i32> {
    let mut half = clause(random, variables, variables);
    if random.once_in(2) {
        half.sort_by_key(|l| l.abs() != 1);
    }
    let mirrored: Vec<i32> = half.iter().rev().map(|l| -l).collect();
    [half, mirrored].concat()
}

/// A chain from a literal to its complement, and pairs that other chains from
/// the literal imply. Mostly each chain comes before the pair, and the chain to
/// the complement first.
fn failing(random: &mut Random, line: &[i32], clauses: &mut Vec<Vec<i32>>) {
    let any = random.below(line.len() / 2 - 1);
    let from = random.pick(&[0, 0, any]);
    let complement = line.len() - 1 - from;
    if random.below(6) > 0 {
        chain(random, line, from, complement, clauses);
    }
    for _ in 0..random.between(1, 3) {
        let to = random.between(from + 2, complement - 1);
        chain(random, line, from, to, clauses);
        clauses.push(vec![-line[from], line[to]]);
    }
    if random.once_in(3) {
        chain(random, line, from, complement, clauses);
    }
}

/// Implications from one place of the line to a later one, over up to three
/// places between.
fn chain(random: &mut Random, line: &[i32], from: usize, to: usize, clauses: &mut Vec<Vec<i32>>) {
    let mut between: Vec<usize> = (from + 1..to).collect();
    random.shuffle(&mut between);
    let most = random.between(3, 5);
    let mut stops = vec![from, to];
    for place in between {
        // A literal and its complement do not make a pair.
        let complement = line.len() - 1 - place;
        if stops.len() < most && !stops.contains(&complement) {
            stops.push(place);
        }
    }
    stops.sort();
    for step in stops.windows(2) {
        clauses.push(vec![-line[step[0]], line[step[1]]]);
    }
}
