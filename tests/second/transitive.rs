//! Formulas for Sweeps that drop pairs: chains of implications with short cuts,
//! without a cycle or a unit, so that Stamp takes them as they are.

use crate::formulas::{clause, Draft};
use crate::random::Random;

/// A formula with this many variables, at least 3.
pub fn draft(random: &mut Random, variables: usize) -> Draft {
    // Implications lead along this line, or from it to the complements; those
    // that they give by complements lead along the complements. So there is no
    // cycle, and with implications of the first kind alone no literal fails.
    let line = clause(random, variables, variables);
    let mut clauses = Vec::new();
    for _ in 0..random.between(1, 3) {
        chain_with_short_cuts(random, &line, &mut clauses);
    }
    if random.once_in(3) {
        to_complements(random, &line, &mut clauses);
    }
    if random.once_in(4) {
        let again = clauses[random.below(clauses.len())].clone();
        clauses.push(again);
    }
    if random.once_in(3) {
        random.shuffle(&mut clauses);
    }
    if random.once_in(2) {
        longer_ones(random, &line, &mut clauses);
    }
    for clause in &mut clauses {
        random.shuffle(clause);
    }
    Draft { variables, clauses }
}

/// The steps of a chain, and behind them, or among them, pairs that it implies.
fn chain_with_short_cuts(random: &mut Random, line: &[i32], clauses: &mut Vec<Vec<i32>>) {
    let length = random.between(3, line.len().min(7));
    let chain = part_of(random, line, length);
    let mut pairs: Vec<Vec<i32>> = chain.windows(2).map(|s| vec![-s[0], s[1]]).collect();
    for _ in 0..random.between(1, length - 1) {
        let from = random.below(length - 2);
        let to = random.between(from + 2, length - 1);
        let place = random.between(1, pairs.len());
        let place = random.pick(&[pairs.len(), pairs.len(), place]);
        pairs.insert(place, vec![-chain[from], chain[to]]);
    }
    clauses.extend(pairs);
}

/// Some literals of the line, in its order.
fn part_of(random: &mut Random, line: &[i32], length: usize) -> Vec<i32> {
    let mut places: Vec<usize> = (0..line.len()).collect();
    random.shuffle(&mut places);
    places.truncate(length);
    places.sort();
    places.iter().map(|place| line[*place]).collect()
}

/// Pairs by which literals of the line exclude each other.
fn to_complements(random: &mut Random, line: &[i32], clauses: &mut Vec<Vec<i32>>) {
    for _ in 0..random.between(1, 3) {
        let two = part_of(random, line, 2);
        clauses.push(vec![-two[0], -two[1]]);
    }
}

/// Clauses of three to five literals. Most have the two ends of an implication,
/// of which Sweep takes out the first.
fn longer_ones(random: &mut Random, line: &[i32], clauses: &mut Vec<Vec<i32>>) {
    let pairs = clauses.clone();
    for _ in 0..random.between(1, 4) {
        let length = random.pick(&[3, 3, 4, 5]);
        let mut longer = clause(random, line.len(), length);
        if random.below(4) > 0 {
            let pair = &pairs[random.below(pairs.len())];
            let ends = [-pair[0], pair[1]];
            longer.retain(|l| ends.iter().all(|end| end.abs() != l.abs()));
            longer.truncate(length - 2);
            longer.extend(ends);
        }
        let place = random.below(clauses.len() + 1);
        clauses.insert(place, longer);
    }
}
