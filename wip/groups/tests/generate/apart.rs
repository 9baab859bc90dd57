//! Formulas that fall apart: parts without a common variable, whose numbers mostly
//! lie among each other.

use crate::chained;
use crate::formulas::{clause, draft as any_kind, Draft};
use crate::implied;
use crate::random::Random;
use crate::valued;

/// A formula with this many variables, some of which may be in no clause. Two in
/// three are of parts that Stamp takes as they are.
pub fn draft(random: &mut Random, variables: usize) -> Draft {
    let mut numbers: Vec<i32> = (1..=variables as i32).collect();
    if random.below(6) > 0 {
        random.shuffle(&mut numbers);
    }
    let is_settled = random.below(3) > 0;
    // Stamp takes no unit, so that a part of one variable has no clause.
    let least = if is_settled { 2 } else { 1 };
    let most = random.pick(&[least, 2, 3, 3, 4, 6, 12]);
    let mut clauses = Vec::new();
    let mut rest = &numbers[..];
    while !rest.is_empty() {
        let size = random.between(1, most.min(rest.len()));
        let (numbers, others) = rest.split_at(size);
        let part = part(random, size, is_settled);
        clauses = merged(random, clauses, numbered(&part, numbers));
        rest = others;
    }
    if random.once_in(6) {
        random.shuffle(&mut clauses);
    }
    Draft { variables, clauses }
}

/// The clauses of a part with this many variables. None is empty: an empty clause
/// belongs to no part.
fn part(random: &mut Random, variables: usize, is_settled: bool) -> Vec<Vec<i32>> {
    if random.once_in(10) {
        return vec![];
    }
    let mut clauses = match (variables, random.below(6)) {
        (1, _) if is_settled => vec![],
        (2, _) if is_settled => vec![clause(random, 2, 2)],
        (3.., 0..=2) => implied::draft(random, variables).clauses,
        (3.., _) if is_settled => chained::draft(random, variables).clauses,
        (2.., 3) => valued::draft(random, variables).clauses,
        (1, 0..=3) => vec![clause(random, 1, 1)],
        _ => any_kind(random, variables).clauses,
    };
    clauses.retain(|clause| !clause.is_empty());
    clauses
}

/// The clauses in these numbers, that of variable 1 first.
fn numbered(clauses: &[Vec<i32>], numbers: &[i32]) -> Vec<Vec<i32>> {
    let number = |l: &i32| l.signum() * numbers[l.unsigned_abs() as usize - 1];
    clauses
        .iter()
        .map(|clause| clause.iter().map(number).collect())
        .collect()
}

/// The clauses of both, those of each in their order: mostly mixed, else one behind
/// the other.
fn merged(random: &mut Random, first: Vec<Vec<i32>>, second: Vec<Vec<i32>>) -> Vec<Vec<i32>> {
    if random.once_in(4) {
        return [first, second].concat();
    }
    let mut both = Vec::new();
    let (mut first, mut second) = (first.into_iter(), second.into_iter());
    while first.len() + second.len() > 0 {
        let from_first = random.below(first.len() + second.len()) < first.len();
        both.extend(if from_first {
            first.next()
        } else {
            second.next()
        });
    }
    both
}
