//! A formula split in two, with the links that join it again: what follows from its
//! clauses then follows only from both sides together.

use crate::formulas::Draft;
use crate::random::Random;

/// The left part, the right part and the links. A side has the variables of its
/// clauses and some others, in any order; each that both have is linked, mostly.
pub fn split(random: &mut Random, draft: &Draft) -> (Draft, Draft, Vec<u32>) {
    let mut left = Vec::new();
    let mut right = Vec::new();
    for clause in &draft.clauses {
        if random.once_in(2) {
            left.push(clause.clone());
        } else {
            right.push(clause.clone());
        }
    }
    let lefts = variables(random, draft.variables, &left);
    let rights = variables(random, draft.variables, &right);
    let keeps_all = random.below(5) > 0;
    let mut pairs = Vec::new();
    for (index, variable) in lefts.iter().enumerate() {
        let other = rights.iter().position(|right| right == variable);
        if let Some(other) = other {
            if keeps_all || random.once_in(2) {
                pairs.push([index as u32 + 1, other as u32 + 1]);
            }
        }
    }
    if random.once_in(2) {
        random.shuffle(&mut pairs);
    }
    let links = pairs.concat();
    (numbered(&left, &lefts), numbered(&right, &rights), links)
}

/// Those of the clauses, and about half of the others.
fn variables(random: &mut Random, count: usize, clauses: &[Vec<i32>]) -> Vec<i32> {
    let is_in = |v: i32| clauses.iter().flatten().any(|l| l.abs() == v);
    let mut variables: Vec<i32> = (1..=count as i32)
        .filter(|v| is_in(*v) || random.once_in(2))
        .collect();
    if random.below(3) > 0 {
        random.shuffle(&mut variables);
    }
    variables
}

/// The clauses in the numbers that these variables get from 1 on.
fn numbered(clauses: &[Vec<i32>], variables: &[i32]) -> Draft {
    let number = |l: &i32| {
        let index = variables.iter().position(|v| *v == l.abs()).unwrap();
        l.signum() * (index as i32 + 1)
    };
    Draft {
        variables: variables.len(),
        clauses: clauses
            .iter()
            .map(|clause| clause.iter().map(number).collect())
            .collect(),
    }
}
