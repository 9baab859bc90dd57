//! Clauses with repeated literals: repeats as they are written, for a load,
//! and repeats that come from classes, for Merge. The clauses stand right
//! behind each other and share literals.

use crate::formulas::{clause, literal};
use crate::random::Random;

/// Puts a stretch of clauses over at most 10 variables somewhere between the
/// clauses. Now and then one is several thousand literals long.
pub fn written(random: &mut Random, variables: usize, clauses: &mut Vec<Vec<i32>>) {
    let count = random.between(1, 10);
    let pool = clause(random, variables, count);
    let mut stretch: Vec<Vec<i32>> = Vec::new();
    for _ in 0..random.between(2, 6) {
        let next = match stretch.last() {
            Some(last) if random.once_in(2) => like(random, last),
            _ => {
                let length = length(random);
                drawn(random, &pool, length)
            }
        };
        stretch.push(next);
    }
    if random.once_in(60) {
        let place = random.below(stretch.len());
        let length = random.between(1_000, 6_000);
        stretch[place] = drawn(random, &pool, length);
    }
    for clause in &mut stretch {
        if random.once_in(5) {
            add_complement(random, clause);
        }
    }
    if random.once_in(20) {
        let place = random.below(stretch.len() + 1);
        stretch.insert(place, vec![]);
    }
    let place = random.below(clauses.len() + 1);
    clauses.splice(place..place, stretch);
}

/// A number of literals: often few, seldom some hundred.
fn length(random: &mut Random) -> usize {
    match random.below(40) {
        0 => random.between(61, 400),
        1..=6 => random.between(13, 60),
        _ => random.between(1, 12),
    }
}

/// A clause of this length, of any literals of the pool; sometimes each stands
/// several times in a row, or the pool comes again and again in its order.
pub fn drawn(random: &mut Random, pool: &[i32], length: usize) -> Vec<i32> {
    let run = random.between(1, 4);
    match random.below(4) {
        0 => (0..length).map(|k| pool[k / run % pool.len()]).collect(),
        1 => (0..length).map(|k| pool[k % pool.len()]).collect(),
        _ => (0..length).map(|_| random.pick(pool)).collect(),
    }
}

/// A clause that shares literals, or their complements, with this one.
fn like(random: &mut Random, last: &[i32]) -> Vec<i32> {
    let mut next = last.to_vec();
    match random.below(6) {
        0 => {}
        1 => next.reverse(),
        2 => random.shuffle(&mut next),
        3 => next.iter_mut().for_each(|l| *l = -*l),
        4 => next.truncate(random.between(1, last.len())),
        _ => next.push(last[0]),
    }
    next
}

/// The complement of a literal of the clause comes in, often at the end.
pub fn add_complement(random: &mut Random, clause: &mut Vec<i32>) {
    let complement = -random.pick(clause);
    let place = if random.once_in(2) {
        clause.len()
    } else {
        random.below(clause.len() + 1)
    };
    clause.insert(place, complement);
}

/// Rings of implications that make few classes of all variables, and clauses
/// in which the same classes come again and again, in some with both signs.
pub fn by_classes(random: &mut Random, variables: usize, clauses: &mut Vec<Vec<i32>>) {
    let members = clause(random, variables, variables);
    let size = random.between(1, variables);
    for ring in members.chunks(size).filter(|ring| ring.len() > 1) {
        for place in 0..ring.len() {
            clauses.push(vec![-ring[place], ring[(place + 1) % ring.len()]]);
        }
    }
    let mut last = members.clone();
    for _ in 0..random.between(2, 6) {
        let mut next = last.clone();
        if random.once_in(2) {
            next = members.clone();
            random.shuffle(&mut next);
            next.truncate(random.between(3, 40));
        }
        if random.once_in(2) {
            random.shuffle(&mut next);
        }
        if random.once_in(4) {
            next.iter_mut().for_each(|l| *l = -*l);
        }
        last = next.clone();
        if random.once_in(3) {
            // Mostly this makes it a tautology by its classes.
            let place = random.below(next.len());
            next[place] = -next[place];
        }
        if random.once_in(4) {
            let other = literal(random, variables);
            if !next.contains(&-other) {
                next.push(other);
            }
        }
        clauses.push(next);
    }
}
