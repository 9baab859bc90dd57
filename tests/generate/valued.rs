//! Formulas in which classes of several variables get values: rings of
//! implications, and clauses by which Merge leaves units, literals fail, values
//! lead to others, and classes come together in a later Merge.

use crate::formulas::{clause, Draft};
use crate::random::Random;

/// Adds clauses with literals of two rings, which are one ring if there is only
/// one.
type Add = fn(&mut Random, &[i32], &[i32], &mut Vec<Vec<i32>>);

const KINDS: [Add; 6] = [
    unit_by_classes,
    linked,
    together_later,
    failing,
    failing,
    failing,
];

/// A formula with this many variables, at least 2.
pub fn draft(random: &mut Random, variables: usize) -> Draft {
    let members = clause(random, variables, variables);
    let half = variables.div_ceil(2);
    let size = random.between(2, half.clamp(2, 6));
    let mut rings: Vec<&[i32]> = members.chunks(size).collect();
    let mut clauses = Vec::new();
    for ring in rings.iter().filter(|ring| ring.len() > 1) {
        for place in 0..ring.len() {
            clauses.push(vec![-ring[place], ring[(place + 1) % ring.len()]]);
        }
    }
    // Units that Merge leaves are propagated before a literal can fail, so most
    // formulas have clauses of one kind alone.
    let mut add = random.pick(&KINDS);
    let is_mixed = random.once_in(4);
    for _ in 0..random.pick(&[1, 1, 2, 3]) {
        random.shuffle(&mut rings);
        add(random, rings[0], rings[1 % rings.len()], &mut clauses);
        if is_mixed {
            add = random.pick(&KINDS);
        }
    }
    for _ in 0..random.below(3) {
        let length = random.between(3, 5);
        clauses.push(clause(random, variables, length));
    }
    if random.once_in(20) {
        clauses.push(vec![random.pick(&members)]);
    }
    if random.once_in(2) {
        random.shuffle(&mut clauses);
    }
    Draft { variables, clauses }
}

/// At most this many literals of a ring, in any order.
fn some_of(random: &mut Random, ring: &[i32], most: usize) -> Vec<i32> {
    let mut literals = ring.to_vec();
    random.shuffle(&mut literals);
    literals.truncate(most);
    literals
}

/// Two or three literals of a ring, or their complements, of which Merge leaves
/// one. Of two such clauses with three literals, one with the complements, the
/// second ends a Propagate with the mark.
fn unit_by_classes(random: &mut Random, ring: &[i32], _: &[i32], clauses: &mut Vec<Vec<i32>>) {
    let sign = random.pick(&[1, -1]);
    let most = random.between(2, 3);
    let literals = some_of(random, ring, most);
    clauses.push(literals.iter().map(|l| sign * l).collect());
}

/// By classes, a literal of the first ring implies one of the other and its
/// complement.
fn failing(random: &mut Random, ring: &[i32], other: &[i32], clauses: &mut Vec<Vec<i32>>) {
    let sign = random.pick(&[1, -1]);
    clauses.push(vec![sign * random.pick(ring), random.pick(other)]);
    clauses.push(vec![sign * random.pick(ring), -random.pick(other)]);
}

/// The first ring gets a value, which often leads to one of the other.
fn linked(random: &mut Random, ring: &[i32], other: &[i32], clauses: &mut Vec<Vec<i32>>) {
    let from = random.pick(&[1, -1]) * random.pick(ring);
    let to = random.pick(&[1, -1]) * random.pick(other);
    clauses.push(vec![from, to]);
    unit_by_classes(random, ring, other, clauses);
}

/// Clauses that are pairs by the classes of the other ring, so that the next
/// Merge makes one class of both; often a clause of which it leaves a unit.
fn together_later(random: &mut Random, ring: &[i32], other: &[i32], clauses: &mut Vec<Vec<i32>>) {
    let a = random.pick(&[1, -1]) * random.pick(ring);
    let with = |sign: i32, literals: &[i32]| {
        let signed = literals.iter().map(|l| sign * l);
        signed.collect::<Vec<i32>>()
    };
    let two = some_of(random, other, 2);
    clauses.push([with(-1, &[a]), with(1, &two)].concat());
    clauses.push([with(1, &[a]), with(-1, &two)].concat());
    if random.below(3) > 0 {
        let sign = random.pick(&[1, -1]);
        let two = some_of(random, other, 2);
        clauses.push([with(sign, &[a]), with(sign, &two)].concat());
    }
}
