//! Formulas in which one value leads to many others: lines of clauses, each
//! of which is left with one literal once the clause before it was, in order,
//! reversed or shuffled, some with a conflict at the end.

use crate::formulas::{clause, Draft};
use crate::random::Random;

pub fn draft(random: &mut Random) -> Draft {
    let variables = match random.below(100) {
        0 => random.between(200, 600),
        1..=15 => random.between(30, 120),
        _ => random.between(1, 30),
    };
    let mut line: Vec<i32> = (1..=variables as i32).collect();
    random.shuffle(&mut line);
    for l in &mut line {
        if random.once_in(2) {
            *l = -*l;
        }
    }
    let mut clauses = vec![vec![line[0]]];
    let longest = random.between(1, 4);
    for place in 1..variables {
        let next = step(random, &line, place, longest);
        clauses.push(next);
    }
    if random.once_in(3) {
        end_in_conflict(random, &line, &mut clauses);
    }
    match random.below(4) {
        0 => {}
        1 => clauses.reverse(),
        2 => random.shuffle(&mut clauses),
        _ => stretches(random, &mut clauses),
    }
    for _ in 0..random.below(variables / 4 + 1) {
        let place = random.below(clauses.len() + 1);
        let length = random.between(2, 5);
        let other = clause(random, variables, length);
        clauses.insert(place, other);
    }
    Draft { variables, clauses }
}

/// The clause that makes the literal at `place` true once those before it in
/// the line are: mostly the one right before it is needed.
fn step(random: &mut Random, line: &[i32], place: usize, longest: usize) -> Vec<i32> {
    let mut next = vec![line[place], -line[place - 1]];
    for _ in 0..random.below(longest) {
        let earlier = -line[random.below(place)];
        if !next.contains(&earlier) {
            next.push(earlier);
        }
    }
    random.shuffle(&mut next);
    next
}

/// A clause that is left empty when the whole line is true, or a unit against
/// a literal of it.
fn end_in_conflict(random: &mut Random, line: &[i32], clauses: &mut Vec<Vec<i32>>) {
    let last = -line[line.len() - 1];
    if random.once_in(3) {
        clauses.push(vec![last]);
        return;
    }
    let mut end = vec![last];
    let earlier = -line[random.below(line.len())];
    if earlier != last {
        end.push(earlier);
    }
    clauses.push(end);
}

/// Stretches of the line, each in order or reversed, in any order.
fn stretches(random: &mut Random, clauses: &mut Vec<Vec<i32>>) {
    let length = random.between(1, clauses.len());
    let mut parts: Vec<Vec<Vec<i32>>> = clauses.chunks(length).map(<[_]>::to_vec).collect();
    random.shuffle(&mut parts);
    for part in &mut parts {
        if random.once_in(2) {
            part.reverse();
        }
    }
    *clauses = parts.concat();
}
