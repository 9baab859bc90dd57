//! The comparison of two intervals: under fresh stamps compared with the
//! parents, for any numbers with five conditions that need no order.

use crate::compare_walks::steps_up;
use crate::comparison::{compare, Comparison};
use crate::random::Random;
use crate::tables::{literal_of, Formula, Interval};

use Comparison::{Earlier, Held, Holds, Later, Same};

/// Under fresh stamps, for each two literals: same is one literal, holds an
/// ancestor, held a descendant, and the others are apart.
pub fn comparisons_agree(formula: &Formula) -> Result<(), String> {
    let literals: Vec<i32> = (0..2 * formula.v()).map(literal_of).collect();
    for p in &literals {
        for q in &literals {
            let (first, second) = (formula.interval(*p), formula.interval(*q));
            let answer = compare(first, second);
            if by_parents(formula, *p, *q) != Some(answer) {
                return Err(format!("the parents do not say {answer:?} of {p} and {q}"));
            }
            pair_agrees(first, second)?;
        }
    }
    Ok(())
}

fn by_parents(formula: &Formula, p: i32, q: i32) -> Option<Comparison> {
    let (first, second) = (formula.interval(p), formula.interval(q));
    let is_above = |p: i32, q: i32| steps_up(formula, q, p).is_some_and(|steps| steps > 0);
    only([
        (p == q, Same),
        (is_above(p, q), Holds),
        (is_above(q, p), Held),
        (first.finish < second.discovery, Earlier),
        (second.finish < first.discovery, Later),
    ])
}

/// For any numbers: all orders that four numbers can have, and this many random
/// pairs of intervals.
pub fn numbers_agree(random: &mut Random, count: usize) -> Result<(), String> {
    for code in 0..256 {
        let digit = |place: u32| code / 4u32.pow(place) % 4;
        let first = interval(digit(0), digit(1));
        let second = interval(digit(2), digit(3));
        pair_agrees(first, second)?;
    }
    for _ in 0..count {
        let [a, b, c, d] = times(random);
        pair_agrees(interval(a, b), interval(c, d))?;
    }
    Ok(())
}

fn interval(discovery: u32, finish: u32) -> Interval {
    Interval { discovery, finish }
}

/// Four of at most three numbers, so that some are often equal.
fn times(random: &mut Random) -> [u32; 4] {
    let any = random.next() as u32;
    let border = i32::MAX as u32;
    let numbers = [
        0,
        1,
        any,
        any.wrapping_add(1),
        border,
        border + 1,
        u32::MAX - 1,
        u32::MAX,
    ];
    let few = [(); 3].map(|()| random.pick(&numbers));
    [(); 4].map(|()| random.pick(&few))
}

fn pair_agrees(first: Interval, second: Interval) -> Result<(), String> {
    let answer = compare(first, second);
    if by_numbers(first, second) != Some(answer) {
        return Err(format!("{answer:?} of {first:?} and {second:?}"));
    }
    if compare(second, first) != turned(answer) {
        return Err(format!("{first:?} and {second:?} turned"));
    }
    // What Sweep and Failed ask.
    if first.holds(second) != matches!(answer, Same | Holds) {
        return Err(format!("{first:?} holding {second:?} is not {answer:?}"));
    }
    Ok(())
}

/// Each answer by a condition of its own, whatever the others are.
fn by_numbers(first: Interval, second: Interval) -> Option<Comparison> {
    let begins = first.discovery.cmp(&second.discovery);
    let ends = first.finish.cmp(&second.finish);
    only([
        (begins.is_eq() && ends.is_eq(), Same),
        (
            (begins.is_lt() && ends.is_ge()) || (begins.is_eq() && ends.is_gt()),
            Holds,
        ),
        (
            (begins.is_gt() && ends.is_le()) || (begins.is_eq() && ends.is_lt()),
            Held,
        ),
        (begins.is_lt() && ends.is_lt(), Earlier),
        (begins.is_gt() && ends.is_gt(), Later),
    ])
}

/// The answer whose condition is met, if there is exactly one.
fn only(conditions: [(bool, Comparison); 5]) -> Option<Comparison> {
    let mut met = conditions.iter().filter(|(is_met, _)| *is_met);
    match (met.next(), met.next()) {
        (Some((_, answer)), None) => Some(*answer),
        _ => None,
    }
}

/// The answer for the two intervals exchanged.
fn turned(answer: Comparison) -> Comparison {
    match answer {
        Same => Same,
        Holds => Held,
        Held => Holds,
        Earlier => Later,
        Later => Earlier,
    }
}
