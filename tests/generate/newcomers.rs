//! Newcomers for learn: clauses whose literals have to do with each other in the
//! stamps, so that some are dropped, some shortened and some kept; long ones,
//! empty ones and units; and such as learn refuses.

use crate::formulas::{clause, literal};
use crate::random::Random;
use crate::tables::{literal_of, slot, Formula, MOST_VARIABLES};
use crate::window::MOST_IN_LEARNT;

/// Any newcomer, one in seven such as learn refuses.
pub fn any(random: &mut Random, formula: &Formula) -> Vec<i32> {
    if random.once_in(7) {
        wrong(random, formula)
    } else {
        valid(random, formula)
    }
}

/// At most 64 literals of different variables. The tables may be damaged.
pub fn valid(random: &mut Random, formula: &Formula) -> Vec<i32> {
    let v = last_variable(formula);
    if v == 0 || random.once_in(30) {
        return vec![];
    }
    let mut newcomer = match random.below(16) {
        0 => vec![literal(random, v)],
        1 => standing(random, formula),
        2 => {
            let length = random.between(2, 6);
            clause(random, v, length)
        }
        3..=8 if v >= MOST_IN_LEARNT => {
            let length = random.pick(&[63, 64, 64, 64]);
            clause(random, v, length)
        }
        3..=6 => implied(random, formula),
        _ => related(random, formula),
    };
    if random.once_in(4) {
        newcomer.push(literal(random, v));
    }
    let mut newcomer = without_repeated_variables(&newcomer);
    newcomer.truncate(MOST_IN_LEARNT);
    if random.once_in(2) {
        random.shuffle(&mut newcomer);
    }
    newcomer
}

/// A good newcomer with one literal changed, or one that is too long.
pub fn wrong(random: &mut Random, formula: &Formula) -> Vec<i32> {
    let v = last_variable(formula);
    if random.once_in(4) {
        return too_long(random, v);
    }
    let mut newcomer = valid(random, formula);
    let past = formula.state.variables.wrapping_add(1) as i32;
    let other = newcomer.first().copied().unwrap_or(0);
    let spoilt = random.pick(&[
        0,
        0,
        past,
        past.wrapping_neg(),
        other,
        other.wrapping_neg(),
        i32::MIN,
        i32::MAX,
    ]);
    if newcomer.len() < 2 || random.once_in(3) {
        newcomer.push(spoilt);
    } else {
        let place = random.between(1, newcomer.len() - 1);
        newcomer[place] = spoilt;
    }
    newcomer
}

/// 65 literals or a few more, of different variables where there are enough.
fn too_long(random: &mut Random, v: usize) -> Vec<i32> {
    let length = match random.below(40) {
        0 => 4_096,
        1..=4 => random.between(66, 200),
        _ => MOST_IN_LEARNT + 1,
    };
    let mut newcomer = if v == 0 {
        vec![1]
    } else {
        clause(random, v, length)
    };
    let pool = newcomer.clone();
    while newcomer.len() < length {
        newcomer.push(random.pick(&pool));
    }
    newcomer
}

/// The last variable that has records.
fn last_variable(formula: &Formula) -> usize {
    formula.v().min(MOST_VARIABLES)
}

/// Of several literals of one variable the first stays.
fn without_repeated_variables(literals: &[i32]) -> Vec<i32> {
    let mut kept: Vec<i32> = Vec::new();
    for l in literals {
        if !kept.iter().any(|other| other.abs() == l.abs()) {
            kept.push(*l);
        }
    }
    kept
}

/// The literals of a standing clause, or related ones where there is none.
fn standing(random: &mut Random, formula: &Formula) -> Vec<i32> {
    let v = last_variable(formula);
    let in_range = |l: &i32| *l != 0 && l.unsigned_abs() as usize <= v;
    for _ in 0..4 {
        if formula.n() == 0 {
            break;
        }
        let record = random.below(formula.n().min(4_096));
        let start = formula.clauses[record].start as usize;
        let end = start.saturating_add(formula.clauses[record].length as usize);
        match formula.literals.get(start..end) {
            Some(part) if !part.is_empty() && part.iter().all(in_range) => return part.to_vec(),
            _ => {}
        }
    }
    related(random, formula)
}

/// A literal, and the complement of one that holds it and is not its parent
/// where there is such a one.
fn implied(random: &mut Random, formula: &Formula) -> Vec<i32> {
    let v = last_variable(formula);
    for _ in 0..8 {
        let held = literal(random, v);
        let parent = formula.stamps[slot(held)].parent;
        let is_above = |other: &i32| {
            *other != held
                && *other != parent
                && formula.interval(*other).holds(formula.interval(held))
        };
        let above: Vec<i32> = literals(formula).filter(is_above).collect();
        if !above.is_empty() {
            return vec![held, -random.pick(&above)];
        }
    }
    related(random, formula)
}

/// Two to five literals, most of which hold one another or a complement.
fn related(random: &mut Random, formula: &Formula) -> Vec<i32> {
    let v = last_variable(formula);
    let mut newcomer = vec![first_of_related(random, formula)];
    for _ in 0..random.pick(&[1, 1, 1, 2, 2, 3, 4]) {
        let near = random.pick(&newcomer);
        // A literal that `near` holds, or the complement of one that its
        // complement holds, leads to a shorter clause; the others to a drop.
        let sign = random.pick(&[1, -1]);
        let next = match holding_or_held(random, formula, sign * near) {
            Some(other) if random.below(3) > 0 => sign * other,
            Some(other) => -sign * other,
            None => literal(random, v),
        };
        newcomer.push(next);
    }
    newcomer
}

/// Some literal has another as its parent, so that newcomers may be dropped or
/// shortened.
pub fn have_relatives(formula: &Formula) -> bool {
    literals(formula).any(|l| formula.stamps[slot(l)].parent != l)
}

/// A literal that holds another or is held by it, if a few attempts find one.
fn first_of_related(random: &mut Random, formula: &Formula) -> i32 {
    let v = last_variable(formula);
    for _ in 0..8 {
        let first = literal(random, v);
        if holding_or_held(random, formula, first).is_some() {
            return first;
        }
    }
    literal(random, v)
}

/// Another literal whose interval holds that of this one or is held by it.
fn holding_or_held(random: &mut Random, formula: &Formula, l: i32) -> Option<i32> {
    let interval = formula.interval(l);
    let is_near = |other: &i32| {
        let time = formula.interval(*other);
        *other != l && *other != -l && (time.holds(interval) || interval.holds(time))
    };
    let near: Vec<i32> = literals(formula).filter(is_near).collect();
    if near.is_empty() {
        return None;
    }
    Some(random.pick(&near))
}

/// All literals that have records.
fn literals(formula: &Formula) -> impl Iterator<Item = i32> {
    (0..2 * last_variable(formula)).map(literal_of)
}
