//! Values of classes that have several variables: one of them set alone, or all
//! of them, with their signs or without.

use crate::random::Random;
use crate::tables::Formula;

/// Lines of `set`, without their LF; none where each variable is its own class.
pub fn lines(random: &mut Random, formula: &Formula) -> Option<Vec<String>> {
    let v = merged(random, formula)?;
    let w = formula.variables[v - 1].class.unsigned_abs() as usize;
    Some(match random.below(10) {
        0..=4 => vec![other_value(random, formula, v)],
        5 => vec![other_value(random, formula, w)],
        6 => without_signs(random, formula, w),
        7 => all_but_one(random, formula, w),
        _ => whole_class(formula, w, random.pick(&[1, -1, 1, -1, 0, 2, -2])),
    })
}

/// A variable that is not its own class, mostly one with a value if there is any.
fn merged(random: &mut Random, formula: &Formula) -> Option<usize> {
    let is_merged = |v: &usize| !formula.is_its_own_class(*v);
    let merged: Vec<usize> = (1..=formula.v()).filter(is_merged).collect();
    let has_value = |v: &usize| formula.variables[*v - 1].value != 0;
    let valued: Vec<usize> = merged.iter().copied().filter(has_value).collect();
    if merged.is_empty() {
        None
    } else if valued.is_empty() || random.once_in(4) {
        Some(random.pick(&merged))
    } else {
        Some(random.pick(&valued))
    }
}

fn set(v: usize, value: i32) -> String {
    format!("set variables {} 1 {value}", v - 1)
}

/// Any value other than the one that the variable has.
fn other_value(random: &mut Random, formula: &Formula, v: usize) -> String {
    if random.once_in(8) {
        return set(v, random.pick(&[2, -2, 127, -128, i32::MIN]));
    }
    let old = formula.variables[v - 1].value;
    let others: Vec<i32> = (-1..=1).filter(|value| *value != old).collect();
    set(v, random.pick(&others))
}

/// The class w gets this value: each of its variables has it with its sign.
fn whole_class(formula: &Formula, w: usize, value: i32) -> Vec<String> {
    let class = |v: usize| formula.variables[v - 1].class;
    (1..=formula.v())
        .filter(|v| class(*v).unsigned_abs() as usize == w)
        .map(|v| set(v, class(v).signum() * value))
        .collect()
}

fn all_but_one(random: &mut Random, formula: &Formula, w: usize) -> Vec<String> {
    let mut lines = whole_class(formula, w, random.pick(&[1, -1, 0]));
    let place = random.below(lines.len());
    lines.remove(place);
    lines
}

/// Each variable of the class w gets the same value, as if no class were
/// negative.
fn without_signs(random: &mut Random, formula: &Formula, w: usize) -> Vec<String> {
    let value = random.pick(&[1, -1]);
    let in_class = |v: &usize| formula.variables[*v - 1].class.unsigned_abs() as usize == w;
    let members = (1..=formula.v()).filter(in_class);
    members.map(|v| set(v, value)).collect()
}
