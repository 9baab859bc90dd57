//! Lines that compare the intervals of two literals, mostly of literals that
//! have to do with each other: of any two, few intervals hold one another.

use crate::formulas::literal;
use crate::random::Random;
use crate::tables::{literal_of, slot, Formula, MOST_CLAUSES, MOST_LITERALS, MOST_VARIABLES};

/// A line without its LF; none where there is no variable.
pub fn line(random: &mut Random, formula: &Formula) -> Option<String> {
    let first = any_literal(random, formula)?;
    let second = other(random, formula, first);
    Some(line_of(random, first, second))
}

/// Lines of `set` that bring times of two literals together, and one that
/// compares the two. Fresh stamps do not have equal times.
pub fn near_lines(random: &mut Random, formula: &Formula) -> Vec<String> {
    let Some(first) = any_literal(random, formula) else {
        return vec![];
    };
    let second = other(random, formula, first);
    let interval = formula.interval(second);
    let mut lines = Vec::new();
    let (first_field, last_field) = random.pick(&[(0, 0), (1, 1), (0, 1)]);
    for field in first_field..=last_field {
        let times = [interval.discovery, interval.finish];
        let equal = times[field];
        let any = random.pick(&times);
        let near = [any, any.wrapping_add(1), any.wrapping_sub(1), 0, u32::MAX];
        let near = random.pick(&near);
        let time = random.pick(&[equal, near]);
        lines.push(format!("set stamps {} {field} {time}", slot(first)));
    }
    lines.push(line_of(random, first, second));
    lines
}

/// A line with a literal whose record these lines of `set` have written; none
/// where they have written no record of a literal.
pub fn behind(random: &mut Random, formula: &Formula, lines: &[String]) -> Option<String> {
    let records = lines.iter().filter_map(|line| {
        let words: Vec<&str> = line.split(' ').collect();
        match words[..] {
            ["set", "stamps", record, ..] => record.parse::<usize>().ok(),
            _ => None,
        }
    });
    let written: Vec<i32> = records
        .filter(|record| *record < 2 * last_variable(formula))
        .map(literal_of)
        .collect();
    if written.is_empty() {
        return None;
    }
    let first = random.pick(&written);
    let second = other(random, formula, first);
    Some(line_of(random, first, second))
}

/// The last variable that may be compared, 0 if there is none.
fn last_variable(formula: &Formula) -> usize {
    formula.v().min(MOST_VARIABLES)
}

/// Any literal, often of the last variable if there are many.
fn any_literal(random: &mut Random, formula: &Formula) -> Option<i32> {
    let last = last_variable(formula);
    if last == 0 {
        return None;
    }
    let seldom = if last > 100 { 2 } else { 10 };
    if random.once_in(seldom) {
        return Some(random.pick(&[last as i32, -(last as i32)]));
    }
    Some(literal(random, last))
}

/// The two literals in any order.
fn line_of(random: &mut Random, first: i32, second: i32) -> String {
    if random.once_in(2) {
        format!("compare {first} {second}")
    } else {
        format!("compare {second} {first}")
    }
}

/// A literal to compare this one with: mostly one that has to do with it.
fn other(random: &mut Random, formula: &Formula, l: i32) -> i32 {
    let last = last_variable(formula);
    let found = match random.below(12) {
        0 => Some(l),
        1 => Some(-l),
        2..=4 => in_one_clause(random, formula, l),
        5..=8 => relative(random, formula, l),
        9 => with_equal_time(random, formula, l),
        _ => None,
    };
    // A damaged clause may have any number.
    found
        .filter(|l| *l != 0 && l.unsigned_abs() as usize <= last)
        .unwrap_or_else(|| literal(random, last))
}

fn one_of(random: &mut Random, literals: &[i32]) -> Option<i32> {
    if literals.is_empty() {
        return None;
    }
    Some(random.pick(literals))
}

/// A literal, or its complement, of a clause that has the variable of this one.
fn in_one_clause(random: &mut Random, formula: &Formula, l: i32) -> Option<i32> {
    let mut literals = Vec::new();
    for clause in &formula.clauses[..formula.n().min(MOST_CLAUSES)] {
        let start = clause.start as usize;
        let places = start..start + clause.length as usize;
        let Some(part) = formula.literals[..MOST_LITERALS].get(places) else {
            continue;
        };
        if part.iter().any(|other| *other == l || *other == -l) {
            literals.extend(part.iter().filter(|other| **other != i32::MIN));
        }
    }
    let sign = random.pick(&[1, -1]);
    one_of(random, &literals).map(|other| sign * other)
}

/// All literals that may be compared.
fn literals(formula: &Formula) -> impl Iterator<Item = i32> {
    (0..2 * last_variable(formula)).map(literal_of)
}

/// Another literal that is the parent or the start of this one, or has it as its
/// parent or start.
fn relative(random: &mut Random, formula: &Formula, l: i32) -> Option<i32> {
    let has_above = |other: i32, above: i32| {
        let record = formula.stamps[slot(other)];
        record.parent == above || record.start == above
    };
    let is_relative = |other: &i32| *other != l && (has_above(*other, l) || has_above(l, *other));
    let relatives: Vec<i32> = literals(formula).filter(is_relative).collect();
    one_of(random, &relatives)
}

/// Another literal that begins or ends when this one does. Under fresh stamps
/// there is none.
fn with_equal_time(random: &mut Random, formula: &Formula, l: i32) -> Option<i32> {
    let interval = formula.interval(l);
    let is_equal = |other: &i32| {
        let time = formula.interval(*other);
        *other != l && (time.discovery == interval.discovery || time.finish == interval.finish)
    };
    let equal: Vec<i32> = literals(formula).filter(is_equal).collect();
    one_of(random, &equal)
}

/// A line that is answered with `error`.
pub fn wrong(random: &mut Random, formula: &Formula) -> String {
    let last = last_variable(formula);
    let good = literal(random, last.max(1));
    let past = last + 1;
    let words = [
        "0",
        "-0",
        "01",
        "-01",
        "+1",
        "x",
        "",
        "1 1",
        "1025",
        "-1025",
        "2147483648",
        "-2147483648",
        "-4294967297",
        "4294967297",
        "18446744073709551617",
    ];
    let word = match random.below(3) {
        0 => past.to_string(),
        1 => format!("-{past}"),
        _ => random.pick(&words).to_string(),
    };
    match random.below(8) {
        0 => "compare".to_string(),
        1 => format!("compare {good}"),
        2 => format!("compare {good} {good} {good}"),
        3..=5 => format!("compare {word} {good}"),
        _ => format!("compare {good} {word}"),
    }
}
