//! Single numbers of the tables and of the state set to something else: wrong,
//! nearly right, or odd but allowed.

use crate::class_values;
use crate::forest::forest;
use crate::formulas::literal;
use crate::near;
use crate::programme_damage;
use crate::random::Random;
use crate::tables::{literal_of, slot, Formula, Pass, StampRecord};

/// Lines of `set`, without their LF. The formula meets the shape rule.
pub fn lines(random: &mut Random, formula: &Formula) -> Vec<String> {
    if random.once_in(6) {
        return programme_damage::lines(random, formula);
    }
    // Few formulas have classes of several variables, so their values come often.
    if random.once_in(2) {
        if let Some(lines) = class_values::lines(random, formula) {
            return lines;
        }
    }
    match random.below(24) {
        0 | 1 => vec![state(random, formula)],
        2 | 3 => vec![clause(random, formula)],
        4 => vec![literal_place(random, formula)],
        5 | 6 => vec![variable(random, formula)],
        7 | 8 => vec![stamp(random, formula)],
        9 => swapped_stamps(random, formula),
        10 => open_pass(random, formula),
        11..=13 => other_stamps(random, formula),
        _ => near::lines(random, formula),
    }
}

/// Lines that bring back what these lines change.
pub fn undo(formula: &Formula, lines: &[String]) -> Vec<String> {
    let mut undone: Vec<String> = lines.iter().map(|line| old_value(formula, line)).collect();
    undone.reverse();
    undone
}

fn old_value(formula: &Formula, line: &str) -> String {
    let words: Vec<&str> = line.split(' ').collect();
    let number = |index: usize| words[index].parse::<usize>().unwrap();
    let state = formula.state;
    let old = match (words[1], number(2)) {
        ("state", field) => match field {
            0 => state.variables as i64,
            1 => state.clauses as i64,
            2 => match state.pass {
                Pass::None => 0,
                Pass::Propagate => 1,
                Pass::Merge => 2,
                Pass::Sweep => 3,
            },
            3 => state.cursor as i64,
            4 => state.changed as i64,
            5 => state.fresh as i64,
            _ => state.mark as i64,
        },
        ("programme", 0) => state.programme.length as i64,
        ("programme", field) => state.programme.places[field - 1] as i64,
        ("literals", record) => formula.literals[record] as i64,
        ("clauses", record) => {
            let clause = formula.clauses[record];
            [clause.start, clause.length, clause.standing][number(3)] as i64
        }
        ("variables", record) => {
            let variable = formula.variables[record];
            [variable.class, variable.value][number(3)] as i64
        }
        (_, record) => stamp_field(&formula.stamps[record], number(3)),
    };
    let kept = words.len() - 1;
    format!("{} {old}", words[..kept].join(" "))
}

fn stamp_field(record: &StampRecord, field: usize) -> i64 {
    match field {
        0 => record.discovery as i64,
        1 => record.finish as i64,
        2 => record.parent as i64,
        _ => record.start as i64,
    }
}

/// A number near this one, and not below 0.
fn near(random: &mut Random, number: u32) -> u32 {
    random.pick(&[
        number.wrapping_add(1),
        number.saturating_sub(1),
        number.wrapping_add(2),
        0,
    ])
}

fn state(random: &mut Random, formula: &Formula) -> String {
    let state = formula.state;
    let (field, value) = match random.below(10) {
        0 => (0, near(random, state.variables)),
        1 => (0, random.pick(&[1_024, 1_025, u32::MAX, 0])),
        2 => (1, near(random, state.clauses)),
        3 => (1, random.pick(&[4_096, 4_097, u32::MAX, 0])),
        4 => (2, random.below(4) as u32),
        5 => {
            let cursors = [state.clauses, state.clauses.wrapping_sub(1), u32::MAX, 0];
            (3, random.pick(&cursors))
        }
        6 => (3, near(random, state.cursor)),
        7 => (4, random.below(2) as u32),
        8 => (5, random.below(2) as u32),
        _ => (6, random.below(2) as u32),
    };
    format!("set state {field} {value}")
}

fn clause(random: &mut Random, formula: &Formula) -> String {
    let record = if formula.n() == 0 || random.once_in(10) {
        random.pick(&[formula.n(), 4_095, 4_096, 4_111])
    } else {
        random.below(formula.n())
    };
    let clause = formula.clauses[record];
    let (field, value) = match random.below(8) {
        0 | 1 => (0, near(random, clause.start)),
        2 => (0, random.pick(&[16_384, 16_383, 65_535, 65_536, u32::MAX])),
        3 | 4 => (1, near(random, clause.length)),
        5 => (1, random.pick(&[16_384, 16_385, 65_535, 65_536, u32::MAX])),
        6 => (2, 1 - clause.standing.min(1)),
        _ => (2, random.pick(&[0, 1, 2, 255])),
    };
    format!("set clauses {record} {field} {value}")
}

fn literal_place(random: &mut Random, formula: &Formula) -> String {
    let mut used = 0;
    for clause in &formula.clauses[..formula.n()] {
        used = used.max((clause.start + clause.length) as usize);
    }
    let place = match random.below(8) {
        0 => random.pick(&[used.min(16_383), 16_383, 16_384, 16_399]),
        _ => random.below(used + 1),
    };
    let old = formula.literals[place];
    let past = formula.v() as i32 + 1;
    let other = formula.literals[random.below(used + 1)];
    let any = if formula.v() > 0 {
        literal(random, formula.v())
    } else {
        1
    };
    let value = random.pick(&[
        -old,
        0,
        past,
        -past,
        other,
        -other,
        any,
        any,
        any,
        i32::MIN,
        i32::MAX,
    ]);
    format!("set literals {place} 0 {value}")
}

fn variable(random: &mut Random, formula: &Formula) -> String {
    let record = if formula.v() == 0 || random.once_in(10) {
        random.pick(&[formula.v(), 1_023, 1_024, 1_039])
    } else {
        random.below(formula.v())
    };
    let v = record as i32 + 1;
    if random.once_in(2) {
        let past = formula.v() as i32 + 1;
        let any = literal(random, formula.v().max(1));
        let class = random.pick(&[v, -v, 0, any, any, any, 1, -1, past, i32::MIN, i32::MAX]);
        format!("set variables {record} 0 {class}")
    } else {
        let value = random.pick(&[-1, 0, 1, 1, -1, 2, -2, 127, -128]);
        format!("set variables {record} 1 {value}")
    }
}

fn stamp(random: &mut Random, formula: &Formula) -> String {
    let count = 2 * formula.v();
    if count == 0 || random.once_in(10) {
        let record = random.pick(&[count, 2_047, 2_048, 2_063]);
        let field = random.below(4);
        return format!("set stamps {record} {field} {}", random.below(5));
    }
    let record = random.below(count);
    let old = formula.stamps[record];
    let other = formula.stamps[random.below(count)];
    let last = 4 * formula.v() as u32;
    match random.below(4) {
        0 => {
            let times = [
                other.discovery,
                old.finish,
                0,
                last + 1,
                u32::MAX,
                near(random, old.discovery),
            ];
            format!("set stamps {record} 0 {}", random.pick(&times))
        }
        1 => {
            let times = [
                other.finish,
                old.discovery,
                0,
                last + 1,
                u32::MAX,
                near(random, old.finish),
            ];
            format!("set stamps {record} 1 {}", random.pick(&times))
        }
        field => {
            let l = literal_of(record);
            let any = literal(random, formula.v());
            let past = formula.v() as i32 + 1;
            let literals = [
                l,
                -l,
                any,
                old.parent,
                old.start,
                other.start,
                -old.start,
                0,
                past,
                i32::MIN,
            ];
            format!("set stamps {record} {field} {}", random.pick(&literals))
        }
    }
}

/// Two literals exchange some of the numbers of their stamp records.
fn swapped_stamps(random: &mut Random, formula: &Formula) -> Vec<String> {
    let count = 2 * formula.v();
    if count == 0 {
        return vec![];
    }
    let first = random.below(count);
    let second = if random.once_in(2) {
        first ^ 1
    } else {
        random.below(count)
    };
    let (first_field, last_field) = random.pick(&[(0, 0), (1, 1), (0, 1), (0, 3)]);
    let mut lines = Vec::new();
    for field in first_field..=last_field {
        let a = stamp_field(&formula.stamps[first], field);
        let b = stamp_field(&formula.stamps[second], field);
        lines.push(format!("set stamps {first} {field} {b}"));
        lines.push(format!("set stamps {second} {field} {a}"));
    }
    lines
}

/// A pass is open somewhere.
fn open_pass(random: &mut Random, formula: &Formula) -> Vec<String> {
    let cursor = random.below(formula.n() + 1);
    vec![
        format!("set state 2 {}", random.below(4)),
        format!("set state 3 {cursor}"),
        format!("set state 4 {}", random.below(2)),
    ]
}

/// Stamps of a random forest that has nothing to do with the clauses, with
/// one number changed once in three times.
fn other_stamps(random: &mut Random, formula: &Formula) -> Vec<String> {
    if formula.v() > 16 {
        return vec![stamp(random, formula)];
    }
    let mut lines = Vec::new();
    let mut other = formula.clone();
    for (record, stamp) in forest(random, formula.v()).iter().enumerate() {
        other.stamps[record] = *stamp;
        for field in 0..4 {
            lines.push(format!(
                "set stamps {record} {field} {}",
                stamp_field(stamp, field)
            ));
        }
    }
    lines.push("set state 5 1".to_string());
    if random.once_in(3) {
        if random.once_in(2) && formula.v() > 0 {
            // A parent that is the parent's parent, or a start one step too near.
            let record = random.below(2 * formula.v());
            let parent = other.stamps[record].parent;
            let above = other.stamps[slot(parent)].parent;
            let field = random.between(2, 3);
            lines.push(format!("set stamps {record} {field} {above}"));
        } else {
            lines.push(stamp(random, &other));
        }
    }
    lines
}
