//! The window set by hand: one number wrong, nearly right or odd but allowed, or
//! a whole window that is full or nearly so.

use crate::formulas::{clause, literal};
use crate::random::Random;
use crate::tables::Formula;
use crate::window::{Window, MOST_IN_LEARNT, MOST_LEARNT, MOST_PLACES};

/// Lines of `set`, without their LF. The window keeps its rule.
pub fn lines(random: &mut Random, formula: &Formula, window: &Window) -> Vec<String> {
    let has_literals = window.total > 0;
    match random.below(16) {
        0 | 1 => vec![count(random, window)],
        2 | 3 => vec![total(random, window)],
        4..=6 if window.count > 0 => size(random, window),
        7..=11 if has_literals => vec![within(random, formula, window)],
        12 if window.count > 0 => vec![behind_literals(random, window)],
        13 => behind_count(random, window),
        14 => vec![extra(random)],
        _ => spoilt(random, formula),
    }
}

/// Lines that make a record as long as its places and print it, and take this
/// back: what stands behind the literals is printed no other way. The record may be
/// the one behind the last clause.
pub fn look_behind(random: &mut Random, window: &Window) -> Vec<String> {
    let count = (window.count as usize).min(MOST_LEARNT);
    let any = random.below(count + 1);
    let record = random.pick(&[0, count.saturating_sub(1), any]);
    let record = record.min(MOST_LEARNT - 1);
    let mut lines = vec![set_size(record, random.pick(&[4, 64]))];
    if record == count {
        lines.push(set_count(window.count + 1));
    }
    let back = undo(window, &lines);
    lines.push("window".to_string());
    lines.extend(back);
    lines
}

/// Lines that bring back what these lines change.
pub fn undo(window: &Window, lines: &[String]) -> Vec<String> {
    let mut undone: Vec<String> = lines.iter().map(|line| old_value(window, line)).collect();
    undone.reverse();
    undone
}

fn old_value(window: &Window, line: &str) -> String {
    let words: Vec<&str> = line.split(' ').collect();
    let number = words[2].parse::<usize>().unwrap();
    let old = match (words[1], number) {
        ("window", 0) => window.count as i64,
        ("window", _) => window.total as i64,
        ("sizes", record) => window.sizes[record] as i64,
        (_, place) => window.learnt[place] as i64,
    };
    let kept = words.len() - 1;
    format!("{} {old}", words[..kept].join(" "))
}

fn set_count(count: u32) -> String {
    format!("set window 0 {count}")
}

fn set_total(total: u32) -> String {
    format!("set window 1 {total}")
}

fn set_size(record: usize, size: u32) -> String {
    format!("set sizes {record} 0 {size}")
}

fn set_place(place: usize, value: i32) -> String {
    format!("set learnt {place} 0 {value}")
}

/// The count changes and the total stays: an empty clause more is allowed, and
/// so is one less if it was empty.
fn count(random: &mut Random, window: &Window) -> String {
    let old = window.count;
    let near = random.pick(&[old.saturating_sub(1), old + 1, old + 1]);
    set_count(random.pick(&[near, near, 0, 64, 65, 65, 80, u32::MAX]))
}

fn total(random: &mut Random, window: &Window) -> String {
    let old = window.total;
    let near = random.pick(&[old.saturating_sub(1), old + 1]);
    set_total(random.pick(&[near, near, 0, 4_096, old + 65_536, u32::MAX]))
}

/// The size of a clause changes, and mostly the total with it. Then it is allowed
/// if the clause is shorter, or if good literals stand behind its own.
fn size(random: &mut Random, window: &Window) -> Vec<String> {
    let record = random.below(window.count as usize);
    let old = window.sizes[record];
    let near = random.pick(&[old.saturating_sub(1), old.saturating_sub(1), old + 1]);
    let size = random.pick(&[near, near, near, 0, 64, 65, 65, u32::MAX]);
    let mut lines = vec![set_size(record, size)];
    if random.below(3) > 0 {
        let rest = window.total - old;
        lines.push(set_total(rest.wrapping_add(size)));
    }
    lines
}

/// A record with literals.
fn record_with_literals(random: &mut Random, window: &Window) -> usize {
    let has_literals = |record: &usize| window.sizes[*record] > 0;
    let records: Vec<usize> = (0..window.count as usize).filter(has_literals).collect();
    random.pick(&records)
}

/// A literal of a clause changes.
fn within(random: &mut Random, formula: &Formula, window: &Window) -> String {
    let record = record_with_literals(random, window);
    let part = window.part(record);
    let index = random.below(part.len());
    let past = formula.v() as i32 + 1;
    let other = random.pick(part);
    let any = literal(random, formula.v().max(1));
    let value = random.pick(&[
        0,
        0,
        past,
        -past,
        other,
        other,
        -other,
        any,
        any,
        -part[index],
        i32::MIN,
        i32::MAX,
    ]);
    set_place(record * MOST_IN_LEARNT + index, value)
}

/// A place behind the literals of a clause, which is not judged.
fn behind_literals(random: &mut Random, window: &Window) -> String {
    let record = random.below(window.count as usize);
    let size = window.sizes[record] as usize;
    if size == MOST_IN_LEARNT {
        return extra(random);
    }
    let index = random.pick(&[size, size, MOST_IN_LEARNT - 1]);
    let value = random.pick(&[1, -1, 1_025, i32::MIN, i32::MAX]);
    set_place(record * MOST_IN_LEARNT + index, value)
}

/// A record behind the last clause, and sometimes the count, so that it is judged.
fn behind_count(random: &mut Random, window: &Window) -> Vec<String> {
    let record = window.count as usize;
    if record == MOST_LEARNT {
        return vec![extra(random)];
    }
    let size = random.pick(&[0, 1, 1, 65, u32::MAX]);
    let mut lines = vec![
        set_size(record, size),
        set_place(record * MOST_IN_LEARNT, random.pick(&[1, -1, 1, 0, 1_025])),
    ];
    if random.once_in(2) {
        lines.push(set_count(window.count + 1));
        lines.push(set_total(window.total.wrapping_add(size)));
    }
    lines
}

/// A place past the tables.
fn extra(random: &mut Random) -> String {
    if random.once_in(2) {
        let record = random.between(MOST_LEARNT, MOST_LEARNT + 15);
        set_size(record, random.pick(&[0, 1, 65, u32::MAX]))
    } else {
        let place = random.between(MOST_PLACES, MOST_PLACES + 15);
        set_place(place, random.pick(&[0, 1, i32::MIN, i32::MAX]))
    }
}

/// 60 to 64 short clauses. What stood behind their literals stays.
pub fn full(random: &mut Random, formula: &Formula) -> Vec<String> {
    let count = random.pick(&[64, 64, 64, 63, 60]);
    let mut lines = vec![set_count(count)];
    let mut total = 0;
    for record in 0..count as usize {
        let length = random.pick(&[0, 1, 1, 1, 2, 3]);
        let literals = clause(random, formula.v(), length);
        lines.push(set_size(record, literals.len() as u32));
        for (index, l) in literals.iter().enumerate() {
            lines.push(set_place(record * MOST_IN_LEARNT + index, *l));
        }
        total += literals.len() as u32;
    }
    lines.push(set_total(total));
    lines
}

/// The same with one number changed.
fn spoilt(random: &mut Random, formula: &Formula) -> Vec<String> {
    let mut lines = full(random, formula);
    let place = random.below(MOST_LEARNT) * MOST_IN_LEARNT;
    lines.push(match random.below(4) {
        0 => set_count(65),
        1 => set_total(random.pick(&[63, 64, 65])),
        2 => set_place(place, random.pick(&[0, 1, 1_025, i32::MIN])),
        _ => set_size(random.below(MOST_LEARNT), random.pick(&[0, 1, 64, 65])),
    });
    lines
}
