//! Damage that breaks one sentence of the shape rule and keeps the others, or
//! that comes as near to it as is allowed.

use crate::forest::forest;
use crate::formulas::literal;
use crate::random::Random;
use crate::tables::{literal_of, slot, Formula, Pass, StampRecord};

type Near = fn(&mut Random, &Formula) -> Option<Vec<String>>;

const ALL: [Near; 18] = [
    part_at_table_end,
    dropped_at_table_end,
    falling_start,
    overlapping_part,
    dropped_with_length,
    odd_standing,
    variable_twice,
    empty_clause,
    literal_not_its_class,
    larger_class,
    class_of_class,
    value_on_class,
    cursor_at_end,
    open_under_mark,
    one_more_variable,
    one_more_clause,
    stamps_under_mark,
    wrong_forest,
];

/// Lines of `set`, without their LF. The formula meets the shape rule.
pub fn lines(random: &mut Random, formula: &Formula) -> Vec<String> {
    for _ in 0..50 {
        let near = random.pick(&ALL);
        if let Some(lines) = near(random, formula) {
            return lines;
        }
    }
    vec![]
}

fn set(table: &str, record: usize, field: usize, value: i64) -> String {
    format!("set {table} {record} {field} {value}")
}

fn set_state(field: usize, value: usize) -> String {
    format!("set state {field} {value}")
}

/// A record of a standing clause with at least this many literals.
fn standing(random: &mut Random, formula: &Formula, least: usize) -> Option<usize> {
    let fits = |record: &usize| formula.part(*record).len() >= least;
    some_of(random, (0..formula.n()).filter(fits).collect())
}

fn dropped(random: &mut Random, formula: &Formula) -> Option<usize> {
    let fits = |record: &usize| !formula.stands(*record);
    some_of(random, (0..formula.n()).filter(fits).collect())
}

fn some_of(random: &mut Random, records: Vec<usize>) -> Option<usize> {
    if records.is_empty() {
        None
    } else {
        Some(random.pick(&records))
    }
}

fn is_used(formula: &Formula, v: i32) -> bool {
    (0..formula.n()).any(|record| formula.part(record).iter().any(|l| l.abs() == v))
}

/// The last clause moves to the end of the literal table, or one place past it.
fn part_at_table_end(random: &mut Random, formula: &Formula) -> Option<Vec<String>> {
    let record = formula.n().checked_sub(1)?;
    let part = formula.part(record);
    if part.is_empty() {
        return None;
    }
    let start = 16_384 - part.len() + random.below(2);
    let mut lines = vec![set("clauses", record, 0, start as i64)];
    for (index, l) in part.iter().enumerate() {
        lines.push(set("literals", start + index, 0, *l as i64));
    }
    Some(lines)
}

fn dropped_at_table_end(random: &mut Random, formula: &Formula) -> Option<Vec<String>> {
    let record = formula.n().checked_sub(1)?;
    if formula.stands(record) {
        return None;
    }
    Some(vec![set(
        "clauses",
        record,
        0,
        16_384 + random.below(2) as i64,
    )])
}

/// A dropped clause has a smaller start than a clause before it.
fn falling_start(random: &mut Random, formula: &Formula) -> Option<Vec<String>> {
    let record = dropped(random, formula)?;
    let start = formula.clauses[record].start.checked_sub(1)?;
    Some(vec![set("clauses", record, 0, start as i64)])
}

/// Two clauses share a place, which holds a literal that both may have.
fn overlapping_part(random: &mut Random, formula: &Formula) -> Option<Vec<String>> {
    let record = standing(random, formula, 1)?;
    let next = (record + 1..formula.n()).find(|r| !formula.part(*r).is_empty())?;
    let end = formula.clauses[record].start + formula.clauses[record].length;
    let shared = formula.literals[end as usize - 1];
    let part = formula.part(next);
    let mut lines = vec![set("clauses", next, 0, end as i64 - 1)];
    for (index, l) in part.iter().enumerate().skip(1) {
        if l.abs() == shared.abs() {
            return None;
        }
        lines.push(set("literals", end as usize - 1 + index, 0, *l as i64));
    }
    Some(lines)
}

/// A dropped clause has one literal, in a place that no other clause has.
fn dropped_with_length(random: &mut Random, formula: &Formula) -> Option<Vec<String>> {
    let record = dropped(random, formula)?;
    let place = formula.clauses[record].start as usize;
    let is_taken = |r: usize| {
        let clause = formula.clauses[r];
        let start = clause.start as usize;
        start <= place && place < start + clause.length as usize
    };
    if formula.v() == 0 || place >= 16_384 || (0..formula.n()).any(is_taken) {
        return None;
    }
    let l = literal(random, formula.v());
    Some(vec![
        set("clauses", record, 1, 1),
        set("literals", place, 0, l as i64),
        set("clauses", record, 2, random.below(2) as i64),
    ])
}

fn odd_standing(random: &mut Random, formula: &Formula) -> Option<Vec<String>> {
    let record = standing(random, formula, 1)?;
    Some(vec![set("clauses", record, 2, random.pick(&[2, 3, 255]))])
}

fn variable_twice(random: &mut Random, formula: &Formula) -> Option<Vec<String>> {
    let record = standing(random, formula, 2)?;
    let part = formula.part(record);
    let first = random.below(part.len());
    let second = random.below(part.len());
    if first == second {
        return None;
    }
    let value = random.pick(&[part[first], -part[first]]);
    let place = formula.clauses[record].start as usize + second;
    Some(vec![set("literals", place, 0, value as i64)])
}

/// A clause stands empty, with the mark or without.
fn empty_clause(random: &mut Random, formula: &Formula) -> Option<Vec<String>> {
    let record = standing(random, formula, 1)?;
    let mut lines = vec![set("clauses", record, 1, 0)];
    if random.once_in(2) {
        lines.push(set_state(6, 1));
    }
    Some(lines)
}

/// A clause gets a variable that is not its own class.
fn literal_not_its_class(random: &mut Random, formula: &Formula) -> Option<Vec<String>> {
    let fits = |v: &usize| !formula.is_its_own_class(*v);
    let other = some_of(random, (1..=formula.v()).filter(fits).collect())? as i32;
    let record = standing(random, formula, 1)?;
    let part = formula.part(record);
    if part.iter().any(|l| l.abs() == other) {
        return None;
    }
    let place = formula.clauses[record].start as usize + random.below(part.len());
    let mut lines = vec![set(
        "literals",
        place,
        0,
        random.pick(&[other, -other]) as i64,
    )];
    if random.once_in(2) {
        // An open Merge that has just visited this clause, or has not.
        lines.push(set_state(2, 2));
        lines.push(set_state(3, record + random.below(2)));
    }
    Some(lines)
}

/// The variable gets this class, and the value of this literal, so that the
/// class alone may be wrong.
fn set_class(formula: &Formula, v: usize, class: i32) -> Vec<String> {
    let at_class = formula.variables[class.unsigned_abs() as usize - 1].value;
    let value = class.signum() * at_class;
    vec![
        set("variables", v - 1, 0, class as i64),
        set("variables", v - 1, 1, value as i64),
    ]
}

/// A variable that no clause has gets any class, also a larger one, or its own
/// complement.
fn larger_class(random: &mut Random, formula: &Formula) -> Option<Vec<String>> {
    let fits = |v: &usize| !is_used(formula, *v as i32);
    let v = some_of(random, (1..=formula.v()).filter(fits).collect())?;
    if random.once_in(3) {
        let complement = -(v as i32);
        return Some(vec![
            set("variables", v - 1, 0, complement as i64),
            set("variables", v - 1, 1, 0),
        ]);
    }
    let class = literal(random, formula.v());
    Some(set_class(formula, v, class))
}

/// The class of v has another class.
fn class_of_class(random: &mut Random, formula: &Formula) -> Option<Vec<String>> {
    let fits = |v: &usize| !formula.is_its_own_class(*v);
    let w = some_of(random, (1..=formula.v()).filter(fits).collect())?;
    if w == formula.v() {
        return None;
    }
    let v = random.between(w + 1, formula.v());
    if is_used(formula, v as i32) {
        return None;
    }
    let class = random.pick(&[w as i32, -(w as i32)]);
    Some(set_class(formula, v, class))
}

fn value_on_class(random: &mut Random, formula: &Formula) -> Option<Vec<String>> {
    let fits = |v: &usize| formula.is_its_own_class(*v);
    let v = some_of(random, (1..=formula.v()).filter(fits).collect())?;
    Some(vec![set(
        "variables",
        v - 1,
        1,
        random.pick(&[1, -1, 1, -1, 2, -2]),
    )])
}

fn cursor_at_end(random: &mut Random, formula: &Formula) -> Option<Vec<String>> {
    let pass = random.between(1, 3);
    let last = formula.n().checked_sub(1)?;
    Some(vec![
        set_state(2, pass),
        set_state(3, last + random.below(2)),
    ])
}

fn open_under_mark(random: &mut Random, formula: &Formula) -> Option<Vec<String>> {
    if formula.n() == 0 {
        return None;
    }
    let mut lines = vec![set_state(6, 1)];
    if formula.state.pass == Pass::None {
        lines.push(set_state(2, random.below(4)));
    }
    Some(lines)
}

/// V grows by 1, and the new variable is its own class.
fn one_more_variable(_: &mut Random, formula: &Formula) -> Option<Vec<String>> {
    let v = formula.v();
    let is_last = v == 1_024;
    Some(vec![
        set("variables", v, 0, v as i64 + 1),
        set_state(0, v + 1),
        set_state(
            5,
            if is_last {
                0
            } else {
                formula.state.fresh as usize
            },
        ),
    ])
}

/// N grows by 1, and the new clause is dropped.
fn one_more_clause(_: &mut Random, formula: &Formula) -> Option<Vec<String>> {
    let last = formula.n().checked_sub(1)?;
    let end = formula.clauses[last].start + formula.clauses[last].length;
    Some(vec![
        set("clauses", last + 1, 0, end as i64),
        set_state(1, last + 2),
    ])
}

/// Fresh stamps under the mark, whatever they are.
fn stamps_under_mark(_: &mut Random, formula: &Formula) -> Option<Vec<String>> {
    if formula.state.pass != Pass::None {
        return None;
    }
    Some(vec![set_state(5, 1), set_state(6, 1)])
}

/// Stamps of a forest, with one thing wrong that only one sentence sees.
fn wrong_forest(random: &mut Random, formula: &Formula) -> Option<Vec<String>> {
    if formula.v() == 0 || formula.v() > 16 {
        return None;
    }
    let mut records = if formula.state.fresh {
        formula.stamps[..2 * formula.v()].to_vec()
    } else {
        forest(random, formula.v())
    };
    match random.below(6) {
        0 => time_twice(random, &mut records),
        1 => finish_first(random, &mut records),
        2 => crossing(random, &mut records),
        3 => {
            let last = 4 * formula.v() as u32;
            for record in &mut records {
                if record.discovery == 1 && random.once_in(2) {
                    record.discovery = 0;
                } else if record.finish == last {
                    record.finish = last + 1;
                }
            }
        }
        4 => {
            // The grandparent, or the literal itself.
            let child = random.below(records.len());
            let parent = records[child].parent;
            let above = records[slot(parent)].parent;
            records[child].parent = random.pick(&[above, literal_of(child)]);
        }
        _ => {
            let child = random.below(records.len());
            let parent = records[child].parent;
            records[child].start = random.pick(&[parent, literal_of(child), -records[child].start]);
        }
    }
    let mut lines = vec![set_state(5, 1)];
    for (record, stamp) in records.iter().enumerate() {
        let old = formula.stamps[record];
        let fields = [
            (old.discovery as i64, stamp.discovery as i64),
            (old.finish as i64, stamp.finish as i64),
            (old.parent as i64, stamp.parent as i64),
            (old.start as i64, stamp.start as i64),
        ];
        for (field, (old, new)) in fields.into_iter().enumerate() {
            if old != new {
                lines.push(set("stamps", record, field, new));
            }
        }
    }
    Some(lines)
}

/// A parent is discovered at the same time as its first child, or left with
/// its last.
fn time_twice(random: &mut Random, records: &mut [StampRecord]) {
    let at_discovery = random.once_in(2);
    let child = random.below(records.len());
    let parent = records[child].parent;
    let children: Vec<StampRecord> = records
        .iter()
        .enumerate()
        .filter(|(record, stamp)| stamp.parent == parent && literal_of(*record) != parent)
        .map(|(_, stamp)| *stamp)
        .collect();
    if at_discovery {
        if let Some(first) = children.iter().map(|c| c.discovery).min() {
            records[slot(parent)].discovery = first;
        }
    } else if let Some(last) = children.iter().map(|c| c.finish).max() {
        records[slot(parent)].finish = last;
    }
}

/// The discovery and the finish of a literal without children change places.
fn finish_first(random: &mut Random, records: &mut [StampRecord]) {
    let is_leaf = |record: &usize| records[*record].finish == records[*record].discovery + 1;
    let leaves: Vec<usize> = (0..records.len()).filter(is_leaf).collect();
    let leaf = &mut records[random.pick(&leaves)];
    std::mem::swap(&mut leaf.discovery, &mut leaf.finish);
}

/// Of two neighbours the first ends just after the second begins.
fn crossing(random: &mut Random, records: &mut [StampRecord]) {
    let mut pairs = Vec::new();
    for (first, p) in records.iter().enumerate() {
        for (second, q) in records.iter().enumerate() {
            if p.finish + 1 == q.discovery {
                pairs.push((first, second));
            }
        }
    }
    if pairs.is_empty() {
        return;
    }
    let (first, second) = random.pick(&pairs);
    let finish = records[first].finish;
    records[first].finish = records[second].discovery;
    records[second].discovery = finish;
}
