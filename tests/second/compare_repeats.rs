//! What a load and Merge keep of a clause, compared with a search through the
//! literals before each one.

use crate::tables::{ClauseRecord, Formula};

/// The literals that have no equal one before them, in order; none if v and -v
/// are among them.
fn firsts(literals: &[i32]) -> Option<Vec<i32>> {
    if literals.iter().any(|l| literals.contains(&-l)) {
        return None;
    }
    let mut kept = Vec::new();
    for (place, literal) in literals.iter().enumerate() {
        if !literals[..place].contains(literal) {
            kept.push(*literal);
        }
    }
    Some(kept)
}

/// The clause has this start, and of these literals the first ones; it is
/// dropped if v and -v are among them.
fn has_firsts(formula: &Formula, record: usize, start: u32, literals: &[i32]) -> bool {
    let kept = firsts(literals);
    let standing = kept.is_some() as u32;
    let kept = kept.unwrap_or_default();
    let wanted = ClauseRecord {
        start,
        length: kept.len() as u32,
        standing,
    };
    formula.clauses[record] == wanted && formula.part(record) == kept
}

/// After a load the clauses lie from place 0 without gaps, and the mark is set
/// exactly if one is written empty.
pub fn loaded_agrees(formula: &Formula, written: &[Vec<i32>]) -> Result<(), String> {
    let mut start = 0;
    for (record, literals) in written.iter().enumerate() {
        if !has_firsts(formula, record, start, literals) {
            return Err(format!("clause {} is loaded wrongly", record + 1));
        }
        start += formula.clauses[record].length;
    }
    if formula.state.mark != written.iter().any(|c| c.is_empty()) {
        return Err("the load judges the mark wrongly".to_string());
    }
    Ok(())
}

/// After a Merge the clauses that were visited have the first of each class
/// literal, and all others are as before.
pub fn merged_agrees(before: &Formula, after: &Formula, visits: usize) -> Result<(), String> {
    let first = before.state.cursor as usize;
    for record in 0..before.n() {
        let is_visited = first <= record && record < first + visits;
        let agrees = if is_visited && before.stands(record) {
            let literals = before.part(record).iter();
            let classes: Vec<i32> = literals.map(|l| after.class_literal(*l)).collect();
            has_firsts(after, record, before.clauses[record].start, &classes)
        } else {
            before.clauses[record] == after.clauses[record]
                && before.part(record) == after.part(record)
        };
        if !agrees {
            return Err(format!("clause {} is merged wrongly", record + 1));
        }
    }
    Ok(())
}
