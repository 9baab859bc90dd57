//! The shape rule, one function for each of its sentences, judged by what the
//! sentence says.

use crate::tables::{literal_of, Formula, Pass, MOST_CLAUSES, MOST_LITERALS, MOST_VARIABLES};

pub fn holds(formula: &Formula) -> bool {
    // The later functions read records that the earlier ones have judged.
    sizes_within_limits(formula)
        && parts_lie_apart(formula)
        && literals_in_range(formula)
        && no_variable_twice(formula)
        && empty_only_under_mark(formula)
        && classes_are_smaller(formula)
        && values_in_range(formula)
        && values_are_those_of_classes(formula)
        && clauses_use_classes(formula)
        && cursor_within_pass(formula)
        && formula.state.programme.keeps_the_rules()
        && (!formula.state.fresh || stamps_are_a_forest(formula))
}

fn sizes_within_limits(formula: &Formula) -> bool {
    formula.v() <= MOST_VARIABLES && formula.n() <= MOST_CLAUSES
}

/// Starts never fall, two parts that have places do not overlap, all lie
/// inside the table; a clause stands or is dropped, and a dropped one has
/// length 0.
fn parts_lie_apart(formula: &Formula) -> bool {
    let mut last_start = 0;
    let mut last_end = 0;
    for clause in &formula.clauses[..formula.n()] {
        let start = clause.start as u64;
        let length = clause.length as u64;
        if clause.standing > 1 || (clause.standing == 0 && length != 0) {
            return false;
        }
        if start < last_start || start + length > MOST_LITERALS as u64 {
            return false;
        }
        last_start = start;
        if length > 0 {
            if start < last_end {
                return false;
            }
            last_end = start + length;
        }
    }
    true
}

fn in_range(formula: &Formula, literal: i32) -> bool {
    literal != 0 && literal.unsigned_abs() as usize <= formula.v()
}

fn literals_in_range(formula: &Formula) -> bool {
    (0..formula.n()).all(|record| {
        let literals = formula.part(record);
        literals.iter().all(|l| in_range(formula, *l))
    })
}

fn no_variable_twice(formula: &Formula) -> bool {
    // The clause in which a variable was met last, as record number plus 1.
    let mut met = vec![0; formula.v() + 1];
    for record in 0..formula.n() {
        for literal in formula.part(record) {
            let variable = literal.unsigned_abs() as usize;
            if met[variable] == record + 1 {
                return false;
            }
            met[variable] = record + 1;
        }
    }
    true
}

fn empty_only_under_mark(formula: &Formula) -> bool {
    (0..formula.n()).all(|record| {
        formula.state.mark || !formula.stands(record) || formula.clauses[record].length > 0
    })
}

/// The class of v is w or -w with w <= v and w its own class.
fn classes_are_smaller(formula: &Formula) -> bool {
    (1..=formula.v()).all(|variable| {
        let class = formula.variables[variable - 1].class;
        let smaller = class.unsigned_abs() as usize;
        1 <= smaller && smaller <= variable && formula.is_its_own_class(smaller)
    })
}

fn values_in_range(formula: &Formula) -> bool {
    let records = &formula.variables[..formula.v()];
    records
        .iter()
        .all(|record| (-1..=1).contains(&record.value))
}

/// The value of v is that of its class literal, sign included.
fn values_are_those_of_classes(formula: &Formula) -> bool {
    (1..=formula.v())
        .all(|variable| formula.variables[variable - 1].value == formula.truth(variable as i32))
}

/// Each variable in a standing clause is its own class, save in clauses that
/// an open Merge has still to visit.
fn clauses_use_classes(formula: &Formula) -> bool {
    (0..formula.n()).all(|record| {
        let still_to_visit =
            formula.state.pass == Pass::Merge && record >= formula.state.cursor as usize;
        let literals = formula.part(record);
        still_to_visit
            || literals
                .iter()
                .all(|l| formula.is_its_own_class(l.unsigned_abs() as usize))
    })
}

fn cursor_within_pass(formula: &Formula) -> bool {
    formula.state.pass == Pass::None
        || (formula.state.cursor < formula.state.clauses && !formula.state.mark)
}

fn stamps_are_a_forest(formula: &Formula) -> bool {
    each_time_once(formula) && intervals_are_nested_or_apart(formula) && parents_and_starts(formula)
}

/// Discoveries and finishes are 1 to 4V once each, each discovery below its
/// finish.
fn each_time_once(formula: &Formula) -> bool {
    let last_time = 4 * formula.v();
    let mut met = vec![false; last_time + 1];
    for record in &formula.stamps[..2 * formula.v()] {
        for time in [record.discovery, record.finish] {
            let time = time as usize;
            if time < 1 || time > last_time || met[time] {
                return false;
            }
            met[time] = true;
        }
        if record.discovery >= record.finish {
            return false;
        }
    }
    true
}

fn intervals_are_nested_or_apart(formula: &Formula) -> bool {
    let records = &formula.stamps[..2 * formula.v()];
    records.iter().all(|p| {
        records.iter().all(|q| {
            let apart = p.finish < q.discovery || q.finish < p.discovery;
            let p_holds_q = p.discovery <= q.discovery && q.finish <= p.finish;
            let q_holds_p = q.discovery <= p.discovery && p.finish <= q.finish;
            apart || p_holds_q || q_holds_p
        })
    })
}

/// A parent has the narrowest other interval around its child, a start the
/// widest; each is the literal itself if there is no other around it.
fn parents_and_starts(formula: &Formula) -> bool {
    let literals: Vec<i32> = (0..2 * formula.v()).map(literal_of).collect();
    literals.iter().all(|child| {
        let mut narrowest = *child;
        let mut widest = *child;
        for other in &literals {
            let around = other != child && formula.interval(*other).holds(formula.interval(*child));
            if !around {
                continue;
            }
            if narrowest == *child || formula.interval(narrowest).holds(formula.interval(*other)) {
                narrowest = *other;
            }
            if formula.interval(*other).holds(formula.interval(widest)) {
                widest = *other;
            }
        }
        let record = formula.stamps[crate::tables::slot(*child)];
        record.parent == narrowest && record.start == widest
    })
}
