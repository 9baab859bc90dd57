//! Propagate: unit propagation, by times through the clauses.

use crate::refusal::{may_work, Refusal};
use crate::tables::{Formula, Pass};
use crate::visits::{counted, Answer};

pub fn propagate(formula: &mut Formula, steps: u32) -> Result<Answer, Refusal> {
    may_work(formula, Pass::Propagate)?;
    Ok(work(formula, steps))
}

/// The whole pass, for Run.
pub fn whole(formula: &mut Formula) {
    work(formula, u32::MAX);
}

fn work(formula: &mut Formula, steps: u32) -> Answer {
    counted(formula, |formula| {
        if formula.state.pass == Pass::None {
            formula.open(Pass::Propagate);
            formula.state.fresh = false;
        }
        if formula.n() == 0 {
            formula.close();
        }
        let mut visits = 0;
        while visits < steps && formula.state.pass == Pass::Propagate {
            let changed = visit(formula, formula.state.cursor as usize);
            visits += 1;
            if !formula.state.mark {
                advance(formula, changed);
            }
        }
        visits
    })
}

/// After a visit: the next clause; at the end another time through if
/// something has changed, else the pass is over.
fn advance(formula: &mut Formula, changed: bool) {
    formula.state.changed |= changed;
    formula.state.cursor += 1;
    if formula.state.cursor == formula.state.clauses {
        if formula.state.changed {
            formula.open(Pass::Propagate);
        } else {
            formula.close();
        }
    }
}

/// Says whether it changed anything.
fn visit(formula: &mut Formula, record: usize) -> bool {
    if !formula.stands(record) {
        return false;
    }
    let literals = formula.part(record).to_vec();
    if literals.iter().any(|l| formula.truth(*l) == 1) {
        formula.drop_clause(record);
        return true;
    }
    let left: Vec<i32> = literals
        .iter()
        .copied()
        .filter(|l| formula.truth(*l) != -1)
        .collect();
    formula.keep(record, &left);
    match left.len() {
        0 => {
            formula.set_mark();
            true
        }
        1 => {
            formula.make_true(left[0]);
            formula.drop_clause(record);
            true
        }
        _ => left.len() < literals.len(),
    }
}
