//! Merge: literals that reach each other in the implication graph become one
//! class.

use crate::graph::Graph;
use crate::load::{is_tautology, without_repeats};
use crate::refusal::{clauses_are_settled, may_work, Refusal};
use crate::tables::{slot, Formula, Pass};
use crate::visits::{counted, once_through, Answer};

pub fn merge(formula: &mut Formula, steps: u32) -> Result<Answer, Refusal> {
    may_work(formula, Pass::Merge)?;
    if formula.state.pass == Pass::None {
        clauses_are_settled(formula)?;
    }
    Ok(work(formula, steps))
}

/// The whole pass, for Run. Says whether it found only groups of one.
pub fn whole(formula: &mut Formula) -> bool {
    let groups = Graph::of(formula).groups();
    work(formula, u32::MAX);
    groups.iter().all(|group| group.len() == 1)
}

fn work(formula: &mut Formula, steps: u32) -> Answer {
    counted(formula, |formula| {
        if formula.state.pass == Pass::None {
            begin(formula);
        }
        if formula.state.mark {
            return 0;
        }
        once_through(formula, steps, visit)
    })
}

/// Opens the pass and finds the classes, or sets the mark.
fn begin(formula: &mut Formula) {
    let groups = Graph::of(formula).groups();
    // For each literal, by slot, the literal of its group that has the
    // smallest variable.
    let mut smallest = vec![0; 2 * formula.v()];
    for group in &groups {
        if is_tautology(group) {
            formula.set_mark();
            return;
        }
        let least = *group.iter().min_by_key(|l| l.unsigned_abs()).unwrap();
        for literal in group {
            smallest[slot(*literal)] = least;
        }
    }
    for variable in &mut formula.variables[..formula.state.variables as usize] {
        variable.class = smallest[slot(variable.class)];
    }
    formula.open(Pass::Merge);
    formula.state.fresh = false;
}

fn visit(formula: &mut Formula, record: usize) {
    if !formula.stands(record) {
        return;
    }
    let literals = formula.part(record);
    let classes: Vec<i32> = literals.iter().map(|l| formula.class_literal(*l)).collect();
    let kept = without_repeats(&classes);
    if is_tautology(&kept) {
        formula.drop_clause(record);
    } else {
        formula.keep(record, &kept);
    }
}
