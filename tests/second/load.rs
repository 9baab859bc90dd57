//! Load: a text becomes the contents of the tables, and the window is emptied.

use crate::programme::Programme;
use crate::refusal::{tables_are_lent, Refusal};
use crate::tables::{
    ClauseRecord, Formula, Pass, State, VariableRecord, MOST_CLAUSES, MOST_LITERALS, MOST_VARIABLES,
};
use crate::text::{self, Written};
use crate::window::Window;

pub fn load(formula: &mut Formula, window: &mut Window, text: &[u8]) -> Result<(), Refusal> {
    all_is_lent(formula, window)?;
    let written = text::read(text)?;
    fill(formula, window, &written);
    Ok(())
}

/// Refusal 1, for load and join: a table or the window is shorter than stated.
pub fn all_is_lent(formula: &Formula, window: &Window) -> Result<(), Refusal> {
    tables_are_lent(formula)?;
    window.is_lent()
}

/// The tables and the state become what is written, with the constant programme;
/// the window is emptied. Only the stamp records stay.
pub fn fill(formula: &mut Formula, window: &mut Window, written: &Written) {
    window.clear();
    formula.clauses[..MOST_CLAUSES].fill(ClauseRecord::default());
    formula.literals[..MOST_LITERALS].fill(0);
    formula.variables[..MOST_VARIABLES].fill(VariableRecord::default());
    formula.state = State {
        variables: written.variables as u32,
        clauses: written.clauses.len() as u32,
        pass: Pass::None,
        cursor: 0,
        changed: false,
        fresh: false,
        mark: false,
        programme: Programme::constant(),
    };

    for variable in 1..=written.variables {
        formula.variables[variable - 1].class = variable as i32;
    }

    let mut place = 0;
    for (record, clause) in written.clauses.iter().enumerate() {
        formula.clauses[record].start = place as u32;
        let kept = without_repeats(clause);
        if is_tautology(&kept) {
            continue;
        }
        formula.clauses[record].length = kept.len() as u32;
        formula.clauses[record].standing = 1;
        formula.literals[place..place + kept.len()].copy_from_slice(&kept);
        place += kept.len();
        if kept.is_empty() {
            formula.state.mark = true;
        }
    }
}

/// Of equal literals the first stays.
pub fn without_repeats(clause: &[i32]) -> Vec<i32> {
    let mut met = std::collections::HashSet::new();
    clause.iter().copied().filter(|l| met.insert(*l)).collect()
}

/// It has v and -v.
pub fn is_tautology(clause: &[i32]) -> bool {
    let literals: std::collections::HashSet<i32> = clause.iter().copied().collect();
    clause.iter().any(|l| literals.contains(&-l))
}
