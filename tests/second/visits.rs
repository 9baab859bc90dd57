//! What Propagate, Merge and Sweep share: a call makes visits and answers
//! with counts.

use crate::tables::Formula;

#[derive(Clone, Copy, PartialEq, Eq, Debug)]
pub struct Answer {
    /// Open, else Done.
    pub open: bool,
    pub visits: u32,
    pub clauses_gone: u32,
    pub literals_gone: u32,
}

/// Does the work of a call, which returns the visits made, and counts what is
/// gone: standing before minus standing after.
pub fn counted(formula: &mut Formula, work: impl FnOnce(&mut Formula) -> u32) -> Answer {
    let (clauses_before, literals_before) = formula.standing();
    let visits = work(formula);
    let (clauses_after, literals_after) = formula.standing();
    Answer {
        open: formula.state.pass != crate::tables::Pass::None,
        visits,
        clauses_gone: clauses_before - clauses_after,
        literals_gone: literals_before - literals_after,
    }
}

/// Visits the clauses from the cursor on, at most `steps` of them, for a pass
/// that goes through the clauses once. Returns the visits made and closes the
/// pass when no visit is left.
pub fn once_through(formula: &mut Formula, steps: u32, visit: fn(&mut Formula, usize)) -> u32 {
    let mut visits = 0;
    while visits < steps && formula.state.cursor < formula.state.clauses {
        visit(formula, formula.state.cursor as usize);
        formula.state.cursor += 1;
        visits += 1;
    }
    if formula.state.cursor == formula.state.clauses {
        formula.close();
    }
    visits
}
