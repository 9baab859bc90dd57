//! Refusals, and the conditions that several calls share.

use crate::shape;
use crate::tables::{Formula, Pass, MOST_CLAUSES, MOST_LITERALS, MOST_STAMPS, MOST_VARIABLES};

#[derive(Clone, Copy, PartialEq, Eq, Debug)]
pub struct Refusal {
    pub number: u32,
    pub place: u64,
}

pub fn refuse<T>(number: u32, place: usize) -> Result<T, Refusal> {
    Err(Refusal {
        number,
        place: place as u64,
    })
}

/// Refusal 1, for load and join: a table is shorter than stated.
pub fn tables_are_lent(formula: &Formula) -> Result<(), Refusal> {
    let lent = &formula.lent;
    if lent.clauses < MOST_CLAUSES
        || lent.literals < MOST_LITERALS
        || lent.variables < MOST_VARIABLES
        || lent.stamps < MOST_STAMPS
    {
        return refuse(1, 0);
    }
    Ok(())
}

/// Refusal 1, for every call other than load and join.
pub fn tables_have_shape(formula: &Formula) -> Result<(), Refusal> {
    tables_are_lent(formula)?;
    if !shape::holds(formula) {
        return refuse(1, 0);
    }
    Ok(())
}

/// Refusals 1, 4 and 5, for the five passes and Run. `resumed` is the pass
/// that the call resumes if it is open, or `Pass::None`.
pub fn may_work(formula: &Formula, resumed: Pass) -> Result<(), Refusal> {
    tables_have_shape(formula)?;
    let open = formula.state.pass;
    if open != Pass::None && open != resumed {
        return refuse(4, 0);
    }
    if formula.state.mark {
        return refuse(5, 0);
    }
    Ok(())
}

/// Refusal 6, for Merge's opening and Stamp: the number of the first standing
/// clause that has one literal or a valued variable.
pub fn clauses_are_settled(formula: &Formula) -> Result<(), Refusal> {
    for record in 0..formula.n() {
        if !formula.stands(record) {
            continue;
        }
        let literals = formula.part(record);
        if literals.len() == 1 || literals.iter().any(|l| formula.truth(*l) != 0) {
            return refuse(6, record + 1);
        }
    }
    Ok(())
}

/// Refusal 9, for Failed and Sweep.
pub fn stamps_are_fresh(formula: &Formula) -> Result<(), Refusal> {
    if !formula.state.fresh {
        return refuse(9, 0);
    }
    Ok(())
}
