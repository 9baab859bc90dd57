//! Learn: a newcomer is judged as Sweep judges a clause, and what is left of it
//! goes into the window. Nothing else changes.

use crate::refusal::{may_work, refuse, stamps_are_fresh, Refusal};
use crate::sweep::left_of;
use crate::tables::{Formula, Pass};
use crate::window::{may_be_learnt, Window};

#[derive(Clone, Copy, PartialEq, Eq, Debug)]
pub enum Learnt {
    Dropped,
    /// With all its literals, so many.
    Kept(usize),
    /// With so many of its literals.
    Shortened(usize),
}

pub fn learn(formula: &Formula, window: &mut Window, newcomer: &[i32]) -> Result<Learnt, Refusal> {
    // An open Sweep stands in the way too: learn resumes none.
    window.has_shape(formula.v())?;
    may_work(formula, Pass::None)?;
    stamps_are_fresh(formula)?;
    if !may_be_learnt(newcomer, formula.v()) {
        return refuse(11, 0);
    }
    let Some(left) = left_of(formula, newcomer) else {
        return Ok(Learnt::Dropped);
    };
    window.add(&left);
    if left.len() == newcomer.len() {
        Ok(Learnt::Kept(left.len()))
    } else {
        Ok(Learnt::Shortened(left.len()))
    }
}
