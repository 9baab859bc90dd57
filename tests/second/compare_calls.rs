//! The same work done by other calls: visits split over two calls, and Run
//! made of its passes.

use crate::failed::failed;
use crate::merge::merge;
use crate::programme::{FAILED, SETTLE, STAMP};
use crate::propagate::propagate;
use crate::random::Random;
use crate::refusal::Refusal;
use crate::run::order;
use crate::stamp::stamp;
use crate::sweep::sweep;
use crate::tables::Formula;
use crate::visits::Answer;

/// The visits made by two calls, the second only if the first leaves the pass
/// open, and the sum of their answers.
pub fn in_two_calls(
    before: &Formula,
    pass: fn(&mut Formula, u32) -> Result<Answer, Refusal>,
    first_steps: u32,
    second_steps: u32,
) -> Result<(Formula, Answer), Refusal> {
    let mut formula = before.clone();
    let first = pass(&mut formula, first_steps)?;
    if !first.open {
        return Ok((formula, first));
    }
    let second = pass(&mut formula, second_steps)?;
    let sum = Answer {
        open: second.open,
        visits: first.visits + second.visits,
        clauses_gone: first.clauses_gone + second.clauses_gone,
        literals_gone: first.literals_gone + second.literals_gone,
    };
    Ok((formula, sum))
}

/// Run, made of the other calls with any numbers of visits. None of them may be
/// refused before the mark; behind it none is made.
pub fn run_by_passes(
    random: &mut Random,
    before: &Formula,
    rounds: u32,
) -> Result<(Formula, u32), Refusal> {
    let mut formula = before.clone();
    for round in 0..rounds {
        let at_start = formula.clone();
        round_by_passes(random, &mut formula, round)?;
        let changed = formula.clauses != at_start.clauses
            || formula.literals != at_start.literals
            || formula.variables != at_start.variables;
        if formula.state.mark || !changed {
            return Ok((formula, round + 1));
        }
    }
    Ok((formula, rounds))
}

fn round_by_passes(random: &mut Random, formula: &mut Formula, round: u32) -> Result<(), Refusal> {
    let programme = formula.state.programme;
    for code in programme.codes() {
        match *code {
            SETTLE => settle_by_passes(random, formula)?,
            STAMP => stamp(formula, &order(formula.v(), round))?,
            FAILED => {
                failed(formula)?;
            }
            _ => while sweep(formula, random.steps(formula.n()) as u32)?.open {},
        }
        if formula.state.mark {
            return Ok(());
        }
    }
    Ok(())
}

fn settle_by_passes(random: &mut Random, formula: &mut Formula) -> Result<(), Refusal> {
    let mut classes_changed = true;
    while classes_changed {
        while propagate(formula, random.steps(formula.n()) as u32)?.open {}
        if formula.state.mark {
            return Ok(());
        }
        let before = formula.variables.clone();
        while merge(formula, random.steps(formula.n()) as u32)?.open {}
        if formula.state.mark {
            return Ok(());
        }
        classes_changed = formula.variables != before;
    }
    Ok(())
}
