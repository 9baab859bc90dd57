//! Run: rounds of settle, stamp, failed and sweep, as the programme says.

use crate::programme::{FAILED, SETTLE, STAMP, SWEEP};
use crate::refusal::{may_work, Refusal};
use crate::tables::{literal_of, Formula, Pass, VariableRecord};
use crate::{failed, merge, propagate, stamp, sweep};

/// Answers the rounds made.
pub fn run(formula: &mut Formula, rounds: u32) -> Result<u32, Refusal> {
    may_work(formula, Pass::None)?;
    let mut made = 0;
    while made < rounds {
        let before = contents(formula);
        round(formula, made);
        made += 1;
        if formula.state.mark || contents(formula) == before {
            break;
        }
    }
    Ok(made)
}

/// What a round may change: the clauses, the classes and the values.
fn contents(formula: &Formula) -> (Vec<Option<Vec<i32>>>, Vec<VariableRecord>) {
    let clause = |record: usize| {
        if formula.stands(record) {
            Some(formula.part(record).to_vec())
        } else {
            None
        }
    };
    (
        (0..formula.n()).map(clause).collect(),
        formula.variables[..formula.v()].to_vec(),
    )
}

/// One time through the programme. Every stamp of a round takes the same list.
fn round(formula: &mut Formula, number: u32) {
    let programme = formula.state.programme;
    for code in programme.codes() {
        match *code {
            SETTLE => settle(formula),
            STAMP => stamp::whole(formula, &order(formula.v(), number)),
            FAILED => {
                failed::whole(formula);
            }
            SWEEP => sweep::whole(formula),
            _ => unreachable!(),
        }
        if formula.state.mark {
            return;
        }
    }
}

/// The list 1, -1, 2, -2, ... turned left by the round's number.
pub fn order(variables: usize, round: u32) -> Vec<i32> {
    let mut list: Vec<i32> = (0..2 * variables).map(literal_of).collect();
    if !list.is_empty() {
        let places = round as usize % list.len();
        list.rotate_left(places);
    }
    list
}

/// Whole Propagate and Merge passes until a Merge finds only groups of one.
fn settle(formula: &mut Formula) {
    loop {
        propagate::whole(formula);
        if formula.state.mark {
            return;
        }
        let only_groups_of_one = merge::whole(formula);
        if formula.state.mark || only_groups_of_one {
            return;
        }
    }
}
