//! Failed: a literal that reaches v and -v in the stamps is false.

use crate::refusal::{may_work, stamps_are_fresh, Refusal};
use crate::tables::{literal_of, slot, Formula, Pass};

/// Answers how many values it set.
pub fn failed(formula: &mut Formula) -> Result<u32, Refusal> {
    may_work(formula, Pass::None)?;
    stamps_are_fresh(formula)?;
    Ok(whole(formula))
}

/// The whole pass on fresh stamps, for Run as well.
pub fn whole(formula: &mut Formula) -> u32 {
    let mut count = 0;
    for variable in 1..=formula.v() as i32 {
        let start = formula.stamps[slot(variable)].start;
        if start != formula.stamps[slot(-variable)].start {
            continue;
        }
        let complement = -narrowest_around_both(formula, variable);
        match formula.truth(complement) {
            0 => {
                // Of the values of the class one is counted, that of the
                // variable that is its own class.
                formula.make_true(complement);
                count += 1;
            }
            1 => {}
            _ => {
                formula.set_mark();
                return count;
            }
        }
    }
    count
}

/// The literal whose interval holds those of v and -v and which holds no
/// other such literal.
fn narrowest_around_both(formula: &Formula, variable: i32) -> i32 {
    let positive = formula.interval(variable);
    let negative = formula.interval(-variable);
    let mut narrowest = formula.stamps[slot(variable)].start;
    for literal in (0..2 * formula.v()).map(literal_of) {
        let interval = formula.interval(literal);
        if interval.holds(positive)
            && interval.holds(negative)
            && formula.interval(narrowest).holds(interval)
        {
            narrowest = literal;
        }
    }
    narrowest
}
