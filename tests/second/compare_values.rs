//! The values in the variable records, compared with those of the variables
//! that are their own class.

use crate::tables::Formula;

/// The value of each variable is that of its class literal, with its sign.
pub fn values_agree(formula: &Formula) -> Result<(), String> {
    for (record, variable) in formula.variables[..formula.v()].iter().enumerate() {
        let class = formula.variables[variable.class.unsigned_abs() as usize - 1];
        if variable.value != variable.class.signum() * class.value {
            return Err(format!(
                "the value of {} is not that of its class literal",
                record + 1
            ));
        }
    }
    Ok(())
}

/// A value that was there is still there; without `may_set` none has come.
pub fn values_stay(before: &Formula, after: &Formula, may_set: bool) -> Result<(), String> {
    for (record, old) in before.variables[..before.v()].iter().enumerate() {
        let new = after.variables[record].value;
        let is_set = may_set && old.value == 0;
        if new != old.value && !is_set {
            return Err(format!("the value of {} has changed", record + 1));
        }
    }
    Ok(())
}

/// How many variables are their own class and have a value.
pub fn own_values(formula: &Formula) -> usize {
    let has_value =
        |v: &usize| formula.is_its_own_class(*v) && formula.variables[*v - 1].value != 0;
    (1..=formula.v()).filter(has_value).count()
}

/// How many clauses Write gives: under the mark one; else a unit for each value
/// of a variable that is its own class, two for each variable that is not, and
/// the standing ones.
pub fn written_clauses(formula: &Formula) -> usize {
    if formula.state.mark {
        return 1;
    }
    let is_merged = |v: &usize| !formula.is_its_own_class(*v);
    let merged = (1..=formula.v()).filter(is_merged).count();
    own_values(formula) + 2 * merged + formula.standing().0 as usize
}
