//! Join: two texts become the contents of the tables, as a load of one text would
//! leave them. Links say which variables of the right text are variables of the
//! left one.

use crate::load::{all_is_lent, fill};
use crate::refusal::{refuse, Refusal};
use crate::tables::{Formula, MOST_CLAUSES, MOST_LITERALS, MOST_VARIABLES};
use crate::text::{self, Written, LIMIT};
use crate::window::Window;

/// The links are pairs of a left variable and a right one.
pub fn join(
    formula: &mut Formula,
    window: &mut Window,
    left: &[u8],
    right: &[u8],
    links: &[u32],
) -> Result<(), Refusal> {
    all_is_lent(formula, window)?;
    let left = text::read(left)?;
    let right = text::read(right)?;
    links_are_good(links, left.variables, right.variables)?;
    let both = joined(left, right, links);
    is_within_limits(&both)?;
    fill(formula, window, &both);
    Ok(())
}

/// Refusal 15, with the index of the first pair that is none. A number left over
/// makes a pair without a right variable.
fn links_are_good(links: &[u32], left_count: usize, right_count: usize) -> Result<(), Refusal> {
    let mut lefts: Vec<u32> = Vec::new();
    let mut rights: Vec<u32> = Vec::new();
    for (index, pair) in links.chunks(2).enumerate() {
        let [left, right] = *pair else {
            return refuse(15, index);
        };
        if !is_variable(left, left_count)
            || !is_variable(right, right_count)
            || lefts.contains(&left)
            || rights.contains(&right)
        {
            return refuse(15, index);
        }
        lefts.push(left);
        rights.push(right);
    }
    Ok(())
}

/// It is one of 1 to `count`.
fn is_variable(number: u32, count: usize) -> bool {
    number >= 1 && number as usize <= count
}

/// The clauses of the left text, then those of the right one in the numbers that
/// its variables have in the join.
fn joined(left: Written, right: Written, links: &[u32]) -> Written {
    let numbers = right_numbers(links, left.variables, right.variables);
    let mut clauses = left.clauses;
    for clause in right.clauses {
        clauses.push(clause.iter().map(|l| renumbered(*l, &numbers)).collect());
    }
    Written {
        variables: left.variables + right.variables - links.len() / 2,
        clauses,
    }
}

/// The number in the join of each right variable, that of 1 first: a linked one
/// takes the left variable's, the others those after the left's, in their order.
fn right_numbers(links: &[u32], left_count: usize, right_count: usize) -> Vec<i32> {
    let mut numbers = Vec::new();
    let mut last = left_count as i32;
    for right in 1..=right_count as u32 {
        match links.chunks(2).find(|pair| pair[1] == right) {
            Some(pair) => numbers.push(pair[0] as i32),
            None => {
                last += 1;
                numbers.push(last);
            }
        }
    }
    numbers
}

fn renumbered(literal: i32, numbers: &[i32]) -> i32 {
    let number = numbers[literal.unsigned_abs() as usize - 1];
    if literal > 0 {
        number
    } else {
        -number
    }
}

/// Refusal 3 at place 0. The literals are counted as written, with repeats and
/// with those of clauses that have v and -v.
fn is_within_limits(both: &Written) -> Result<(), Refusal> {
    let literals: usize = both.clauses.iter().map(|clause| clause.len()).sum();
    if both.variables > MOST_VARIABLES
        || both.clauses.len() > MOST_CLAUSES
        || literals > MOST_LITERALS
    {
        return refuse(LIMIT, 0);
    }
    Ok(())
}
