//! The groups of the standing clauses: two variables are in one exactly if a chain
//! of these clauses joins them. Nothing changes but the output.

use crate::refusal::{may_work, refuse, Refusal};
use crate::tables::{Formula, Pass};
use crate::write::formula_text;

/// Writes the group of each variable, 0 for one that is in none, and answers how
/// many groups there are.
pub fn groups(formula: &Formula, output: &mut [u32]) -> Result<u32, Refusal> {
    // As for Stamp: any open pass stands in the way.
    may_work(formula, Pass::None)?;
    let numbers = numbers(formula);
    if output.len() < numbers.len() {
        return refuse(10, numbers.len());
    }
    output[..numbers.len()].copy_from_slice(&numbers);
    Ok(count(&numbers))
}

/// Writes the clauses of a group as a formula of its own, and answers the length.
pub fn group(formula: &Formula, number: u32, output: &mut [u8]) -> Result<usize, Refusal> {
    may_work(formula, Pass::None)?;
    let numbers = numbers(formula);
    if number < 1 || number > count(&numbers) {
        return refuse(17, 0);
    }
    let text = text_of(formula, &numbers, number);
    if output.len() < text.len() {
        return refuse(10, text.len());
    }
    output[..text.len()].copy_from_slice(&text);
    Ok(text.len())
}

/// The group of each variable, that of variable 1 first.
fn numbers(formula: &Formula) -> Vec<u32> {
    let smallest = smallest_joined(formula);
    let mut numbers = vec![0; smallest.len()];
    let mut last = 0;
    for variable in 1..=smallest.len() {
        let joined = smallest[variable - 1];
        if joined == variable {
            last += 1;
            numbers[variable - 1] = last;
        } else if joined != 0 {
            numbers[variable - 1] = numbers[joined - 1];
        }
    }
    numbers
}

/// There are as many groups as the largest number says.
fn count(numbers: &[u32]) -> u32 {
    numbers.iter().copied().max().unwrap_or(0)
}

/// For each variable of a standing clause the smallest that a chain joins it to, for
/// the others 0. Each clause gives the smallest that one of its variables has to all
/// of them, until no clause changes one.
fn smallest_joined(formula: &Formula) -> Vec<usize> {
    let clauses = standing_clauses(formula);
    let mut smallest = vec![0; formula.v()];
    for variable in clauses.iter().flatten().map(variable_of) {
        smallest[variable - 1] = variable;
    }
    loop {
        let before = smallest.clone();
        for clause in &clauses {
            let all = clause.iter().map(|l| smallest[variable_of(l) - 1]);
            let least = all.min().unwrap_or(0);
            for literal in clause {
                smallest[variable_of(literal) - 1] = least;
            }
        }
        if smallest == before {
            return smallest;
        }
    }
}

fn standing_clauses(formula: &Formula) -> Vec<Vec<i32>> {
    let standing = (0..formula.n()).filter(|record| formula.stands(*record));
    standing
        .map(|record| formula.part(record).to_vec())
        .collect()
}

fn variable_of(literal: &i32) -> usize {
    literal.unsigned_abs() as usize
}

/// The clauses of the group as Write gives clauses, in the numbers that its variables
/// get from 1 on, in rising order. A clause belongs to the group of its variables.
fn text_of(formula: &Formula, numbers: &[u32], number: u32) -> Vec<u8> {
    let mut variables = Vec::new();
    for variable in 1..=numbers.len() {
        if numbers[variable - 1] == number {
            variables.push(variable);
        }
    }
    let mut clauses = standing_clauses(formula);
    clauses.retain(|clause| numbers[variable_of(&clause[0]) - 1] == number);
    for literal in clauses.iter_mut().flatten() {
        let index = variables.iter().position(|v| *v == variable_of(literal));
        let new = index.expect("a clause has variables of one group") as i32 + 1;
        *literal = new * literal.signum();
    }
    formula_text(variables.len(), &clauses)
}
