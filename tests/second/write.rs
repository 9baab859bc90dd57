//! Write: what stands, as a text.

use crate::refusal::{refuse, tables_have_shape, Refusal};
use crate::tables::Formula;

/// The text, if a buffer of `room` bytes takes it.
pub fn write(formula: &Formula, room: usize) -> Result<Vec<u8>, Refusal> {
    tables_have_shape(formula)?;
    let text = text_of(formula);
    if room < text.len() {
        return refuse(10, text.len());
    }
    Ok(text)
}

fn text_of(formula: &Formula) -> Vec<u8> {
    let clauses = clauses_of(formula);
    let mut text = format!("p cnf {} {}\n", formula.v(), clauses.len());
    for clause in clauses {
        for literal in clause {
            text.push_str(&format!("{literal} "));
        }
        text.push_str("0\n");
    }
    text.into_bytes()
}

/// Under the mark one empty clause; else the values of the variables that are
/// their own class as units, two clauses for each variable that is not, and the
/// standing clauses.
fn clauses_of(formula: &Formula) -> Vec<Vec<i32>> {
    if formula.state.mark {
        return vec![vec![]];
    }
    let mut clauses = Vec::new();
    let variables = 1..=formula.v() as i32;
    for v in variables.clone() {
        let record = formula.variables[v as usize - 1];
        if record.class == v && record.value != 0 {
            clauses.push(vec![v * record.value]);
        }
    }
    for v in variables {
        let class = formula.variables[v as usize - 1].class;
        if class != v {
            clauses.push(vec![v, -class]);
            clauses.push(vec![-v, class]);
        }
    }
    for record in 0..formula.n() {
        if formula.stands(record) {
            clauses.push(formula.part(record).to_vec());
        }
    }
    clauses
}
