//! The calls of the passes, of Run and of the one that sets the programme, as
//! values and as lines of a script, and a choice of calls that mostly are accepted.

use crate::graph::Graph;
use crate::lists::{permutation, wrong};
use crate::programme::Programme;
use crate::programmes;
use crate::random::Random;
use crate::refusal::clauses_are_settled;
use crate::tables::{Formula, Pass};

#[derive(Clone)]
pub enum Call {
    Propagate(u32),
    Merge(u32),
    Sweep(u32),
    Stamp(Vec<i32>),
    Failed,
    Run(u32),
    Programme(Vec<u8>),
}

/// The line of a script, without its LF.
pub fn line(call: &Call) -> String {
    match call {
        Call::Propagate(steps) => format!("propagate {steps}"),
        Call::Merge(steps) => format!("merge {steps}"),
        Call::Sweep(steps) => format!("sweep {steps}"),
        Call::Stamp(list) => format!("stamp{}", words(list)),
        Call::Failed => "failed".to_string(),
        Call::Run(rounds) => format!("run {rounds}"),
        Call::Programme(codes) => format!("programme{}", words(codes)),
    }
}

/// Each number with a space before it.
fn words<T: std::fmt::Display>(numbers: &[T]) -> String {
    let words: Vec<String> = numbers.iter().map(|n| format!(" {n}")).collect();
    words.concat()
}

/// Any call, accepted or not.
pub fn any(random: &mut Random, formula: &Formula) -> Call {
    let steps = random.steps(formula.n().min(4_096)) as u32;
    let variables = formula.v().min(1_024);
    match random.below(8) {
        0 => Call::Propagate(steps),
        1 => Call::Merge(steps),
        2 => Call::Sweep(steps),
        3 => Call::Stamp(permutation(random, variables)),
        4 => Call::Stamp(wrong(random, variables)),
        5 => Call::Failed,
        6 => Call::Programme(programmes::any(random)),
        _ => Call::Run(random.pick(&[0, 1, 2, 65_535])),
    }
}

/// A call that is mostly accepted, for tables that meet the shape rule.
pub fn fitting(random: &mut Random, formula: &Formula) -> Call {
    if random.once_in(20) {
        return Call::Programme(programmes::valid(random));
    }
    let steps = random.steps(formula.n()) as u32;
    match formula.state.pass {
        Pass::Propagate => return Call::Propagate(steps),
        Pass::Merge => return Call::Merge(steps),
        Pass::Sweep => return Call::Sweep(steps),
        Pass::None => {}
    }
    // Under another programme Run comes more often.
    let is_constant = formula.state.programme == Programme::constant();
    if random.once_in(if is_constant { 10 } else { 4 }) {
        return Call::Run(random.pick(&[0, 1, 1, 2, 3, 7, 65_535]));
    }
    if formula.state.fresh && random.below(8) > 1 {
        return match random.below(6) {
            0..=2 => Call::Failed,
            _ => Call::Sweep(steps),
        };
    }
    if clauses_are_settled(formula).is_err() || random.once_in(12) {
        return Call::Propagate(steps);
    }
    let has_cycles = Graph::of(formula)
        .groups()
        .iter()
        .any(|group| group.len() > 1);
    if has_cycles || random.once_in(8) {
        return Call::Merge(steps);
    }
    Call::Stamp(permutation(random, formula.v()))
}
