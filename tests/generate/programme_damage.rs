//! The programme in the state set by hand: a wrong length, a wrong code, codes
//! behind the length, or a whole programme, good or nearly so.

use crate::programme::MOST_CODES;
use crate::programmes::{nearly_valid, valid};
use crate::random::Random;
use crate::tables::Formula;

/// Lines of `set programme`, without their LF. The programme keeps the rules.
pub fn lines(random: &mut Random, formula: &Formula) -> Vec<String> {
    match random.below(8) {
        0 | 1 => vec![length(random, formula)],
        2..=4 => vec![code_within(random, formula)],
        5 => behind(random, formula),
        6 => whole(&valid(random)),
        _ => whole(&nearly_valid(random)),
    }
}

fn set(field: usize, value: usize) -> String {
    format!("set programme {field} {value}")
}

/// The length changes and the codes stay.
fn length(random: &mut Random, formula: &Formula) -> String {
    let old = formula.state.programme.length as usize;
    let any = random.below(256);
    let near = random.pick(&[old - 1, old + 1]);
    set(0, random.pick(&[0, 33, 255, 32, 1, near, near, any]))
}

/// One of the codes changes, to a code or to none.
fn code_within(random: &mut Random, formula: &Formula) -> String {
    let field = random.between(1, formula.state.programme.length as usize);
    set(field, random.pick(&[1, 2, 3, 4, 1, 2, 3, 4, 0, 5, 255]))
}

/// What stands behind the codes changes, and sometimes the length with it, so
/// that it is judged. With 32 codes nothing stands behind them.
fn behind(random: &mut Random, formula: &Formula) -> Vec<String> {
    let old = formula.state.programme.length as usize;
    if old == MOST_CODES {
        return vec![length(random, formula)];
    }
    let field = random.pick(&[old + 1, MOST_CODES]);
    let mut lines = vec![set(field, random.pick(&[1, 1, 2, 3, 4, 0, 5, 255]))];
    if random.once_in(2) {
        lines.push(set(0, old + 1));
    }
    lines
}

/// These codes, at most 32, and their number; what stands behind them stays.
fn whole(codes: &[u8]) -> Vec<String> {
    let mut lines = vec![set(0, codes.len())];
    for (index, code) in codes.iter().enumerate() {
        lines.push(set(index + 1, *code as usize));
    }
    lines
}
