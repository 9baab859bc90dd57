//! Sweep: hidden tautologies are dropped and hidden literals removed, as the
//! stamps show them.

use crate::refusal::{may_work, stamps_are_fresh, Refusal};
use crate::tables::{slot, Formula, Pass};
use crate::visits::{counted, once_through, Answer};

pub fn sweep(formula: &mut Formula, steps: u32) -> Result<Answer, Refusal> {
    may_work(formula, Pass::Sweep)?;
    stamps_are_fresh(formula)?;
    Ok(work(formula, steps))
}

/// The whole pass, for Run.
pub fn whole(formula: &mut Formula) {
    work(formula, u32::MAX);
}

fn work(formula: &mut Formula, steps: u32) -> Answer {
    counted(formula, |formula| {
        if formula.state.pass == Pass::None {
            formula.open(Pass::Sweep);
        }
        let visits = once_through(formula, steps, visit);
        if formula.state.pass == Pass::None {
            formula.state.fresh = false;
        }
        visits
    })
}

fn visit(formula: &mut Formula, record: usize) {
    match left_of(formula, formula.part(record)) {
        Some(kept) => formula.keep(record, &kept),
        None => formula.drop_clause(record),
    }
}

/// What the rules leave of a clause; nothing if they drop it. Clauses of 0 or 1
/// literals are left as they are.
pub fn left_of(formula: &Formula, clause: &[i32]) -> Option<Vec<i32>> {
    if clause.len() < 2 {
        Some(clause.to_vec())
    } else if is_hidden_tautology(formula, clause) {
        None
    } else {
        Some(without_hidden_literals(formula, clause))
    }
}

/// For two literals, what the rule for pairs says; for three or more: some
/// literal's complement holds a literal of the clause.
pub fn is_hidden_tautology(formula: &Formula, clause: &[i32]) -> bool {
    if let [a, b] = *clause {
        return is_implied_pair(formula, a, b);
    }
    clause.iter().any(|complemented| {
        let negative = formula.interval(-complemented);
        clause.iter().any(|l| negative.holds(formula.interval(*l)))
    })
}

/// For one of the two edges p -> q of the pair, the pair is dropped.
fn is_implied_pair(formula: &Formula, a: i32, b: i32) -> bool {
    is_implied(formula, -a, b) || is_implied(formula, -b, a)
}

/// The edge p -> q is a reason to drop its pair: p holds q and is not q's parent.
pub fn is_implied(formula: &Formula, p: i32, q: i32) -> bool {
    formula.interval(p).holds(formula.interval(q)) && formula.stamps[slot(q)].parent != p
}

/// Figure 5, by what it removes: first each literal that holds another
/// literal of the clause; then, of the rest, each whose complement is held by
/// the complement of another.
pub fn without_hidden_literals(formula: &Formula, clause: &[i32]) -> Vec<i32> {
    let rest = all_but(clause, |l, other| {
        formula.interval(l).holds(formula.interval(other))
    });
    all_but(&rest, |l, other| {
        formula.interval(-other).holds(formula.interval(-l))
    })
}

/// The literals without those that are hidden by another of them.
fn all_but(literals: &[i32], hidden_by: impl Fn(i32, i32) -> bool) -> Vec<i32> {
    let is_hidden = |l: i32| {
        literals
            .iter()
            .any(|other| *other != l && hidden_by(l, *other))
    };
    literals
        .iter()
        .copied()
        .filter(|l| !is_hidden(*l))
        .collect()
}
