//! Explain: what a Sweep would do to a clause, and the chains of literals that
//! show why. Nothing changes but the output.

use crate::refusal::{may_work, refuse, stamps_are_fresh, Refusal};
use crate::sweep::{is_implied, left_of};
use crate::tables::{slot, Formula, Pass};

const NOTHING: u32 = 0;
const DROP: u32 = 1;
const SHORTEN: u32 = 2;

#[derive(Clone, Copy, PartialEq, Eq, Debug)]
pub struct Explained {
    pub verdict: u32,
    /// How many literals are taken out, 0 on a drop.
    pub taken_out: usize,
    /// How many bytes are written.
    pub length: usize,
}

pub fn explain(formula: &Formula, number: u32, output: &mut [u8]) -> Result<Explained, Refusal> {
    // An open Sweep stands in the way too: explain resumes none.
    may_work(formula, Pass::None)?;
    stamps_are_fresh(formula)?;
    if number < 1 || number > formula.state.clauses || !formula.stands(number as usize - 1) {
        return refuse(13, 0);
    }
    let clause = formula.part(number as usize - 1);
    let (verdict, taken_out, ends) = judged(formula, clause);
    let mut text = Vec::new();
    for (from, to) in ends {
        write_line(&chain(formula, from, to), &mut text);
    }
    if output.len() < text.len() {
        return refuse(10, text.len());
    }
    output[..text.len()].copy_from_slice(&text);
    Ok(Explained {
        verdict,
        taken_out,
        length: text.len(),
    })
}

/// The verdict, the number of literals taken out, and the two ends of each chain,
/// the holding end first.
fn judged(formula: &Formula, clause: &[i32]) -> (u32, usize, Vec<(i32, i32)>) {
    let Some(left) = left_of(formula, clause) else {
        return (DROP, 0, vec![ends_of_drop(formula, clause)]);
    };
    let mut ends = Vec::new();
    for l in clause {
        if !left.contains(l) {
            ends.push(ends_of_literal(formula, clause, *l));
        }
    }
    let verdict = if ends.is_empty() { NOTHING } else { SHORTEN };
    (verdict, ends.len(), ends)
}

fn holds(formula: &Formula, p: i32, q: i32) -> bool {
    formula.interval(p).holds(formula.interval(q))
}

/// Why this clause is dropped. A pair: its first edge if that is a reason, else
/// the second. A longer one: the first literal whose complement holds a literal
/// of the clause, maybe the same one, and the first that it holds.
fn ends_of_drop(formula: &Formula, clause: &[i32]) -> (i32, i32) {
    if let [a, b] = *clause {
        if is_implied(formula, -a, b) {
            return (-a, b);
        }
        return (-b, a);
    }
    for a in clause {
        for b in clause {
            if holds(formula, -a, *b) {
                return (-a, *b);
            }
        }
    }
    unreachable!("a longer clause is dropped only for a complement that holds");
}

/// Why this literal is taken out: it holds another literal of the clause; or else
/// its complement is held by that of another that is left by this first rule.
fn ends_of_literal(formula: &Formula, clause: &[i32], l: i32) -> (i32, i32) {
    if let Some(held) = first_held(formula, clause, l) {
        return (l, held);
    }
    for m in clause {
        let is_left = first_held(formula, clause, *m).is_none();
        if *m != l && is_left && holds(formula, -m, -l) {
            return (-m, -l);
        }
    }
    unreachable!("a literal is taken out only by one of the two rules");
}

/// The first other literal of the clause that this one holds.
fn first_held(formula: &Formula, clause: &[i32], l: i32) -> Option<i32> {
    let mut others = clause.iter().copied().filter(|other| *other != l);
    others.find(|other| holds(formula, l, *other))
}

/// The literals from `from` down to `to`, each the parent of the next, found by
/// climbing from `to`. As `from` holds `to`, the climb comes to it.
fn chain(formula: &Formula, from: i32, to: i32) -> Vec<i32> {
    let mut climbed = vec![to];
    let mut at = to;
    while at != from {
        at = formula.stamps[slot(at)].parent;
        climbed.push(at);
    }
    climbed.reverse();
    climbed
}

/// As Write gives a clause.
fn write_line(literals: &[i32], text: &mut Vec<u8>) {
    for literal in literals {
        text.extend_from_slice(format!("{literal} ").as_bytes());
    }
    text.extend_from_slice(b"0\n");
}
