//! Sweep's rules, compared with the figures that they describe: figures 5 and
//! 6, walked step by step. Figure 6 passes over pairs that the rule drops, so
//! pairs are compared with the parents instead.

use crate::compare_walks::steps_up;
use crate::sweep::{is_hidden_tautology, without_hidden_literals};
use crate::tables::Formula;

pub fn figures_agree(formula: &Formula) -> Result<(), String> {
    for record in 0..formula.n() {
        let clause = formula.part(record);
        if clause.len() < 2 {
            continue;
        }
        if is_hidden_tautology(formula, clause) != is_dropped(formula, clause) {
            return Err(format!(
                "the figures or parents differ on clause {}",
                record + 1
            ));
        }
        if figure_5(formula, clause) != without_hidden_literals(formula, clause) {
            return Err(format!("figure 5 differs on clause {}", record + 1));
        }
    }
    Ok(())
}

/// What is left of a clause, nothing if it is dropped: the parents for a pair,
/// figure 6 for more literals, then figure 5.
pub fn left_by_figures(formula: &Formula, clause: &[i32]) -> Option<Vec<i32>> {
    if clause.len() < 2 {
        return Some(clause.to_vec());
    }
    (!is_dropped(formula, clause)).then(|| figure_5(formula, clause))
}

fn is_dropped(formula: &Formula, clause: &[i32]) -> bool {
    if let [a, b] = *clause {
        return is_far_above(formula, -a, b) || is_far_above(formula, -b, a);
    }
    figure_6(formula, clause)
}

/// The climb from q over the parents comes to p, in two steps or more.
fn is_far_above(formula: &Formula, p: i32, q: i32) -> bool {
    steps_up(formula, q, p).is_some_and(|steps| steps >= 2)
}

/// The literals and their complements, each sorted by discovery, are walked
/// together until a yes or until one list ends.
fn figure_6(formula: &Formula, clause: &[i32]) -> bool {
    let mut positives = clause.to_vec();
    let mut negatives: Vec<i32> = clause.iter().map(|l| -l).collect();
    positives.sort_by_key(|l| formula.interval(*l).discovery);
    negatives.sort_by_key(|l| formula.interval(*l).discovery);
    let mut next_positive = 0;
    let mut next_negative = 0;
    while next_positive < clause.len() && next_negative < clause.len() {
        let positive = formula.interval(positives[next_positive]);
        let negative = formula.interval(negatives[next_negative]);
        if negative.discovery > positive.discovery {
            next_positive += 1;
        } else if negative.finish < positive.finish {
            next_negative += 1;
        } else {
            return true;
        }
    }
    false
}

fn figure_5(formula: &Formula, clause: &[i32]) -> Vec<i32> {
    let discovery = |l: i32| formula.interval(l).discovery;
    let finish = |l: i32| formula.interval(l).finish;
    let mut kept = clause.to_vec();

    let mut sorted = kept.clone();
    sorted.sort_by_key(|l| std::cmp::Reverse(discovery(*l)));
    let mut finished = finish(sorted[0]);
    for l in &sorted[1..] {
        if finish(*l) > finished {
            kept.retain(|other| other != l);
        } else {
            finished = finish(*l);
        }
    }

    let mut sorted = kept.clone();
    sorted.sort_by_key(|l| discovery(-l));
    let mut finished = finish(-sorted[0]);
    for l in &sorted[1..] {
        if finish(-l) < finished {
            kept.retain(|other| other != l);
        } else {
            finished = finish(-l);
        }
    }
    kept
}
