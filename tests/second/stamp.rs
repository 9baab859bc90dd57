//! Stamp: a depth-first walk over the implication graph that gives each
//! literal its discovery, finish, parent and start.

use crate::graph::Graph;
use crate::refusal::{clauses_are_settled, may_work, refuse, Refusal};
use crate::tables::{slot, Formula, Pass, StampRecord};

pub fn stamp(formula: &mut Formula, list: &[i32]) -> Result<(), Refusal> {
    may_work(formula, Pass::None)?;
    list_is_complete(formula, list)?;
    clauses_are_settled(formula)?;
    let graph = Graph::of(formula);
    if graph.groups().iter().any(|group| group.len() > 1) {
        return refuse(7, 0);
    }
    work(formula, &graph, list);
    Ok(())
}

/// The whole pass on settled clauses, for Run.
pub fn whole(formula: &mut Formula, list: &[i32]) {
    let graph = Graph::of(formula);
    work(formula, &graph, list);
}

/// Refusal 8: the list has 2V entries, each a literal that no earlier entry is.
fn list_is_complete(formula: &Formula, list: &[i32]) -> Result<(), Refusal> {
    if list.len() != 2 * formula.v() {
        return refuse(8, 0);
    }
    let mut met = vec![false; list.len()];
    for (index, literal) in list.iter().enumerate() {
        let in_range = *literal != 0 && literal.unsigned_abs() as usize <= formula.v();
        if !in_range || met[slot(*literal)] {
            return refuse(8, index);
        }
        met[slot(*literal)] = true;
    }
    Ok(())
}

fn work(formula: &mut Formula, graph: &Graph, list: &[i32]) {
    let mut walk = Walk {
        graph,
        time: 0,
        records: vec![StampRecord::default(); 2 * formula.v()],
    };
    let roots = graph.roots();
    for literal in list {
        if roots[slot(*literal)] {
            walk.enter(*literal, *literal, *literal);
        }
    }
    for literal in list {
        if !walk.has_entered(*literal) {
            walk.enter(*literal, *literal, *literal);
        }
    }
    formula.stamps[..walk.records.len()].copy_from_slice(&walk.records);
    formula.state.fresh = true;
}

struct Walk<'a> {
    graph: &'a Graph,
    time: u32,
    /// By slot; discovery 0 for a literal not yet entered.
    records: Vec<StampRecord>,
}

impl Walk<'_> {
    fn has_entered(&self, literal: i32) -> bool {
        self.records[slot(literal)].discovery > 0
    }

    fn enter(&mut self, literal: i32, parent: i32, start: i32) {
        self.time += 1;
        self.records[slot(literal)] = StampRecord {
            discovery: self.time,
            finish: 0,
            parent,
            start,
        };
        for target in self.graph.edges_of(literal) {
            if !self.has_entered(*target) {
                self.enter(*target, literal, start);
            }
        }
        self.time += 1;
        self.records[slot(literal)].finish = self.time;
    }
}
