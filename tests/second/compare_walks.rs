//! The groups and the stamps, compared with reachability in the implication
//! graph.

use crate::graph::Graph;
use crate::tables::{literal_of, slot, Formula};

/// Each literal of the first list is found in the second, in the same order.
pub fn is_subsequence(part: &[i32], whole: &[i32]) -> bool {
    let mut rest = whole.iter();
    part.iter().all(|l| rest.any(|other| other == l))
}

/// For each literal, by slot, which literals it reaches by one edge or more.
fn reachability(formula: &Formula) -> Vec<Vec<bool>> {
    let graph = Graph::of(formula);
    let count = 2 * formula.v();
    let mut reaches = vec![vec![false; count]; count];
    for from in 0..count {
        for to in &graph.edges[from] {
            reaches[from][slot(*to)] = true;
        }
    }
    for middle in 0..count {
        for from in 0..count {
            for to in 0..count {
                reaches[from][to] |= reaches[from][middle] && reaches[middle][to];
            }
        }
    }
    reaches
}

/// How many steps over the parents lead from q up to p, if they do.
pub fn steps_up(formula: &Formula, q: i32, p: i32) -> Option<usize> {
    let mut steps = 0;
    let mut literal = q;
    while literal != p {
        let parent = formula.stamps[slot(literal)].parent;
        if parent == literal {
            return None;
        }
        literal = parent;
        steps += 1;
    }
    Some(steps)
}

/// The groups are those of literals that reach each other.
pub fn groups_agree(formula: &Formula) -> Result<(), String> {
    let reaches = reachability(formula);
    let mut group_of = vec![0; 2 * formula.v()];
    for (number, group) in Graph::of(formula).groups().iter().enumerate() {
        for literal in group {
            group_of[slot(*literal)] = number;
        }
    }
    for p in 0..group_of.len() {
        for q in 0..group_of.len() {
            let together = p == q || (reaches[p][q] && reaches[q][p]);
            if together != (group_of[p] == group_of[q]) {
                return Err("the groups differ from reachability".to_string());
            }
        }
    }
    Ok(())
}

/// The stamps are those of a depth-first walk in the order of the list.
pub fn stamps_agree(formula: &Formula, list: &[i32]) -> Result<(), String> {
    let graph = Graph::of(formula);
    let reaches = reachability(formula);
    let literals: Vec<i32> = (0..2 * formula.v()).map(literal_of).collect();
    for p in &literals {
        for q in &literals {
            let holds = formula.interval(*p).holds(formula.interval(*q));
            if holds && p != q && !reaches[slot(*p)][slot(*q)] {
                return Err(format!("{p} holds {q} but does not reach it"));
            }
        }
        // When p is left, all that its edges lead to has been left.
        for q in graph.edges_of(*p) {
            if formula.interval(*q).finish > formula.interval(*p).finish {
                return Err(format!("the edge {p} to {q} was not walked"));
            }
        }
        // The children of p, in the order in which they were entered, come in
        // the order of its edges.
        let is_child = |q: &i32| q != p && formula.stamps[slot(*q)].parent == *p;
        let mut children: Vec<i32> = literals.iter().copied().filter(is_child).collect();
        children.sort_by_key(|q| formula.interval(*q).discovery);
        if !is_subsequence(&children, graph.edges_of(*p)) {
            return Err(format!("the edges of {p} were walked in another order"));
        }
    }
    starts_agree(formula, &graph, list)
}

/// The walk starts at the roots, in list order, then at other literals, in
/// list order.
fn starts_agree(formula: &Formula, graph: &Graph, list: &[i32]) -> Result<(), String> {
    let roots = graph.roots();
    let is_root = |l: &i32| roots[slot(*l)];
    let is_start = |l: &i32| formula.stamps[slot(*l)].start == *l;
    let mut starts: Vec<i32> = list.iter().copied().filter(is_start).collect();
    let mut wanted: Vec<i32> = list.iter().copied().filter(is_root).collect();
    wanted.extend(starts.iter().copied().filter(|l| !is_root(l)));
    starts.sort_by_key(|l| formula.interval(*l).discovery);
    if starts != wanted {
        return Err("the starting literals come in another order".to_string());
    }
    Ok(())
}
