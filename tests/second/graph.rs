//! The implication graph of the standing two-literal clauses, and its
//! strongly connected components.

use crate::tables::{literal_of, slot, Formula};

pub struct Graph {
    /// For each literal, by slot, the literals that its edges lead to, in
    /// clause order.
    pub edges: Vec<Vec<i32>>,
}

impl Graph {
    /// The clause (a or b) gives the edges -a -> b and -b -> a.
    pub fn of(formula: &Formula) -> Graph {
        let mut edges = vec![Vec::new(); 2 * formula.v()];
        for record in 0..formula.n() {
            if !formula.stands(record) {
                continue;
            }
            if let [a, b] = *formula.part(record) {
                edges[slot(-a)].push(b);
                edges[slot(-b)].push(a);
            }
        }
        Graph { edges }
    }

    pub fn edges_of(&self, literal: i32) -> &[i32] {
        &self.edges[slot(literal)]
    }

    pub fn literals(&self) -> impl Iterator<Item = i32> {
        (0..self.edges.len()).map(literal_of)
    }

    /// For each literal, by slot, whether it has no edge into it.
    pub fn roots(&self) -> Vec<bool> {
        let mut root = vec![true; self.edges.len()];
        for targets in &self.edges {
            for target in targets {
                root[slot(*target)] = false;
            }
        }
        root
    }

    fn reversed(&self) -> Graph {
        let mut edges = vec![Vec::new(); self.edges.len()];
        for literal in self.literals() {
            for target in self.edges_of(literal) {
                edges[slot(*target)].push(literal);
            }
        }
        Graph { edges }
    }

    /// The literals reached from `literal` over literals that are not yet
    /// entered, appended in the order in which the walk leaves them.
    fn walk(&self, literal: i32, entered: &mut Vec<bool>, left: &mut Vec<i32>) {
        entered[slot(literal)] = true;
        for target in self.edges_of(literal) {
            if !entered[slot(*target)] {
                self.walk(*target, entered, left);
            }
        }
        left.push(literal);
    }

    /// The groups of literals that reach each other. One walk gives an order
    /// of leaving; walks on the reversed graph, started at the literal left
    /// last, then give one group each.
    pub fn groups(&self) -> Vec<Vec<i32>> {
        let mut entered = vec![false; self.edges.len()];
        let mut left = Vec::new();
        for literal in self.literals() {
            if !entered[slot(literal)] {
                self.walk(literal, &mut entered, &mut left);
            }
        }
        let reversed = self.reversed();
        let mut entered = vec![false; self.edges.len()];
        let mut groups = Vec::new();
        for literal in left.iter().rev() {
            if !entered[slot(*literal)] {
                let mut group = Vec::new();
                reversed.walk(*literal, &mut entered, &mut group);
                groups.push(group);
            }
        }
        groups
    }
}
