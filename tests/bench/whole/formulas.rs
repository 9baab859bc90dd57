//! Formulas of several kinds, each from a number of clauses: the texts that are
//! measured. Every formula has at most 1,024 variables, 4,096 clauses and
//! 65,535 bytes.

use crate::random::Random;

pub struct Kind {
    pub name: &'static str,
    /// The clauses of a formula with about this many of them.
    pub make: fn(&mut Random, usize) -> (usize, Vec<Vec<i32>>),
}

pub const KINDS: [Kind; 5] = [
    Kind { name: "implications", make: implications },
    Kind { name: "transitive", make: transitive },
    Kind { name: "lots", make: lots },
    Kind { name: "rings", make: rings },
    Kind { name: "chain", make: chain },
];

/// Pairs and triples that a hidden assignment satisfies, three pairs to a triple.
fn implications(random: &mut Random, size: usize) -> (usize, Vec<Vec<i32>>) {
    let variables = size / 4;
    let truth: Vec<bool> = (0..variables).map(|_| random.once_in(2)).collect();
    let mut clauses = Vec::new();
    while clauses.len() < size {
        let length = if random.once_in(4) { 3 } else { 2 };
        let clause = different(random, variables, length);
        if clause.iter().any(|&l| (l > 0) == truth[l.unsigned_abs() as usize - 1]) {
            clauses.push(clause);
        }
    }
    (variables, clauses)
}

/// Implications from lower to higher variables, without a cycle; every second one follows from two others.
fn transitive(random: &mut Random, size: usize) -> (usize, Vec<Vec<i32>>) {
    let variables = size / 4;
    let mut edges: Vec<(i32, i32)> = Vec::new();
    while edges.len() < size {
        let from = random.between(1, variables - 1);
        let to = random.between(from + 1, variables.min(from + 16));
        edges.push((from as i32, to as i32));
        let (a, b) = (random.below(edges.len()), random.below(edges.len()));
        if edges[a].1 == edges[b].0 && edges.len() < size {
            edges.push((edges[a].0, edges[b].1));
        }
    }
    random.shuffle(&mut edges);
    (variables, edges.iter().map(|&(a, b)| vec![-a, b]).collect())
}

/// Exactly one lot of each group: a clause of all ten, and a pair for any two.
fn lots(_random: &mut Random, size: usize) -> (usize, Vec<Vec<i32>>) {
    let mut clauses = Vec::new();
    let mut variables = 0;
    while clauses.len() + 46 <= size {
        let group: Vec<i32> = (1..=10).map(|lot| variables + lot).collect();
        clauses.push(group.clone());
        for i in 0..10 {
            for j in i + 1..10 {
                clauses.push(vec![-group[i], -group[j]]);
            }
        }
        variables += 10;
    }
    (variables as usize, clauses)
}

/// Rings of eight equal literals, and triples over them: three quarters of the clauses, so that what is written fits the program's output.
fn rings(random: &mut Random, size: usize) -> (usize, Vec<Vec<i32>>) {
    let variables = size / 4;
    let mut clauses = Vec::new();
    for ring in 0..variables / 8 {
        for place in 0..8 {
            let (a, b) = (8 * ring + place + 1, 8 * ring + (place + 1) % 8 + 1);
            clauses.push(vec![-(a as i32), b as i32]);
        }
    }
    while clauses.len() < 3 * size / 4 {
        clauses.push(different(random, variables, 3));
    }
    random.shuffle(&mut clauses);
    (variables, clauses)
}

/// A unit behind a chain of implications that stand in the order against which it propagates: one value each time through.
fn chain(_random: &mut Random, size: usize) -> (usize, Vec<Vec<i32>>) {
    let variables = size / 4;
    let mut clauses: Vec<Vec<i32>> = (1..variables as i32).map(|v| vec![-(v + 1), v]).collect();
    clauses.push(vec![variables as i32]);
    (variables, clauses)
}

/// A clause of so many different variables.
fn different(random: &mut Random, variables: usize, length: usize) -> Vec<i32> {
    let mut clause: Vec<i32> = Vec::new();
    while clause.len() < length {
        let variable = random.between(1, variables) as i32;
        if !clause.iter().any(|l| l.abs() == variable) {
            clause.push(if random.once_in(2) { variable } else { -variable });
        }
    }
    clause
}

pub fn text(variables: usize, clauses: &[Vec<i32>]) -> String {
    let mut text = format!("p cnf {} {}\n", variables, clauses.len());
    for clause in clauses {
        for literal in clause {
            text.push_str(&format!("{literal} "));
        }
        text.push_str("0\n");
    }
    text
}
