//! The shares of a join's assignments: which assignments satisfy both formulas, and
//! which numbers the right variables have.

use std::collections::BTreeSet;

use crate::formulas::Draft;
use crate::join::join;
use crate::links;
use crate::random::Random;
use crate::small;
use crate::splits::split;
use crate::tables::Formula;
use crate::truth::{Assignments, MOST_TRIED};
use crate::window::Window;

/// Two formulas and the links between their variables.
pub struct Pair {
    pub left: Draft,
    pub right: Draft,
    pub links: Vec<u32>,
}

impl Pair {
    /// Good links between two formulas, or between the parts of one, so that the
    /// join has at most 12 variables.
    pub fn any(random: &mut Random) -> Pair {
        if random.once_in(2) {
            let whole = small::any(random, MOST_TRIED - 2);
            let (left, right, links) = split(random, &whole);
            let pair = Pair { left, right, links };
            if pair.variables() <= MOST_TRIED {
                return pair;
            }
        }
        let left = small::any(random, 8);
        let right = small::any(random, 8);
        let least = (left.variables + right.variables).saturating_sub(MOST_TRIED);
        let most = left.variables.min(right.variables);
        let count = random.between(least, most);
        let links = links::pairs(random, left.variables, right.variables, count);
        Pair { left, right, links }
    }

    /// V of the join.
    pub fn variables(&self) -> usize {
        self.left.variables + self.right.variables - self.links.len() / 2
    }

    /// The number in the join of the right variable.
    fn number(&self, variable: usize) -> usize {
        let link = |variable| {
            let mut pairs = self.links.chunks(2);
            pairs.find(|pair| pair[1] as usize == variable)
        };
        match link(variable) {
            Some(pair) => pair[0] as usize,
            None => {
                let unlinked = (1..=variable).filter(|other| link(*other).is_none());
                self.left.variables + unlinked.count()
            }
        }
    }

    /// The left clauses, then the right ones in the numbers of the join.
    pub fn clauses(&self) -> Vec<Vec<i32>> {
        let mut clauses = self.left.clauses.clone();
        for clause in &self.right.clauses {
            let number = |l: &i32| l.signum() * self.number(l.unsigned_abs() as usize) as i32;
            clauses.push(clause.iter().map(number).collect());
        }
        clauses
    }

    /// The assignments whose left share satisfies the left formula and whose right
    /// share satisfies the right one.
    pub fn satisfying(&self) -> Assignments {
        let numbers = self.numbers();
        Assignments::that(|assignment| {
            let right = right_share(assignment, &numbers);
            satisfies(assignment, &self.left.clauses) && satisfies(right, &self.right.clauses)
        })
    }

    /// The numbers of all right variables.
    fn numbers(&self) -> Vec<usize> {
        let variables = 1..=self.right.variables;
        variables.map(|variable| self.number(variable)).collect()
    }

    /// The numbers that right variables get are seen by joining a clause that has
    /// all of them. Linked ones have the left's; the others, in their order, have
    /// those that are left, up to V.
    pub fn numbers_agree(&self) -> Result<(), String> {
        let left = format!("p cnf {} 0\n", self.left.variables);
        let all: Vec<String> = (1..=self.right.variables).map(|v| v.to_string()).collect();
        let right = format!("p cnf {} 1\n{} 0\n", all.len(), all.join(" "));
        let (left, right) = (left.as_bytes(), right.as_bytes());
        let mut formula = Formula::empty();
        let joined = join(&mut formula, &mut Window::empty(), left, right, &self.links);
        joined.map_err(|r| format!("the clause of all right variables is refused: {r:?}"))?;
        let found: Vec<usize> = formula.part(0).iter().map(|l| *l as usize).collect();
        let mut unlinked = found.clone();
        for pair in self.links.chunks(2) {
            if found[pair[1] as usize - 1] != pair[0] as usize {
                return Err(format!("the link {pair:?} is not kept"));
            }
            unlinked.retain(|number| *number != pair[0] as usize);
        }
        let after: Vec<usize> = (self.left.variables + 1..=formula.v()).collect();
        if unlinked != after || found != self.numbers() || formula.v() != self.variables() {
            return Err(format!("the right variables have the numbers {found:?}"));
        }
        Ok(())
    }

    /// Every two assignments that agree on the links are the shares of exactly one
    /// assignment of the join.
    pub fn shares_agree(&self) -> Result<(), String> {
        let numbers = self.numbers();
        let mut shares = BTreeSet::new();
        for assignment in 0..1 << self.variables() {
            let left = assignment & ((1 << self.left.variables) - 1);
            let right = right_share(assignment, &numbers);
            if !self.agree_on_links(left, right) {
                return Err(format!("assignment {assignment} breaks a link"));
            }
            shares.insert((left, right));
        }
        if shares.len() != 1 << self.variables() {
            return Err("two assignments have the same shares".to_string());
        }
        if self.left.variables + self.right.variables <= MOST_TRIED {
            let rights = |left: usize| {
                let rights = 0..1 << self.right.variables;
                rights.filter(move |right| self.agree_on_links(left, *right))
            };
            let agreeing = (0..1 << self.left.variables).flat_map(rights).count();
            if agreeing != shares.len() {
                return Err("shares that agree on the links are missing".to_string());
            }
        }
        Ok(())
    }

    fn agree_on_links(&self, left: usize, right: usize) -> bool {
        let mut pairs = self.links.chunks(2);
        pairs.all(|pair| is_true(left, pair[0] as usize) == is_true(right, pair[1] as usize))
    }
}

/// Bit v - 1 of an assignment says whether variable v is true.
fn is_true(assignment: usize, variable: usize) -> bool {
    (assignment >> (variable - 1)) & 1 == 1
}

/// Each right variable reads the number that it has in the join.
fn right_share(assignment: usize, numbers: &[usize]) -> usize {
    let mut share = 0;
    for (index, number) in numbers.iter().enumerate() {
        if is_true(assignment, *number) {
            share |= 1 << index;
        }
    }
    share
}

fn satisfies(assignment: usize, clauses: &[Vec<i32>]) -> bool {
    let is_met = |l: &i32| is_true(assignment, l.unsigned_abs() as usize) == (*l > 0);
    clauses.iter().all(|clause| clause.iter().any(is_met))
}
