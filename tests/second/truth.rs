//! Sets of assignments of at most 12 variables, one bit for each assignment.
//! With fewer variables the others are free, which changes no comparison.

use crate::tables::Formula;

pub const MOST_TRIED: usize = 12;
const WORDS: usize = (1 << MOST_TRIED) / 64;

#[derive(Clone, Copy, PartialEq, Eq)]
pub struct Assignments([u64; WORDS]);

impl Assignments {
    fn all() -> Assignments {
        Assignments([u64::MAX; WORDS])
    }

    fn none() -> Assignments {
        Assignments([0; WORDS])
    }

    /// The assignments that make the literal true. Assignment number a makes
    /// variable v true if bit v - 1 of a is 1.
    fn of_literal(literal: i32) -> Assignments {
        let variable = literal.unsigned_abs() as usize;
        Assignments::that(|assignment| {
            let is_true = (assignment >> (variable - 1)) & 1 == 1;
            is_true == (literal > 0)
        })
    }

    /// The assignments of which this is true, each given by its number.
    pub fn that(is_one: impl Fn(usize) -> bool) -> Assignments {
        let mut words = [0; WORDS];
        for assignment in 0..1 << MOST_TRIED {
            if is_one(assignment) {
                words[assignment / 64] |= 1 << (assignment % 64);
            }
        }
        Assignments(words)
    }

    fn each(self, other: Assignments, combine: fn(u64, u64) -> u64) -> Assignments {
        let mut words = [0; WORDS];
        for index in 0..WORDS {
            words[index] = combine(self.0[index], other.0[index]);
        }
        Assignments(words)
    }

    fn and(self, other: Assignments) -> Assignments {
        self.each(other, |a, b| a & b)
    }

    fn or(self, other: Assignments) -> Assignments {
        self.each(other, |a, b| a | b)
    }

    fn where_equal(self, other: Assignments) -> Assignments {
        self.each(other, |a, b| !(a ^ b))
    }
}

pub struct Truth {
    positive: Vec<Assignments>,
    negative: Vec<Assignments>,
}

impl Truth {
    pub fn new() -> Truth {
        let variables = 1..=MOST_TRIED as i32;
        Truth {
            positive: variables.clone().map(Assignments::of_literal).collect(),
            negative: variables.map(|v| Assignments::of_literal(-v)).collect(),
        }
    }

    fn literal(&self, literal: i32) -> Assignments {
        let index = literal.unsigned_abs() as usize - 1;
        if literal > 0 {
            self.positive[index]
        } else {
            self.negative[index]
        }
    }

    fn clause(&self, clause: &[i32]) -> Assignments {
        clause
            .iter()
            .fold(Assignments::none(), |set, l| set.or(self.literal(*l)))
    }

    /// The assignments that satisfy every clause.
    pub fn clauses(&self, clauses: &[Vec<i32>]) -> Assignments {
        clauses
            .iter()
            .fold(Assignments::all(), |set, c| set.and(self.clause(c)))
    }

    /// Those of these assignments that make the clause true.
    pub fn where_true(&self, assignments: Assignments, clause: &[i32]) -> Assignments {
        assignments.and(self.clause(clause))
    }

    /// The assignments that satisfy what stands.
    pub fn standing(&self, formula: &Formula) -> Assignments {
        if formula.state.mark {
            return Assignments::none();
        }
        let mut set = Assignments::all();
        for record in 0..formula.n() {
            if formula.stands(record) {
                set = set.and(self.clause(formula.part(record)));
            }
        }
        for v in 1..=formula.v() as i32 {
            let record = formula.variables[v as usize - 1];
            set = set.and(self.literal(v).where_equal(self.literal(record.class)));
            match record.value {
                0 => {}
                1 => set = set.and(self.literal(v)),
                _ => set = set.and(self.literal(-v)),
            }
        }
        set
    }

    /// The same with the values of the variables that are their own class, and
    /// no others.
    pub fn standing_by_classes(&self, formula: &Formula) -> Assignments {
        let mut by_classes = formula.clone();
        for variable in 1..=formula.v() {
            if !formula.is_its_own_class(variable) {
                by_classes.variables[variable - 1].value = 0;
            }
        }
        self.standing(&by_classes)
    }
}
