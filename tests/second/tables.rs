//! The tables that the caller lends, the state that goes with them, and the
//! plain reading and writing of their records.

use crate::programme::Programme;

pub const MOST_VARIABLES: usize = 1_024;
pub const MOST_CLAUSES: usize = 4_096;
pub const MOST_LITERALS: usize = 16_384;
pub const MOST_STAMPS: usize = 2_048;

/// Places that exist past the stated ones. No call reads or writes them.
pub const EXTRA: usize = 16;

#[derive(Clone, Copy, Default, PartialEq, Eq, Debug)]
pub struct ClauseRecord {
    pub start: u32,
    pub length: u32,
    pub standing: u32,
}

#[derive(Clone, Copy, Default, PartialEq, Eq, Debug)]
pub struct VariableRecord {
    pub class: i32,
    pub value: i32,
}

#[derive(Clone, Copy, Default, PartialEq, Eq, Debug)]
pub struct StampRecord {
    pub discovery: u32,
    pub finish: u32,
    pub parent: i32,
    pub start: i32,
}

#[derive(Clone, Copy, PartialEq, Eq, Debug)]
pub enum Pass {
    None,
    Propagate,
    Merge,
    Sweep,
}

#[derive(Clone, Copy, PartialEq, Eq, Debug)]
pub struct State {
    /// The number of variables, V.
    pub variables: u32,
    /// The number of clauses, N.
    pub clauses: u32,
    /// The open pass.
    pub pass: Pass,
    /// How many clauses the open pass has visited in this time through.
    pub cursor: u32,
    /// Whether this time through of Propagate has changed something.
    pub changed: bool,
    /// Whether the stamps are fresh.
    pub fresh: bool,
    /// The mark: no assignment is left.
    pub mark: bool,
    /// What Run does in every round.
    pub programme: Programme,
}

/// How many records of each table are lent.
#[derive(Clone, Copy, PartialEq, Eq, Debug)]
pub struct Lent {
    pub clauses: usize,
    pub literals: usize,
    pub variables: usize,
    pub stamps: usize,
}

#[derive(Clone, PartialEq, Eq, Debug)]
pub struct Formula {
    pub clauses: Vec<ClauseRecord>,
    pub literals: Vec<i32>,
    pub variables: Vec<VariableRecord>,
    pub stamps: Vec<StampRecord>,
    pub lent: Lent,
    pub state: State,
}

/// A closed discovery-finish interval.
#[derive(Clone, Copy, PartialEq, Eq, Debug)]
pub struct Interval {
    pub discovery: u32,
    pub finish: u32,
}

impl Interval {
    /// It begins no later and ends no earlier.
    pub fn holds(self, other: Interval) -> bool {
        self.discovery <= other.discovery && other.finish <= self.finish
    }
}

/// The record number of a literal in the stamp table: 2v - 2 for v, 2v - 1 for -v.
pub fn slot(literal: i32) -> usize {
    let variable = literal.unsigned_abs() as usize;
    if literal > 0 {
        2 * variable - 2
    } else {
        2 * variable - 1
    }
}

/// The literal that has this record number in the stamp table.
pub fn literal_of(slot: usize) -> i32 {
    let variable = (slot / 2 + 1) as i32;
    if slot % 2 == 0 {
        variable
    } else {
        -variable
    }
}

impl Formula {
    /// All tables zero and fully lent, no variables and no clauses, the
    /// constant programme.
    pub fn empty() -> Formula {
        Formula {
            clauses: vec![ClauseRecord::default(); MOST_CLAUSES + EXTRA],
            literals: vec![0; MOST_LITERALS + EXTRA],
            variables: vec![VariableRecord::default(); MOST_VARIABLES + EXTRA],
            stamps: vec![StampRecord::default(); MOST_STAMPS + EXTRA],
            lent: Lent {
                clauses: MOST_CLAUSES,
                literals: MOST_LITERALS,
                variables: MOST_VARIABLES,
                stamps: MOST_STAMPS,
            },
            state: State {
                variables: 0,
                clauses: 0,
                pass: Pass::None,
                cursor: 0,
                changed: false,
                fresh: false,
                mark: false,
                programme: Programme::constant(),
            },
        }
    }

    /// V.
    pub fn v(&self) -> usize {
        self.state.variables as usize
    }

    /// N.
    pub fn n(&self) -> usize {
        self.state.clauses as usize
    }

    /// The literals of a clause record.
    pub fn part(&self, record: usize) -> &[i32] {
        let clause = self.clauses[record];
        let start = clause.start as usize;
        &self.literals[start..start + clause.length as usize]
    }

    pub fn stands(&self, record: usize) -> bool {
        self.clauses[record].standing == 1
    }

    /// The clause keeps these literals, at the front of its part. The places
    /// that it gives up become 0.
    pub fn keep(&mut self, record: usize, kept: &[i32]) {
        let start = self.clauses[record].start as usize;
        let length = self.clauses[record].length as usize;
        for place in 0..length {
            self.literals[start + place] = kept.get(place).copied().unwrap_or(0);
        }
        self.clauses[record].length = kept.len() as u32;
    }

    /// The clause is dropped. It keeps its start.
    pub fn drop_clause(&mut self, record: usize) {
        self.keep(record, &[]);
        self.clauses[record].standing = 0;
    }

    pub fn is_its_own_class(&self, variable: usize) -> bool {
        self.variables[variable - 1].class == variable as i32
    }

    /// The class literal of v is its class, of -v the complement of that.
    pub fn class_literal(&self, literal: i32) -> i32 {
        let class = self.variables[literal.unsigned_abs() as usize - 1].class;
        if literal > 0 {
            class
        } else {
            -class
        }
    }

    /// 1 for a true literal, -1 for a false one, 0 if there is no value.
    pub fn truth(&self, literal: i32) -> i32 {
        let class = self.class_literal(literal);
        let value = self.variables[class.unsigned_abs() as usize - 1].value;
        if class > 0 {
            value
        } else {
            -value
        }
    }

    /// Makes the literal true, by the value of its class literal. Then the
    /// value of each variable is made that of its class literal, with its sign.
    pub fn make_true(&mut self, literal: i32) {
        let class = self.class_literal(literal);
        self.variables[class.unsigned_abs() as usize - 1].value = class.signum();
        for variable in 1..=self.v() {
            self.variables[variable - 1].value = self.truth(variable as i32);
        }
    }

    pub fn interval(&self, literal: i32) -> Interval {
        let record = self.stamps[slot(literal)];
        Interval {
            discovery: record.discovery,
            finish: record.finish,
        }
    }

    /// Sets the mark, which closes any pass and spends the stamps.
    pub fn set_mark(&mut self) {
        self.state.mark = true;
        self.state.fresh = false;
        self.close();
    }

    /// Opens a pass before its first visit.
    pub fn open(&mut self, pass: Pass) {
        self.state.pass = pass;
        self.state.cursor = 0;
        self.state.changed = false;
    }

    /// No pass is open any more.
    pub fn close(&mut self) {
        self.open(Pass::None);
    }

    /// How many clauses stand, and how many literals they have together.
    pub fn standing(&self) -> (u32, u32) {
        let mut clauses = 0;
        let mut literals = 0;
        for record in 0..self.n() {
            if self.stands(record) {
                clauses += 1;
                literals += self.clauses[record].length;
            }
        }
        (clauses, literals)
    }
}
