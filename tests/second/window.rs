//! The window of learnt clauses that the caller lends, and the rule that it
//! keeps. Only learn, a load and a join take it.

use crate::refusal::{refuse, Refusal};
use crate::tables::EXTRA;

/// The window has this many records, and each of them this many places.
pub const MOST_LEARNT: usize = 64;
pub const MOST_IN_LEARNT: usize = 64;

pub const MOST_PLACES: usize = MOST_LEARNT * MOST_IN_LEARNT;

#[derive(Clone, PartialEq, Eq, Debug)]
pub struct Window {
    /// How many literals each clause has, the eldest first.
    pub sizes: Vec<u32>,
    /// The literals of clause k stand from place 64k on.
    pub learnt: Vec<i32>,
    /// How many clauses there are.
    pub count: u32,
    /// How many literals they have together.
    pub total: u32,
    /// How many places of the two tables are lent.
    pub lent_sizes: usize,
    pub lent_learnt: usize,
}

impl Window {
    /// No clause, all places 0 and fully lent.
    pub fn empty() -> Window {
        Window {
            sizes: vec![0; MOST_LEARNT + EXTRA],
            learnt: vec![0; MOST_PLACES + EXTRA],
            count: 0,
            total: 0,
            lent_sizes: MOST_LEARNT,
            lent_learnt: MOST_PLACES,
        }
    }

    /// Refusal 1, for learn, load and join: a table is shorter than stated.
    pub fn is_lent(&self) -> Result<(), Refusal> {
        if self.lent_sizes < MOST_LEARNT || self.lent_learnt < MOST_PLACES {
            return refuse(1, 0);
        }
        Ok(())
    }

    /// Refusal 1, for learn, in a state with V variables.
    pub fn has_shape(&self, v: usize) -> Result<(), Refusal> {
        self.is_lent()?;
        if !self.keeps_the_rule(v) {
            return refuse(1, 0);
        }
        Ok(())
    }

    /// At most 64 clauses, each of them such as may be learnt, and their sizes
    /// make the total. What stands behind the literals of a clause is not judged.
    fn keeps_the_rule(&self, v: usize) -> bool {
        let count = self.count as usize;
        count <= MOST_LEARNT
            && self.sizes[..count]
                .iter()
                .all(|size| *size as usize <= MOST_IN_LEARNT)
            && (0..count).all(|record| may_be_learnt(self.part(record), v))
            && self.sizes[..count].iter().sum::<u32>() == self.total
    }

    /// The literals of a record, of which the places hold 64 at most.
    pub fn part(&self, record: usize) -> &[i32] {
        let start = record * MOST_IN_LEARNT;
        let length = (self.sizes[record] as usize).min(MOST_IN_LEARNT);
        &self.learnt[start..start + length]
    }

    /// The clause goes behind the others. If there are 64 already, the eldest
    /// leaves: every record takes the place of the one before it.
    pub fn add(&mut self, clause: &[i32]) {
        if self.count as usize == MOST_LEARNT {
            self.total -= self.sizes[0];
            self.sizes.copy_within(1..MOST_LEARNT, 0);
            self.learnt.copy_within(MOST_IN_LEARNT..MOST_PLACES, 0);
            self.count -= 1;
        }
        let record = self.count as usize;
        self.sizes[record] = clause.len() as u32;
        let start = record * MOST_IN_LEARNT;
        for place in 0..MOST_IN_LEARNT {
            self.learnt[start + place] = clause.get(place).copied().unwrap_or(0);
        }
        self.count += 1;
        self.total += clause.len() as u32;
    }

    /// No clause, and 0 in every place but the extra ones.
    pub fn clear(&mut self) {
        self.sizes[..MOST_LEARNT].fill(0);
        self.learnt[..MOST_PLACES].fill(0);
        self.count = 0;
        self.total = 0;
    }
}

/// At most 64 literals, each of the variables 1 to V, no variable twice.
pub fn may_be_learnt(clause: &[i32], v: usize) -> bool {
    let in_range = |l: &i32| *l != 0 && l.unsigned_abs() as usize <= v;
    let stands_before = |index: usize| {
        clause[..index]
            .iter()
            .any(|l| l.unsigned_abs() == clause[index].unsigned_abs())
    };
    clause.len() <= MOST_IN_LEARNT
        && clause.iter().all(in_range)
        && !(0..clause.len()).any(stands_before)
}
