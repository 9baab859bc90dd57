//! Which literals reach which over the standing two-literal clauses, by
//! transitive closure, what of this a Sweep has to keep, and to which literal it
//! may shorten a pair.

use crate::tables::{literal_of, slot, Formula};

/// For each literal, by slot, a number whose bit s says whether it reaches the
/// literal of slot s. Each literal reaches itself. There are at most 32
/// variables.
pub struct Reach(Vec<u64>);

impl Reach {
    pub fn of(formula: &Formula) -> Reach {
        let mut rows: Vec<u64> = (0..2 * formula.v()).map(|s| 1 << s).collect();
        for (_, [a, b]) in pairs(formula) {
            rows[slot(-a)] |= 1 << slot(b);
            rows[slot(-b)] |= 1 << slot(a);
        }
        // Behind each middle, all ways over it and the earlier ones are known.
        for middle in 0..rows.len() {
            for from in 0..rows.len() {
                if rows[from] >> middle & 1 == 1 {
                    rows[from] |= rows[middle];
                }
            }
        }
        Reach(rows)
    }

    pub fn has(&self, p: i32, q: i32) -> bool {
        self.0[slot(p)] >> slot(q) & 1 == 1
    }

    /// Some p and q such that p reaches q here and not in the other.
    fn beyond(&self, other: &Reach) -> Option<(i32, i32)> {
        let literals = || (0..self.0.len()).map(literal_of);
        let mut all = literals().flat_map(|p| literals().map(move |q| (p, q)));
        all.find(|(p, q)| self.has(*p, *q) && !other.has(*p, *q))
    }
}

/// What is remembered of the tables that a Stamp left: the length of each
/// clause that stands, the pairs, and the reach.
pub struct Stamped {
    lengths: Vec<Option<usize>>,
    pairs: Vec<(usize, [i32; 2])>,
    reach: Reach,
}

/// What Sweeps have done since the Stamp, as far as it is counted.
#[derive(Clone, Copy, PartialEq, Eq)]
pub enum Change {
    /// No clause is shortened, and a pair is dropped.
    Dropped,
    /// Only clauses of three or more literals are shortened, and more is reached.
    Added,
    /// A pair is shortened, and something is no longer reached.
    Lost,
    Other,
}

impl Stamped {
    pub fn of(formula: &Formula) -> Stamped {
        Stamped {
            lengths: lengths(formula),
            pairs: pairs(formula),
            reach: Reach::of(formula),
        }
    }

    /// A clause of the complement of p, and q, stood.
    pub fn has_edge(&self, p: i32, q: i32) -> bool {
        let mut pairs = self.pairs.iter();
        pairs.any(|(_, pair)| *pair == [-p, q] || *pair == [q, -p])
    }

    /// Where no pair is shortened, all that was reached still is; where no
    /// clause is, nothing else is reached either. Each pair that is shortened
    /// leaves a literal that it may leave.
    pub fn compare(&self, now: &Formula) -> Result<Change, String> {
        self.shortened_pairs_agree(now)?;
        let shortened = self.shortened(now);
        let reach = Reach::of(now);
        let lost = self.reach.beyond(&reach);
        let added = reach.beyond(&self.reach);
        let is_pair_shortened = shortened.contains(&2);
        if let (Some((p, q)), false) = (lost, is_pair_shortened) {
            return Err(format!(
                "{p} no longer reaches {q}, and no pair is shortened"
            ));
        }
        if let (Some((p, q)), true) = (added, shortened.is_empty()) {
            return Err(format!("{p} now reaches {q}, and no clause is shortened"));
        }
        Ok(if lost.is_some() {
            Change::Lost
        } else if added.is_some() && !is_pair_shortened {
            Change::Added
        } else if shortened.is_empty() && self.is_pair_dropped(now) {
            Change::Dropped
        } else {
            Change::Other
        })
    }

    /// Of each pair that is shortened exactly one literal is left, and that one
    /// was reached from its own complement.
    fn shortened_pairs_agree(&self, now: &Formula) -> Result<(), String> {
        for (record, [a, b]) in self.pairs.iter().copied() {
            let left = now.part(record);
            if !now.stands(record) || left.len() >= 2 {
                continue;
            }
            let Some(l) = [a, b].into_iter().find(|l| *left == [*l]) else {
                return Err(format!(
                    "of the pair {a} {b} is left {left:?}, not exactly one of the two"
                ));
            };
            if !self.reach.has(-l, l) {
                return Err(format!(
                    "of the pair {a} {b} is left {l}, which was not reached from its complement"
                ));
            }
        }
        Ok(())
    }

    /// The lengths that the shortened clauses had: each stood, still stands,
    /// and has fewer literals.
    fn shortened(&self, now: &Formula) -> Vec<usize> {
        let both = self.lengths.iter().zip(lengths(now));
        let had = both.filter_map(|(then, now)| match (*then, now) {
            (Some(then), Some(now)) if now < then => Some(then),
            _ => None,
        });
        had.collect()
    }

    fn is_pair_dropped(&self, now: &Formula) -> bool {
        let mut both = self.lengths.iter().zip(lengths(now));
        both.any(|(then, now)| *then == Some(2) && now.is_none())
    }
}

/// The record and the literals of each clause that stands with two.
fn pairs(formula: &Formula) -> Vec<(usize, [i32; 2])> {
    let pair = |record| match *formula.part(record) {
        [a, b] if formula.stands(record) => Some((record, [a, b])),
        _ => None,
    };
    (0..formula.n()).filter_map(pair).collect()
}

/// The length of each clause, none for a dropped one.
fn lengths(formula: &Formula) -> Vec<Option<usize>> {
    let length = |record| {
        let stands = formula.stands(record);
        stands.then(|| formula.part(record).len())
    };
    (0..formula.n()).map(length).collect()
}

/// How often what calls of Sweep have done since the Stamp was of each kind.
#[derive(Default)]
pub struct Counts {
    dropped: usize,
    added: usize,
    lost: usize,
}

impl Counts {
    pub fn count(&mut self, change: Change) {
        match change {
            Change::Dropped => self.dropped += 1,
            Change::Added => self.added += 1,
            Change::Lost => self.lost += 1,
            Change::Other => {}
        }
    }

    pub fn add(&mut self, other: &Counts) {
        self.dropped += other.dropped;
        self.added += other.added;
        self.lost += other.lost;
    }

    pub fn told(&self) -> String {
        format!(
            "behind sweeps: {} times pairs dropped and nothing shortened, \
             {} times arrows added and no pair shortened, \
             {} times pairs shortened and arrows lost",
            self.dropped, self.added, self.lost
        )
    }
}
