//! How one interval lies to another.

use crate::tables::Interval;

#[derive(Clone, Copy, PartialEq, Eq, Debug)]
pub enum Comparison {
    Same,
    Holds,
    Held,
    Earlier,
    Later,
}

impl Comparison {
    /// The word that a replay prints.
    pub fn word(self) -> &'static str {
        match self {
            Comparison::Same => "same",
            Comparison::Holds => "holds",
            Comparison::Held => "held",
            Comparison::Earlier => "earlier",
            Comparison::Later => "later",
        }
    }
}

/// The first answer that fits, in this order, whatever the numbers are: stamps
/// may be spent or damaged, so an interval may end before it begins.
pub fn compare(first: Interval, second: Interval) -> Comparison {
    if first.discovery == second.discovery && first.finish == second.finish {
        Comparison::Same
    } else if first.discovery <= second.discovery && first.finish >= second.finish {
        Comparison::Holds
    } else if second.discovery <= first.discovery && second.finish >= first.finish {
        Comparison::Held
    } else if first.discovery < second.discovery {
        Comparison::Earlier
    } else {
        Comparison::Later
    }
}
