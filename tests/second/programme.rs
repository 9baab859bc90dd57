//! The programme that Run follows in every round: its codes, the rules that
//! they keep, and the call that sets them.

use crate::refusal::{refuse, tables_have_shape, Refusal};
use crate::tables::Formula;

pub const SETTLE: u8 = 1;
pub const STAMP: u8 = 2;
pub const FAILED: u8 = 3;
pub const SWEEP: u8 = 4;

pub const MOST_CODES: usize = 32;

/// The programme that is there at the start and after a load.
const CONSTANT: [u8; 4] = [SETTLE, STAMP, FAILED, SWEEP];

#[derive(Clone, Copy, PartialEq, Eq, Debug)]
pub struct Programme {
    /// The codes, and what stands behind them.
    pub places: [u8; MOST_CODES],
    /// How many codes there are.
    pub length: u8,
}

impl Programme {
    pub fn constant() -> Programme {
        Programme::of(&CONSTANT)
    }

    /// These codes, at most 32, and 0 behind them.
    pub fn of(codes: &[u8]) -> Programme {
        let mut places = [0; MOST_CODES];
        places[..codes.len()].copy_from_slice(codes);
        Programme {
            places,
            length: codes.len() as u8,
        }
    }

    /// The codes as far as the length goes, 32 at most.
    pub fn codes(&self) -> &[u8] {
        let count = (self.length as usize).min(MOST_CODES);
        &self.places[..count]
    }

    /// There are 1 to 32 codes, and they keep the rules. What stands behind
    /// them is not judged.
    pub fn keeps_the_rules(&self) -> bool {
        self.length as usize <= MOST_CODES && first_offence(self.codes()).is_none()
    }
}

/// Replaces the programme, whether a pass is open or not, under the mark or not.
pub fn set_programme(formula: &mut Formula, codes: &[u8]) -> Result<(), Refusal> {
    tables_have_shape(formula)?;
    if let Some(index) = first_offence(codes) {
        return refuse(12, index);
    }
    formula.state.programme = Programme::of(codes);
    Ok(())
}

/// The index of the first offending code, 0 for a wrong length.
pub fn first_offence(codes: &[u8]) -> Option<usize> {
    if codes.is_empty() || codes.len() > MOST_CODES {
        return Some(0);
    }
    (0..codes.len()).find(|index| !may_stand(codes[*index], &codes[..*index]))
}

/// The code may stand behind these codes.
fn may_stand(code: u8, before: &[u8]) -> bool {
    match code {
        SETTLE => true,
        STAMP => before.last() == Some(&SETTLE),
        FAILED | SWEEP => have_a_stamp_left(before),
        _ => false,
    }
}

/// Going back, a stamp comes before any settle and any sweep.
fn have_a_stamp_left(before: &[u8]) -> bool {
    let is_met = |code: &&u8| [SETTLE, STAMP, SWEEP].contains(*code);
    before.iter().rev().find(is_met) == Some(&STAMP)
}
