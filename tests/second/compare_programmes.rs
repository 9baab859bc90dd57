//! The rules of a programme, compared with a walk over its codes in which the
//! last code alone says what may follow; and what the call that sets it does.

use crate::programme::{first_offence, MOST_CODES};
use crate::programmes::may_follow;
use crate::refusal::Refusal;
use crate::tables::Formula;

/// All lists of at most so many codes are tried.
const MOST_TRIED: u32 = 6;

/// The codes in them are 0 to 5.
const TRIED: u32 = 6;

/// For all short lists of codes.
pub fn rules_agree() -> Result<(), String> {
    for length in 0..=MOST_TRIED {
        for number in 0..TRIED.pow(length) {
            let digit = |place: u32| (number / TRIED.pow(place) % TRIED) as u8;
            let codes: Vec<u8> = (0..length).map(digit).collect();
            if first_offence(&codes) != walk_stops(&codes) {
                return Err(format!("the rules differ on the programme {codes:?}"));
            }
        }
    }
    Ok(())
}

/// The index of the first code that may not follow the one before it, 0 for a
/// wrong length.
fn walk_stops(codes: &[u8]) -> Option<usize> {
    if codes.is_empty() || codes.len() > MOST_CODES {
        return Some(0);
    }
    let mut last = None;
    for (index, code) in codes.iter().enumerate() {
        if !may_follow(last).contains(code) {
            return Some(index);
        }
        last = Some(*code);
    }
    None
}

/// On tables that have the shape the call is refused with 12 where the walk
/// stops, and with nothing else.
pub fn refusal_agrees(codes: &[u8], refusal: Refusal) -> Result<(), String> {
    let wanted = walk_stops(codes).map(|index| Refusal {
        number: 12,
        place: index as u64,
    });
    if wanted != Some(refusal) {
        return Err(format!("the programme {codes:?} is refused: {refusal:?}"));
    }
    Ok(())
}

/// The walk comes to the end, the codes are there with 0 behind them, and
/// nothing else has changed.
pub fn setting_agrees(before: &Formula, after: &Formula, codes: &[u8]) -> Result<(), String> {
    if walk_stops(codes).is_some() {
        return Err(format!("the programme {codes:?} is accepted"));
    }
    let programme = after.state.programme;
    let (set, behind) = programme.places.split_at(codes.len());
    if programme.length as usize != codes.len() || set != codes || behind.iter().any(|c| *c != 0) {
        return Err(format!("not the programme {codes:?} is set"));
    }
    let mut others = after.clone();
    others.state.programme = before.state.programme;
    if others != *before {
        return Err("setting a programme changed something else".to_string());
    }
    Ok(())
}
