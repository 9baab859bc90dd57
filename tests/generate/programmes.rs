//! Programmes for Run: such as keep the rules, made by a walk over them, such
//! as nearly do, and such as have a wrong length.

use crate::programme::{FAILED, MOST_CODES, SETTLE, STAMP, SWEEP};
use crate::random::Random;

/// A line of `programme` may have this many codes.
pub const MOST_IN_LINE: usize = 64;

/// The codes that may follow this one, or those that may come first: a settle
/// always, a stamp behind a settle, failed and sweep while stamps are fresh.
pub fn may_follow(last: Option<u8>) -> &'static [u8] {
    match last {
        None | Some(SWEEP) => &[SETTLE],
        Some(SETTLE) => &[SETTLE, STAMP],
        Some(STAMP | FAILED) => &[SETTLE, FAILED, SWEEP],
        Some(_) => &[],
    }
}

/// A programme that keeps the rules, often a short one.
pub fn valid(random: &mut Random) -> Vec<u8> {
    let length = match random.below(8) {
        0..=4 => random.between(1, 8),
        5 | 6 => random.between(1, MOST_CODES),
        _ => MOST_CODES,
    };
    walk(random, length)
}

/// Any programme, every fourth one such as keeps the rules.
pub fn any(random: &mut Random) -> Vec<u8> {
    match random.below(8) {
        0 | 1 => valid(random),
        2..=6 => nearly_valid(random),
        _ => wrong_length(random),
    }
}

/// So many codes, each one that may follow the one before it. Two settles
/// seldom follow each other.
fn walk(random: &mut Random, length: usize) -> Vec<u8> {
    let mut codes: Vec<u8> = Vec::new();
    while codes.len() < length {
        let last = codes.last().copied();
        let mut code = random.pick(may_follow(last));
        if last == Some(SETTLE) && code == SETTLE && random.below(3) > 0 {
            code = STAMP;
        }
        codes.push(code);
    }
    codes
}

/// A programme that keeps the rules but for one change, and often even so.
pub fn nearly_valid(random: &mut Random) -> Vec<u8> {
    let mut codes = valid(random);
    let index = random.below(codes.len());
    let other = random.pick(&[1, 2, 2, 2, 3, 3, 3, 4, 4, 4, 0, 5, 255]);
    match random.below(6) {
        0 if codes.len() < MOST_CODES => codes.insert(index, other),
        1 if codes.len() > 1 => {
            codes.remove(index);
        }
        2 => {
            let second = random.below(codes.len());
            codes.swap(index, second);
        }
        3 => codes[index] = random.below(256) as u8,
        _ => codes[index] = other,
    }
    codes
}

/// No code, or more than there may be.
fn wrong_length(random: &mut Random) -> Vec<u8> {
    let any = random.between(MOST_CODES + 1, MOST_IN_LINE);
    let length = random.pick(&[0, 0, MOST_CODES + 1, MOST_CODES + 1, MOST_IN_LINE, any]);
    let mut codes = walk(random, length);
    if length > 0 && random.once_in(2) {
        let index = random.below(length);
        codes[index] = random.below(6) as u8;
    }
    codes
}
