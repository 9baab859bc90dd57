//! Lines of `explain` behind which none is read.

use crate::random::Random;

const WRONG_NUMBERS: [&str; 12] = [
    "-1",
    "-0",
    "00",
    "01",
    "+1",
    "x",
    "1x",
    "",
    "4294967296",
    "4294967297",
    "18446744073709551617",
    "-4294967295",
];

const WRONG_ROOMS: [&str; 12] = [
    "-1",
    "-0",
    "00",
    "08",
    "+8",
    "x",
    "8x",
    "",
    "131073",
    "4294967304",
    "18446744073709551624",
    "8 8",
];

/// A line without its LF.
pub fn wrong(random: &mut Random) -> String {
    let number = random.between(0, 5);
    let room = random.pick(&[0, 8, 99, 131_072]);
    match random.below(6) {
        0 => "explain".to_string(),
        1 => format!("explain {number}"),
        2 | 3 => format!("explain {} {room}", random.pick(&WRONG_NUMBERS)),
        _ => format!("explain {number} {}", random.pick(&WRONG_ROOMS)),
    }
}
