//! Lines of `groups` and `group` behind which none is read.

use crate::random::Random;

const WRONG_OUTPUTS: [&str; 12] = [
    "",
    " ",
    " -1",
    " -0",
    " 00",
    " 04",
    " +4",
    " x",
    " 4 4",
    "  4",
    " 1041",
    " 4294967300",
];

const WRONG_NUMBERS: [&str; 12] = [
    "-1",
    "-0",
    "00",
    "01",
    "+1",
    "x",
    "1x",
    "",
    "4294967296",
    "4294967297",
    "18446744073709551617",
    "-4294967295",
];

const WRONG_ROOMS: [&str; 12] = [
    "-1",
    "-0",
    "00",
    "099",
    "+99",
    "x",
    "99x",
    "",
    "131073",
    "4294967395",
    "18446744073709551715",
    "99 99",
];

/// A line without its LF.
pub fn wrong(random: &mut Random) -> String {
    let number = random.between(0, 5);
    let room = random.pick(&[0, 17, 99, 131_072]);
    match random.below(8) {
        0 => "group".to_string(),
        1 => format!("group {number}"),
        2 | 3 => format!("group {} {room}", random.pick(&WRONG_NUMBERS)),
        4 | 5 => format!("group {number} {}", random.pick(&WRONG_ROOMS)),
        _ => format!("groups{}", random.pick(&WRONG_OUTPUTS)),
    }
}
