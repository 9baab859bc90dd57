//! Lines of `join` behind which none is read, with the texts that would belong to
//! them.

use crate::random::Random;

/// A line of `join` may have this many numbers.
const MOST_IN_LINE: usize = 4_096;

/// 14 bytes and 15 bytes.
const TEXTS: &str = "p cnf 1 1\n1 0\np cnf 1 1\n-1 0\n";

const WRONG_COUNTS: [&str; 20] = [
    "",
    " ",
    " 14",
    " 14 ",
    "  14 15",
    " 14  15",
    " -14 15",
    " 14 -15",
    " 014 15",
    " 14 015",
    " +14 15",
    " 14 15x",
    " x 15",
    " 1048577 15",
    " 14 1048577",
    " 1048576 1048576",
    " 4294967310 15",
    " 14 18446744073709551631",
    " 14 13",
    " 14 17",
];

const WRONG_LINKS: [&str; 12] = [
    "",
    "-",
    "-0",
    "-1",
    "00",
    "01",
    "+1",
    "x",
    "1x",
    "1,1",
    "4294967296",
    "18446744073709551617",
];

/// The line and the texts, with the last LF.
pub fn wrong(random: &mut Random) -> Vec<u8> {
    let lines = match random.below(8) {
        0 => format!("join 14 15{}\n{TEXTS}\n", " 1".repeat(MOST_IN_LINE + 1)),
        // No LF behind the texts, or not so many bytes.
        1 => format!("join 14 15 1 1\n{TEXTS}"),
        2 => format!("join 14 15 1 1\n{}", &TEXTS[..random.below(TEXTS.len())]),
        3..=5 => format!("join 14 15{}\n{TEXTS}\n", wrong_links(random)),
        _ => format!("join{}\n{TEXTS}\n", random.pick(&WRONG_COUNTS)),
    };
    lines.into_bytes()
}

/// Numbers with a word among them that is none.
fn wrong_links(random: &mut Random) -> String {
    let mut words = vec!["1"; random.below(5)];
    let place = random.between(0, words.len());
    words.insert(place, random.pick(&WRONG_LINKS));
    let words: Vec<String> = words.iter().map(|word| format!(" {word}")).collect();
    words.concat()
}
