//! Lines of `programme`, `codes` and `set programme` behind which none is read.

use crate::programmes::{valid, MOST_IN_LINE};
use crate::random::Random;

const WRONG_LINES: [&str; 20] = [
    "programme ",
    "programme 256",
    "programme 257",
    "programme -0",
    "programme 1  2",
    "programme 1 2 ",
    "programme 4294967297",
    "programme 18446744073709551617",
    "codes ",
    "codes 1",
    "set programme 0",
    "set programme 33 0",
    "set programme -1 0",
    "set programme 01 0",
    "set programme 0 256",
    "set programme 1 -1",
    "set programme 1 01",
    "set programme 1 1 1",
    "lend programme 32",
    "set state 7 4",
];

/// A line without its LF.
pub fn wrong(random: &mut Random) -> String {
    match random.below(6) {
        0 => format!("programme{}", " 1".repeat(MOST_IN_LINE + 1)),
        1 | 2 => wrong_word(random),
        _ => random.pick(&WRONG_LINES).to_string(),
    }
}

/// A programme with a word that is no code.
fn wrong_word(random: &mut Random) -> String {
    let codes = valid(random);
    let mut words: Vec<String> = codes.iter().map(u8::to_string).collect();
    let index = random.below(words.len());
    words[index] = random
        .pick(&["", "256", "-1", "01", "00", "x", "1x", "+1"])
        .to_string();
    format!("programme {}", words.join(" "))
}
