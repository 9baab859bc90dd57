//! Lines of `learn`, `window`, `lend` and `set` behind which none is read.

use crate::newcomers::valid;
use crate::random::Random;
use crate::tables::Formula;

/// A line of `learn` may have this many literals.
const MOST_IN_LINE: usize = 4_096;

const WRONG_LINES: [&str; 24] = [
    "learn ",
    "learn 1 ",
    "learn 1  2",
    "learn -0",
    "learn 01",
    "learn 2147483648",
    "learn -2147483649",
    "window ",
    "window 0",
    "lend sizes 81",
    "lend learnt 4113",
    "lend window 2",
    "set sizes 80 0 0",
    "set sizes 0 1 0",
    "set sizes 0 0 -1",
    "set sizes 0 0 4294967296",
    "set sizes 0 0",
    "set learnt 4112 0 0",
    "set learnt 0 1 0",
    "set learnt 0 0 2147483648",
    "set learnt 0 0",
    "set window 2 0",
    "set window 0 -1",
    "set window 1 4294967296",
];

/// A line without its LF.
pub fn wrong(random: &mut Random, formula: &Formula) -> String {
    match random.below(8) {
        0 => format!("learn{}", " 1".repeat(MOST_IN_LINE + 1)),
        1 | 2 => wrong_word(random, formula),
        _ => random.pick(&WRONG_LINES).to_string(),
    }
}

/// A newcomer with a word that is no literal.
fn wrong_word(random: &mut Random, formula: &Formula) -> String {
    let newcomer = valid(random, formula);
    let mut words: Vec<String> = newcomer.iter().map(i32::to_string).collect();
    let wrong = random.pick(&["", "-", "-0", "00", "01", "x", "1x", "+1", "4294967297"]);
    let place = random.below(words.len() + 1);
    words.insert(place, wrong.to_string());
    format!("learn {}", words.join(" "))
}
