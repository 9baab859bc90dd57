//! Texts that a load refuses, save by chance, in every way that there is.

use crate::formulas::{comment, odd_text, plain_text, Draft};
use crate::random::Random;

const HEADERS: [&str; 44] = [
    "",
    "c",
    "c no end",
    "c line\n",
    "c line\nc",
    "p",
    "p ",
    "p cnf",
    "p cnf ",
    "p cnf 1",
    "p cnf 1 ",
    "p cnf 1 1",
    "p cnf 1 1\n",
    "p cnf 1024 4096",
    "p  cnf 1 1\n1 0\n",
    "p cnf  1 1\n1 0\n",
    "p cnf 1  1\n1 0\n",
    "P cnf 1 1\n1 0\n",
    "p dnf 1 1\n1 0\n",
    "p cnff 1 1\n1 0\n",
    "p\tcnf 1 1\n1 0\n",
    "p cnf 1\t1\n1 0\n",
    "p cnf 1 1 \n1 0\n",
    "p cnf 1 1\r\n1 0\n",
    "p cnf 1 1x\n1 0\n",
    " p cnf 1 1\n1 0\n",
    "\np cnf 1 1\n1 0\n",
    "p cnf 01 1\n1 0\n",
    "p cnf 1 01\n1 0\n",
    "p cnf 00 0\n",
    "p cnf 0 00\n",
    "p cnf 01025 0\n",
    "p cnf -1 1\n1 0\n",
    "p cnf +1 1\n1 0\n",
    "p cnf 1 -1\n1 0\n",
    "p cnf x 1\n",
    "p cnf 1025 0\n",
    "p cnf 1025",
    "p cnf 1025x",
    "p cnf 1 4097\n",
    "p cnf 1 4097x",
    "p cnf 1025 4097\n",
    "p cnf 99999999999999999999999 1\n",
    "p cnf 1 99999999999999999999999\n",
];

const TOKENS: [&str; 32] = [
    "01",
    "-0",
    "00",
    "-01",
    "+1",
    "1-",
    "--1",
    "-",
    "x",
    "c",
    "p",
    "%",
    "1.0",
    "0x",
    "1a",
    "a1",
    "\u{b}",
    "\0",
    "1\u{c}",
    "2147483647",
    "2147483648",
    "-2147483648",
    "-2147483649",
    "4294967297",
    "-4294967297",
    "18446744073709551617",
    "99999999999999999999999",
    "-1024",
    "1025",
    "0",
    "1",
    "-1",
];

/// A text with something wrong in it.
pub fn wrong(random: &mut Random, draft: &Draft) -> Vec<u8> {
    let mut text = Vec::new();
    for _ in 0..random.below(3) {
        comment(random, &mut text);
    }
    match random.below(10) {
        0..=2 => text.extend_from_slice(random.pick(&HEADERS).as_bytes()),
        3..=5 => text.extend_from_slice(&with_token(random, draft)),
        6 => {
            text.extend_from_slice(&odd_text(random, draft));
            let length = random.below(text.len() + 1);
            text.truncate(length);
        }
        7 => {
            text.extend_from_slice(&plain_text(draft));
            spoil_byte(random, &mut text);
        }
        8 => text.extend_from_slice(&with_count(random, draft)),
        _ => {
            text.extend_from_slice(&plain_text(draft));
            let more = random.pick(&["c late\n", "1", "0", "-1 0\n", "x", "-0", "\n\n0"]);
            text.extend_from_slice(more.as_bytes());
        }
    }
    text
}

/// A good text with a token put in somewhere in the body.
fn with_token(random: &mut Random, draft: &Draft) -> Vec<u8> {
    let mut clauses = draft.clauses.clone();
    clauses.push(vec![]);
    let chosen = random.below(clauses.len());
    let place = random.below(clauses[chosen].len() + 1);
    let past = draft.variables as i32 + 1;
    let token = match random.below(6) {
        0 => past.to_string(),
        1 => (-past).to_string(),
        _ => random.pick(&TOKENS).to_string(),
    };
    let mut text = format!("p cnf {} {}\n", draft.variables, draft.clauses.len());
    for (index, clause) in clauses.iter().enumerate() {
        for position in 0..=clause.len() {
            if index == chosen && position == place {
                text.push_str(&token);
                text.push_str(random.pick(&[" ", "\n", "\t", "\r", "  "]));
            }
            if position < clause.len() {
                text.push_str(&format!("{} ", clause[position]));
            }
        }
        if index + 1 < clauses.len() {
            text.push_str("0\n");
        }
    }
    text.into_bytes()
}

/// A good body after a header whose numbers are not those of the body.
fn with_count(random: &mut Random, draft: &Draft) -> Vec<u8> {
    let text = plain_text(draft);
    let body = text.iter().position(|b| *b == b'\n').unwrap() + 1;
    let variables = (draft.variables + random.below(3)).saturating_sub(1);
    let clauses = (draft.clauses.len() + random.below(5)).saturating_sub(2);
    let mut other = format!("p cnf {variables} {clauses}\n").into_bytes();
    other.extend_from_slice(&text[body..]);
    other
}

/// One byte changed, put in or taken out.
fn spoil_byte(random: &mut Random, text: &mut Vec<u8>) {
    let place = random.below(text.len());
    let byte = if random.once_in(3) {
        random.below(256) as u8
    } else {
        random.pick(b"0123456789- \t\r\n\ncpx")
    };
    match random.below(3) {
        0 => text[place] = byte,
        1 => text.insert(place, byte),
        _ => {
            text.remove(place);
        }
    }
}
