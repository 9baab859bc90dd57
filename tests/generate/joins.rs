//! Joins: mostly of small formulas with good links, of two formulas or of the parts
//! of one; some with wrong links or wrong texts, some at the limits.

use crate::drafts;
use crate::formulas::{odd_text, plain_text, Draft};
use crate::limit_pairs;
use crate::limits;
use crate::links;
use crate::random::Random;
use crate::splits::split;
use crate::texts;

pub struct Join {
    left: Vec<u8>,
    right: Vec<u8>,
    links: Vec<u32>,
}

impl Join {
    /// The line and the texts behind it, with the last LF.
    pub fn lines(&self) -> Vec<u8> {
        let links: Vec<String> = self.links.iter().map(|x| format!(" {x}")).collect();
        let (a, b) = (self.left.len(), self.right.len());
        let mut lines = format!("join {a} {b}{}\n", links.concat()).into_bytes();
        lines.extend_from_slice(&self.left);
        lines.extend_from_slice(&self.right);
        lines.push(b'\n');
        lines
    }
}

/// A join that is accepted, save for its limits.
pub fn good(random: &mut Random) -> Join {
    if random.once_in(12) {
        return at_a_limit(random);
    }
    let (left, right, links) = pair(random);
    Join {
        left: text(random, &left),
        right: text(random, &right),
        links,
    }
}

/// A join that is refused, save by chance: for one text or both, for the links, or
/// for several of these.
pub fn wrong(random: &mut Random) -> Join {
    let (left, right, mut links) = pair(random);
    let kind = random.below(10);
    if !matches!(kind, 0..=3) {
        links = links::wrong(random, left.variables, right.variables);
    }
    let left = match kind {
        0 | 1 | 4 => texts::wrong(random, &left),
        _ => text(random, &left),
    };
    let right = match kind {
        1 | 2 | 3 | 5 => texts::wrong(random, &right),
        _ => text(random, &right),
    };
    Join { left, right, links }
}

/// Two formulas and good links: the parts of one formula, or two that have little
/// to do with each other.
fn pair(random: &mut Random) -> (Draft, Draft, Vec<u32>) {
    if random.once_in(2) {
        let whole = drafts::any(random);
        return split(random, &whole);
    }
    let left = drafts::any(random);
    let right = if random.once_in(12) {
        Draft {
            variables: 0,
            clauses: vec![],
        }
    } else {
        drafts::any(random)
    };
    let links = links::good(random, left.variables, right.variables);
    if random.once_in(2) {
        (left, right, links)
    } else {
        let exchanged = links.chunks(2).flat_map(|pair| [pair[1], pair[0]]);
        (right, left, exchanged.collect())
    }
}

fn text(random: &mut Random, draft: &Draft) -> Vec<u8> {
    if random.once_in(3) {
        odd_text(random, draft)
    } else {
        plain_text(draft)
    }
}

/// Around a limit, now and then with wrong links, or with a text that by itself is
/// as large as it may be.
fn at_a_limit(random: &mut Random) -> Join {
    let (left, right, mut links) = limit_pairs::any(random);
    if random.once_in(5) {
        links = links::wrong(random, left.variables, right.variables);
    }
    let (mut left, mut right) = (text(random, &left), text(random, &right));
    if random.once_in(8) {
        let large = limits::text(random);
        if random.once_in(2) {
            left = large;
        } else {
            right = large;
        }
    }
    Join { left, right, links }
}
