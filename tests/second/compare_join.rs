//! Joins, wrong ones among them, compared with what is promised: with a second
//! statement of the refusals, and with the load of one text that has the clauses of
//! both.

use std::collections::{BTreeMap, BTreeSet};

use crate::compare_shares::Pair;
use crate::formulas::{odd_text, plain_text, Draft};
use crate::join::join;
use crate::limit_pairs;
use crate::links;
use crate::load::load;
use crate::random::Random;
use crate::refusal::Refusal;
use crate::tables::{
    ClauseRecord, Formula, Pass, StampRecord, VariableRecord, MOST_CLAUSES, MOST_LITERALS,
    MOST_VARIABLES,
};
use crate::texts;
use crate::window::Window;

/// How often each kind of join was accepted, and each refusal given.
#[derive(Default)]
pub struct Counts(BTreeMap<&'static str, usize>);

impl Counts {
    fn count(&mut self, kind: &'static str) {
        *self.0.entry(kind).or_default() += 1;
    }

    pub fn told(&self) -> String {
        let kinds: Vec<String> = self.0.iter().map(|(k, n)| format!("{n} {k}")).collect();
        format!("joins: {}", kinds.join(", "))
    }
}

/// Random joins, wrong ones among them, on tables of all kinds.
pub fn joins_agree(random: &mut Random, count: usize, counts: &mut Counts) -> Result<(), String> {
    for _ in 0..count {
        let pair = if random.once_in(6) {
            let (left, right, links) = limit_pairs::any(random);
            Pair { left, right, links }
        } else {
            Pair::any(random)
        };
        let left = text(random, &pair.left);
        let right = text(random, &pair.right);
        let links = if random.once_in(3) {
            links::wrong(random, pair.left.variables, pair.right.variables)
        } else {
            pair.links
        };
        join_agrees(random, &left, &right, &links, counts).map_err(|e| {
            let (left, right) = (left.escape_ascii(), right.escape_ascii());
            format!("join of \"{left}\" and \"{right}\" by {links:?}: {e}")
        })?;
    }
    Ok(())
}

/// Mostly a good one.
fn text(random: &mut Random, draft: &Draft) -> Vec<u8> {
    match random.below(6) {
        0 => texts::wrong(random, draft),
        1 | 2 => odd_text(random, draft),
        _ => plain_text(draft),
    }
}

/// The answer is what the second statement says. A refused join changes nothing; an
/// accepted one leaves what a load of one text leaves that has the clauses of both.
/// With an empty right formula it is the load of the left text.
fn join_agrees(
    random: &mut Random,
    left: &[u8],
    right: &[u8],
    links: &[u32],
    counts: &mut Counts,
) -> Result<(), String> {
    let (before, window) = any_tables(random);
    let (mut after, mut window_after) = (before.clone(), window.clone());
    let answer = join(&mut after, &mut window_after, left, right, links);
    let (kind, refusal) = wanted_refusal(&before, &window, left, right, links);
    if answer.err() != refusal {
        return Err(format!("the answer is {answer:?}, wanted {refusal:?}"));
    }
    let (mut wanted, mut wanted_window) = (before.clone(), window.clone());
    if refusal.is_none() {
        let pair = Pair {
            left: said(left),
            right: said(right),
            links: links.to_vec(),
        };
        let whole = Draft {
            variables: pair.variables(),
            clauses: pair.clauses(),
        };
        load(&mut wanted, &mut wanted_window, &plain_text(&whole))
            .map_err(|r| format!("the text with the clauses of both is refused: {r:?}"))?;
        counts.count(kind_of(&pair));
        if wanted.state.mark {
            counts.count("with the mark");
        }
    } else {
        counts.count(kind);
    }
    if (after, window_after) != (wanted, wanted_window) {
        return Err("the tables, the state or the window are others".to_string());
    }
    without_right_agrees(before, window, left)
}

/// Tables, a state and a window that hold anything, now and then lent short or
/// longer than stated.
fn any_tables(random: &mut Random) -> (Formula, Window) {
    let mut formula = Formula::empty();
    let mut window = Window::empty();
    formula.clauses.fill(ClauseRecord {
        start: 7,
        length: 2,
        standing: 1,
    });
    formula.literals.fill(-3);
    formula.variables.fill(VariableRecord {
        class: -2,
        value: 1,
    });
    formula.stamps.fill(StampRecord {
        discovery: 4,
        finish: 6,
        parent: -1,
        start: 5,
    });
    window.sizes.fill(2);
    window.learnt.fill(-3);
    window.count = random.pick(&[0, 1, 64, 65]);
    window.total = random.pick(&[0, 2, 128, u32::MAX]);
    let state = &mut formula.state;
    state.variables = random.pick(&[0, 3, 1_025, u32::MAX]);
    state.clauses = random.pick(&[0, 3, 4_097, u32::MAX]);
    state.pass = random.pick(&[Pass::None, Pass::Propagate, Pass::Merge, Pass::Sweep]);
    state.cursor = random.pick(&[0, 2, u32::MAX]);
    state.changed = random.once_in(2);
    state.fresh = random.once_in(2);
    state.mark = random.once_in(2);
    state.programme.length = random.pick(&[0, 1, 4, 255]);
    state.programme.places.fill(3);
    if random.once_in(10) {
        let lent = match random.below(6) {
            0 => &mut formula.lent.clauses,
            1 => &mut formula.lent.literals,
            2 => &mut formula.lent.variables,
            3 => &mut formula.lent.stamps,
            4 => &mut window.lent_sizes,
            _ => &mut window.lent_learnt,
        };
        *lent = random.pick(&[0, *lent - 1, *lent - 1, *lent + 1]);
    }
    (formula, window)
}

fn without_right_agrees(before: Formula, window: Window, left: &[u8]) -> Result<(), String> {
    let (mut joined, mut joined_window) = (before.clone(), window.clone());
    let (mut loaded, mut loaded_window) = (before, window);
    let join = join(&mut joined, &mut joined_window, left, b"p cnf 0 0\n", &[]);
    let load = load(&mut loaded, &mut loaded_window, left);
    if (join, joined, joined_window) != (load, loaded, loaded_window) {
        return Err("with an empty right formula it is not the load of the left text".to_string());
    }
    Ok(())
}

fn kind_of(pair: &Pair) -> &'static str {
    let count = pair.links.len() / 2;
    let is_crossed = pair.links.chunks(2).any(|link| link[0] != link[1]);
    if pair.left.variables.min(pair.right.variables) == 0 {
        "without variables on a side"
    } else if count == 0 {
        "without links"
    } else if count == pair.left.variables.max(pair.right.variables) {
        if is_crossed {
            "all linked and crossed"
        } else {
            "all linked"
        }
    } else if is_crossed {
        "partly linked and crossed"
    } else {
        "partly linked"
    }
}

/// What a text says that a load accepts: behind the comments there are only words.
fn said(text: &[u8]) -> Draft {
    let mut rest = text;
    while rest.first() == Some(&b'c') {
        let end = rest.iter().position(|b| *b == b'\n').unwrap();
        rest = &rest[end + 1..];
    }
    let rest = String::from_utf8_lossy(rest);
    let words: Vec<&str> = rest.split_ascii_whitespace().collect();
    let mut clauses = Vec::new();
    let mut clause = Vec::new();
    for word in &words[4..] {
        match word.parse().unwrap() {
            0 => clauses.push(std::mem::take(&mut clause)),
            literal => clause.push(literal),
        }
    }
    Draft {
        variables: words[2].parse().unwrap(),
        clauses,
    }
}

/// Each text by itself is judged by a load on the same tables, the left one first;
/// then the links; then the limits.
fn wanted_refusal(
    formula: &Formula,
    window: &Window,
    left: &[u8],
    right: &[u8],
    links: &[u32],
) -> (&'static str, Option<Refusal>) {
    let of_load = |text| load(&mut formula.clone(), &mut window.clone(), text).err();
    if let Some(refusal) = of_load(left) {
        let kind = match refusal.number {
            1 => "refused with 1",
            2 => "refused with 2 of the left",
            _ => "refused with 3 of the left",
        };
        return (kind, Some(refusal));
    }
    if let Some(refusal) = of_load(right) {
        let kind = match refusal.number {
            2 => "refused with 2 of the right",
            _ => "refused with 3 of the right",
        };
        return (kind, Some(refusal));
    }
    let (left, right) = (said(left), said(right));
    let refused = |number, place| Some(Refusal { number, place });
    if let Some(index) = first_wrong_pair(links, left.variables, right.variables) {
        return ("refused with 15", refused(15, index));
    }
    let literals = |draft: &Draft| draft.clauses.iter().flatten().count();
    if left.variables + right.variables - links.len() / 2 > MOST_VARIABLES {
        ("refused with 3 at 0 for V", refused(3, 0))
    } else if left.clauses.len() + right.clauses.len() > MOST_CLAUSES {
        ("refused with 3 at 0 for N", refused(3, 0))
    } else if literals(&left) + literals(&right) > MOST_LITERALS {
        ("refused with 3 at 0 for literals", refused(3, 0))
    } else {
        ("accepted", None)
    }
}

/// The first k pairs are good if there are k different left variables among them
/// and k different right ones.
fn first_wrong_pair(links: &[u32], left: usize, right: usize) -> Option<u64> {
    let different = |side: usize, variables: usize, k: usize| {
        let numbers = links.iter().skip(side).step_by(2).take(k);
        let variables = numbers.filter(|x| (1..=variables as u32).contains(x));
        variables.collect::<BTreeSet<&u32>>().len()
    };
    let pairs = links.len().div_ceil(2);
    let is_good = |k: usize| different(0, left, k) == k && different(1, right, k) == k;
    let wrong = (1..=pairs).find(|k| !is_good(*k));
    wrong.map(|k| k as u64 - 1)
}
