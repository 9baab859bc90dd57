//! The groups of the standing clauses, compared with what is promised: the numbers
//! with a search over the clauses, the texts with a second plain renumbering, the
//! refusals with a second statement of them. What is said of the parts stands in
//! `compare_parts.rs`.

use std::collections::VecDeque;

use crate::apart;
use crate::compare_parts::{parts_agree, Part};
use crate::formulas::plain_text;
use crate::groups::{group, groups};
use crate::load::load;
use crate::merge;
use crate::propagate;
use crate::random::Random;
use crate::refusal::Refusal;
use crate::tables::{literal_of, Formula, Pass};
use crate::truth::Truth;
use crate::window::Window;
use crate::write::write;

/// What the outputs hold before.
const OLD_NUMBER: u32 = 0xaaaa_aaaa;
const OLD_BYTE: u8 = 0xaa;
/// More numbers than there are variables, and more bytes than a text has.
const MORE_NUMBERS: usize = 16;
const MORE_BYTES: usize = 100;

/// How often there were so many groups, and what was found of them.
#[derive(Default)]
pub struct Counts {
    none: usize,
    one: usize,
    several: usize,
    most: u32,
    interleaved: usize,
    refused: usize,
    /// How often a Stamp took the whole of several groups, and how often the Sweep
    /// behind it changed a clause.
    pub stamped: usize,
    pub changed: usize,
}

impl Counts {
    pub fn add(&mut self, other: &Counts) {
        self.none += other.none;
        self.one += other.one;
        self.several += other.several;
        self.most = self.most.max(other.most);
        self.interleaved += other.interleaved;
        self.refused += other.refused;
        self.stamped += other.stamped;
        self.changed += other.changed;
    }

    pub fn told(&self) -> String {
        format!(
            "groups: none {} times, one {}, several {} ({} at most), {} times interleaved, \
             {} times refused; {} Stamps of several, with a Sweep that changed clauses {}",
            self.none,
            self.one,
            self.several,
            self.most,
            self.interleaved,
            self.refused,
            self.stamped,
            self.changed
        )
    }

    fn count(&mut self, groups: u32, numbers: &[u32]) {
        match groups {
            0 => self.none += 1,
            1 => self.one += 1,
            _ => self.several += 1,
        }
        self.most = self.most.max(groups);
        let in_groups: Vec<u32> = numbers.iter().copied().filter(|n| *n > 0).collect();
        self.interleaved += !in_groups.is_sorted() as usize;
    }
}

/// The groups of formulas of more than 12 variables that fall apart: as loaded, and
/// settled.
pub fn large_agree(random: &mut Random, count: usize, counts: &mut Counts) -> Result<(), String> {
    for _ in 0..count {
        let variables = random.between(13, 90);
        let text = plain_text(&apart::draft(random, variables));
        let mut formula = Formula::empty();
        load(&mut formula, &mut Window::empty(), &text)
            .map_err(|r| format!("a good text is refused: {r:?}"))?;
        let told = |e| format!("{e} in\n{}", text.escape_ascii());
        groups_agree(random, &formula, None, counts).map_err(told)?;
        propagate::whole(&mut formula);
        if !formula.state.mark {
            merge::whole(&mut formula);
        }
        groups_agree(random, &formula, None, counts).map_err(told)?;
    }
    Ok(())
}

/// All that is said of groups, on any tables. With `truth` all assignments are tried
/// too.
pub fn groups_agree(
    random: &mut Random,
    formula: &Formula,
    truth: Option<&Truth>,
    counts: &mut Counts,
) -> Result<(), String> {
    let tables = formula.clone();
    if let Some(refusal) = wanted_refusal(formula) {
        counts.refused += 1;
        all_refused(formula, refusal)?;
    } else {
        let clauses = standing(formula);
        let numbers = searched(&clauses, formula.v());
        let last = numbers.iter().copied().max().unwrap_or(0);
        counts.count(last, &numbers);
        numbers_agree(formula, &numbers, last)?;
        no_group_agrees(formula, last)?;
        let parts: Vec<Part> = (1..=last).map(|n| Part::of(formula, &numbers, n)).collect();
        for (part, number) in parts.iter().zip(1..) {
            text_agrees(formula, part, number).map_err(|e| format!("group {number}: {e}"))?;
        }
        parts_agree(random, formula, &parts, truth, counts)?;
    }
    if *formula != tables {
        return Err("groups changed a table or the state".to_string());
    }
    Ok(())
}

/// Write is refused with 1 exactly where every call on these tables is.
fn wanted_refusal(formula: &Formula) -> Option<Refusal> {
    let has_shape = write(formula, usize::MAX).is_ok();
    let number = if !has_shape {
        1
    } else if formula.state.pass != Pass::None {
        4
    } else if formula.state.mark {
        5
    } else {
        return None;
    };
    Some(Refusal { number, place: 0 })
}

/// Whatever group is asked for, and into outputs of all lengths.
fn all_refused(formula: &Formula, refusal: Refusal) -> Result<(), String> {
    for room in [0, 12, 1_040] {
        let mut output = vec![OLD_NUMBER; room];
        let answer = groups(formula, &mut output);
        if answer != Err(refusal) || output.iter().any(|n| *n != OLD_NUMBER) {
            return Err(format!("groups answers {answer:?}, wanted {refusal:?}"));
        }
    }
    for number in [0, 1, 2, u32::MAX] {
        for room in [0, MORE_BYTES] {
            group_refused(formula, number, room, refusal)?;
        }
    }
    Ok(())
}

fn group_refused(
    formula: &Formula,
    number: u32,
    room: usize,
    refusal: Refusal,
) -> Result<(), String> {
    let mut output = vec![OLD_BYTE; room];
    let answer = group(formula, number, &mut output);
    if answer != Err(refusal) {
        return Err(format!(
            "group {number} into {room} bytes answers {answer:?}, wanted {refusal:?}"
        ));
    }
    if output.iter().any(|b| *b != OLD_BYTE) {
        return Err(format!("group {number} is refused and wrote"));
    }
    Ok(())
}

fn standing(formula: &Formula) -> Vec<Vec<i32>> {
    let mut clauses = Vec::new();
    for record in 0..formula.n() {
        if formula.clauses[record].standing == 1 {
            clauses.push(formula.part(record).to_vec());
        }
    }
    clauses
}

/// A search from each variable in rising order that no earlier one has found: from a
/// variable to the clauses that have it, from these to their variables.
fn searched(clauses: &[Vec<i32>], variables: usize) -> Vec<u32> {
    let mut numbers = vec![0; variables];
    let mut last = 0;
    let of = |v: usize| {
        let is_in = move |clause: &&Vec<i32>| clause.iter().any(|l| l.abs() == v as i32);
        clauses.iter().filter(is_in).flatten()
    };
    for first in 1..=variables {
        if numbers[first - 1] != 0 || of(first).next().is_none() {
            continue;
        }
        last += 1;
        numbers[first - 1] = last;
        let mut queue = VecDeque::from([first]);
        while let Some(variable) = queue.pop_front() {
            for literal in of(variable) {
                let other = literal.unsigned_abs() as usize;
                if numbers[other - 1] == 0 {
                    numbers[other - 1] = last;
                    queue.push_back(other);
                }
            }
        }
    }
    numbers
}

/// An output of V numbers is long enough, and of a longer one the others stay; one
/// that is shorter is refused with V and stays.
fn numbers_agree(formula: &Formula, numbers: &[u32], last: u32) -> Result<(), String> {
    let needed = Refusal {
        number: 10,
        place: numbers.len() as u64,
    };
    for room in [0, numbers.len().saturating_sub(1)] {
        let mut short = vec![OLD_NUMBER; room];
        let is_refused = groups(formula, &mut short) == Err(needed);
        let is_old = short.iter().all(|n| *n == OLD_NUMBER);
        if is_refused != (room < numbers.len()) || is_refused && !is_old {
            return Err(format!("an output of {room} numbers is judged wrongly"));
        }
    }
    for more in [0, 1, MORE_NUMBERS] {
        let mut output = vec![OLD_NUMBER; numbers.len() + more];
        let answer = groups(formula, &mut output);
        if answer != Ok(last) {
            return Err(format!("groups answers {answer:?}, and there are {last}"));
        }
        let (found, others) = output.split_at(numbers.len());
        if found != numbers {
            return Err(format!("the numbers are {found:?}, wanted {numbers:?}"));
        }
        if others.iter().any(|n| *n != OLD_NUMBER) {
            return Err("groups wrote behind the numbers".to_string());
        }
    }
    Ok(())
}

/// 0 and the numbers above the last have no group, into an output of no byte too.
fn no_group_agrees(formula: &Formula, last: u32) -> Result<(), String> {
    let refusal = Refusal {
        number: 17,
        place: 0,
    };
    let in_fewer_bits = [(1 << 8) + last, (1 << 16) + 1, (1 << 31) + 1];
    let past = [0, last + 1, last + 2, 1 << 31, u32::MAX];
    for number in past.into_iter().chain(in_fewer_bits) {
        for room in [0, MORE_BYTES] {
            group_refused(formula, number, room, refusal)?;
        }
    }
    Ok(())
}

/// The text is that of the part's clauses, in the output of just its length and in a
/// longer one, of which the other bytes stay; a shorter one is refused with it.
fn text_agrees(formula: &Formula, part: &Part, number: u32) -> Result<(), String> {
    let text = plain_text(&part.draft(formula));
    let needed = Refusal {
        number: 10,
        place: text.len() as u64,
    };
    for room in [0, text.len() - 1] {
        group_refused(formula, number, room, needed)?;
    }
    for more in [0, 1, MORE_BYTES] {
        let mut output = vec![OLD_BYTE; text.len() + more];
        let answer = group(formula, number, &mut output);
        if answer != Ok(text.len()) {
            return Err(format!("the answer is {answer:?}, wanted {}", text.len()));
        }
        if output[..text.len()] != text {
            let found = output.escape_ascii();
            return Err(format!(
                "the text is {found}, wanted {}",
                text.escape_ascii()
            ));
        }
        if output[text.len()..].iter().any(|b| *b != OLD_BYTE) {
            return Err("group wrote behind the text".to_string());
        }
    }
    Ok(())
}

/// The tables with one thing changed: lent short, wrong, or odd but allowed.
pub fn damaged(random: &mut Random, formula: &Formula) -> Formula {
    let mut other = formula.clone();
    let any = |random: &mut Random, count: usize| random.below(count.max(1));
    let variable = any(random, formula.v());
    let clause = any(random, formula.n());
    match random.below(12) {
        0 => lend_otherwise(random, &mut other),
        1 => other.state.pass = random.pick(&[Pass::Propagate, Pass::Merge, Pass::Sweep]),
        2 => other.state.mark = true,
        3 => other.state.programme.length = 0,
        4 => other.state.fresh = true,
        5 | 6 => other.variables[variable].value = random.pick(&[1, -1, 2]),
        7 => other.variables[variable].class = literal_of(any(random, 2 * formula.v())),
        8 => {
            let record = &mut other.clauses[clause];
            record.length = record.length.saturating_sub(1);
        }
        9 => other.drop_clause(clause),
        _ => {
            let places = formula.standing().1 as usize;
            let literal = literal_of(any(random, 2 * formula.v() + 1));
            other.literals[any(random, places)] = literal;
        }
    }
    other
}

fn lend_otherwise(random: &mut Random, formula: &mut Formula) {
    let lent = &mut formula.lent;
    let table = match random.below(4) {
        0 => &mut lent.clauses,
        1 => &mut lent.literals,
        2 => &mut lent.variables,
        _ => &mut lent.stamps,
    };
    *table = random.pick(&[0, *table - 1, *table + 1]);
}
