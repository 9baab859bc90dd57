//! Lines of `groups` and `group`: mostly of groups that are there, into outputs that
//! are just long enough, longer or too short; some with numbers that have no group.

use crate::groups::{group, groups};
use crate::random::Random;
use crate::refusal::Refusal;
use crate::tables::{Formula, MOST_VARIABLES};

/// A line of `groups` has no larger output.
const MOST_NUMBERS: usize = 1_040;
/// Nor one of `group`.
const MOST_ROOM: usize = 131_072;
/// More groups are not written one after the other.
const MOST_IN_A_ROW: u32 = 6;

/// How many groups there are; none where the call is refused.
pub fn count(formula: &Formula) -> Option<u32> {
    let mut output = vec![0; formula.v().min(MOST_VARIABLES)];
    groups(formula, &mut output).ok()
}

/// One line or several, without their LF, on any tables.
pub fn lines(random: &mut Random, formula: &Formula) -> Vec<String> {
    match random.below(8) {
        0 | 1 => vec![groups_line(random, formula)],
        2..=4 => vec![group_line(random, formula)],
        5 => several_rooms(random, formula),
        _ => all_groups(random, formula),
    }
}

/// One line, without its LF, on any tables.
pub fn line(random: &mut Random, formula: &Formula) -> String {
    if random.once_in(2) {
        groups_line(random, formula)
    } else {
        group_line(random, formula)
    }
}

/// The text of a group, if there is one.
pub fn text(random: &mut Random, formula: &Formula) -> Option<Vec<u8>> {
    let last = count(formula).filter(|last| *last > 0)?;
    let mut text = vec![0; MOST_ROOM];
    let number = random.between(1, last as usize) as u32;
    let length = group(formula, number, &mut text).ok()?;
    text.truncate(length);
    Some(text)
}

fn groups_line(random: &mut Random, formula: &Formula) -> String {
    let needed = formula.v().min(MOST_VARIABLES);
    format!("groups {}", room(random, needed, MOST_NUMBERS))
}

fn group_line(random: &mut Random, formula: &Formula) -> String {
    let number = number(random, formula);
    let needed = needed(formula, number);
    format!("group {number} {}", room(random, needed, MOST_ROOM))
}

/// Several lines for one group, the outputs around what is needed.
fn several_rooms(random: &mut Random, formula: &Formula) -> Vec<String> {
    let number = number(random, formula);
    let needed = needed(formula, number).min(MOST_ROOM - 1);
    let rooms = [needed.saturating_sub(1), needed, needed + 1];
    let line = |room| format!("group {number} {room}");
    rooms.into_iter().map(line).collect()
}

/// The numbers, then the text of each group, if there are few, and one more number.
fn all_groups(random: &mut Random, formula: &Formula) -> Vec<String> {
    let mut lines = vec![groups_line(random, formula)];
    let last = count(formula).unwrap_or(0).min(MOST_IN_A_ROW);
    for number in 1..=last + 1 {
        lines.push(format!("group {number} {}", needed(formula, number)));
    }
    lines
}

/// How many bytes are written, 0 where the call is refused for something else.
fn needed(formula: &Formula, number: u32) -> usize {
    match group(formula, number, &mut []) {
        Err(Refusal { number: 10, place }) => place as usize,
        _ => 0,
    }
}

fn room(random: &mut Random, needed: usize, most: usize) -> usize {
    let short = random.below(needed + 1);
    let one_less = needed.saturating_sub(1);
    let room = random.pick(&[needed, needed, needed, needed + 1, most, one_less, short, 0]);
    room.min(most)
}

/// Mostly that of a group.
fn number(random: &mut Random, formula: &Formula) -> u32 {
    let last = count(formula).unwrap_or(2);
    let any = random.between(1, last.max(1) as usize) as u32;
    match random.below(16) {
        0 => 0,
        1 => last + 1,
        2 => random.pick(&[last + 2, formula.state.variables, 1_024, 1_025, u32::MAX]),
        // In fewer bits it would be the number of a group.
        3 => any + random.pick(&[1 << 8, 1 << 16, 1 << 31]),
        4 => last,
        _ => any,
    }
}
