//! Lines of `explain`: mostly of clauses that a Sweep would drop or shorten, into
//! outputs that are just long enough, longer or too short; some with numbers that
//! explain refuses.

use crate::explain::explain;
use crate::random::Random;
use crate::refusal::{tables_are_lent, Refusal};
use crate::shape;
use crate::sweep::left_of;
use crate::tables::{Formula, Pass, MOST_CLAUSES};

/// A line has no larger output.
const MOST_ROOM: usize = 131_072;

/// Nothing but the number or the output can be refused.
pub fn is_ready(formula: &Formula) -> bool {
    let state = formula.state;
    state.fresh
        && state.pass == Pass::None
        && !state.mark
        && tables_are_lent(formula).is_ok()
        && shape::holds(formula)
}

/// The numbers of the clauses that a Sweep would drop or shorten, on tables that
/// are ready.
pub fn touched(formula: &Formula) -> Vec<u32> {
    let is_touched = |number: &u32| {
        let clause = formula.part(*number as usize - 1);
        let left = left_of(formula, clause);
        left.map(|left| left.len()) != Some(clause.len())
    };
    (1..=formula.state.clauses).filter(is_touched).collect()
}

/// A line without its LF, on any tables.
pub fn line(random: &mut Random, formula: &Formula) -> String {
    let number = number(random, formula);
    let room = room(random, needed(formula, number));
    format!("explain {number} {room}")
}

/// Several lines for one clause, the outputs around what is needed.
pub fn several_rooms(random: &mut Random, formula: &Formula) -> Vec<String> {
    let number = number(random, formula);
    let needed = needed(formula, number).min(MOST_ROOM - 1);
    let rooms = [needed.saturating_sub(1), needed, needed + 1];
    let line = |room| format!("explain {number} {room}");
    rooms.into_iter().map(line).collect()
}

/// How many bytes are written, 0 where explain refuses it.
fn needed(formula: &Formula, number: u32) -> usize {
    match explain(formula, number, &mut []) {
        Err(Refusal { number: 10, place }) => place as usize,
        _ => 0,
    }
}

fn room(random: &mut Random, needed: usize) -> usize {
    let short = random.below(needed + 1);
    let one_less = needed.saturating_sub(1);
    let room = random.pick(&[
        needed,
        needed,
        needed,
        needed + 1,
        MOST_ROOM,
        one_less,
        short,
        0,
    ]);
    room.min(MOST_ROOM)
}

fn number(random: &mut Random, formula: &Formula) -> u32 {
    let n = formula.state.clauses;
    let last = n.min(MOST_CLAUSES as u32);
    let found = match random.below(24) {
        0 => Some(random.pick(&[0, n, n.wrapping_add(1), n.wrapping_add(2), last + 1])),
        1 => Some(random.pick(&[4_096, 4_097, u32::MAX])),
        // In fewer bits it would be the number of a clause.
        2 => some_of(random, those_that(formula, true))
            .map(|k| k + random.pick(&[1 << 8, 1 << 16, 1 << 31])),
        3 => some_of(random, those_that(formula, false)),
        4..=16 if is_ready(formula) => some_of(random, touched(formula)),
        _ => None,
    };
    found
        .or_else(|| some_of(random, those_that(formula, true)))
        .unwrap_or(last)
}

/// The numbers of the clauses that stand, or of those that do not, as far as the
/// table goes.
fn those_that(formula: &Formula, stand: bool) -> Vec<u32> {
    let last = formula.n().min(MOST_CLAUSES);
    let fits = |number: &u32| formula.stands(*number as usize - 1) == stand;
    (1..=last as u32).filter(fits).collect()
}

fn some_of(random: &mut Random, numbers: Vec<u32>) -> Option<u32> {
    if numbers.is_empty() {
        return None;
    }
    Some(random.pick(&numbers))
}
