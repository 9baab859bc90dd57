//! The parts of a formula that falls apart, compared with the whole: which
//! assignments satisfy it, and what one Stamp and one Sweep leave of its clauses.

use crate::compare_groups::Counts;
use crate::comparison::compare;
use crate::formulas::Draft;
use crate::groups::{group, groups};
use crate::lists::permutation;
use crate::load::load;
use crate::random::Random;
use crate::stamp::stamp;
use crate::sweep::sweep;
use crate::tables::{slot, Formula};
use crate::truth::{Assignments, Truth};
use crate::window::Window;

/// More bytes than the text of a part has here.
const ROOM: usize = 131_072;

/// A group of the whole: its variables, and the records of its clauses, in rising
/// order.
pub struct Part {
    variables: Vec<i32>,
    records: Vec<usize>,
}

impl Part {
    /// The variables that have this number, and the standing clauses that have one of
    /// these variables.
    pub fn of(formula: &Formula, numbers: &[u32], number: u32) -> Part {
        let mut variables: Vec<i32> = (1..=numbers.len() as i32).collect();
        variables.retain(|v| numbers[*v as usize - 1] == number);
        let mut records: Vec<usize> = (0..formula.n()).collect();
        records.retain(|record| {
            let mut literals = formula.part(*record).iter();
            literals.any(|l| variables.contains(&l.abs()))
        });
        Part { variables, records }
    }

    /// The literal of the part: its variable has as many of the part's at or below it
    /// as the new number says.
    fn renumbered(&self, literal: i32) -> i32 {
        let below = self.variables.iter().filter(|v| **v <= literal.abs());
        literal.signum() * below.count() as i32
    }

    pub fn draft(&self, formula: &Formula) -> Draft {
        let clause = |record: &usize| {
            let literals = formula.part(*record).iter();
            literals.map(|l| self.renumbered(*l)).collect()
        };
        Draft {
            variables: self.variables.len(),
            clauses: self.records.iter().map(clause).collect(),
        }
    }

    /// The whole's order with the other literals left out.
    fn share_of_order(&self, order: &[i32]) -> Vec<i32> {
        let own = order.iter().filter(|l| self.variables.contains(&l.abs()));
        own.map(|l| self.renumbered(*l)).collect()
    }

    /// Each variable of the part reads its own of the whole. Bit v - 1 of an
    /// assignment says whether variable v is true.
    fn share(&self, assignment: usize) -> usize {
        let mut share = 0;
        for (index, variable) in self.variables.iter().enumerate() {
            share |= ((assignment >> (variable - 1)) & 1) << index;
        }
        share
    }
}

/// What is said of the parts, on tables whose groups are these.
pub fn parts_agree(
    random: &mut Random,
    formula: &Formula,
    parts: &[Part],
    truth: Option<&Truth>,
    counts: &mut Counts,
) -> Result<(), String> {
    let mut loaded = Vec::new();
    for (part, number) in parts.iter().zip(1..) {
        let told = |e| format!("part {number}: {e}");
        loaded.push(load_part(formula, part, number).map_err(told)?);
    }
    if let Some(truth) = truth {
        assignments_agree(formula, parts, &loaded, truth)?;
    }
    let order = permutation(random, formula.v());
    sweeps_agree(random, formula, parts, &loaded, &order, counts)
        .map_err(|e| format!("in the order {order:?}: {e}"))
}

/// The text of a part is taken by a load. All its variables are in its clauses, which
/// are one group.
fn load_part(formula: &Formula, part: &Part, number: u32) -> Result<Formula, String> {
    let mut text = vec![0; ROOM];
    let length = group(formula, number, &mut text).map_err(|r| format!("group: {r:?}"))?;
    let mut loaded = Formula::empty();
    load(&mut loaded, &mut Window::empty(), &text[..length]).map_err(|r| format!("load: {r:?}"))?;
    if loaded.state.mark || loaded.standing().0 as usize != part.records.len() {
        return Err("not all of its clauses stand behind the load".to_string());
    }
    let mut numbers = vec![0; part.variables.len()];
    if groups(&loaded, &mut numbers) != Ok(1) || numbers.iter().any(|n| *n != 1) {
        return Err(format!("by itself it is not one group: {numbers:?}"));
    }
    Ok(loaded)
}

/// An assignment satisfies the whole exactly when its share of each group satisfies
/// that group's part and it agrees with the values and classes that stand.
fn assignments_agree(
    formula: &Formula,
    parts: &[Part],
    loaded: &[Formula],
    truth: &Truth,
) -> Result<(), String> {
    let by_parts = Assignments::that(|assignment| {
        let mut both = parts.iter().zip(loaded);
        agrees(assignment, formula)
            && both.all(|(part, loaded)| satisfies(part.share(assignment), loaded))
    });
    if by_parts != truth.standing(formula) {
        return Err("the parts have other satisfying assignments than the whole".to_string());
    }
    Ok(())
}

fn is_true(assignment: usize, literal: i32) -> bool {
    let bit = (assignment >> (literal.unsigned_abs() - 1)) & 1;
    (bit == 1) == (literal > 0)
}

fn satisfies(assignment: usize, formula: &Formula) -> bool {
    (0..formula.n()).all(|record| {
        let mut literals = formula.part(record).iter();
        literals.any(|l| is_true(assignment, *l))
    })
}

/// Each variable is what its class and its value say.
fn agrees(assignment: usize, formula: &Formula) -> bool {
    (1..=formula.v() as i32).all(|v| {
        let record = formula.variables[v as usize - 1];
        let found = is_true(assignment, v);
        found == is_true(assignment, record.class)
            && (record.value == 0 || found == (record.value == 1))
    })
}

/// Where Stamp takes the whole, it takes each part under its share of the order, and
/// the Sweeps leave the same clauses.
fn sweeps_agree(
    random: &mut Random,
    formula: &Formula,
    parts: &[Part],
    loaded: &[Formula],
    order: &[i32],
    counts: &mut Counts,
) -> Result<(), String> {
    let mut whole = formula.clone();
    if stamp(&mut whole, order).is_err() {
        return Ok(());
    }
    let mut by_parts = loaded.to_vec();
    for (part, alone) in parts.iter().zip(&mut by_parts) {
        let share = part.share_of_order(order);
        stamp(alone, &share).map_err(|r| format!("Stamp of a part: {r:?}"))?;
        stamps_agree(&whole, part, alone)?;
        sweep_through(random, alone)?;
    }
    sweep_through(random, &mut whole)?;
    if parts.len() > 1 {
        counts.stamped += 1;
        counts.changed += (whole.standing() != formula.standing()) as usize;
    }
    for (part, alone) in parts.iter().zip(&by_parts) {
        for (index, record) in part.records.iter().enumerate() {
            let literals = whole.part(*record).iter();
            let wanted: Vec<i32> = literals.map(|l| part.renumbered(*l)).collect();
            if whole.stands(*record) != alone.stands(index) || wanted != alone.part(index) {
                let found = alone.part(index);
                return Err(format!(
                    "of clause {} the whole leaves {wanted:?}, the part {found:?}",
                    record + 1
                ));
            }
        }
    }
    Ok(())
}

/// A walk over the whole visits the part as a walk over the part alone does: parents
/// and starts are the same, and any two intervals lie to each other as there.
fn stamps_agree(whole: &Formula, part: &Part, alone: &Formula) -> Result<(), String> {
    let literals: Vec<i32> = part.variables.iter().flat_map(|v| [*v, -*v]).collect();
    for p in &literals {
        let own = part.renumbered(*p);
        let (there, here) = (whole.stamps[slot(*p)], alone.stamps[slot(own)]);
        let renumbered = [there.parent, there.start].map(|l| part.renumbered(l));
        if renumbered != [here.parent, here.start] {
            return Err(format!("{p} has another parent or start in its part"));
        }
        for q in &literals {
            let lie = compare(whole.interval(*p), whole.interval(*q));
            let other = part.renumbered(*q);
            if lie != compare(alone.interval(own), alone.interval(other)) {
                return Err(format!("{p} and {q} lie otherwise in their part"));
            }
        }
    }
    Ok(())
}

/// A whole Sweep, by calls of any numbers of visits.
fn sweep_through(random: &mut Random, formula: &mut Formula) -> Result<(), String> {
    loop {
        let steps = random.steps(formula.n()) as u32;
        let answer = sweep(formula, steps).map_err(|r| format!("Sweep: {r:?}"))?;
        if !answer.open {
            return Ok(());
        }
    }
}
