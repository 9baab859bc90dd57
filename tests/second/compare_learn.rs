//! Newcomers learnt under the stamps as they are, compared with what is promised:
//! by all assignments, by the figures, by a Sweep over tables that have the
//! newcomer as a clause, and by a plain list of the clauses that were kept.

use crate::compare_figures::left_by_figures;
use crate::compare_walks::is_subsequence;
use crate::learn::{learn, Learnt};
use crate::random::Random;
use crate::refusal::Refusal;
use crate::sweep::sweep;
use crate::tables::{ClauseRecord, Formula, Pass, EXTRA, MOST_CLAUSES, MOST_LITERALS};
use crate::truth::{Assignments, Truth};
use crate::window::{Window, MOST_IN_LEARNT, MOST_LEARNT, MOST_PLACES};

/// What the window holds before the load.
const OLD_SIZE: u32 = 9;
const OLD_PLACE: i32 = 9;

/// The window of one formula, and what came into it.
pub struct Learning {
    pub window: Window,
    /// All clauses that were kept since the load.
    kept: Vec<Vec<i32>>,
    pub counts: Counts,
}

/// How often a newcomer had each answer, and how often the eldest left.
#[derive(Default)]
pub struct Counts {
    dropped: usize,
    shortened: usize,
    kept: usize,
    refused: usize,
    left: usize,
}

impl Counts {
    pub fn add(&mut self, other: &Counts) {
        self.dropped += other.dropped;
        self.shortened += other.shortened;
        self.kept += other.kept;
        self.refused += other.refused;
        self.left += other.left;
    }

    pub fn told(&self) -> String {
        format!(
            "newcomers: {} dropped, {} shortened, {} kept whole, {} refused; {} times the eldest left",
            self.dropped, self.shortened, self.kept, self.refused, self.left
        )
    }
}

impl Learning {
    /// A window that is not empty, for the load to empty.
    pub fn before_load() -> Learning {
        let mut window = Window::empty();
        window.sizes.fill(OLD_SIZE);
        window.learnt.fill(OLD_PLACE);
        window.count = 9;
        window.total = 9;
        Learning {
            window,
            kept: Vec::new(),
            counts: Counts::default(),
        }
    }

    /// The window holds the last 64 of the clauses that were kept, 0 in all other
    /// places, and what the extra places held before the load.
    pub fn window_agrees(&self, v: usize) -> Result<(), String> {
        if !keeps_the_rule(&self.window, v) {
            return Err("the window breaks its rule".to_string());
        }
        let first = self.kept.len().saturating_sub(MOST_LEARNT);
        let last: Vec<&Vec<i32>> = self.kept[first..].iter().collect();
        let mut sizes = vec![0; MOST_LEARNT];
        let mut learnt = vec![0; MOST_PLACES];
        for (record, clause) in last.iter().enumerate() {
            sizes[record] = clause.len() as u32;
            for (place, l) in clause.iter().enumerate() {
                learnt[record * MOST_IN_LEARNT + place] = *l;
            }
        }
        sizes.extend([OLD_SIZE; EXTRA]);
        learnt.extend([OLD_PLACE; EXTRA]);
        let literals: usize = last.iter().map(|clause| clause.len()).sum();
        let wanted = Window {
            sizes,
            learnt,
            count: last.len() as u32,
            total: literals as u32,
            ..Window::empty()
        };
        if self.window != wanted {
            return Err("the window does not hold the last clauses that were kept".to_string());
        }
        Ok(())
    }

    /// Learns the newcomer. `standing` are the assignments that satisfy what stands.
    pub fn newcomer_agrees(
        &mut self,
        formula: &Formula,
        truth: &Truth,
        standing: Assignments,
        newcomer: &[i32],
    ) -> Result<(), String> {
        let tables = formula.clone();
        let before = self.window.clone();
        let answer = learn(formula, &mut self.window, newcomer);
        if *formula != tables {
            return Err("learn changed a table or the state".to_string());
        }
        let wanted = wanted_refusal(formula, newcomer);
        let answer = match answer {
            Err(refusal) => {
                self.counts.refused += 1;
                if Some(refusal) != wanted || self.window != before {
                    return Err(format!("learn {newcomer:?} is refused: {refusal:?}"));
                }
                return Ok(());
            }
            Ok(answer) => answer,
        };
        if wanted.is_some() {
            return Err(format!("learn {newcomer:?} is accepted"));
        }
        let left = self.left_agrees(newcomer, answer)?;
        by_assignments(truth, standing, newcomer, left.as_deref())?;
        if left != left_by_figures(formula, newcomer) {
            return Err(format!("the figures differ on {newcomer:?}"));
        }
        by_sweep(formula, newcomer, left.as_deref())?;
        self.window_agrees(formula.v())
    }

    /// Counts the answer and notes what was kept. Nothing if it was dropped.
    fn left_agrees(
        &mut self,
        newcomer: &[i32],
        answer: Learnt,
    ) -> Result<Option<Vec<i32>>, String> {
        let (count, length) = match answer {
            Learnt::Dropped => {
                self.counts.dropped += 1;
                return Ok(None);
            }
            Learnt::Kept(length) => (&mut self.counts.kept, length),
            Learnt::Shortened(length) => (&mut self.counts.shortened, length),
        };
        *count += 1;
        if self.kept.len() >= MOST_LEARNT {
            self.counts.left += 1;
        }
        let Some(last) = (self.window.count as usize).checked_sub(1) else {
            return Err("the window is empty behind a kept newcomer".to_string());
        };
        let left = self.window.part(last).to_vec();
        let fits = left.len() == length
            && match answer {
                Learnt::Kept(_) => left == newcomer,
                _ => length > 0 && length < newcomer.len() && is_subsequence(&left, newcomer),
            };
        if !fits {
            return Err(format!("{answer:?} of {newcomer:?} left {left:?}"));
        }
        self.kept.push(left.clone());
        Ok(Some(left))
    }

    /// The window with one number changed is refused with 1 exactly if it breaks
    /// its rule; else the newcomer is judged as before.
    pub fn damage_agrees(
        &self,
        random: &mut Random,
        formula: &Formula,
        newcomer: &[i32],
    ) -> Result<(), String> {
        let mut damaged = self.window.clone();
        change(random, &mut damaged, formula.v());
        let before = damaged.clone();
        let answer = learn(formula, &mut damaged, newcomer);
        let wanted = if keeps_the_rule(&before, formula.v()) {
            wanted_refusal(formula, newcomer)
        } else {
            Some(refusal(1))
        };
        if answer.err() != wanted {
            return Err(format!("a changed window is judged wrongly: {answer:?}"));
        }
        if answer.is_err() && damaged != before {
            return Err("a refused learn changed the window".to_string());
        }
        Ok(())
    }
}

/// Under stamps that have nothing to do with the clauses the figures still say
/// what is left of a newcomer.
pub fn forest_agrees(formula: &Formula, newcomer: &[i32]) -> Result<(), String> {
    let mut window = Window::empty();
    let Ok(answer) = learn(formula, &mut window, newcomer) else {
        return Ok(());
    };
    let left = match answer {
        Learnt::Dropped => None,
        _ => Some(window.part(0).to_vec()),
    };
    if left != left_by_figures(formula, newcomer) {
        return Err(format!("the figures differ on {newcomer:?} in a forest"));
    }
    Ok(())
}

fn refusal(number: u32) -> Refusal {
    Refusal { number, place: 0 }
}

/// On tables and a window that have their shape.
fn wanted_refusal(formula: &Formula, newcomer: &[i32]) -> Option<Refusal> {
    let state = formula.state;
    let number = if state.pass != Pass::None {
        4
    } else if state.mark {
        5
    } else if !state.fresh {
        9
    } else if !is_a_clause(newcomer, formula.v()) {
        11
    } else {
        return None;
    };
    Some(refusal(number))
}

/// At most 64 literals; their variables, sorted, rise and are 1 to V.
fn is_a_clause(literals: &[i32], v: usize) -> bool {
    let mut variables: Vec<u32> = literals.iter().map(|l| l.unsigned_abs()).collect();
    variables.sort();
    let rise = variables.windows(2).all(|pair| pair[0] < pair[1]);
    let least = variables.first().copied().unwrap_or(1);
    let most = variables.last().copied().unwrap_or(0);
    rise && least >= 1 && most as usize <= v && literals.len() <= 64
}

/// The rule of the window, walked record by record.
fn keeps_the_rule(window: &Window, v: usize) -> bool {
    if window.count > 64 {
        return false;
    }
    let mut rest = window.total as i64;
    for record in 0..window.count as usize {
        let size = window.sizes[record];
        let places = &window.learnt[64 * record..64 * record + 64];
        match places.get(..size as usize) {
            Some(literals) if is_a_clause(literals, v) => rest -= size as i64,
            _ => return false,
        }
    }
    rest == 0
}

/// Changes one number of the window, or two that belong together.
fn change(random: &mut Random, window: &mut Window, v: usize) {
    let record = random.below((window.count as usize).clamp(1, MOST_LEARNT));
    let place = record * MOST_IN_LEARNT + random.below(3);
    let past = v as i32 + 1;
    match random.below(6) {
        0 => window.count = random.pick(&[0, window.count + 1, 64, 65, u32::MAX]),
        1 => window.total = random.pick(&[0, window.total + 1, u32::MAX]),
        2 | 3 => {
            let old = window.sizes[record];
            let size = random.pick(&[0, old + 1, old.saturating_sub(1), 64, 65, u32::MAX]);
            window.sizes[record] = size;
            if random.once_in(2) {
                window.total = window.total.wrapping_sub(old).wrapping_add(size);
            }
        }
        _ => window.learnt[place] = random.pick(&[0, 1, -1, 2, past, -past, i32::MIN, i32::MAX]),
    }
}

/// Among the assignments that satisfy what stands, a dropped newcomer is true
/// under all, and what is left of another is true where the newcomer is.
fn by_assignments(
    truth: &Truth,
    standing: Assignments,
    newcomer: &[i32],
    left: Option<&[i32]>,
) -> Result<(), String> {
    let before = truth.where_true(standing, newcomer);
    let after = match left {
        Some(left) => truth.where_true(standing, left),
        None => standing,
    };
    if before != after {
        return Err(format!("{newcomer:?} is true elsewhere than {left:?}"));
    }
    Ok(())
}

/// The newcomer stands as one more clause, and a Sweep goes over all of them. In
/// clauses each variable is its own class, and none is empty.
fn by_sweep(formula: &Formula, newcomer: &[i32], left: Option<&[i32]>) -> Result<(), String> {
    let is_own = |l: &i32| formula.is_its_own_class(l.unsigned_abs() as usize);
    let n = formula.n();
    let used = formula.clauses[..n]
        .iter()
        .map(|c| c.start + c.length)
        .max();
    let start = used.unwrap_or(0) as usize;
    let has_room = n < MOST_CLAUSES && start + newcomer.len() <= MOST_LITERALS;
    if newcomer.is_empty() || !newcomer.iter().all(is_own) || !has_room {
        return Ok(());
    }
    let mut with_newcomer = formula.clone();
    with_newcomer.clauses[n] = ClauseRecord {
        start: start as u32,
        length: newcomer.len() as u32,
        standing: 1,
    };
    with_newcomer.literals[start..start + newcomer.len()].copy_from_slice(newcomer);
    with_newcomer.state.clauses += 1;
    sweep(&mut with_newcomer, 65_535).map_err(|r| format!("Sweep of a newcomer: {r:?}"))?;
    let by_sweep = with_newcomer
        .stands(n)
        .then(|| with_newcomer.part(n).to_vec());
    if by_sweep.as_deref() != left {
        return Err(format!(
            "Sweep leaves {by_sweep:?} of {newcomer:?}, learn {left:?}"
        ));
    }
    Ok(())
}
