//! Explain, compared with what is promised: with a Sweep's visit to the clause,
//! with the clauses that stood at the Stamp, with the parents, with a second
//! search for the ends of the chains, and with what the chains imply.

use crate::compare_reach::Stamped;
use crate::compare_walks::steps_up;
use crate::explain::{explain, Explained};
use crate::refusal::Refusal;
use crate::sweep::sweep;
use crate::tables::{slot, Formula, Pass};
use crate::truth::Truth;

/// More bytes than the chains for a clause of 12 variables have.
const ROOM: usize = 4_096;
/// What the output holds before.
const OLD_BYTE: u8 = 0xaa;

/// The numbers of the verdicts, written a second time.
const NOTHING: u32 = 0;
const DROP: u32 = 1;
const SHORTEN: u32 = 2;

/// How often each thing was told, and the longest chain.
#[derive(Default)]
pub struct Counts {
    nothing: usize,
    pairs_dropped: usize,
    longer_dropped: usize,
    by_first_rule: usize,
    by_second_rule: usize,
    refused: usize,
    longest: usize,
}

impl Counts {
    pub fn add(&mut self, other: &Counts) {
        self.nothing += other.nothing;
        self.pairs_dropped += other.pairs_dropped;
        self.longer_dropped += other.longer_dropped;
        self.by_first_rule += other.by_first_rule;
        self.by_second_rule += other.by_second_rule;
        self.refused += other.refused;
        self.longest = self.longest.max(other.longest);
    }

    pub fn told(&self) -> String {
        format!(
            "explained: {} drops of pairs, {} of longer clauses, \
             {} literals out by the first rule, {} by the second, \
             {} times nothing, {} refused; the longest chain has {} literals",
            self.pairs_dropped,
            self.longer_dropped,
            self.by_first_rule,
            self.by_second_rule,
            self.nothing,
            self.refused,
            self.longest
        )
    }
}

/// Explains every clause, and numbers that have none. `stamped` is what the Stamp
/// left; there is none for stamps that have nothing to do with the clauses.
pub fn clauses_agree(
    formula: &Formula,
    truth: &Truth,
    stamped: Option<&Stamped>,
    counts: &mut Counts,
) -> Result<(), String> {
    let tables = formula.clone();
    let past = [(1 << 16) + 1, (1 << 31) + 1, u32::MAX];
    for number in (0..=formula.state.clauses + 1).chain(past) {
        let told = clause_agrees(formula, truth, stamped, number, counts);
        told.map_err(|e| format!("explain {number}: {e}"))?;
    }
    if *formula != tables {
        return Err("explain changed a table or the state".to_string());
    }
    Ok(())
}

fn clause_agrees(
    formula: &Formula,
    truth: &Truth,
    stamped: Option<&Stamped>,
    number: u32,
    counts: &mut Counts,
) -> Result<(), String> {
    let mut output = [OLD_BYTE; ROOM];
    let answer = explain(formula, number, &mut output);
    let wanted = wanted_refusal(formula, number);
    if answer.err() != wanted {
        return Err(format!("the answer is {answer:?}"));
    }
    let Ok(answer) = answer else {
        counts.refused += 1;
        return unchanged(&output);
    };
    unchanged(&output[answer.length..])?;
    let text = &output[..answer.length];
    rooms_agree(formula, number, answer, text)?;
    let clause = formula.part(number as usize - 1);
    let left = left_by_visit(formula, number)?;
    let chains = chains_in(text)?;
    counts.longest = chains.iter().map(Vec::len).fold(counts.longest, usize::max);
    let told = match &left {
        None => drop_agrees(formula, clause, answer, &chains, counts),
        Some(left) => literals_agree(formula, clause, left, answer, &chains, counts),
    };
    told.and_then(|()| steps_agree(formula, stamped, &chains))
        .and_then(|()| pair_is_not_used(clause, left.is_none(), stamped, &chains))
        .and_then(|()| chains_imply(truth, clause, left.as_deref(), &chains))
        .map_err(|e| format!("of {clause:?} {chains:?}: {e}"))
}

/// On tables that have their shape.
fn wanted_refusal(formula: &Formula, number: u32) -> Option<Refusal> {
    let state = formula.state;
    let standing = formula.clauses[..formula.n()].iter().map(|c| c.standing);
    let mut numbered = (1..).zip(standing);
    let number = if state.pass != Pass::None {
        4
    } else if state.mark {
        5
    } else if !state.fresh {
        9
    } else if !numbered.any(|numbered| numbered == (number, 1)) {
        13
    } else {
        return None;
    };
    Some(Refusal { number, place: 0 })
}

fn unchanged(output: &[u8]) -> Result<(), String> {
    if output.iter().any(|b| *b != OLD_BYTE) {
        return Err("explain wrote where it may not".to_string());
    }
    Ok(())
}

/// An output of just the length is long enough; one that is a byte shorter, or has
/// none, is refused with the length and stays.
fn rooms_agree(
    formula: &Formula,
    number: u32,
    answer: Explained,
    text: &[u8],
) -> Result<(), String> {
    let mut exact = vec![OLD_BYTE; text.len()];
    if explain(formula, number, &mut exact) != Ok(answer) || exact != text {
        return Err("an output of just the length is answered otherwise".to_string());
    }
    let needed = Refusal {
        number: 10,
        place: text.len() as u64,
    };
    for room in [0, text.len().saturating_sub(1)] {
        let mut short = vec![OLD_BYTE; room];
        let is_refused = explain(formula, number, &mut short) == Err(needed);
        if is_refused != (room < text.len()) {
            return Err(format!("an output of {room} bytes is judged wrongly"));
        }
        unchanged(&short)?;
    }
    Ok(())
}

/// What a Sweep that comes to this clause leaves of it, nothing if it drops it.
fn left_by_visit(formula: &Formula, number: u32) -> Result<Option<Vec<i32>>, String> {
    let record = number as usize - 1;
    let mut visited = formula.clone();
    visited.state.pass = Pass::Sweep;
    visited.state.cursor = record as u32;
    sweep(&mut visited, 1).map_err(|r| format!("the visit to clause {number}: {r:?}"))?;
    Ok(visited
        .stands(record)
        .then(|| visited.part(record).to_vec()))
}

/// The literals of each line. A line has single spaces, and `0` at its end alone.
fn chains_in(text: &[u8]) -> Result<Vec<Vec<i32>>, String> {
    let text = std::str::from_utf8(text).map_err(|_| "the text is odd".to_string())?;
    let mut chains = Vec::new();
    let mut again = String::new();
    for line in text.lines() {
        let literals: Vec<i32> = line.split(' ').flat_map(str::parse).collect();
        let words: Vec<String> = literals.iter().map(i32::to_string).collect();
        again += &format!("{}\n", words.join(" "));
        match literals.split_last() {
            Some((0, chain)) if !chain.contains(&0) => chains.push(chain.to_vec()),
            _ => return Err(format!("the line {line:?} is no clause")),
        }
    }
    if again != text {
        return Err(format!("the text {text:?} is written oddly"));
    }
    Ok(chains)
}

/// The interval of p begins no later and ends no earlier.
fn is_around(formula: &Formula, p: i32, q: i32) -> bool {
    let (p, q) = (formula.stamps[slot(p)], formula.stamps[slot(q)]);
    !(p.discovery > q.discovery || p.finish < q.finish)
}

fn ends_agree(chain: &[i32], from: i32, to: i32) -> Result<(), String> {
    if chain.first() != Some(&from) || chain.last() != Some(&to) {
        return Err(format!("the ends are not {from} and {to}"));
    }
    Ok(())
}

/// One chain, and no literal counted as taken out.
fn drop_agrees(
    formula: &Formula,
    clause: &[i32],
    answer: Explained,
    chains: &[Vec<i32>],
    counts: &mut Counts,
) -> Result<(), String> {
    let [chain] = chains else {
        return Err("a drop has not one chain".to_string());
    };
    if (answer.verdict, answer.taken_out) != (DROP, 0) {
        return Err(format!("the visit drops it, not {answer:?}"));
    }
    let reasons = if let [a, b] = *clause {
        counts.pairs_dropped += 1;
        pair_reasons(formula, a, b)
    } else {
        counts.longer_dropped += 1;
        longer_reasons(formula, clause)
    };
    match reasons.first() {
        Some((from, to)) => ends_agree(chain, *from, *to),
        None => Err("there is no reason for a drop".to_string()),
    }
}

/// The edges of the pair whose ends the parents join in two steps or more, the
/// edge from the complement of its first literal first.
fn pair_reasons(formula: &Formula, a: i32, b: i32) -> Vec<(i32, i32)> {
    let mut edges = vec![(-a, b), (-b, a)];
    edges.retain(|(p, q)| steps_up(formula, *q, *p).is_some_and(|steps| steps >= 2));
    edges
}

/// All literals whose complement is around a literal of the clause, with it, by
/// the places of both.
fn longer_reasons(formula: &Formula, clause: &[i32]) -> Vec<(i32, i32)> {
    let all = clause
        .iter()
        .flat_map(|a| clause.iter().map(move |b| (-a, *b)));
    all.filter(|(p, q)| is_around(formula, *p, *q)).collect()
}

/// One chain for each literal that the visit takes out, in the order of the clause.
fn literals_agree(
    formula: &Formula,
    clause: &[i32],
    left: &[i32],
    answer: Explained,
    chains: &[Vec<i32>],
    counts: &mut Counts,
) -> Result<(), String> {
    let gone: Vec<i32> = clause
        .iter()
        .copied()
        .filter(|l| !left.contains(l))
        .collect();
    let verdict = if gone.is_empty() { NOTHING } else { SHORTEN };
    if gone.is_empty() {
        counts.nothing += 1;
    }
    let told = (answer.verdict, answer.taken_out, chains.len());
    if told != (verdict, gone.len(), gone.len()) {
        return Err(format!("the visit takes out {gone:?}, not {answer:?}"));
    }
    // First the literals that are around another go.
    let others = |l: i32| clause.iter().copied().filter(move |other| *other != l);
    let held_by = |l: i32| others(l).find(|other| is_around(formula, l, *other));
    let is_above = |l: i32, m: &i32| held_by(*m).is_none() && is_around(formula, -m, -l);
    for (l, chain) in gone.into_iter().zip(chains) {
        if let Some(held) = held_by(l) {
            counts.by_first_rule += 1;
            ends_agree(chain, l, held)?;
        } else if let Some(m) = others(l).find(|m| is_above(l, m)) {
            counts.by_second_rule += 1;
            ends_agree(chain, -m, -l)?;
        } else {
            return Err(format!("there is no reason to take out {l}"));
        }
    }
    Ok(())
}

/// Each literal of a chain is another and is the parent of the next. At the Stamp
/// a two-literal clause stood for each step.
fn steps_agree(
    formula: &Formula,
    stamped: Option<&Stamped>,
    chains: &[Vec<i32>],
) -> Result<(), String> {
    for chain in chains {
        if chain.len() < 2 {
            return Err("a chain has no step".to_string());
        }
        for step in chain.windows(2) {
            let (p, q) = (step[0], step[1]);
            if p == q || formula.stamps[slot(q)].parent != p {
                return Err(format!("{p} is not the parent of {q}"));
            }
            if stamped.is_some_and(|stamped| !stamped.has_edge(p, q)) {
                return Err(format!("no clause stood for the step from {p} to {q}"));
            }
        }
    }
    Ok(())
}

/// The chain of a dropped pair uses neither edge of the pair, whichever clause
/// gives it. Not the one between its ends, for that would be the parent. Nor, where
/// Stamp found no cycle, the other: a chain from -a over -b and a to b would give
/// one from b to a by complements.
fn pair_is_not_used(
    clause: &[i32],
    is_dropped: bool,
    stamped: Option<&Stamped>,
    chains: &[Vec<i32>],
) -> Result<(), String> {
    let ([a, b], true, [chain]) = (clause, is_dropped, chains) else {
        return Ok(());
    };
    let ends = [chain[0], chain[chain.len() - 1]];
    for step in chain.windows(2) {
        let is_of_pair = *step == [-a, *b] || *step == [-b, *a];
        if *step == ends || (stamped.is_some() && is_of_pair) {
            return Err("the chain uses the pair itself".to_string());
        }
    }
    Ok(())
}

/// Where the implications of the chains hold, a dropped clause is true and what is
/// left of a shortened one is true where the clause is.
fn chains_imply(
    truth: &Truth,
    clause: &[i32],
    left: Option<&[i32]>,
    chains: &[Vec<i32>],
) -> Result<(), String> {
    let steps = chains.iter().flat_map(|chain| chain.windows(2));
    let implications: Vec<Vec<i32>> = steps.map(|step| vec![-step[0], step[1]]).collect();
    let all = truth.clauses(&implications);
    let after = match left {
        Some(left) => truth.where_true(all, left),
        None => all,
    };
    if truth.where_true(all, clause) != after {
        return Err("the chains do not imply what is told".to_string());
    }
    Ok(())
}
