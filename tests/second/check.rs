//! Random calls on random formulas of at most 12 variables. After each call
//! the tables are compared with what the description promises, by trying all
//! assignments.

use crate::calls::{any, fitting, line, Call};
use crate::compare_calls::{in_two_calls, run_by_passes};
use crate::compare_explain::{self, clauses_agree};
use crate::compare_figures::figures_agree;
use crate::compare_intervals::{comparisons_agree, numbers_agree};
use crate::compare_join::{self, joins_agree};
use crate::compare_learn::{self, forest_agrees, Learning};
use crate::compare_programmes::{refusal_agrees, rules_agree, setting_agrees};
use crate::compare_reach::{Counts, Stamped};
use crate::compare_repeats::{loaded_agrees, merged_agrees};
use crate::compare_shares::Pair;
use crate::compare_values::{own_values, values_agree, values_stay, written_clauses};
use crate::compare_walks::{groups_agree, is_subsequence, stamps_agree};
use crate::failed::failed;
use crate::forest::forest;
use crate::formulas::{odd_text, plain_text, Draft};
use crate::join::join;
use crate::load::{load, without_repeats};
use crate::merge::merge;
use crate::newcomers;
use crate::programme::{set_programme, Programme, MOST_CODES};
use crate::propagate::propagate;
use crate::random::Random;
use crate::refusal::Refusal;
use crate::run::run;
use crate::shape;
use crate::small;
use crate::stamp::stamp;
use crate::sweep::sweep;
use crate::tables::{
    ClauseRecord, Formula, Pass, StampRecord, VariableRecord, MOST_CLAUSES, MOST_LITERALS,
    MOST_VARIABLES,
};
use crate::truth::{Assignments, Truth, MOST_TRIED};
use crate::visits::Answer;
use crate::window::Window;
use crate::write::write;

/// Prints what differs, with the calls that show it; the result is the exit
/// status.
pub fn check(seed: u64, count: usize) -> i32 {
    let mut random = Random::new(seed);
    let mut joins = compare_join::Counts::default();
    let alone = rules_agree()
        .and_then(|()| numbers_agree(&mut random, count))
        .and_then(|()| joins_agree(&mut random, count / 4, &mut joins));
    if let Err(difference) = alone {
        println!("differs: {difference}");
        return 1;
    }
    let truth = Truth::new();
    let mut calls = 0;
    let mut accepted = 0;
    let mut other_runs = 0;
    let mut joined = 0;
    let mut reach = Counts::default();
    let mut learnt = compare_learn::Counts::default();
    let mut explained = compare_explain::Counts::default();
    let mut in_forests = compare_explain::Counts::default();
    while calls < count {
        let mut one = Check::start(&mut random, &truth);
        let outcome = one.calls(&mut random);
        calls += one.calls;
        accepted += one.accepted;
        other_runs += one.other_runs;
        joined += one.pair.is_some() as usize;
        reach.add(&one.reach);
        learnt.add(&one.learning.counts);
        explained.add(&one.explained);
        in_forests.add(&one.in_forests);
        if let Err(difference) = outcome {
            println!("differs: {difference}");
            print!("{}", String::from_utf8_lossy(&one.script));
            return 1;
        }
    }
    println!(
        "checked {calls} calls, {accepted} of them accepted, \
         {other_runs} runs under other programmes than the constant one"
    );
    println!("{}", reach.told());
    println!("{}", learnt.told());
    println!("{}", explained.told());
    println!("in forests {}", in_forests.told());
    println!("{}, {joined} with calls behind them", joins.told());
    0
}

#[derive(PartialEq, Eq, Debug)]
enum Outcome {
    Steps(Answer),
    Stamped,
    Failed(u32),
    Ran(u32),
    Set,
}

struct Check<'a> {
    truth: &'a Truth,
    formula: Formula,
    /// The two formulas, if it began with a join.
    pair: Option<Pair>,
    /// The loaded formula, its clauses as written; behind a join those of both.
    loaded: Vec<Vec<i32>>,
    wanted: Assignments,
    /// The calls made, as a script for a replay.
    script: Vec<u8>,
    calls: usize,
    accepted: usize,
    /// The runs of a round or more under another programme than the constant one.
    other_runs: usize,
    /// What the last Stamp left, as long as only Sweep, Failed and calls that
    /// set a programme have been accepted since.
    stamped: Option<Stamped>,
    reach: Counts,
    learning: Learning,
    explained: compare_explain::Counts,
    /// Under the stamps of random forests.
    in_forests: compare_explain::Counts,
}

/// What the tables and the programme hold before the load.
const OLD_CLAUSE: ClauseRecord = ClauseRecord {
    start: 9,
    length: 9,
    standing: 9,
};
const OLD_LITERAL: i32 = 9;
const OLD_VARIABLE: VariableRecord = VariableRecord { class: 9, value: 9 };
const OLD_STAMP: StampRecord = StampRecord {
    discovery: 9,
    finish: 9,
    parent: 9,
    start: 9,
};
const OLD_PROGRAMME: Programme = Programme {
    places: [9; MOST_CODES],
    length: 9,
};

impl<'a> Check<'a> {
    /// Loads a random formula, or joins two, into tables that are not empty.
    fn start(random: &mut Random, truth: &'a Truth) -> Check<'a> {
        if random.once_in(3) {
            Check::joined(random, truth)
        } else {
            Check::loaded(random, truth)
        }
    }

    fn loaded(random: &mut Random, truth: &'a Truth) -> Check<'a> {
        let draft = small::any(random, MOST_TRIED);
        let plain = plain_text(&draft);
        let text = plain_or_odd(random, &draft);
        let mut check = Check::before_load(truth);
        check.say(&format!("load {}\n", plain.len()), &[&plain]);
        let loaded = load(&mut check.formula, &mut check.learning.window, &text);
        check.accepted = loaded.is_ok() as usize;
        check.wanted = truth.clauses(&draft.clauses);
        check.loaded = draft.clauses;
        check
    }

    fn joined(random: &mut Random, truth: &'a Truth) -> Check<'a> {
        let pair = Pair::any(random);
        let (plain_left, plain_right) = (plain_text(&pair.left), plain_text(&pair.right));
        let left = plain_or_odd(random, &pair.left);
        let right = plain_or_odd(random, &pair.right);
        let mut check = Check::before_load(truth);
        let words: Vec<String> = pair.links.iter().map(|x| format!(" {x}")).collect();
        let (a, b) = (plain_left.len(), plain_right.len());
        let line = format!("join {a} {b}{}\n", words.concat());
        check.say(&line, &[&plain_left, &plain_right]);
        let (formula, window) = (&mut check.formula, &mut check.learning.window);
        let joined = join(formula, window, &left, &right, &pair.links);
        check.accepted = joined.is_ok() as usize;
        check.wanted = pair.satisfying();
        check.loaded = pair.clauses();
        check.pair = Some(pair);
        check
    }

    /// Tables, a programme and a window that are not empty.
    fn before_load(truth: &'a Truth) -> Check<'a> {
        let mut formula = Formula::empty();
        formula.clauses.fill(OLD_CLAUSE);
        formula.literals.fill(OLD_LITERAL);
        formula.variables.fill(OLD_VARIABLE);
        formula.stamps.fill(OLD_STAMP);
        formula.state.programme = OLD_PROGRAMME;
        Check {
            truth,
            formula,
            pair: None,
            wanted: truth.clauses(&[]),
            loaded: Vec::new(),
            script: Vec::new(),
            calls: 1,
            accepted: 0,
            other_runs: 0,
            stamped: None,
            reach: Counts::default(),
            learning: Learning::before_load(),
            explained: compare_explain::Counts::default(),
            in_forests: compare_explain::Counts::default(),
        }
    }

    /// A line of the script with the texts behind it.
    fn say(&mut self, line: &str, texts: &[&[u8]]) {
        self.script.extend_from_slice(line.as_bytes());
        self.script.extend_from_slice(&texts.concat());
        self.script.push(b'\n');
    }

    fn calls(&mut self, random: &mut Random) -> Result<(), String> {
        if self.accepted == 0 {
            return Err("a good text is refused".to_string());
        }
        if let Some(pair) = &self.pair {
            pair.numbers_agree()?;
            pair.shares_agree()?;
        }
        self.tables_agree()?;
        if self.formula.state.programme != Programme::constant() {
            return Err("a load leaves another programme than the constant one".to_string());
        }
        self.learning.window_agrees(self.formula.v())?;
        loaded_agrees(&self.formula, &self.loaded)?;
        self.learn_sometimes(random)?;
        self.explain_sometimes(random)?;
        for _ in 0..random.between(1, 24) {
            let call = if random.once_in(12) {
                any(random, &self.formula)
            } else {
                fitting(random, &self.formula)
            };
            self.script.extend_from_slice(line(&call).as_bytes());
            self.script.push(b'\n');
            self.calls += 1;
            self.call(random, &call)?;
            self.reach_agrees(&call)?;
            self.learn_sometimes(random)?;
            self.explain_sometimes(random)?;
            if self.formula.state.mark && random.once_in(2) {
                break;
            }
        }
        Ok(())
    }

    /// Newcomers, often where none but the newcomer itself can be refused. Now and
    /// then there are so many that the eldest leave.
    fn learn_sometimes(&mut self, random: &mut Random) -> Result<(), String> {
        let state = self.formula.state;
        let is_ready = state.fresh && state.pass == Pass::None && !state.mark;
        let seldom = if !is_ready {
            20
        } else if newcomers::have_relatives(&self.formula) {
            2
        } else {
            8
        };
        if !random.once_in(seldom) {
            return Ok(());
        }
        let count = if is_ready && random.once_in(20) {
            random.between(60, 90)
        } else {
            random.between(1, 4)
        };
        let standing = self.truth.standing(&self.formula);
        for _ in 0..count {
            let newcomer = newcomers::any(random, &self.formula);
            let words: Vec<String> = newcomer.iter().map(|l| format!(" {l}")).collect();
            let line = format!("learn{}\n", words.concat());
            self.script.extend_from_slice(line.as_bytes());
            self.learning
                .newcomer_agrees(&self.formula, self.truth, standing, &newcomer)?;
        }
        let newcomer = newcomers::any(random, &self.formula);
        self.learning
            .damage_agrees(random, &self.formula, &newcomer)?;
        if is_ready {
            self.learn_in_a_forest(random)?;
        }
        Ok(())
    }

    /// Newcomers under the stamps of a random forest.
    fn learn_in_a_forest(&self, random: &mut Random) -> Result<(), String> {
        let mut other = self.formula.clone();
        let records = forest(random, other.v());
        other.stamps[..records.len()].copy_from_slice(&records);
        for _ in 0..4 {
            forest_agrees(&other, &newcomers::valid(random, &other))?;
        }
        Ok(())
    }

    /// Every clause, and numbers that are none, often under fresh stamps. Then only
    /// Failed and calls that set a programme have been accepted since the Stamp, so
    /// that the clauses are those that it walked.
    fn explain_sometimes(&mut self, random: &mut Random) -> Result<(), String> {
        let state = self.formula.state;
        let is_ready = state.fresh && state.pass == Pass::None && !state.mark;
        let seldom = if is_ready { 2 } else { 12 };
        if !random.once_in(seldom) {
            return Ok(());
        }
        if is_ready && self.stamped.is_none() {
            return Err("stamps are fresh, and none were left".to_string());
        }
        let stamped = self.stamped.as_ref();
        clauses_agree(&self.formula, self.truth, stamped, &mut self.explained)?;
        if is_ready {
            let mut other = self.formula.clone();
            let records = forest(random, other.v());
            other.stamps[..records.len()].copy_from_slice(&records);
            let told = clauses_agree(&other, self.truth, None, &mut self.in_forests);
            told.map_err(|e| format!("in a forest: {e}"))?;
        }
        Ok(())
    }

    fn call(&mut self, random: &mut Random, call: &Call) -> Result<(), String> {
        let before = self.formula.clone();
        match make(&mut self.formula, call) {
            Err(refusal) => {
                if self.formula != before {
                    return Err("a refused call changed something".to_string());
                }
                if let Call::Programme(codes) = call {
                    refusal_agrees(codes, refusal)?;
                }
            }
            Ok(outcome) => {
                self.accepted += 1;
                let is_other = before.state.programme != Programme::constant();
                if is_other && matches!(outcome, Outcome::Ran(1..)) {
                    self.other_runs += 1;
                }
                self.remember_stamped(call);
                self.tables_agree()?;
                self.outcome_agrees(random, &before, call, outcome)?;
            }
        }
        Ok(())
    }

    /// Behind an accepted call other than these three the stamps are fresh if it
    /// was a Stamp, a Run of no rounds or one whose last code but for Failed was a
    /// stamp. Then the clauses are those that were stamped.
    fn remember_stamped(&mut self, call: &Call) {
        if !matches!(call, Call::Sweep(_) | Call::Failed | Call::Programme(_)) {
            let is_stamped = self.formula.state.fresh;
            self.stamped = is_stamped.then(|| Stamped::of(&self.formula));
        }
    }

    /// Behind any call, a refused one too, the reach is such as Sweeps may leave.
    fn reach_agrees(&mut self, call: &Call) -> Result<(), String> {
        if let Some(stamped) = &self.stamped {
            let change = stamped.compare(&self.formula)?;
            if matches!(call, Call::Sweep(_)) {
                self.reach.count(change);
            }
        }
        Ok(())
    }

    /// What holds of the tables after every accepted call.
    fn tables_agree(&self) -> Result<(), String> {
        if !shape::holds(&self.formula) {
            return Err("the shape rule fails".to_string());
        }
        if self.formula.state.fresh {
            comparisons_agree(&self.formula)?;
        }
        values_agree(&self.formula)?;
        if self.truth.standing(&self.formula) != self.wanted {
            return Err("what stands has other satisfying assignments".to_string());
        }
        if self.truth.standing_by_classes(&self.formula) != self.wanted {
            return Err("other satisfying assignments by the values of classes".to_string());
        }
        self.clauses_are_parts_of_loaded_ones()?;
        self.other_places_agree()?;
        self.written_agrees()
    }

    /// Each standing clause, by class literals, has some of the literals of
    /// the loaded clause, by class literals, in the same order.
    fn clauses_are_parts_of_loaded_ones(&self) -> Result<(), String> {
        let class = |l: &i32| self.formula.class_literal(*l);
        for record in 0..self.formula.n() {
            let now: Vec<i32> = self.formula.part(record).iter().map(class).collect();
            let loaded = without_repeats(&self.loaded[record]);
            let loaded: Vec<i32> = loaded.iter().map(class).collect();
            if !is_subsequence(&now, &loaded) {
                return Err(format!(
                    "clause {} is not a part of the loaded one",
                    record + 1
                ));
            }
        }
        Ok(())
    }

    /// Every literal place outside the clauses' parts is 0, and so are the
    /// records past N and V. Stamp records past 2V and all extra places are as
    /// before the load.
    fn other_places_agree(&self) -> Result<(), String> {
        let formula = &self.formula;
        let mut literals = formula.literals.clone();
        for clause in &formula.clauses[..formula.n()] {
            literals[clause.start as usize..(clause.start + clause.length) as usize].fill(0);
        }
        let (v, n) = (formula.v(), formula.n());
        let zero = literals[..MOST_LITERALS].iter().all(|l| *l == 0)
            && formula.clauses[n..MOST_CLAUSES]
                .iter()
                .all(|c| *c == ClauseRecord::default())
            && formula.variables[v..MOST_VARIABLES]
                .iter()
                .all(|v| *v == VariableRecord::default());
        if !zero {
            return Err("a place outside the formula is not 0".to_string());
        }
        let old = literals[MOST_LITERALS..].iter().all(|l| *l == OLD_LITERAL)
            && formula.clauses[MOST_CLAUSES..]
                .iter()
                .all(|c| *c == OLD_CLAUSE)
            && formula.variables[MOST_VARIABLES..]
                .iter()
                .all(|v| *v == OLD_VARIABLE)
            && formula.stamps[2 * v..].iter().all(|s| *s == OLD_STAMP);
        if !old {
            return Err("a place that no call writes has changed".to_string());
        }
        Ok(())
    }

    /// What Write gives, loaded again, has the same satisfying assignments, and
    /// as many clauses as it should have.
    fn written_agrees(&self) -> Result<(), String> {
        let text = write(&self.formula, 131_072).map_err(|r| format!("Write: {r:?}"))?;
        let short = write(&self.formula, text.len() - 1);
        let needed = Refusal {
            number: 10,
            place: text.len() as u64,
        };
        if short != Err(needed) || write(&self.formula, text.len()).is_err() {
            return Err("Write judges the length of the output wrongly".to_string());
        }
        let mut again = Formula::empty();
        load(&mut again, &mut Window::empty(), &text)
            .map_err(|r| format!("load of what Write gave: {r:?}"))?;
        if self.truth.standing(&again) != self.wanted {
            return Err("what Write gave has other satisfying assignments".to_string());
        }
        if again.n() != written_clauses(&self.formula) {
            return Err("Write gave another number of clauses".to_string());
        }
        Ok(())
    }

    /// What holds of the answer and of what this call does.
    fn outcome_agrees(
        &self,
        random: &mut Random,
        before: &Formula,
        call: &Call,
        outcome: Outcome,
    ) -> Result<(), String> {
        let after = &self.formula;
        let may_set = matches!(call, Call::Propagate(_) | Call::Failed | Call::Run(_));
        values_stay(before, after, may_set)?;
        let sets = matches!(call, Call::Programme(_));
        if !sets && after.state.programme != before.state.programme {
            return Err("a call that sets no programme changed it".to_string());
        }
        match (call, &outcome) {
            (Call::Propagate(steps), Outcome::Steps(answer)) => {
                self.steps_agree(random, before, propagate, *steps, *answer)?;
            }
            (Call::Merge(steps), Outcome::Steps(answer)) => {
                self.steps_agree(random, before, merge, *steps, *answer)?;
                groups_agree(before)?;
                merged_agrees(before, after, answer.visits as usize)?;
            }
            (Call::Sweep(steps), Outcome::Steps(answer)) => {
                self.steps_agree(random, before, sweep, *steps, *answer)?;
                figures_agree(before)?;
                let mut other = before.clone();
                let records = forest(random, before.v());
                other.stamps[..records.len()].copy_from_slice(&records);
                if !shape::holds(&other) {
                    return Err("a random forest has not the shape".to_string());
                }
                figures_agree(&other)?;
                comparisons_agree(&other)?;
            }
            (Call::Stamp(list), Outcome::Stamped) => {
                groups_agree(before)?;
                stamps_agree(after, list)?;
            }
            (Call::Failed, Outcome::Failed(count)) => {
                if own_values(after) - own_values(before) != *count as usize {
                    return Err("Failed counts other values than it set".to_string());
                }
            }
            (Call::Run(rounds), Outcome::Ran(made)) => {
                let by_passes = run_by_passes(random, before, *rounds);
                let by_passes = by_passes.map_err(|r| format!("in a round: {r:?}"))?;
                if by_passes != (after.clone(), *made) {
                    return Err("Run differs from its passes".to_string());
                }
            }
            (Call::Programme(codes), Outcome::Set) => {
                setting_agrees(before, after, codes)?;
            }
            _ => unreachable!(),
        }
        Ok(())
    }

    /// The answer fits the tables, the assignments are the same after each of
    /// the visits, and two calls that make the same visits have the same result.
    fn steps_agree(
        &self,
        random: &mut Random,
        before: &Formula,
        pass: fn(&mut Formula, u32) -> Result<Answer, Refusal>,
        steps: u32,
        answer: Answer,
    ) -> Result<(), String> {
        let after = &self.formula;
        let (clauses_before, literals_before) = before.standing();
        let (clauses_after, literals_after) = after.standing();
        let fits = answer.open == (after.state.pass != Pass::None)
            && answer.visits <= steps
            && (answer.visits == steps || !answer.open)
            && answer.clauses_gone == clauses_before - clauses_after
            && answer.literals_gone == literals_before - literals_after;
        if !fits {
            return Err(format!("the answer {answer:?} does not fit the tables"));
        }
        self.every_stop_agrees(before, pass, answer.visits)?;
        let first_steps = random.between(0, steps as usize) as u32;
        let two_calls = in_two_calls(before, pass, first_steps, steps - first_steps);
        if two_calls != Ok((after.clone(), answer)) {
            return Err("two calls differ from one of the same visits".to_string());
        }
        Ok(())
    }

    /// The visits made one by one: what stands after each has the same
    /// satisfying assignments, each value is that of the class literal, and in
    /// a Sweep the reach is such as it may leave.
    fn every_stop_agrees(
        &self,
        before: &Formula,
        pass: fn(&mut Formula, u32) -> Result<Answer, Refusal>,
        visits: u32,
    ) -> Result<(), String> {
        let mut formula = before.clone();
        for visit in 1..=visits {
            pass(&mut formula, 1).map_err(|r| format!("at visit {visit}: {r:?}"))?;
            if self.truth.standing(&formula) != self.wanted {
                return Err(format!("other satisfying assignments after visit {visit}"));
            }
            values_agree(&formula).map_err(|e| format!("after visit {visit}: {e}"))?;
            if let Some(stamped) = &self.stamped {
                let change = stamped.compare(&formula);
                change.map_err(|e| format!("after visit {visit}: {e}"))?;
            }
        }
        Ok(())
    }
}

fn plain_or_odd(random: &mut Random, draft: &Draft) -> Vec<u8> {
    if random.once_in(2) {
        odd_text(random, draft)
    } else {
        plain_text(draft)
    }
}

fn make(formula: &mut Formula, call: &Call) -> Result<Outcome, Refusal> {
    Ok(match call {
        Call::Propagate(steps) => Outcome::Steps(propagate(formula, *steps)?),
        Call::Merge(steps) => Outcome::Steps(merge(formula, *steps)?),
        Call::Sweep(steps) => Outcome::Steps(sweep(formula, *steps)?),
        Call::Stamp(list) => {
            stamp(formula, list)?;
            Outcome::Stamped
        }
        Call::Failed => Outcome::Failed(failed(formula)?),
        Call::Run(rounds) => Outcome::Ran(run(formula, *rounds)?),
        Call::Programme(codes) => {
            set_programme(formula, codes)?;
            Outcome::Set
        }
    })
}
