//! Replays a list of calls on one set of tables and prints every answer.

use crate::comparison::compare;
use crate::explain::explain;
use crate::failed::failed;
use crate::join::join;
use crate::learn::{learn, Learnt};
use crate::load::load;
use crate::merge::merge;
use crate::programme::{set_programme, MOST_CODES};
use crate::propagate::propagate;
use crate::refusal::Refusal;
use crate::run::run;
use crate::stamp::stamp;
use crate::sweep::sweep;
use crate::tables::{
    Formula, Pass, EXTRA, MOST_CLAUSES, MOST_LITERALS, MOST_STAMPS, MOST_VARIABLES,
};
use crate::visits::Answer;
use crate::window::{Window, MOST_LEARNT, MOST_PLACES};
use crate::write::write;

pub const MOST_INPUT: usize = 1_048_576;
const MOST_STEPS: i64 = 65_535;
const MOST_LIST: usize = 4_096;
const MOST_CODES_IN_LINE: usize = 64;
const MOST_ROOM: i64 = 131_072;

pub struct Replay {
    pub formula: Formula,
    pub window: Window,
    pub output: Vec<u8>,
    /// How many lines have been read.
    line: usize,
    /// A line was wrong, and no further line is read.
    pub has_ended: bool,
}

/// A line that is none of those that are understood.
struct WrongLine;

impl Replay {
    pub fn new() -> Replay {
        Replay {
            formula: Formula::empty(),
            window: Window::empty(),
            output: Vec::new(),
            line: 0,
            has_ended: false,
        }
    }

    /// Takes the next lines.
    pub fn take(&mut self, input: &[u8]) {
        let mut rest = input;
        while !rest.is_empty() && !self.has_ended {
            self.line += 1;
            match self.take_line(rest) {
                Ok(after) => rest = after,
                Err(WrongLine) => {
                    self.print(format!("error {}", self.line));
                    self.has_ended = true;
                }
            }
        }
    }

    /// Takes one line, and the bytes of a `load` or a `join` with it. Returns what
    /// comes after.
    fn take_line<'a>(&mut self, input: &'a [u8]) -> Result<&'a [u8], WrongLine> {
        let end = input.iter().position(|b| *b == b'\n').ok_or(WrongLine)?;
        let line = std::str::from_utf8(&input[..end]).map_err(|_| WrongLine)?;
        let after = &input[end + 1..];
        let words: Vec<&str> = line.split(' ').collect();
        match &words[..] {
            ["load", count] => {
                let (text, after) = split_bytes(after, byte_count(count)?)?;
                self.load(text);
                Ok(after)
            }
            ["join", left, right, links @ ..] => {
                let (left, right) = (byte_count(left)?, byte_count(right)?);
                let links = links_of(links)?;
                let (texts, after) = split_bytes(after, left + right)?;
                let (left, right) = texts.split_at(left);
                self.join(left, right, &links);
                Ok(after)
            }
            words => {
                self.take_words(words)?;
                Ok(after)
            }
        }
    }

    fn take_words(&mut self, words: &[&str]) -> Result<(), WrongLine> {
        match words {
            ["propagate", steps] => {
                let steps = number(steps, 0, MOST_STEPS)? as u32;
                self.clear_unused();
                let answer = propagate(&mut self.formula, steps);
                self.print_answer(answer);
            }
            ["merge", steps] => {
                let steps = number(steps, 0, MOST_STEPS)? as u32;
                self.clear_unused();
                let answer = merge(&mut self.formula, steps);
                self.print_answer(answer);
            }
            ["sweep", steps] => {
                let steps = number(steps, 0, MOST_STEPS)? as u32;
                self.clear_unused();
                let answer = sweep(&mut self.formula, steps);
                self.print_answer(answer);
            }
            ["stamp", list @ ..] => self.stamp(list)?,
            ["learn", newcomer @ ..] => self.learn(newcomer)?,
            ["failed"] => {
                self.clear_unused();
                match failed(&mut self.formula) {
                    Ok(count) => self.print(format!("failed {count}")),
                    Err(refusal) => self.print_refusal(refusal),
                }
            }
            ["run", rounds] => {
                let rounds = number(rounds, 0, MOST_STEPS)? as u32;
                self.clear_unused();
                match run(&mut self.formula, rounds) {
                    Ok(made) => self.print(format!("ran {made}")),
                    Err(refusal) => self.print_refusal(refusal),
                }
            }
            ["write", room] => {
                let room = number(room, 0, MOST_ROOM)? as usize;
                self.clear_unused();
                match write(&self.formula, room) {
                    Ok(text) => {
                        self.print(format!("written {}", text.len()));
                        self.output.extend_from_slice(&text);
                    }
                    Err(refusal) => self.print_refusal(refusal),
                }
            }
            ["explain", clause, room] => self.explain(clause, room)?,
            ["programme", codes @ ..] => self.programme(codes)?,
            ["compare", first, second] => self.compare(first, second)?,
            ["state"] => self.print_state(),
            ["clauses"] => self.print_clauses(),
            ["literals"] => self.print_literals(),
            ["variables"] => self.print_variables(),
            ["stamps"] => self.print_stamps(),
            ["codes"] => self.print_codes(),
            ["window"] => self.print_window(),
            ["lend", table, count] => self.lend(table, count)?,
            ["set", "state", field, value] => self.set_state(field, value)?,
            ["set", "programme", field, value] => self.set_code(field, value)?,
            ["set", "window", field, value] => self.set_window(field, value)?,
            ["set", table, record, field, value] => self.set(table, record, field, value)?,
            _ => return Err(WrongLine),
        }
        Ok(())
    }

    /// The state that a call is given has no cursor where no pass is open, and
    /// a change flag only in Propagate.
    fn clear_unused(&mut self) {
        let state = &mut self.formula.state;
        if state.pass == Pass::None {
            state.cursor = 0;
        }
        if state.pass != Pass::Propagate {
            state.changed = false;
        }
    }

    fn load(&mut self, text: &[u8]) {
        self.clear_unused();
        let answer = load(&mut self.formula, &mut self.window, text);
        self.print_loaded(answer);
    }

    fn join(&mut self, left: &[u8], right: &[u8], links: &[u32]) {
        self.clear_unused();
        let answer = join(&mut self.formula, &mut self.window, left, right, links);
        self.print_loaded(answer);
    }

    fn stamp(&mut self, words: &[&str]) -> Result<(), WrongLine> {
        let list = list_of(words)?;
        self.clear_unused();
        match stamp(&mut self.formula, &list) {
            Ok(()) => self.print("stamped".to_string()),
            Err(refusal) => self.print_refusal(refusal),
        }
        Ok(())
    }

    fn learn(&mut self, words: &[&str]) -> Result<(), WrongLine> {
        let newcomer = list_of(words)?;
        self.clear_unused();
        match learn(&self.formula, &mut self.window, &newcomer) {
            Ok(Learnt::Dropped) => self.print("dropped".to_string()),
            Ok(Learnt::Kept(left)) => self.print(format!("kept {left}")),
            Ok(Learnt::Shortened(left)) => self.print(format!("shortened {left}")),
            Err(refusal) => self.print_refusal(refusal),
        }
        Ok(())
    }

    fn explain(&mut self, clause: &str, room: &str) -> Result<(), WrongLine> {
        let clause = any_u32(clause)?;
        let mut output = vec![0; number(room, 0, MOST_ROOM)? as usize];
        self.clear_unused();
        match explain(&self.formula, clause, &mut output) {
            Ok(answer) => {
                self.print(format!(
                    "explained {} {} {}",
                    answer.verdict, answer.taken_out, answer.length
                ));
                self.output.extend_from_slice(&output[..answer.length]);
            }
            Err(refusal) => self.print_refusal(refusal),
        }
        Ok(())
    }

    fn programme(&mut self, words: &[&str]) -> Result<(), WrongLine> {
        if words.len() > MOST_CODES_IN_LINE {
            return Err(WrongLine);
        }
        let mut codes = Vec::new();
        for word in words {
            codes.push(any_u8(word)?);
        }
        self.clear_unused();
        match set_programme(&mut self.formula, &codes) {
            Ok(()) => self.print("set".to_string()),
            Err(refusal) => self.print_refusal(refusal),
        }
        Ok(())
    }

    /// Looks at the whole table, whatever is lent, and is never refused. It takes
    /// no state, so pass, cursor and change flag stay as they are.
    fn compare(&mut self, first: &str, second: &str) -> Result<(), WrongLine> {
        let first = self.literal(first)?;
        let second = self.literal(second)?;
        let formula = &self.formula;
        let answer = compare(formula.interval(first), formula.interval(second));
        self.print(answer.word().to_string());
        Ok(())
    }

    /// A literal of the variables 1 to V that have records.
    fn literal(&self, word: &str) -> Result<i32, WrongLine> {
        let last = self.formula.v().min(MOST_VARIABLES) as i64;
        match number(word, -last, last)? {
            0 => Err(WrongLine),
            literal => Ok(literal as i32),
        }
    }

    fn lend(&mut self, table: &str, count: &str) -> Result<(), WrongLine> {
        let lent = &mut self.formula.lent;
        let (stated, place) = match table {
            "clauses" => (MOST_CLAUSES, &mut lent.clauses),
            "literals" => (MOST_LITERALS, &mut lent.literals),
            "variables" => (MOST_VARIABLES, &mut lent.variables),
            "stamps" => (MOST_STAMPS, &mut lent.stamps),
            "sizes" => (MOST_LEARNT, &mut self.window.lent_sizes),
            "learnt" => (MOST_PLACES, &mut self.window.lent_learnt),
            _ => return Err(WrongLine),
        };
        *place = number(count, 0, (stated + EXTRA) as i64)? as usize;
        Ok(())
    }

    fn set_state(&mut self, field: &str, value: &str) -> Result<(), WrongLine> {
        let state = &mut self.formula.state;
        match field {
            "0" => state.variables = any_u32(value)?,
            "1" => state.clauses = any_u32(value)?,
            "2" => {
                state.pass = match value {
                    "0" => Pass::None,
                    "1" => Pass::Propagate,
                    "2" => Pass::Merge,
                    "3" => Pass::Sweep,
                    _ => return Err(WrongLine),
                }
            }
            "3" => state.cursor = any_u32(value)?,
            "4" => state.changed = number(value, 0, 1)? == 1,
            "5" => state.fresh = number(value, 0, 1)? == 1,
            "6" => state.mark = number(value, 0, 1)? == 1,
            _ => return Err(WrongLine),
        }
        Ok(())
    }

    /// Field 0 is the length of the programme, 1 to 32 are its codes.
    fn set_code(&mut self, field: &str, value: &str) -> Result<(), WrongLine> {
        let programme = &mut self.formula.state.programme;
        match number(field, 0, MOST_CODES as i64)? as usize {
            0 => programme.length = any_u8(value)?,
            field => programme.places[field - 1] = any_u8(value)?,
        }
        Ok(())
    }

    fn set_window(&mut self, field: &str, value: &str) -> Result<(), WrongLine> {
        match field {
            "0" => self.window.count = any_u32(value)?,
            "1" => self.window.total = any_u32(value)?,
            _ => return Err(WrongLine),
        }
        Ok(())
    }

    fn set(
        &mut self,
        table: &str,
        record: &str,
        field: &str,
        value: &str,
    ) -> Result<(), WrongLine> {
        let formula = &mut self.formula;
        let window = &mut self.window;
        let within = |length: usize| number(record, 0, length as i64 - 1).map(|r| r as usize);
        match (table, field) {
            ("clauses", "0") => {
                formula.clauses[within(MOST_CLAUSES + EXTRA)?].start = any_u32(value)?
            }
            ("clauses", "1") => {
                formula.clauses[within(MOST_CLAUSES + EXTRA)?].length = any_u32(value)?
            }
            ("clauses", "2") => {
                formula.clauses[within(MOST_CLAUSES + EXTRA)?].standing = any_u32(value)?
            }
            ("literals", "0") => formula.literals[within(MOST_LITERALS + EXTRA)?] = any_i32(value)?,
            ("variables", "0") => {
                formula.variables[within(MOST_VARIABLES + EXTRA)?].class = any_i32(value)?
            }
            ("variables", "1") => {
                formula.variables[within(MOST_VARIABLES + EXTRA)?].value = any_i32(value)?
            }
            ("stamps", "0") => {
                formula.stamps[within(MOST_STAMPS + EXTRA)?].discovery = any_u32(value)?
            }
            ("stamps", "1") => {
                formula.stamps[within(MOST_STAMPS + EXTRA)?].finish = any_u32(value)?
            }
            ("stamps", "2") => {
                formula.stamps[within(MOST_STAMPS + EXTRA)?].parent = any_i32(value)?
            }
            ("stamps", "3") => formula.stamps[within(MOST_STAMPS + EXTRA)?].start = any_i32(value)?,
            ("sizes", "0") => window.sizes[within(MOST_LEARNT + EXTRA)?] = any_u32(value)?,
            ("learnt", "0") => window.learnt[within(MOST_PLACES + EXTRA)?] = any_i32(value)?,
            _ => return Err(WrongLine),
        }
        Ok(())
    }

    fn print(&mut self, line: String) {
        self.output.extend_from_slice(line.as_bytes());
        self.output.push(b'\n');
    }

    fn print_refusal(&mut self, refusal: Refusal) {
        self.print(format!("refused {} {}", refusal.number, refusal.place));
    }

    fn print_loaded(&mut self, answer: Result<(), Refusal>) {
        let state = self.formula.state;
        match answer {
            Ok(()) => self.print(format!(
                "loaded {} {} {}",
                state.variables, state.clauses, state.mark as u32
            )),
            Err(refusal) => self.print_refusal(refusal),
        }
    }

    fn print_answer(&mut self, answer: Result<Answer, Refusal>) {
        match answer {
            Ok(answer) => self.print(format!(
                "{} {} {} {}",
                if answer.open { "open" } else { "done" },
                answer.visits,
                answer.clauses_gone,
                answer.literals_gone
            )),
            Err(refusal) => self.print_refusal(refusal),
        }
    }

    fn print_state(&mut self) {
        let state = self.formula.state;
        let pass = match state.pass {
            Pass::None => 0,
            Pass::Propagate => 1,
            Pass::Merge => 2,
            Pass::Sweep => 3,
        };
        self.print(format!(
            "state {} {} {} {} {} {} {}",
            state.variables,
            state.clauses,
            pass,
            state.cursor,
            state.changed as u32,
            state.fresh as u32,
            state.mark as u32
        ));
    }

    fn print_clauses(&mut self) {
        for record in 0..self.formula.n().min(MOST_CLAUSES) {
            let clause = self.formula.clauses[record];
            self.print(format!(
                "{} {} {}",
                clause.start, clause.length, clause.standing
            ));
        }
    }

    fn print_literals(&mut self) {
        let literals = &self.formula.literals[..MOST_LITERALS];
        let count = literals
            .iter()
            .rposition(|l| *l != 0)
            .map_or(0, |last| last + 1);
        let mut line = "literals".to_string();
        for literal in &literals[..count] {
            line.push_str(&format!(" {literal}"));
        }
        self.print(line);
    }

    fn print_variables(&mut self) {
        for record in 0..self.formula.v().min(MOST_VARIABLES) {
            let variable = self.formula.variables[record];
            self.print(format!("{} {}", variable.class, variable.value));
        }
    }

    fn print_stamps(&mut self) {
        for record in 0..(2 * self.formula.v()).min(MOST_STAMPS) {
            let stamp = self.formula.stamps[record];
            self.print(format!(
                "{} {} {} {}",
                stamp.discovery, stamp.finish, stamp.parent, stamp.start
            ));
        }
    }

    fn print_codes(&mut self) {
        let mut line = "codes".to_string();
        for code in self.formula.state.programme.codes() {
            line.push_str(&format!(" {code}"));
        }
        self.print(line);
    }

    /// The records as far as the count goes, 64 at most, each with its literals
    /// as far as its size goes, 64 at most.
    fn print_window(&mut self) {
        self.print(format!(
            "window {} {}",
            self.window.count, self.window.total
        ));
        for record in 0..(self.window.count as usize).min(MOST_LEARNT) {
            let mut line = self.window.sizes[record].to_string();
            for literal in self.window.part(record) {
                line.push_str(&format!(" {literal}"));
            }
            self.print(line);
        }
    }
}

/// The literals of a line, any i32, if there are not too many.
fn list_of(words: &[&str]) -> Result<Vec<i32>, WrongLine> {
    if words.len() > MOST_LIST {
        return Err(WrongLine);
    }
    words.iter().map(|word| any_i32(word)).collect()
}

/// The links of a line, any u32, if there are not too many.
fn links_of(words: &[&str]) -> Result<Vec<u32>, WrongLine> {
    if words.len() > MOST_LIST {
        return Err(WrongLine);
    }
    words.iter().map(|word| any_u32(word)).collect()
}

/// How many bytes stand behind a line.
fn byte_count(word: &str) -> Result<usize, WrongLine> {
    Ok(number(word, 0, MOST_INPUT as i64)? as usize)
}

/// So many bytes, and what comes after the LF behind them.
fn split_bytes(input: &[u8], count: usize) -> Result<(&[u8], &[u8]), WrongLine> {
    if input.get(count) != Some(&b'\n') {
        return Err(WrongLine);
    }
    Ok((&input[..count], &input[count + 1..]))
}

/// A decimal number without leading zeros, `-` before a negative one.
fn number(word: &str, least: i64, most: i64) -> Result<i64, WrongLine> {
    let digits = word.strip_prefix('-').unwrap_or(word);
    let is_plain = word == "0"
        || (!digits.is_empty()
            && !digits.starts_with('0')
            && digits.bytes().all(|b| b.is_ascii_digit()));
    if !is_plain {
        return Err(WrongLine);
    }
    let value: i64 = word.parse().map_err(|_| WrongLine)?;
    if value < least || value > most {
        return Err(WrongLine);
    }
    Ok(value)
}

fn any_u8(word: &str) -> Result<u8, WrongLine> {
    Ok(number(word, 0, u8::MAX as i64)? as u8)
}

fn any_u32(word: &str) -> Result<u32, WrongLine> {
    Ok(number(word, 0, u32::MAX as i64)? as u32)
}

fn any_i32(word: &str) -> Result<i32, WrongLine> {
    Ok(number(word, i32::MIN as i64, i32::MAX as i64)? as i32)
}
