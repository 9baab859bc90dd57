//! The script: which line comes next.

use crate::calls::{any, fitting, line, Call};
use crate::comparisons;
use crate::damage;
use crate::drafts;
use crate::explain_lines;
use crate::explains;
use crate::formulas::{odd_text, plain_text};
use crate::join_lines;
use crate::joins::{self, Join};
use crate::learn_lines;
use crate::limits;
use crate::lists;
use crate::newcomers;
use crate::programme_lines;
use crate::programmes;
use crate::random::Random;
use crate::refusal::tables_are_lent;
use crate::replay::Replay;
use crate::shape;
use crate::tables::Pass;
use crate::texts;
use crate::window_damage;

/// No new line is begun past this length.
const LONG_ENOUGH: usize = 850_000;

const TABLES: [(&str, usize); 6] = [
    ("clauses", 4_096),
    ("literals", 16_384),
    ("variables", 1_024),
    ("stamps", 2_048),
    ("sizes", 64),
    ("learnt", 4_096),
];

const WRONG_LINES: [&str; 34] = [
    "",
    " ",
    "nothing",
    "state ",
    " state",
    "State",
    "failed 1",
    "propagate",
    "propagate 65536",
    "propagate -1",
    "propagate 01",
    "propagate 1 1",
    "propagate  1",
    "merge -0",
    "sweep x",
    "run 65536",
    "run 99999999999999999999999",
    "write 131073",
    "write",
    "stamp ",
    "stamp 2147483648",
    "stamp -2147483649",
    "stamp -0",
    "lend clauses 4113",
    "lend literals 16401",
    "lend state 1",
    "set state 7 0",
    "set state 2 4",
    "set state 4 2",
    "set clauses 4112 0 0",
    "set clauses 0 3 0",
    "set literals 0 1 1",
    "set stamps 0 0 -1",
    "load 100\np cnf 1 1",
];

pub fn script(seed: u64, count: usize) -> Vec<u8> {
    let mut script = Script {
        random: Random::new(seed),
        bytes: Vec::new(),
        replay: Replay::new(),
        calls: 0,
        undo: Vec::new(),
        rest_of_formula: 0,
    };
    while script.calls < count && script.bytes.len() < LONG_ENOUGH {
        script.next();
    }
    if script.random.once_in(2) {
        script.wrong_line();
        script.say("state");
    }
    script.bytes
}

struct Script {
    random: Random,
    bytes: Vec<u8>,
    /// The script so far has been replayed here.
    replay: Replay,
    calls: usize,
    /// Lines that take the last damage back.
    undo: Vec<String>,
    /// How many more calls this formula gets.
    rest_of_formula: usize,
}

impl Script {
    /// Adds bytes to the script and replays them.
    fn say_bytes(&mut self, bytes: &[u8]) {
        self.bytes.extend_from_slice(bytes);
        self.replay.take(bytes);
        self.replay.output.clear();
    }

    fn say(&mut self, line: &str) {
        self.say_bytes(format!("{line}\n").as_bytes());
    }

    /// A line that is a call.
    fn call(&mut self, line: &str) {
        self.calls += 1;
        self.rest_of_formula = self.rest_of_formula.saturating_sub(1);
        self.say(line);
    }

    /// A line behind which none is read.
    fn wrong_line(&mut self) {
        if self.random.below(3) > 0 {
            let line = self.random.pick(&WRONG_LINES);
            self.say(line);
            return;
        }
        if self.random.once_in(4) {
            let lines = join_lines::wrong(&mut self.random);
            self.say_bytes(&lines);
            return;
        }
        if self.random.once_in(3) {
            let line = programme_lines::wrong(&mut self.random);
            self.say(&line);
            return;
        }
        if self.random.once_in(3) {
            let line = explain_lines::wrong(&mut self.random);
            self.say(&line);
            return;
        }
        if self.random.once_in(2) {
            let line = learn_lines::wrong(&mut self.random, &self.replay.formula);
            self.say(&line);
            return;
        }
        if self.random.once_in(4) {
            // Of so many variables only 1,024 have records.
            let variables = self.random.pick(&[1_025, u32::MAX]);
            self.say(&format!("set state 0 {variables}"));
        }
        let line = comparisons::wrong(&mut self.random, &self.replay.formula);
        self.say(&line);
    }

    fn next(&mut self) {
        // Before any other line, so that it meets tables and states of all kinds.
        if self.random.once_in(40) {
            self.compare();
        }
        if self.random.once_in(25) {
            let codes = programmes::any(&mut self.random);
            self.programme(codes);
        }
        self.learn_sometimes();
        self.explain_sometimes();
        self.join_sometimes();
        let formula = &self.replay.formula;
        if tables_are_lent(formula).is_err() || self.replay.window.is_lent().is_err() {
            self.while_lent_short();
        } else if !shape::holds(formula) {
            self.while_damaged();
        } else if self.rest_of_formula == 0 || (formula.state.mark && self.random.below(3) > 0) {
            self.load();
        } else if self.random.once_in(30) {
            self.lend();
        } else if self.random.once_in(8) {
            self.damage();
        } else {
            self.good_call();
        }
        self.print_tables();
    }

    fn while_lent_short(&mut self) {
        if self.random.once_in(2) {
            self.any_call();
        } else {
            for (table, stated) in TABLES {
                let extra = self.random.pick(&[0, 0, 1, 16]);
                self.say(&format!("lend {table} {}", stated + extra));
            }
        }
    }

    fn while_damaged(&mut self) {
        match self.random.below(4) {
            0 | 1 => self.any_call(),
            2 if !self.undo.is_empty() => {
                for line in std::mem::take(&mut self.undo) {
                    self.say(&line);
                }
            }
            _ => self.load(),
        }
    }

    fn lend(&mut self) {
        let (table, stated) = self.random.pick(&TABLES);
        let short = self.random.below(stated);
        let count = self
            .random
            .pick(&[stated - 1, short, 0, stated, stated + 1, stated + 16]);
        self.say(&format!("lend {table} {count}"));
        if self.random.once_in(2) {
            self.compare();
        }
    }

    /// Often where learn is accepted, seldom where it is refused: while a pass is
    /// open, under the mark, with spent stamps or in damaged tables.
    fn learn_sometimes(&mut self) {
        let is_ready = self.may_learn();
        let formula = &self.replay.formula;
        let seldom = match formula.state.pass {
            Pass::None if is_ready && newcomers::have_relatives(formula) => 3,
            Pass::None if is_ready => 12,
            Pass::None if formula.state.mark => 12,
            Pass::Sweep => 15,
            _ => 60,
        };
        if !self.random.once_in(seldom) {
            return;
        }
        if is_ready && self.random.once_in(15) {
            self.fill_window();
        } else if is_ready && self.random.once_in(8) {
            self.damage_window();
        }
        let sets_unused = self.random.once_in(20);
        if sets_unused {
            self.set_unused();
        }
        let more = self.random.pick(&[1, 1, 2, 2, 3]);
        self.learn(more);
        if sets_unused {
            self.say("state");
        }
    }

    /// Often where a Sweep would drop or shorten a clause, seldom where explain is
    /// refused.
    fn explain_sometimes(&mut self) {
        let formula = &self.replay.formula;
        let is_ready = explains::is_ready(formula);
        let seldom = match formula.state.pass {
            Pass::None if is_ready && !explains::touched(formula).is_empty() => 2,
            Pass::None if is_ready => 12,
            Pass::None if formula.state.mark => 15,
            Pass::Sweep => 15,
            _ => 60,
        };
        if !self.random.once_in(seldom) {
            return;
        }
        let sets_unused = self.random.once_in(20);
        if sets_unused {
            self.set_unused();
        }
        if is_ready && self.random.once_in(6) {
            self.explain_into_several();
        } else {
            let count = self.random.pick(&[1, 1, 2, 3]);
            self.explain(count);
        }
        if sets_unused {
            self.say("state");
        }
    }

    /// In tables and states of all kinds; of these joins most are refused.
    fn join_sometimes(&mut self) {
        if !self.random.once_in(20) {
            return;
        }
        let sets_unused = self.random.once_in(10);
        if sets_unused {
            self.set_unused();
        }
        if self.random.once_in(3) {
            let join = joins::good(&mut self.random);
            self.join(&join);
            self.rest_of_formula = self.random.between(4, 20);
        } else {
            let join = joins::wrong(&mut self.random);
            self.join(&join);
        }
        if sets_unused {
            self.say("state");
        }
    }

    /// So many clauses. They take none of the formula's calls.
    fn explain(&mut self, count: usize) {
        for _ in 0..count {
            let line = explains::line(&mut self.random, &self.replay.formula);
            self.calls += 1;
            self.say(&line);
        }
    }

    fn explain_into_several(&mut self) {
        for line in explains::several_rooms(&mut self.random, &self.replay.formula) {
            self.calls += 1;
            self.say(&line);
        }
    }

    /// Without an open pass the state has no cursor and no change flag, in Sweep no
    /// flag: a call takes these numbers away.
    fn set_unused(&mut self) {
        let pass = self.replay.formula.state.pass;
        if pass == Pass::None {
            let cursor = self.random.below(5);
            self.say(&format!("set state 3 {cursor}"));
        }
        if pass == Pass::None || pass == Pass::Sweep {
            self.say("set state 4 1");
        }
    }

    /// Nothing but the newcomer itself can be refused.
    fn may_learn(&self) -> bool {
        let formula = &self.replay.formula;
        let state = formula.state;
        state.fresh
            && state.pass == Pass::None
            && !state.mark
            && tables_are_lent(formula).is_ok()
            && shape::holds(formula)
            && self.replay.window.has_shape(formula.v()).is_ok()
    }

    /// So many newcomers. They take none of the formula's calls.
    fn learn(&mut self, count: usize) {
        for _ in 0..count {
            let newcomer = newcomers::any(&mut self.random, &self.replay.formula);
            let words: Vec<String> = newcomer.iter().map(|l| format!(" {l}")).collect();
            self.calls += 1;
            self.say(&format!("learn{}", words.concat()));
        }
        if self.random.once_in(3) {
            self.say("window");
        }
        if self.random.once_in(10) {
            self.look_behind();
        }
    }

    /// Prints what stands behind the literals of a clause in the window.
    fn look_behind(&mut self) {
        for line in window_damage::look_behind(&mut self.random, &self.replay.window) {
            self.say(&line);
        }
    }

    /// Makes the window full or nearly so, now and then by learning so many, and
    /// learns some more, so that the eldest leave.
    fn fill_window(&mut self) {
        if self.random.once_in(5) {
            let many = self.random.between(60, 70);
            self.learn(many);
        } else {
            let lines = window_damage::full(&mut self.random, &self.replay.formula);
            for line in &lines {
                self.say(line);
            }
            let more = self.random.between(2, 6);
            self.learn(more);
        }
    }

    /// Damages the window, learns, and mostly brings back what was there if nothing
    /// came into it. Else it may stay damaged until a load.
    fn damage_window(&mut self) {
        let window = self.replay.window.clone();
        let lines = window_damage::lines(&mut self.random, &self.replay.formula, &window);
        for line in &lines {
            self.say(line);
        }
        let damaged = self.replay.window.clone();
        let more = self.random.between(1, 2);
        self.learn(more);
        if self.replay.window == damaged && self.random.below(6) > 0 {
            for line in window_damage::undo(&window, &lines) {
                self.say(&line);
            }
        }
    }

    /// Sets the programme. It takes none of the formula's calls.
    fn programme(&mut self, codes: Vec<u8>) {
        self.calls += 1;
        self.say(&line(&Call::Programme(codes)));
        if self.random.below(3) > 0 {
            self.say("codes");
        }
    }

    fn damage(&mut self) {
        let lines = damage::lines(&mut self.random, &self.replay.formula);
        self.undo = damage::undo(&self.replay.formula, &lines);
        for line in &lines {
            self.say(line);
        }
        if self.random.once_in(2) {
            self.look_at_damage(&lines);
        }
    }

    /// Compares a literal whose record these lines have damaged, or any if they
    /// have damaged the state; prints the codes if they have damaged these.
    fn look_at_damage(&mut self, lines: &[String]) {
        if let Some(line) = comparisons::behind(&mut self.random, &self.replay.formula, lines) {
            self.say(&line);
        } else if lines.iter().any(|line| line.starts_with("set state")) {
            self.compare();
        } else if lines.iter().any(|line| line.starts_with("set programme")) {
            self.say("codes");
        }
    }

    /// Compares two literals. This is not counted as a call: it takes none of the
    /// formula's calls. Times are changed before only where stamps are not fresh,
    /// so that the tables keep their shape.
    fn compare(&mut self) {
        let formula = &self.replay.formula;
        let lines = if !formula.state.fresh && self.random.once_in(3) {
            comparisons::near_lines(&mut self.random, formula)
        } else {
            let line = comparisons::line(&mut self.random, formula);
            line.into_iter().collect()
        };
        for line in lines {
            self.say(&line);
        }
    }

    /// A call that is accepted if the mark is off, mostly.
    fn good_call(&mut self) {
        let formula = &self.replay.formula;
        match self.random.below(20) {
            0 => self.any_call(),
            1 | 2 => self.write(),
            3 if self.random.once_in(2) => {
                let list = lists::wrong(&mut self.random, formula.v());
                self.call(&line(&Call::Stamp(list)));
            }
            4 => self.early_call(),
            _ => {
                let call = fitting(&mut self.random, formula);
                self.call(&line(&call));
            }
        }
    }

    /// A call that is refused if the clauses are not settled or the graph has
    /// cycles.
    fn early_call(&mut self) {
        let formula = &self.replay.formula;
        let call = if self.random.once_in(2) {
            Call::Merge(self.random.steps(formula.n()) as u32)
        } else {
            Call::Stamp(lists::permutation(&mut self.random, formula.v()))
        };
        self.call(&line(&call));
    }

    fn any_call(&mut self) {
        match self.random.below(10) {
            0 => self.write(),
            1 => self.load(),
            2 => self.learn(1),
            3 => self.explain(1),
            _ => {
                let call = any(&mut self.random, &self.replay.formula);
                self.call(&line(&call));
            }
        }
    }

    /// A Write into a buffer that is long enough, just so, or too short.
    fn write(&mut self) {
        let needed = match crate::write::write(&self.replay.formula, usize::MAX) {
            Ok(text) => text.len(),
            Err(_) => 100,
        };
        let short = self.random.below(needed);
        let room = self
            .random
            .pick(&[needed, needed, 131_072, needed + 1, needed - 1, short, 0]);
        self.call(&format!("write {}", room.min(131_072)));
    }

    /// Loads a formula or joins two, once in three times after texts or joins that
    /// are wrong.
    fn load(&mut self) {
        while self.random.once_in(3) {
            if self.random.once_in(3) {
                let join = joins::wrong(&mut self.random);
                self.join(&join);
            } else {
                let draft = drafts::any(&mut self.random);
                let text = texts::wrong(&mut self.random, &draft);
                self.load_text(&text);
            }
        }
        if self.random.once_in(2) {
            let join = joins::good(&mut self.random);
            self.join(&join);
        } else {
            let text = self.text();
            self.load_text(&text);
        }
        self.rest_of_formula = self.random.between(4, 20);
        if self.random.once_in(3) {
            let codes = programmes::valid(&mut self.random);
            self.programme(codes);
            if self.random.once_in(2) {
                // Before the passes have done what a round does.
                let rounds = self.random.pick(&[1, 1, 2, 65_535]);
                self.call(&line(&Call::Run(rounds)));
            }
        }
    }

    fn load_text(&mut self, text: &[u8]) {
        let mut bytes = format!("load {}\n", text.len()).into_bytes();
        bytes.extend_from_slice(text);
        bytes.push(b'\n');
        self.calls += 1;
        self.say_bytes(&bytes);
        self.look_behind_load();
    }

    fn join(&mut self, join: &Join) {
        self.calls += 1;
        self.say_bytes(&join.lines());
        self.look_behind_load();
    }

    /// A load and a join put the constant programme back and empty the window or,
    /// refused, leave what is there, so both are often looked at behind it.
    fn look_behind_load(&mut self) {
        if self.random.once_in(4) {
            self.say("codes");
        }
        if self.random.once_in(6) {
            self.say("window");
        }
        if self.random.once_in(30) {
            self.look_behind();
        }
    }

    fn text(&mut self) -> Vec<u8> {
        if self.random.once_in(400) {
            return limits::text(&mut self.random);
        }
        let draft = drafts::any(&mut self.random);
        if self.random.once_in(3) {
            odd_text(&mut self.random, &draft)
        } else {
            plain_text(&draft)
        }
    }

    /// Often everything is printed, of large formulas seldom.
    fn print_tables(&mut self) {
        let formula = &self.replay.formula;
        let is_large = formula.v() > 60 || formula.n() > 200;
        let seldom = if is_large { 8 } else { 1 };
        let is_fresh = formula.state.fresh;
        if self.random.below(3) > 0 {
            self.say("state");
        }
        if self.random.once_in(8) {
            self.say("codes");
        }
        if self.random.once_in(12) {
            self.say("window");
        }
        if self.random.once_in(2 * seldom) {
            self.say("clauses");
            self.say("literals");
        }
        if self.random.once_in(2 * seldom) {
            self.say("variables");
        }
        if self
            .random
            .once_in(if is_fresh { 3 * seldom } else { 10 * seldom })
        {
            self.say("stamps");
        }
    }
}
