//! A second implementation of the simplifier, written from its description
//! alone, to compare the library with.
//!
//! Without an argument it replays a list of calls; `unhide` is the program of
//! that name; `check SEED COUNT` tries random calls against all assignments;
//! `cases` runs the named cases, `script` prints them as a list of calls, and
//! `script NAME` prints one of them.

mod tables;

mod refusal;
mod shape;
mod window;

mod join;
mod load;
mod text;
mod write;

mod comparison;
mod explain;
mod failed;
mod graph;
mod learn;
mod merge;
mod programme;
mod propagate;
mod run;
mod stamp;
mod sweep;
mod visits;

mod replay;
mod unhide;

mod cases;
mod check;
mod compare_calls;
mod compare_explain;
mod compare_figures;
mod compare_intervals;
mod compare_join;
mod compare_learn;
mod compare_programmes;
mod compare_reach;
mod compare_repeats;
mod compare_shares;
mod compare_values;
mod compare_walks;
mod named;
mod named_explain;
mod named_explain_refusals;
mod named_join;
mod named_join_limits;
mod named_join_refusals;
mod named_learn;
mod named_programmes;
mod named_reach;
mod named_window;
mod small;
mod transitive;
mod truth;

#[path = "../generate/calls.rs"]
mod calls;
#[path = "../generate/chained.rs"]
mod chained;
#[path = "../generate/forest.rs"]
mod forest;
#[path = "../generate/formulas.rs"]
mod formulas;
#[path = "../generate/implied.rs"]
mod implied;
#[path = "../generate/limit_pairs.rs"]
mod limit_pairs;
#[path = "../generate/links.rs"]
mod links;
#[path = "../generate/lists.rs"]
mod lists;
#[path = "../generate/newcomers.rs"]
mod newcomers;
#[path = "../generate/programmes.rs"]
mod programmes;
#[path = "../generate/random.rs"]
mod random;
#[path = "../generate/repeats.rs"]
mod repeats;
#[path = "../generate/splits.rs"]
mod splits;
#[path = "../generate/texts.rs"]
mod texts;
#[path = "../generate/valued.rs"]
mod valued;

use std::io::{Read, Write};
use std::process::exit;

fn main() {
    let arguments: Vec<String> = std::env::args().skip(1).collect();
    let arguments: Vec<&str> = arguments.iter().map(String::as_str).collect();
    match arguments[..] {
        [] => {
            let input = standard_input(replay::MOST_INPUT + 1);
            print(&replayed(&input));
        }
        ["unhide"] => {
            let input = standard_input(unhide::MOST_INPUT + 1);
            print(&unhide::unhide(&input));
        }
        ["check", seed, count] => match (seed.parse(), count.parse()) {
            (Ok(seed), Ok(count)) => exit(check::check(seed, count)),
            _ => usage(),
        },
        ["cases"] => exit(cases::cases()),
        ["script"] => print(&named::script()),
        ["script", name] => match named::cases().iter().find(|case| case.name == name) {
            Some(case) => print(&case.script()),
            None => usage(),
        },
        _ => usage(),
    }
}

/// What the replay of this input prints.
fn replayed(input: &[u8]) -> Vec<u8> {
    if input.len() > replay::MOST_INPUT {
        return b"error 0\n".to_vec();
    }
    let mut replay = replay::Replay::new();
    replay.take(input);
    replay.output
}

/// Standard input, or its first `most` bytes.
fn standard_input(most: usize) -> Vec<u8> {
    let mut input = Vec::new();
    std::io::stdin()
        .take(most as u64)
        .read_to_end(&mut input)
        .expect("standard input can be read");
    input
}

fn print(output: &[u8]) {
    std::io::stdout()
        .write_all(output)
        .expect("standard output can be written");
}

fn usage() {
    eprintln!("usage: second [unhide | check SEED COUNT | cases | script [NAME]]");
    exit(2);
}
