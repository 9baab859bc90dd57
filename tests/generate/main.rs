//! `generate SEED COUNT` prints a random script for a replay, of about COUNT
//! calls. It follows the script with the second implementation, so that most
//! calls are accepted.

mod calls;
mod chained;
mod class_values;
mod comparisons;
mod damage;
mod drafts;
mod explain_lines;
mod explains;
mod far;
mod forest;
mod formulas;
mod implied;
mod join_lines;
mod joins;
mod learn_lines;
mod limit_pairs;
mod limits;
mod links;
mod lists;
mod near;
mod newcomers;
mod programme_damage;
mod programme_lines;
mod programmes;
mod random;
mod repeats;
mod script;
mod splits;
mod texts;
mod valued;
mod window_damage;

#[path = "../second/comparison.rs"]
mod comparison;
#[path = "../second/explain.rs"]
mod explain;
#[path = "../second/failed.rs"]
mod failed;
#[path = "../second/graph.rs"]
mod graph;
#[path = "../second/join.rs"]
mod join;
#[path = "../second/learn.rs"]
mod learn;
#[path = "../second/load.rs"]
mod load;
#[path = "../second/merge.rs"]
mod merge;
#[path = "../second/programme.rs"]
mod programme;
#[path = "../second/propagate.rs"]
mod propagate;
#[path = "../second/refusal.rs"]
mod refusal;
#[path = "../second/replay.rs"]
mod replay;
#[path = "../second/run.rs"]
mod run;
#[path = "../second/shape.rs"]
mod shape;
#[path = "../second/stamp.rs"]
mod stamp;
#[path = "../second/sweep.rs"]
mod sweep;
#[path = "../second/tables.rs"]
mod tables;
#[path = "../second/text.rs"]
mod text;
#[path = "../second/visits.rs"]
mod visits;
#[path = "../second/window.rs"]
mod window;
#[path = "../second/write.rs"]
mod write;

use std::io::Write;

fn main() {
    let numbers: Vec<u64> = std::env::args()
        .skip(1)
        .flat_map(|word| word.parse())
        .collect();
    let [seed, count] = numbers[..] else {
        eprintln!("usage: generate SEED COUNT");
        std::process::exit(2);
    };
    let script = script::script(seed, count as usize);
    std::io::stdout()
        .write_all(&script)
        .expect("standard output can be written");
}
