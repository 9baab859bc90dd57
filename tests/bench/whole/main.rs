//! Measures the program `unhide` and the C call on formulas of several kinds,
//! beside cadical's and minisat's preprocessing and the second implementation,
//! in one run, and counts instructions as formulas grow.
//!
//! `whole FOLDER` finds the programs in the folders target and crates/unhide/out and works in FOLDER.

mod formulas;
#[allow(dead_code)]
#[path = "../../generate/random.rs"]
mod random;

use formulas::{text, Kind, KINDS};
use random::Random;
use std::fs::{read, remove_file, write, File};
use std::process::{Command, Stdio};
use std::time::Instant;

const RUNS: usize = 41;
const SIZES: [usize; 4] = [512, 1024, 2048, 4096];
const GROWTH: f64 = 2.3;

/// A program that reads the formula `input` and writes a simplified one to `output`.
struct Rival {
    name: &'static str,
    arguments: Vec<String>,
    /// Whether it reads standard input and writes standard output.
    streams: bool,
}

fn main() {
    let folder = std::env::args().nth(1).expect("a folder to work in");
    let mut wrong = false;
    println!("medians of {RUNS} runs of whole processes; ratio: time of the other program / time of unhide");
    for kind in KINDS {
        wrong |= !compare(&folder, &kind);
    }
    println!("instructions of unhide at N = {SIZES:?}, and their growth for each doubling");
    for kind in KINDS {
        wrong |= !grow(&folder, &kind);
    }
    std::process::exit(wrong as i32);
}

fn formula(kind: &Kind, size: usize) -> (usize, usize, String) {
    let (variables, clauses) = (kind.make)(&mut Random::new(7), size);
    (variables, clauses.len(), text(variables, &clauses))
}

fn rivals(input: &str, output: &str) -> Vec<Rival> {
    let words = |line: &str| line.split(' ').map(str::to_string).collect();
    vec![
        Rival { name: "unhide", arguments: words("crates/unhide/out/unhide"), streams: true },
        Rival { name: "second", arguments: words("target/second unhide"), streams: true },
        Rival { name: "cadical", arguments: words(&format!("cadical -f -q -n -P1 -c 0 -o {output} {input}")), streams: false },
        Rival { name: "minisat", arguments: words(&format!("minisat -verb=0 -dimacs={output} {input}")), streams: false },
    ]
}

/// Runs it once; its time in microseconds if it wrote something.
fn time(rival: &Rival, input: &str, output: &str) -> Option<f64> {
    let _ = remove_file(output);
    let mut command = Command::new(&rival.arguments[0]);
    command.args(&rival.arguments[1..]).stderr(Stdio::null());
    if rival.streams {
        command.stdin(File::open(input).unwrap()).stdout(File::create(output).unwrap());
    } else {
        command.stdin(Stdio::null()).stdout(Stdio::null());
    }
    let start = Instant::now();
    command.status().ok()?;
    let taken = start.elapsed().as_secs_f64() * 1e6;
    let written = read(output).ok()?;
    (!written.is_empty()).then_some(taken)
}

fn median(mut times: Vec<f64>) -> f64 {
    times.sort_by(f64::total_cmp);
    times[times.len() / 2]
}

/// Prints the ratios for a kind; whether unhide is the fastest and agrees with the second implementation.
fn compare(folder: &str, kind: &Kind) -> bool {
    let (variables, clauses, text) = formula(kind, 4096);
    let (input, output) = (format!("{folder}/in.cnf"), format!("{folder}/out.cnf"));
    write(&input, &text).unwrap();
    let rivals = rivals(&input, &output);
    let mut times: Vec<Vec<f64>> = vec![Vec::new(); rivals.len()];
    for _ in 0..RUNS {
        for (rival, times) in rivals.iter().zip(&mut times) {
            times.extend(time(rival, &input, &output));
        }
    }
    let own = median(times[0].clone());
    print!("{:13} V {:4} N {:4}  unhide {:7.0} us  C call {:>7} us ", kind.name, variables, clauses, own, call(&input));
    let mut fastest = true;
    for (rival, times) in rivals.iter().zip(times).skip(1) {
        if times.len() == RUNS {
            let ratio = median(times) / own;
            fastest &= ratio > 1.0;
            print!(" {} {:.2}", rival.name, ratio);
        } else {
            print!(" {} wrote nothing", rival.name);
        }
    }
    println!("{}", if fastest { "" } else { "  ANOTHER IS FASTER" });
    agree(&rivals, &input, &output) && fastest
}

fn agree(rivals: &[Rival], input: &str, output: &str) -> bool {
    let outputs: Vec<Vec<u8>> = rivals[..2]
        .iter()
        .map(|rival| {
            time(rival, input, output);
            read(output).unwrap_or_default()
        })
        .collect();
    let same = outputs[0] == outputs[1] && outputs[0].starts_with(b"p cnf");
    if !same {
        println!("DIFFERENT, or refused: unhide and the second implementation on {input}");
    }
    same
}

/// What the C caller prints: the time of a call.
fn call(input: &str) -> String {
    match Command::new("target/bench_call").arg(input).output() {
        Ok(output) => String::from_utf8_lossy(&output.stdout).trim().to_string(),
        Err(_) => "-".to_string(),
    }
}

/// Prints the instruction counts of a kind; whether they grow by less than the goal.
fn grow(folder: &str, kind: &Kind) -> bool {
    let mut counts: Vec<f64> = Vec::new();
    for size in SIZES {
        let input = format!("{folder}/in.cnf");
        write(&input, formula(kind, size).2).unwrap();
        match instructions(&input) {
            Some(count) => counts.push(count),
            None => {
                println!("{:13} valgrind is missing: nothing is counted", kind.name);
                return true;
            }
        }
    }
    let growth: Vec<f64> = counts.windows(2).map(|pair| pair[1] / pair[0]).collect();
    print!("{:13}", kind.name);
    counts.iter().for_each(|count| print!(" {count:10.0}"));
    growth.iter().for_each(|ratio| print!("  {ratio:.2}"));
    let slow = growth.iter().any(|&ratio| ratio >= GROWTH);
    println!("{}", if slow { "  ABOVE THE GOAL" } else { "" });
    !slow
}

fn instructions(input: &str) -> Option<f64> {
    let output = Command::new("valgrind")
        .args(["--tool=callgrind", "--callgrind-out-file=/dev/null", "crates/unhide/out/unhide"])
        .stdin(File::open(input).unwrap())
        .stdout(Stdio::null())
        .output()
        .ok()?;
    let report = String::from_utf8_lossy(&output.stderr).to_string();
    let line = report.lines().find(|line| line.contains("Collected"))?;
    line.rsplit(' ').next()?.parse().ok()
}
