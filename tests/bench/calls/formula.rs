//! `formula KIND SIZE` prints the formula of that kind that `bench/whole` measures; without arguments it prints the kinds.

#[path = "../whole/formulas.rs"]
mod formulas;
#[allow(dead_code)]
#[path = "../../generate/random.rs"]
mod random;

use formulas::{text, KINDS};
use random::Random;

fn main() {
    let arguments: Vec<String> = std::env::args().skip(1).collect();
    let [name, size] = &arguments[..] else {
        KINDS.iter().for_each(|kind| println!("{}", kind.name));
        return;
    };
    let size = size.parse().expect("a number of clauses");
    let kind = KINDS.iter().find(|kind| kind.name == name).expect("a kind");
    let (variables, clauses) = (kind.make)(&mut Random::new(7), size);
    print!("{}", text(variables, &clauses));
}
