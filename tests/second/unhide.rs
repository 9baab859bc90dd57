//! The program `unhide`: standard input is loaded, simplified by one round
//! and written.

use crate::load::load;
use crate::refusal::{refuse, Refusal};
use crate::run::run;
use crate::tables::Formula;
use crate::window::Window;
use crate::write::write;

pub const MOST_INPUT: usize = 65_535;
const OUTPUT: usize = 65_536;

/// What the program prints for this input.
pub fn unhide(input: &[u8]) -> Vec<u8> {
    match simplified(input) {
        Ok(text) => text,
        Err(refusal) => format!("refused {} {}\n", refusal.number, refusal.place).into_bytes(),
    }
}

fn simplified(input: &[u8]) -> Result<Vec<u8>, Refusal> {
    if input.len() > MOST_INPUT {
        return refuse(3, MOST_INPUT);
    }
    let mut formula = Formula::empty();
    load(&mut formula, &mut Window::empty(), input)?;
    if !formula.state.mark {
        run(&mut formula, 1)?;
    }
    write(&formula, OUTPUT)
}
