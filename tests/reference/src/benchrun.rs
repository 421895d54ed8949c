//! What the program `benchrun` prints for the bytes of its standard input.

use crate::benchmake::{read_settings, split};
use crate::plain::{run, Outcome, Ran};
use crate::script::{read, Reply};
use crate::specializer::MAX_FUEL;

pub const FUEL: usize = MAX_FUEL;

/// The plain run on the numbers that follow the script.
pub fn answer(input: &[u8]) -> Result<Ran, Reply> {
    let (file, rest) = split(input);
    let script = read(file)?;
    let numbers = read_settings(rest).ok_or(Reply::new(12, 0))?;
    run(&script, &numbers, FUEL, FUEL + 16)
}

/// What the program prints.
pub fn benchrun(input: &[u8]) -> String {
    match answer(input) {
        Ok(Ran { steps, outcome: Outcome::Number(number) }) => format!("steps {steps}\n{number}\n"),
        Ok(Ran { steps, outcome: Outcome::Function }) => format!("steps {steps}\na function\n"),
        Err(Reply { number, place, .. }) if number < 20 => format!("refused {number} {place}\n"),
        Err(Reply { number, place, .. }) => format!("stopped {number} {place}\n"),
    }
}
