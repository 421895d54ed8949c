//! Runs a script on a number for every input, in order: run SCRIPT [NUMBER..]. It prints the reply, in
//! words too where a result leaves the range, and the result, a number or "a function". Exit status: 0
//! with a result, 1 without, 2 where a word or a file is at fault.

use scriptmaker::{number, Outcome, Ran, Refusal, Script, MAX_FUEL, MAX_INPUTS};
use std::ffi::{OsStr, OsString};
use std::fmt::Display;
use std::io::Write;
use std::path::Path;
use std::process::ExitCode;

fn main() -> ExitCode {
    let words: Vec<OsString> = std::env::args_os().skip(1).collect();
    let mut said = String::new();
    let status = run(&words, &mut said).unwrap_or_else(complain);
    let mut out = std::io::stdout();
    let printed = out.write_all(said.as_bytes()).and_then(|()| out.flush());
    ExitCode::from(printed.map_or_else(|error| complain(format!("standard output: {error}")), |()| status))
}

fn complain(message: String) -> u8 {
    _ = writeln!(std::io::stderr(), "{message}");
    2
}

fn about(name: &OsStr, what: impl Display) -> String {
    format!("{}: {what}", Path::new(name).display())
}

/// A word as a number.
fn number(word: &OsString) -> Result<i32, String> {
    let number = word.to_str().and_then(|word| word.parse().ok());
    number.ok_or_else(|| about(word, "not a whole number of 32 bits"))
}

/// The exit status, or what to complain of.
fn run(words: &[OsString], said: &mut String) -> Result<u8, String> {
    let [script, numbers @ ..] = words else {
        return Err("run SCRIPT [NUMBER..]".to_string());
    };
    let numbers = numbers.iter().map(number).collect::<Result<Vec<i32>, String>>()?;
    let file = std::fs::read(script).map_err(|error| about(script, error))?;
    let reply = ran(&file, &numbers, said);
    Ok(if reply.is_some() { 0 } else { 1 })
}

/// What the script gives, if the run finishes.
fn ran(file: &[u8], numbers: &[i32], said: &mut String) -> Option<Ran> {
    let mut script = Script::new();
    let refused = |f: Refusal| format!("refused {} {}\n", f.number, f.place);
    script.read(file).map_err(|f| *said += &refused(f)).ok()?;

    let mut heap = vec![0; MAX_FUEL as usize + MAX_INPUTS];
    let reply = script.run(numbers, MAX_FUEL, &mut heap);
    let (number, place, steps) = match reply {
        Ok(ran) => (0, 0, ran.steps),
        Err(f) => (f.number, f.place, f.steps),
    };
    *said += &format!("ran: number {number} place {place} steps {steps}\n");
    match number {
        number::ABOVE_RANGE => *said += &format!("the result of node {place} is above 2147483647\n"),
        number::BELOW_RANGE => *said += &format!("the result of node {place} is below -2147483648\n"),
        _ => (),
    }
    let ran = reply.ok()?;
    *said += &match ran.outcome {
        Outcome::Number(value) => format!("{value}\n"),
        Outcome::Function => "a function\n".to_string(),
    };
    Some(ran)
}
