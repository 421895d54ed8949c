//! Compares what a program prints with the own answer, on seeded inputs.

use crate::script::Reply;
use crate::{benchmake, benchrun, generate};
use std::collections::BTreeMap;
use std::fs;
use std::io::Write;
use std::path::Path;
use std::process::{Command, Stdio};
use std::thread;

/// A program of the product: its seeded inputs, and the own answer to one.
pub struct Program {
    input: fn(u64, u64) -> Vec<u8>,
    number: fn(&[u8]) -> u8,
    prints: fn(&[u8]) -> String,
}

/// The number of a reply, 0 for a success.
fn number<T>(answer: Result<T, Reply>) -> u8 {
    answer.map_or_else(|reply| reply.number, |_| 0)
}

pub const BENCHMAKE: Program = Program {
    input: generate::input,
    number: |input| number(benchmake::answer(input, benchmake::FUEL)),
    prints: benchmake::benchmake,
};

pub const BENCHRUN: Program = Program {
    input: generate::reading,
    number: |input| number(benchrun::answer(input)),
    prints: benchrun::benchrun,
};

/// Feeds seeded inputs to a built program and tells whether it prints the own answers. The first input that differs is kept in a
/// file.
pub fn differ(
    program: &Program,
    path: &str,
    seed: u64,
    count: u64,
    keep: Option<&Path>,
) -> Result<bool, String> {
    let mut differences = 0;
    let mut replies = BTreeMap::new();
    for index in 0..count {
        let input = (program.input)(seed, index);
        *replies.entry((program.number)(&input)).or_insert(0) += 1;
        let wanted = (program.prints)(&input);
        let got = printed_by(path, input.clone())?;
        if got.as_deref() == Some(wanted.as_bytes()) {
            continue;
        }
        differences += 1;
        if differences == 1 {
            tell(index, &wanted, got.as_deref());
            keep_first(keep, &input)?;
        }
    }
    Ok(sum_up(&replies, count, differences))
}

/// Keeps an input in a file, if there is one for it.
pub fn keep_first(keep: Option<&Path>, input: &[u8]) -> Result<(), String> {
    let Some(path) = keep else { return Ok(()) };
    fs::write(path, input).map_err(|e| format!("{}: {e}", path.display()))
}

/// Prints how often each reply occurred, and tells whether there were no differences.
pub fn sum_up(replies: &BTreeMap<u8, u64>, count: u64, differences: u64) -> bool {
    let often: Vec<String> = replies.iter().map(|(n, often)| format!("{n}: {often}")).collect();
    println!("{}", often.join(", "));
    println!("{count} inputs, {differences} differences");
    differences == 0
}

/// Prints a difference.
fn tell(index: u64, wanted: &str, got: Option<&[u8]>) {
    println!("input {index}: wanted {:?}", shortened(wanted.as_bytes()));
    match got {
        Some(got) => println!("input {index}: got {:?}", shortened(got)),
        None => println!("input {index}: ended by a signal"),
    }
}

pub fn shortened(text: &[u8]) -> String {
    String::from_utf8_lossy(&text[..text.len().min(200)]).into_owned()
}

/// What a program prints for an input; nothing if a signal ended it.
fn printed_by(program: &str, input: Vec<u8>) -> Result<Option<Vec<u8>>, String> {
    let mut child = Command::new(program)
        .stdin(Stdio::piped())
        .stdout(Stdio::piped())
        .spawn()
        .map_err(|e| format!("{program}: {e}"))?;
    let mut pipe = child.stdin.take().expect("a pipe to the program");
    // A program may end before it has read everything.
    let feeder = thread::spawn(move || pipe.write_all(&input).ok());
    let output = child.wait_with_output().map_err(|e| format!("{program}: {e}"))?;
    feeder.join().ok();
    Ok(output.status.code().map(|_| output.stdout))
}
