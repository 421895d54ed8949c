//! Calls every entry of the library on lent memory, by the header and by the wrapper, and compares with the second implementation:
//! every field of the reply, and all that was lent, in every place. It prints how often each entry gave each number and each way of
//! lending was tried; it fails where one never was. To COUNT calls it adds the listings of decimals, and COUNT / 6 calls for bands behind
//! the hand-made ones.
//!   calls SEED COUNT

mod bands;
mod cases;
mod ways;

use cases::{case, oddities, ENTRIES};
use reference::decimal_trials::{listed, Listed};
use reference::lent::{Answer, Entry, Memory};
use reference::random::Random;
use std::collections::BTreeMap;
use std::fmt::Debug;
use std::process::ExitCode;
use ways::{by_header, by_wrapper};

/// The numbers that each entry can give; tables have no marks, so that only the reader gives 2.
fn numbers(entry: Entry) -> Vec<usize> {
    let own: &[usize] = match entry {
        Entry::Read => &[2, 21],
        Entry::Write | Entry::List => &[21],
        Entry::Check => &[9, 10, 11],
        Entry::Make => &[9, 10, 11, 12, 13, 20, 21, 22, 23, 24, 25, 26, 29],
        Entry::BareRun => &[12, 13, 20, 21, 22, 23, 24, 25, 26, 27, 29],
        Entry::Run => &[12, 13, 20, 22, 23, 24, 25, 28, 29],
    };
    let mut all = [&[0, 1, 3, 4, 5, 6, 7, 8], own].concat();
    all.sort();
    all
}

/// The first place in which two pieces differ, if they do.
fn place<T: PartialEq + Debug>(name: &str, wanted: &[T], got: &[T]) -> Option<String> {
    if wanted.len() != got.len() {
        return Some(format!("{name}: {} places, not {}", got.len(), wanted.len()));
    }
    let at = (0..wanted.len()).find(|&at| wanted[at] != got[at])?;
    Some(format!("{name}[{at}]: wanted {:?}, got {:?}", wanted[at], got[at]))
}

/// What differs between the wanted and the given end of a call.
fn difference(wanted: &(Answer, Memory), answer: Answer, after: &Memory) -> Option<String> {
    if wanted.0 != answer {
        return Some(format!("wanted {:?}, got {answer:?}", wanted.0));
    }
    let (w, g) = (&wanted.1, after);
    let (v, h) = (&w.columns, &g.columns);
    place("file", &w.file, &g.file)
        .or_else(|| place("parameters", &v.parameters, &h.parameters))
        .or_else(|| place("results", &v.results, &h.results))
        .or_else(|| place("inputs", &v.inputs, &h.inputs))
        .or_else(|| place("kinds", &v.kinds, &h.kinds))
        .or_else(|| place("a", &v.a, &h.a))
        .or_else(|| place("b", &v.b, &h.b))
        .or_else(|| place("c", &v.c, &h.c))
        .or_else(|| place("values", &v.values, &h.values))
        .or_else(|| place("settings", &w.settings, &g.settings))
        .or_else(|| place("heap", &w.heap, &g.heap))
        .or_else(|| place("codes", &w.codes, &g.codes))
        .or_else(|| place("out", &w.out, &g.out))
}

/// What has been tried: how often each entry gave each number, and how often a call was odd in each way.
#[derive(Default)]
struct Tally {
    numbers: [BTreeMap<usize, usize>; ENTRIES.len()],
    oddities: BTreeMap<&'static str, usize>,
    decimals: BTreeMap<usize, usize>,
    bands: BTreeMap<u8, usize>,
    differences: usize,
}

impl Tally {
    /// Compares a call both ways; the number of the reply.
    fn compare(&mut self, index: u64, entry: Entry, memory: &Memory, random: &mut Random) -> usize {
        let mut end = memory.clone();
        let wanted = (end.call(entry), end);
        let (answer, after, kept) = by_header(entry, memory, random);
        let margin = (!kept).then(|| "a margin was written to".to_string());
        self.tell(index, entry, "header", difference(&wanted, answer, &after).or(margin));
        let (answer, after) = by_wrapper(entry, memory);
        self.tell(index, entry, "wrapper", difference(&wanted, answer, &after));
        wanted.0.number as usize
    }

    /// Lists all numbers and names around the powers of ten, into outputs that fit, are longer, and are one byte short.
    fn try_decimals(&mut self, seed: u64) {
        for Listed { script, text, .. } in listed() {
            for room in [text.len(), text.len() + 3, text.len() - 1] {
                let number = self.compare(room as u64, Entry::List, &Memory::of(&script, room), &mut Random::new(seed, 0));
                *self.decimals.entry(number).or_default() += 1;
            }
        }
    }

    fn try_call(&mut self, seed: u64, index: u64) {
        let (entry, memory) = case(seed, index);
        let number = self.compare(index, entry, &memory, &mut Random::new(seed, index));
        *self.numbers[entry as usize].entry(number).or_default() += 1;
        for (name, holds) in oddities(entry, &memory) {
            *self.oddities.entry(name).or_default() += usize::from(holds);
        }
    }

    fn tell(&mut self, index: u64, entry: Entry, way: &str, difference: Option<String>) {
        if let Some(what) = difference {
            self.differences += 1;
            println!("call {index} of {entry:?}, by the {way}: {what}");
        }
    }

    /// Prints what was tried, and tells whether all of it was and nothing differed.
    fn print(&self) -> bool {
        let mut missing = self.oddities.values().filter(|&&often| often == 0).count();
        let mut tried = 0;
        for entry in ENTRIES {
            let given = &self.numbers[entry as usize];
            let calls: usize = given.values().sum();
            let line: Vec<String> = given.iter().map(|(number, often)| format!("{number}: {often}")).collect();
            println!("{entry:?}: {calls} calls ({})", line.join(", "));
            missing += numbers(entry).iter().filter(|number| !given.contains_key(number)).count();
            tried += calls;
        }
        for (name, often) in &self.oddities {
            println!("{name}: {often}");
        }
        missing += [0, 21].iter().filter(|number| !self.decimals.contains_key(number)).count();
        println!("listings of decimals around the powers of ten, by their numbers: {:?}", self.decimals);
        missing += bands::NUMBERS.iter().filter(|number| !self.bands.contains_key(number)).count();
        println!("bands, by their numbers: {:?}", self.bands);
        let differences = self.differences;
        println!("{tried} calls, by the header and by the wrapper: {differences} differences, {missing} not tried");
        differences + missing == 0
    }
}

fn main() -> ExitCode {
    let words: Vec<u64> = std::env::args().skip(1).filter_map(|word| word.parse().ok()).collect();
    let [seed, count] = words[..] else {
        eprintln!("calls SEED COUNT");
        return ExitCode::from(2);
    };
    let mut tally = Tally::default();
    tally.try_decimals(seed);
    let (given, differences) = bands::try_all(seed, count as usize / 6);
    tally.bands = given;
    tally.differences += differences;
    for index in 0..count {
        tally.try_call(seed, index);
        if tally.differences > 20 {
            break;
        }
    }
    if tally.print() {
        ExitCode::SUCCESS
    } else {
        ExitCode::FAILURE
    }
}
