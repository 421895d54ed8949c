//! Each entry on one script file, and all that was lent, printed: what the callers in `tests/entries` print. The entry for bands
//! takes rows, and has a function of its own.

use crate::lent::{Answer, BandCall, Columns, Entry, Memory};
use crate::script::{Counts, MAX_INPUTS, MAX_NODES, MAX_TYPES};
use crate::specializer::MAX_FUEL;
use std::fmt::Display;

/// The places of a piece of memory, a run of equal ones told once.
fn places<T: PartialEq + Display>(name: &str, places: &[T]) -> String {
    let mut line = name.to_string();
    for run in places.chunk_by(|x, y| x == y) {
        line += &format!(" {}", run[0]);
        if run.len() > 1 {
            line += &format!("*{}", run.len());
        }
    }
    line + "\n"
}

/// Calls one entry, with stores and output as they were before the first.
fn told(entry: Entry, name: &str, memory: &mut Memory) -> String {
    memory.heap.fill(600);
    memory.codes.fill(700);
    memory.out.fill(238);
    let answer = memory.call(entry);
    let mut text = format!("{name}: number {} place {}", answer.number, answer.place);
    let Counts { types, inputs, nodes } = answer.counts;
    text += &match entry {
        Entry::Read => format!(" types {types} inputs {inputs} nodes {nodes}\n"),
        Entry::Write | Entry::List => format!(" length {}\n", answer.length),
        Entry::Check => "\n".to_string(),
        Entry::Make | Entry::BareRun => format!(" steps {} nodes {}\n", answer.steps, answer.nodes),
        Entry::Run => {
            let (steps, function, value) = (answer.steps, answer.function as u8, answer.value);
            format!(" steps {steps} function {function} value {value}\n")
        }
    };
    if entry == Entry::Read {
        memory.counts = answer.counts;
        let columns = &memory.columns;
        text += &places("parameters", &columns.parameters);
        text += &places("results", &columns.results);
        text += &places("inputs", &columns.inputs);
        text += &places("kinds", &columns.kinds);
        text += &places("a", &columns.a);
        text += &places("b", &columns.b);
        text += &places("c", &columns.c);
        text += &places("values", &columns.values);
    }
    if matches!(entry, Entry::Make | Entry::BareRun | Entry::Run) {
        text += &places("heap", &memory.heap);
    }
    if matches!(entry, Entry::Make | Entry::BareRun) {
        text += &places("codes", &memory.codes);
    }
    if !matches!(entry, Entry::Read | Entry::Check | Entry::Run) {
        text += &places("out", &memory.out);
    }
    text
}

/// Columns of any lengths.
fn columns(lengths: [usize; 8]) -> Columns {
    Columns {
        parameters: vec![100; lengths[0]],
        results: vec![101; lengths[1]],
        inputs: vec![102; lengths[2]],
        kinds: vec![103; lengths[3]],
        a: vec![104; lengths[4]],
        b: vec![105; lengths[5]],
        c: vec![106; lengths[6]],
        values: vec![107; lengths[7]],
    }
}

/// All entries, one after the other, with stores and an output of these lengths; then reading, making and running with what is
/// enough for any script. The numbers are the settings, and what the script is run on.
pub fn entries(file: &[u8], fuel: u32, lengths: [usize; 3], numbers: &[i32]) -> String {
    let few = Memory {
        file: file.to_vec(),
        counts: Counts { types: 0, inputs: 0, nodes: 0 },
        columns: columns([5, 6, 7, 40, 41, 42, 43, 44]),
        settings: numbers.to_vec(),
        fuel,
        heap: vec![0; lengths[0]],
        codes: vec![0; lengths[1]],
        out: vec![0; lengths[2]],
    };
    let (types, nodes) = (MAX_TYPES, MAX_NODES);
    let longest = Counts { types, inputs: MAX_INPUTS, nodes }.length();
    let any = Memory {
        columns: columns([types, types, MAX_INPUTS, nodes, nodes, nodes, nodes, nodes]),
        fuel: MAX_FUEL as u32,
        heap: vec![0; MAX_FUEL + 16],
        codes: vec![0; 2 * MAX_FUEL + 16],
        out: vec![0; longest],
        ..few.clone()
    };
    let (read, make) = ((Entry::Read, "read"), (Entry::Make, "make"));
    let (write, list) = ((Entry::Write, "write"), (Entry::List, "list"));
    let (check, bare_run) = ((Entry::Check, "check"), (Entry::BareRun, "bare_run"));
    let run = (Entry::Run, "run");
    let all = |mut memory: Memory, entries: &[(Entry, &str)]| -> String {
        entries.iter().map(|&(entry, name)| told(entry, name, &mut memory)).collect()
    };
    all(few, &[read, write, list, check, make, bare_run, run]) + &all(any, &[read, make, run])
}

/// The entry for bands on columns of any lengths, with an output of this length.
pub fn bands(count: u16, room: usize, columns: [Vec<i32>; 3]) -> String {
    let [low, high, grade] = columns;
    let mut call = BandCall { count, low, high, grade, out: vec![BandCall::FRESH; room] };
    let Answer { number, place, length, .. } = call.call();
    let reply = format!("bands: number {number} place {place} length {length}\n");
    reply + &places("out", &call.out)
}
