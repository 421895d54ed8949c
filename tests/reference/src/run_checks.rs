//! Trials of the plain run, of `benchrun`, and of the inputs that they are tried on.

use crate::assemble::assemble;
use crate::benchmake::{encode_settings, read_settings, split};
use crate::benchrun::{answer, benchrun};
use crate::generate::reading;
use crate::lent::{Entry, Memory};
use crate::plain::{run, Outcome, Ran};
use crate::run_trials::trials;
use crate::script::*;
use crate::self_check::{often, replies_trial, script_a, Tally};
use crate::specializer::{specialize, Lent, MAX_FUEL};

pub fn run_checks(tally: &mut Tally) {
    for trial in trials() {
        tally.trial(&format!("run: {}", trial.name), trial.call.answer(), trial.wanted);
    }
    printed_trials(tally);
    lent_trials(tally);
    reading_trials(tally);
    let differing: Vec<u64> = (0..3_000).filter(|&index| !agrees(index)).collect();
    tally.trial("plain runs and makings of the same steps", differing, vec![]);
}

fn printed_trials(tally: &mut Tally) {
    let a = encode(&script_a());
    let prints = |file: &[u8], rest: &[u8]| benchrun(&[file, rest].concat());
    let on = |file: &[u8], numbers: &[i32]| prints(file, &encode_settings(numbers));
    let said = |text: &str| text.to_string();
    tally.trial("A on 40 and 5", on(&a, &[40, 5]), said("steps 5\n1\n"));
    tally.trial("A on 40 and 5,000", on(&a, &[40, 5_000]), said("steps 5\n0\n"));
    tally.trial("A above", on(&a, &[21_474_837, 5]), said("stopped 24 2\n"));
    tally.trial("A below", on(&a, &[-21_474_837, 5]), said("stopped 29 2\n"));
    tally.trial("A on 40", on(&a, &[40]), said("refused 12 0\n"));
    tally.trial("A on three", on(&a, &[40, 5, 6]), said("refused 12 0\n"));
    let cut = prints(&a, &encode_settings(&[40, 5])[..11]);
    tally.trial("A on a number and a half", cut, said("refused 12 0\n"));
    let marked = prints(&a, b"SV\x28\0\0\0SW\x05\0\0\0");
    tally.trial("A on a wrong mark", marked, said("refused 12 0\n"));
    tally.trial("nothing", prints(&[], &[]), said("refused 1 0\n"));
    tally.trial("A, cut", prints(&a[..93], &[]), said("refused 1 93\n"));
    let file = |text: &str| encode(&assemble(text).expect("a good text"));
    let lone = |term: &str| on(&file(&format!("(script (types) (inputs) {term})")), &[]);
    tally.trial("a function", lone("(_lam v0 v0)"), said("steps 1\na function\n"));
    tally.trial("a low number", lone("-2147483648"), said("steps 1\n-2147483648\n"));
    tally.trial("a clash", lone("(+ 1 (_lam v0 v0))"), said("stopped 28 3\n"));
    tally.trial(
        "a free name",
        on(&file("(script (types) (inputs) v0)"), &[1]),
        said("refused 8 0\n"),
    );
}

/// The entry on lent memory: number, place, steps, function and value, and whether the heap was touched.
fn lent_trials(tally: &mut Tally) {
    let ran = |nodes: usize, numbers: &[i32], fuel: u32, heap: usize| {
        let mut memory = Memory::of(&script_a(), 3);
        memory.counts.nodes = nodes;
        memory.settings = numbers.to_vec();
        memory.fuel = fuel;
        memory.heap = vec![7; heap];
        let before = memory.clone();
        let answer = memory.call(Entry::Run);
        let zeros = heap > 0 && memory.heap.iter().all(|&place| place == 0);
        memory.heap = if zeros { before.heap.clone() } else { memory.heap };
        assert!(memory == before, "more was touched than the heap");
        (answer.number, answer.place, answer.steps, answer.value, zeros)
    };
    tally.trial("lent", ran(6, &[40, 5], 5, 21), (0, 0, 5, 1, true));
    tally.trial("lent, stopped", ran(6, &[40, 5], 4, 30), (22, 1, 4, 0, true));
    tally.trial("lent, above", ran(6, &[21_474_837, 5], 5, 21), (24, 2, 5, 0, true));
    tally.trial("lent, below", ran(6, &[-21_474_837, 5], 5, 21), (29, 2, 5, 0, true));
    tally.trial("lent, tables short", ran(7, &[], 16_001, 0), (1, 0, 0, 0, false));
    tally.trial("lent, no nodes", ran(0, &[], 16_001, 0), (3, 0, 0, 0, false));
    tally.trial("lent, unused nodes", ran(5, &[], 16_001, 0), (6, 3, 0, 0, false));
    tally.trial("lent, 12", ran(6, &[40], 16_001, 0), (12, 0, 0, 0, false));
    tally.trial("lent, 13", ran(6, &[40, 5], 16_001, 0), (13, 0, 0, 0, false));
    tally.trial("lent, fuel of 32 bits", ran(6, &[40, 5], u32::MAX, 9), (13, 0, 0, 0, false));
    tally.trial("lent, 20", ran(6, &[40, 5], 5, 20), (20, 0, 0, 0, false));
}

/// Among 5,000 inputs each reply occurs, a function too, and a third or more finish.
fn reading_trials(tally: &mut Tally) {
    let answers: Vec<_> = (0..5_000).map(|index| answer(&reading(1, index))).collect();
    let often = often(answers.iter().filter_map(|answer| Some(answer.err()?.number)));
    let wanted = [1, 2, 3, 4, 5, 6, 7, 8, 12, 22, 23, 24, 25, 28, 29];
    replies_trial(tally, "replies to readings", &often, &wanted);
    let finished: Vec<Ran> = answers.iter().filter_map(|answer| answer.ok()).collect();
    let functions = finished.iter().filter(|ran| ran.outcome == Outcome::Function).count();
    tally.trial("functions among readings", functions > 0, true);
    tally.trial("readings that finish", finished.len() * 3 >= answers.len(), true);
}

/// A script without lifts and all early, under one lift, and the number there of each node.
fn unmarked(script: &Script) -> (Script, Vec<usize>) {
    let mut nodes: Vec<Node> = vec![];
    let mut number: Vec<usize> = vec![];
    for &node in &script.nodes {
        let mut early = node;
        for (field, used) in node.uses().iter().enumerate() {
            if *used == Field::Child {
                early.fields[field] = number[node.fields[field] as usize] as u16;
            }
        }
        if node.kind == LIFT {
            number.push(early.fields[0] as usize);
            continue;
        }
        if node.kind >= LATE_FUNCTION {
            early.kind = node.kind - LATE_FUNCTION + FUNCTION;
        }
        number.push(nodes.len());
        nodes.push(early);
    }
    let root = nodes.len() as u16 - 1;
    nodes.push(Node { kind: LIFT, fields: [root, 0, 0], value: 0 });
    let inputs = vec![S; script.inputs.len()];
    (Script { types: script.types.clone(), inputs, nodes }, number)
}

/// Whether a plain run is the bare run of the same script without lifts, all early, under one lift: that takes one step more,
/// stands one deeper, and clashes with 27.
fn agrees(index: u64) -> bool {
    let input = reading(2, index);
    let (file, rest) = split(&input);
    let (Ok(script), Some(numbers)) = (read(file), read_settings(rest)) else { return true };
    let fuel = [MAX_FUEL - 1, 100, 20][index as usize % 3];
    let ran = run(&script, &numbers, fuel, MAX_FUEL + 16);
    let (early, number) = unmarked(&script);
    let made = specialize(&early, &numbers, fuel + 1, &Lent::AMPLE);
    let other = made.as_ref().err().copied();
    if let Some(Reply { number: 23, .. }) = other {
        // One deeper, it may be too deep where the plain run is not.
        return true;
    }
    match ran {
        Ok(Ran { steps, outcome: Outcome::Number(value) }) => {
            made.is_ok_and(|made| made.steps == steps + 1 && made.script.nodes[0].value == value)
        }
        Ok(Ran { steps, outcome: Outcome::Function }) => {
            other == Some(Reply { number: 27, place: early.root(), steps: steps + 1 })
        }
        Err(reply) if reply.number == 12 => other == Some(reply),
        Err(Reply { number: 28, place, steps }) => {
            other == Some(Reply { number: 27, place: number[place], steps: steps + 1 })
        }
        Err(reply) => {
            other == Some(Reply { place: number[reply.place], steps: reply.steps + 1, ..reply })
        }
    }
}
