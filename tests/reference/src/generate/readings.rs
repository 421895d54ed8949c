//! Inputs of `benchrun`: scripts with a number for every input, finished code among them, runs at the limits, and numbers that
//! don't suit the script.

use super::late_numbers::LateNumbers;
use super::marks::{any_lifts, any_marks};
use super::sound::{to, Sort, Sound};
use super::{
    damaged, ends, ill_typed, maybe_renumber, settings_of, taken, well_typed, with, Recipe,
};
use crate::assemble::*;
use crate::benchmake::{encode_settings, split};
use crate::random::Random;
use crate::script::*;
use crate::specializer::{specialize, Lent};

pub const RECIPES: &[Recipe] = &[
    (36, sound),
    (10, slipping),
    (4, gives_a_function),
    (8, well_typed_script),
    (5, ill_typed_script),
    (20, damaged_file),
    (2, cut_short),
    (8, finished_numbers),
    (4, finished_code),
    (4, depth_end),
    (3, fuel_end),
    (2, both_ends),
    (4, range_end),
    (7, range_places),
    (6, bad_numbers),
];

/// Small numbers mostly.
fn numbers(count: usize, random: &mut Random) -> Vec<i32> {
    let extreme = random.pick(&[0, 0, 0, 0, 50]);
    let number = |random: &mut Random| {
        if random.chance(extreme) {
            random.border_number()
        } else {
            random.between(0, 16) as i32 - 4
        }
    };
    (0..count).map(|_| number(random)).collect()
}

/// A script file with a number for every input.
fn with_numbers(script: &Script, random: &mut Random) -> Vec<u8> {
    let numbers = numbers(script.inputs.len(), random);
    with(script, &numbers)
}

/// Any marks, lifts, listed types and numbering.
fn disguised(inputs: Vec<u16>, term: &Term, random: &mut Random) -> Script {
    let mut types = vec![(S, D), (D, D), (S, S), (2, 2)];
    types.truncate(random.below(5));
    let mut script = Script { types, inputs, nodes: lay_out(term) };
    disguise(&mut script, random);
    script
}

/// Any marks, lifts and numbering.
fn disguise(script: &mut Script, random: &mut Random) {
    any_marks(script, random);
    any_lifts(script, random);
    maybe_renumber(script, random);
}

fn sound_script(slips: usize, wanted: Option<Sort>, random: &mut Random) -> Script {
    let size = random.pick(&[2, 5, 10, 20, 40, 80, 160, 320]);
    let mut sound = Sound::new(random);
    sound.slips = slips;
    let term = sound.term(&wanted.unwrap_or(Sort::Number), size);
    let inputs = sound.inputs;
    disguised(inputs, &term, random)
}

fn sound(random: &mut Random) -> Vec<u8> {
    let script = sound_script(0, None, random);
    with_numbers(&script, random)
}

/// Some terms are a number in place of a function, or a function in place of a number.
fn slipping(random: &mut Random) -> Vec<u8> {
    let slips = random.pick(&[2, 5, 10, 25]);
    let script = sound_script(slips, None, random);
    with_numbers(&script, random)
}

fn gives_a_function(random: &mut Random) -> Vec<u8> {
    let wanted = to(Sound::new(random).random_sort(2), Sort::Number);
    let script = sound_script(0, Some(wanted), random);
    with_numbers(&script, random)
}

/// The script part of an input of `benchmake`, with a number for each input that its head counts.
fn renumbered(input: &[u8], random: &mut Random) -> Vec<u8> {
    let file = split(input).0;
    let count = read_head(file).map_or(0, |counts| counts.inputs);
    [file, &encode_settings(&numbers(count, random))].concat()
}

fn any_turn(random: &mut Random) -> u64 {
    random.below(1_000) as u64
}

fn well_typed_script(random: &mut Random) -> Vec<u8> {
    let input = taken(well_typed::RECIPES, any_turn(random), random);
    renumbered(&input, random)
}

fn ill_typed_script(random: &mut Random) -> Vec<u8> {
    let input = taken(ill_typed::RECIPES, any_turn(random), random);
    renumbered(&input, random)
}

/// At times with settings for the early inputs alone, which matters not after a refusal.
fn damaged_file(random: &mut Random) -> Vec<u8> {
    let input = taken(damaged::RECIPES, any_turn(random), random);
    if random.chance(50) {
        renumbered(&input, random)
    } else {
        input
    }
}

/// A file that ends before its last node does.
fn cut_short(random: &mut Random) -> Vec<u8> {
    let mut bytes = encode(&sound_script(0, None, random));
    let far = random.below(bytes.len());
    bytes.truncate(random.pick(&[bytes.len() - 1, far, far]));
    bytes
}

/// The finished code of a script for settings, with those settings and a number for each late input; without code, the script.
fn finished(script: &Script, numbers: &[i32]) -> Vec<u8> {
    match specialize(script, &settings_of(script, numbers), 4_000, &Lent::AMPLE) {
        Ok(made) => with(&made.script, numbers),
        Err(_) => with(script, numbers),
    }
}

/// Code of numbers alone, whose run mostly ends with a number.
fn finished_numbers(random: &mut Random) -> Vec<u8> {
    let inputs: Vec<u16> = (0..random.between(1, 5)).map(|_| random.pick(&[S, D])).collect();
    let size = random.pick(&[3, 8, 20, 50, 120]);
    let term = LateNumbers::new(random, &inputs).late(size);
    let mut script = Script { types: vec![(D, D)], inputs, nodes: lay_out(&term) };
    maybe_renumber(&mut script, random);
    finished(&script, &numbers(script.inputs.len(), random))
}

/// Code of any well typed script.
fn finished_code(random: &mut Random) -> Vec<u8> {
    let input = taken(well_typed::RECIPES, any_turn(random), random);
    match read(split(&input).0) {
        Ok(script) => finished(&script, &numbers(script.inputs.len(), random)),
        Err(_) => input,
    }
}

/// A recursion that counts down from a number: 11 steps and 4 deeper at each turn. Its names are p and p + 1.
fn count(p: u16, bottom: Term) -> Term {
    let k = p + 1;
    let rest = apply(variable(p), operation(MINUS, variable(k), constant(1)));
    let more = operation(PLUS, constant(1), rest);
    fix(function(p, S, function(k, S, if_else(variable(k), more, bottom))))
}

/// A recursion whose deepest visit stands near depth 2,000.
fn depth_end(random: &mut Random) -> Vec<u8> {
    let deepest = random.pick(&[1_998, 1_999, 2_000, 2_000, 2_001, 2_001, 2_002, 2_010]);
    // The deepest visit stands at 4 + 4 * turns + chain.
    let fewer = random.below(30);
    let turns = (deepest - 4) / 4 - fewer;
    let chain = deepest - 4 - 4 * turns;
    let bottom = (0..chain).fold(variable(0), |below, _| operation(PLUS, below, constant(0)));
    let term = apply(count(1, bottom), variable(0));
    let script = disguised(vec![random.pick(&[S, D])], &term, random);
    with(&script, &[turns as i32])
}

/// Three recursions that take near 16,000 steps together.
fn fuel_end(random: &mut Random) -> Vec<u8> {
    // 30 steps, 11 for each turn and 2 for each sum around them.
    let steps = random.between(15_996, 16_004) - 30;
    let turns = steps / 11 - steps % 11 % 2;
    let sums = (steps - 11 * turns) / 2;
    let third = turns / 3 - random.below(6);
    let call = |turns: usize| apply(variable(9), constant(turns as i32));
    let two = operation(PLUS, call(third), call(third));
    let three = operation(PLUS, two, call(turns - 2 * third));
    let sum = (0..sums).fold(three, |below, _| operation(PLUS, constant(0), below));
    let term = apply(function(9, S, sum), count(1, constant(0)));
    let script = disguised(vec![], &term, random);
    with_numbers(&script, random)
}

/// Fuel that is spent near the moment when a recursion gets too deep.
fn both_ends(random: &mut Random) -> Vec<u8> {
    let recursion = |turns: usize| apply(count(1, constant(0)), constant(turns as i32));
    let term = |turns: usize, sums: usize| {
        let two = operation(PLUS, recursion(turns / 2), recursion(turns - turns / 2));
        let sum = |below, _| operation(PLUS, constant(0), below);
        let first = operation(PLUS, two, (0..sums).fold(constant(0), sum));
        operation(PLUS, first, recursion(600))
    };
    // The third is too deep after 5,518 steps, and 11 for each turn of the others and 2 for each sum.
    let steps = random.between(15_998, 16_002) - 5_518;
    let turns = steps / 11 - steps % 11 % 2;
    let script = disguised(vec![], &term(turns, (steps - 11 * turns) / 2), random);
    with_numbers(&script, random)
}

/// An operation at the ends of the range, or on numbers from there.
fn range_end(random: &mut Random) -> Vec<u8> {
    if random.chance(50) {
        return well_typed::range_ends(random);
    }
    let number = |random: &mut Random| {
        let near = random.between(0, 4) as i32 - 2;
        let border = random.border_number();
        random.pick(&[border, border, near])
    };
    let operator = random.below(6) as u16;
    let mut term = operation(operator, variable(0), variable(1));
    if random.chance(40) {
        term = operation(random.below(6) as u16, constant(number(random)), term);
    }
    let script = disguised(vec![random.pick(&[S, D]), S], &term, random);
    with(&script, &[number(random), number(random)])
}

/// Operations at both ends of the range at various places of a script: with any marks, or as finished code.
fn range_places(random: &mut Random) -> Vec<u8> {
    let (mut script, numbers) = ends::script(random);
    if random.chance(30) {
        maybe_renumber(&mut script, random);
        return finished(&script, &numbers);
    }
    disguise(&mut script, random);
    with(&script, &numbers)
}

/// Numbers missing, too many, for the early inputs alone, cut or wrongly marked.
fn bad_numbers(random: &mut Random) -> Vec<u8> {
    let script = sound_script(0, None, random);
    let (all, early) = (script.inputs.len(), script.early_inputs());
    let count = match random.below(6) {
        0 => all.saturating_sub(1),
        1 => all + 1,
        2 => early,
        3 => random.below(20),
        _ => all,
    };
    let mut bytes = with(&script, &numbers(count, random));
    let start = encode(&script).len();
    if count == all && bytes.len() > start {
        match random.below(3) {
            0 => bytes.truncate(random.between(start, bytes.len() - 1)),
            1 => bytes[start + 6 * random.below(all) + random.below(2)] ^= 0x20,
            _ => bytes.extend(&b"SV\x01\x00\x00\x00"[..random.between(1, 6)]),
        }
    }
    bytes
}
