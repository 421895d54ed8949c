//! A seeded corpus of `benchmake` inputs: scripts well typed by construction,
//! ill typed scripts, and damaged files; and one of `benchrun` inputs. Rows for
//! coin sensors have a part of their own.

pub mod bands;
mod builder;
mod damaged;
mod ends;
mod ill_typed;
mod late_numbers;
mod marks;
mod readings;
mod shapes;
mod sound;
mod well_typed;

use crate::assemble::{late_function, lay_out};
use crate::benchmake::encode_settings;
use crate::random::Random;
use crate::script::{encode, Field, Node, Script, D, S};

/// A way to make an input, and how often it is taken.
type Recipe = (usize, fn(&mut Random) -> Vec<u8>);

/// The input at one place of a seeded sequence.
pub fn input(seed: u64, index: u64) -> Vec<u8> {
    let recipes = [well_typed::RECIPES, ill_typed::RECIPES, damaged::RECIPES].concat();
    taken(&recipes, index, &mut Random::new(seed, index))
}

/// The same of whole files alone: two ill typed for each well typed one.
pub fn whole(seed: u64, index: u64) -> Vec<u8> {
    let mut random = Random::new(seed, index);
    if index % 3 == 0 {
        return taken(well_typed::RECIPES, index / 3, &mut random);
    }
    let recipes = [ill_typed::RECIPES, ill_typed::ORDERED].concat();
    taken(&recipes, index - index / 3 - 1, &mut random)
}

/// The input of `benchrun` at one place of a seeded sequence.
pub fn reading(seed: u64, index: u64) -> Vec<u8> {
    taken(readings::RECIPES, index, &mut Random::new(seed, index))
}

/// The recipe whose turn it is; each run of turns takes every recipe as often as its weight.
fn taken(recipes: &[Recipe], turn: u64, random: &mut Random) -> Vec<u8> {
    let total: usize = recipes.iter().map(|recipe| recipe.0).sum();
    let mut turn = turn as usize % total;
    for (weight, recipe) in recipes {
        if turn < *weight {
            return recipe(random);
        }
        turn -= weight;
    }
    unreachable!("a turn is below the sum of the weights")
}

/// A script that is long to check: 4,096 nodes, height 256, 64 types. Under 242 binders each leaf is an input, which is no
/// binder's name, or a function of the type that is listed last.
pub fn long_to_check() -> Script {
    let (binders, nodes) = (242, 4_096);
    let mut types = vec![];
    for last in 0..63 {
        types.push((if last == 0 { D } else { last + 1 }, D));
    }
    types.push((S, D));
    let term = (0..binders)
        .fold(shapes::leaves(nodes - binders, 0), |below, k| late_function(1 + k as u16, below));
    Script { types, inputs: vec![D], nodes: lay_out(&term) }
}

/// A script with settings for its early inputs.
fn with_settings(script: &Script, random: &mut Random) -> Vec<u8> {
    let settings = random_settings(script, random);
    with(script, &settings)
}

fn with(script: &Script, settings: &[i32]) -> Vec<u8> {
    let mut bytes = encode(script);
    bytes.extend(encode_settings(settings));
    bytes
}

fn random_settings(script: &Script, random: &mut Random) -> Vec<i32> {
    let early = script.inputs.iter().filter(|&&input| input == S);
    early.map(|_| random.number()).collect()
}

/// The settings among the numbers for all inputs.
fn settings_of(script: &Script, numbers: &[i32]) -> Vec<i32> {
    let early = script.inputs.iter().zip(numbers).filter(|(&input, _)| input == S);
    early.map(|(_, &number)| number).collect()
}

/// Numbers the nodes of a tree anew, at random, children below parents.
fn renumber(script: &mut Script, random: &mut Random) {
    let parents = script.parents();
    let mut waiting: Vec<usize> = script.nodes.iter().map(|n| n.children().len()).collect();
    let mut ready: Vec<usize> = (0..waiting.len()).filter(|&n| waiting[n] == 0).collect();
    let mut order = Vec::new();
    let mut number = vec![0; script.nodes.len()];
    // Either any node that is ready, or mostly the one that became so last.
    let jumpy = random.chance(50);
    while !ready.is_empty() {
        let jump = jumpy || random.chance(10);
        let at = if jump { random.below(ready.len()) } else { ready.len() - 1 };
        let old = ready.swap_remove(at);
        number[old] = order.len();
        order.push(old);
        if let Some(parent) = parents[old] {
            waiting[parent] -= 1;
            if waiting[parent] == 0 {
                ready.push(parent);
            }
        }
    }
    script.nodes = order.iter().map(|&old| shifted(script, old, |n| number[n])).collect();
}

/// A node with its children's numbers mapped.
fn shifted(script: &Script, old: usize, map: impl Fn(usize) -> usize) -> Node {
    let mut node = script.nodes[old];
    for (field, used) in node.uses().iter().enumerate() {
        if *used == Field::Child {
            node.fields[field] = map(node.fields[field] as usize) as u16;
        }
    }
    node
}

/// At times another numbering of the same tree.
fn maybe_renumber(script: &mut Script, random: &mut Random) {
    if random.chance(60) {
        renumber(script, random);
    }
}
