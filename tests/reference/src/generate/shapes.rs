//! Terms of given sizes and heights.

use crate::assemble::*;
use crate::random::Random;
use crate::script::*;

/// A term under a chain of late fixes.
pub fn late_chain(length: usize, bottom: Term) -> Term {
    (0..length).fold(bottom, |below, _| late_fix(below))
}

/// A chain of late kinds, each with the given term as its deepest child.
pub fn mixed_chain(random: &mut Random, length: usize, name: u16, bottom: Term) -> Term {
    (0..length).fold(bottom, |below, _| match random.below(5) {
        0 => late_function(name, below),
        1 => late_operation(random.below(6) as u16, variable(name), below),
        2 => late_apply(below, variable(name)),
        _ => late_fix(below),
    })
}

/// A late tree of exactly `size` nodes over variables of the given name; its
/// late functions bind the next name.
pub fn late_tree(random: &mut Random, size: usize, name: u16) -> Term {
    match size {
        0 | 1 => variable(name),
        2 if random.chance(50) => lift(constant(random.number())),
        2 | 3 if random.chance(20) => late_fix(late_tree(random, size - 1, name)),
        2 => late_function(name + 1, variable(name + random.below(2) as u16)),
        _ if size > 3 && random.chance(25) => {
            let (first, second) = (size / 3, size / 3);
            let third = size - 1 - first - second;
            late_if(
                late_tree(random, first, name),
                late_tree(random, second, name),
                late_tree(random, third, name),
            )
        }
        _ => {
            let quarter = (size - 1) / 4;
            let left = random.between(quarter.max(1), size - 1 - quarter.max(1));
            let right = size - 1 - left;
            let (left, right) = (late_tree(random, left, name), late_tree(random, right, name));
            if random.chance(50) {
                late_apply(left, right)
            } else {
                late_operation(random.below(6) as u16, left, right)
            }
        }
    }
}

/// An even late tree of exactly `size` nodes over an input, in part as the result of a function of a number.
pub fn leaves(size: usize, input: u16) -> Term {
    match size {
        0 | 1 => variable(input),
        2 => late_fix(variable(input)),
        4..=7 => apply(function(u16::MAX, S, leaves(size - 3, input)), constant(1)),
        _ => {
            let half = (size - 1) / 2;
            late_operation(PLUS, leaves(half, input), leaves(size - 1 - half, input))
        }
    }
}

/// A script without types.
pub fn untyped(inputs: &[u16], term: &Term) -> Script {
    Script { types: vec![], inputs: inputs.to_vec(), nodes: lay_out(term) }
}
