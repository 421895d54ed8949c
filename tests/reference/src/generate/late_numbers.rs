//! Well typed scripts whose code is of numbers alone, so that a plain run of it mostly ends with a number. The type from D to D is
//! to be listed.

use crate::assemble::*;
use crate::random::Random;
use crate::script::*;

pub struct LateNumbers<'r> {
    random: &'r mut Random,
    settings: Vec<u16>,
    /// The late inputs, then the names of functions around the current place.
    names: Vec<u16>,
    inputs: usize,
}

impl<'r> LateNumbers<'r> {
    pub fn new(random: &'r mut Random, inputs: &[u16]) -> LateNumbers<'r> {
        let all = 0..inputs.len() as u16;
        let (settings, names) = all.partition(|&name| inputs[name as usize] == S);
        LateNumbers { random, settings, names, inputs: inputs.len() }
    }

    /// A number from the settings.
    fn early(&mut self, size: usize) -> Term {
        if size > 1 {
            let operator = self.random.pick(&[PLUS, MINUS, TIMES, EQUAL, LESS]);
            return operation(operator, self.early(size / 2), self.early(size / 2));
        }
        if self.settings.is_empty() || self.random.chance(40) {
            return constant(self.random.between(0, 16) as i32 - 4);
        }
        variable(self.random.pick(&self.settings))
    }

    /// Code of a number, with roughly `size` nodes.
    pub fn late(&mut self, size: usize) -> Term {
        let (half, third) = (size / 2, size / 3);
        if size <= 1 {
            return self.leaf();
        }
        match self.random.below(12) {
            0..=3 => {
                let operator = self.random.pick(&[PLUS, MINUS, LESS, EQUAL, PLUS, TIMES, DIVIDE]);
                late_operation(operator, self.late(half), self.late(half))
            }
            4 | 5 => late_if(self.late(third), self.late(third), self.late(third)),
            6 => lift(self.early(size - 1)),
            7 => if_else(self.early(third), self.late(third), self.late(third)),
            8 => self.sum(half),
            9 => {
                let (name, body) = self.under(half);
                apply(function(name, D, body), self.late(half))
            }
            _ => {
                let (name, body) = self.under(half);
                late_apply(late_function(name, body), self.late(half))
            }
        }
    }

    fn leaf(&mut self) -> Term {
        if self.names.is_empty() || self.random.chance(30) {
            return lift(self.early(1));
        }
        variable(self.random.pick(&self.names))
    }

    /// A name, and a body that may use it.
    fn under(&mut self, size: usize) -> (u16, Term) {
        let name = (self.inputs + self.random.below(3)) as u16;
        self.names.push(name);
        let body = self.late(size);
        self.names.pop();
        (name, body)
    }

    /// A late recursion over a falling number, down to a base that uses none of its names.
    fn sum(&mut self, size: usize) -> Term {
        let base = self.late(size);
        let (p, k) = (self.inputs as u16 + 8, self.inputs as u16 + 9);
        let less = late_operation(MINUS, variable(k), lift(constant(1)));
        let more = late_operation(PLUS, variable(k), late_apply(variable(p), less));
        let body = late_if(variable(k), more, base);
        let turns = self.random.below(6) as i32;
        late_apply(late_fix(late_function(p, late_function(k, body))), lift(constant(turns)))
    }
}
