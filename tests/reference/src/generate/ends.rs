//! Well typed scripts with operations at both ends of the range, early and late, at various places.

use crate::assemble::*;
use crate::random::Random;
use crate::script::*;

/// Type 2 goes from numbers to numbers, and type 3 from type 2 to itself, for a fix.
const TYPES: [(u16, u16); 4] = [(S, S), (2, 2), (D, D), (S, D)];

const LOW: i64 = i32::MIN as i64;
const HIGH: i64 = i32::MAX as i64;

/// A script, and a number for each of its inputs.
pub fn script(random: &mut Random) -> (Script, Vec<i32>) {
    let inputs: Vec<u16> = (0..random.between(0, 5)).map(|_| random.pick(&[S, S, D])).collect();
    let size = random.below(4);
    let mut ends = Ends { random, numbers: vec![None; inputs.len()], inputs };
    let term = ends.code(size);
    let Ends { random, inputs, numbers } = ends;
    let numbers = numbers.iter().map(|number| number.unwrap_or_else(|| random.number())).collect();
    (Script { types: TYPES.to_vec(), inputs, nodes: lay_out(&term) }, numbers)
}

struct Ends<'r> {
    random: &'r mut Random,
    inputs: Vec<u16>,
    /// The numbers of those inputs that are used.
    numbers: Vec<Option<i32>>,
}

impl Ends<'_> {
    /// At times an input of the type that has no number yet, which is then this one.
    fn input(&mut self, wanted: u16, number: i32) -> Option<Term> {
        let free = |&name: &usize| self.inputs[name] == wanted && self.numbers[name].is_none();
        let name = (0..self.inputs.len()).find(free)?;
        if self.random.chance(30) {
            return None;
        }
        self.numbers[name] = Some(number);
        Some(variable(name as u16))
    }

    fn early_number(&mut self, number: i32) -> Term {
        self.input(S, number).unwrap_or(constant(number))
    }

    fn late_number(&mut self, number: i32) -> Term {
        self.input(D, number).unwrap_or_else(|| lift(self.early_number(number)))
    }

    fn name(&mut self) -> u16 {
        (self.inputs.len() + self.random.below(3)) as u16
    }

    fn operator(&mut self) -> u16 {
        self.random.below(6) as u16
    }

    fn small(&mut self) -> Term {
        constant(self.random.between(0, 4) as i32 - 2)
    }

    /// An early number, with more around the operations the greater the size is.
    fn early(&mut self, size: usize) -> Term {
        if size == 0 {
            let (operator, left, right) = near_an_end(self.random);
            return operation(operator, self.early_number(left), self.early_number(right));
        }
        let below = size - 1;
        let operator = self.operator();
        match self.random.below(8) {
            0 => operation(operator, self.early(below), self.small()),
            1 => operation(operator, self.small(), self.early(below)),
            2 => operation(operator, self.early(below), self.early(below)),
            3 => if_else(self.early(below), self.small(), self.early(0)),
            4 => if_else(self.small(), self.early(below), self.early(below)),
            5 => apply(function(self.name(), S, self.small()), self.early(below)),
            6 => self.body(),
            _ => self.recursion(),
        }
    }

    /// The body of a function of the left number.
    fn body(&mut self) -> Term {
        let (operator, left, right) = near_an_end(self.random);
        let name = self.name();
        let body = operation(operator, variable(name), self.early_number(right));
        apply(function(name, S, body), self.early_number(left))
    }

    /// A recursion that comes to an end of the range, or past it, at one of its last turns.
    fn recursion(&mut self) -> Term {
        let (operator, number, turns) = self.random.pick(&[
            (TIMES, 2, 31),
            (TIMES, -2, 31),
            (TIMES, 3, 20),
            (PLUS, 1 << 28, 8),
            (MINUS, 1 << 28, 8),
        ]);
        let turns = turns + self.random.below(4) as i32 - 1;
        let first = self.random.pick(&[1, -1]);
        let (p, k) = (self.inputs.len() as u16, self.inputs.len() as u16 + 1);
        let rest = apply(variable(p), operation(MINUS, variable(k), constant(1)));
        let turn = operation(operator, rest, constant(number));
        let body = if_else(variable(k), turn, constant(first));
        apply(fix(function(p, 2, function(k, S, body))), constant(turns))
    }

    /// Code, likewise.
    fn code(&mut self, size: usize) -> Term {
        let below = size.saturating_sub(1);
        match self.random.below(if size == 0 { 5 } else { 10 }) {
            0..=3 => lift(self.early(size)),
            4 => {
                let (operator, left, right) = near_an_end(self.random);
                late_operation(operator, self.late_number(left), self.late_number(right))
            }
            5 => late_operation(self.operator(), self.code(below), self.code(below)),
            6 => late_if(self.code(below), self.code(0), self.code(0)),
            7 => if_else(self.early(below), self.code(0), self.code(0)),
            8 => apply(function(self.name(), D, self.code(0)), self.code(below)),
            _ => late_apply(late_function(self.name(), self.code(0)), self.code(below)),
        }
    }
}

/// A number of the interval.
fn within(random: &mut Random, low: i64, high: i64) -> i64 {
    low + random.below((high - low + 1) as usize) as i64
}

/// An end of the range, or the second or third number there.
fn end(random: &mut Random) -> i64 {
    let near = random.pick(&[0, 0, 1, 2]);
    random.pick(&[HIGH - near, LOW + near])
}

/// An operator and two numbers. The result of `+ - *` mostly lies at an end of the range, on either side, or far outside.
fn near_an_end(random: &mut Random) -> (u16, i32, i32) {
    let operator =
        random.pick(&[PLUS, PLUS, PLUS, MINUS, MINUS, TIMES, TIMES, DIVIDE, EQUAL, LESS]);
    let outward = random.pick(&[-1, 0, 1, 1, 2]);
    let result = random.pick(&[HIGH + outward, LOW - outward]);
    let (left, right) = match operator {
        _ if random.chance(20) => (end(random), end(random)),
        PLUS => {
            let left = within(random, LOW.max(result - HIGH), HIGH.min(result - LOW));
            (left, result - left)
        }
        MINUS => {
            let right = within(random, LOW.max(LOW - result), HIGH.min(HIGH - result));
            (result + right, right)
        }
        TIMES => {
            let any = within(random, 2, 100_000);
            let left = random.pick(&[any, any, 1, 2, 3, 65_536]) * random.pick(&[1, -1]);
            (left, (result / left + within(random, -1, 1)).clamp(LOW, HIGH))
        }
        DIVIDE => (random.pick(&[LOW, LOW, HIGH]), random.pick(&[-1, -1, 1, 2, -2, 0])),
        _ => (end(random), end(random)),
    };
    (operator, left as i32, right as i32)
}
