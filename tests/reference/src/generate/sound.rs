//! Terms that are sound without their marks: numbers are used as numbers, functions as functions. All marks are early; `marks.rs`
//! gives others.

use crate::assemble::*;
use crate::random::Random;
use crate::script::*;

/// What a value is: a number, or a function from one sort to another.
#[derive(Clone, PartialEq, Eq)]
pub enum Sort {
    Number,
    Function(Box<Sort>, Box<Sort>),
}

pub fn to(parameter: Sort, result: Sort) -> Sort {
    Sort::Function(Box::new(parameter), Box::new(result))
}

/// Builds terms of wanted sorts.
pub struct Sound<'r> {
    pub random: &'r mut Random,
    pub inputs: Vec<u16>,
    /// How many terms of a hundred are of another sort than is wanted.
    pub slips: usize,
    /// Binders around the current place, the innermost last; a binder without a sort only hides.
    scope: Vec<(u16, Option<Sort>)>,
}

impl<'r> Sound<'r> {
    pub fn new(random: &'r mut Random) -> Sound<'r> {
        let few = random.between(0, 4);
        let count = random.pick(&[few, few, few, few, few, few, few, few, 0, 15, 16]);
        let inputs = (0..count).map(|_| random.pick(&[S, D])).collect();
        Sound { random, inputs, slips: 0, scope: vec![] }
    }

    pub fn random_sort(&mut self, depth: usize) -> Sort {
        if depth > 0 && self.random.chance(30) {
            let parameter = self.random_sort(depth - 1);
            return to(parameter, self.random_sort(depth - 1));
        }
        Sort::Number
    }

    /// A term of the wanted sort with roughly `size` nodes.
    pub fn term(&mut self, wanted: &Sort, size: usize) -> Term {
        if self.random.chance(self.slips) {
            let other = match wanted {
                Sort::Number => to(Sort::Number, Sort::Number),
                Sort::Function(..) => Sort::Number,
            };
            return self.leaf(&other);
        }
        if size <= 1 || self.random.chance(3) {
            return self.leaf(wanted);
        }
        match wanted {
            Sort::Number => self.number_term(size),
            Sort::Function(parameter, result) => match self.random.below(10) {
                0 => self.choice(wanted, size),
                1 => self.application(wanted, size),
                2 => self.countdown(wanted, size),
                3 => fix(self.term(&to(wanted.clone(), wanted.clone()), size - 1)),
                _ => self.lambda(parameter, result, size),
            },
        }
    }

    fn number_term(&mut self, size: usize) -> Term {
        match self.random.below(12) {
            0..=4 => self.operation(size),
            5 | 6 => self.choice(&Sort::Number, size),
            7 | 8 => self.countdown(&Sort::Number, size),
            9 => self.tree_recursion(),
            _ => self.application(&Sort::Number, size),
        }
    }

    /// A name for a binder: new, or one that hides another.
    fn binder_name(&mut self) -> u16 {
        let first = self.inputs.len();
        match self.random.below(20) {
            0 => u16::MAX - self.random.below(3) as u16,
            1 => self.random.between(first, u16::MAX as usize) as u16,
            _ => (first + self.random.below(5)) as u16,
        }
    }

    /// The names of the wanted sort that can be seen from here, the innermost first.
    fn names_of(&self, wanted: &Sort) -> Vec<u16> {
        let mut names = vec![];
        for (place, (name, sort)) in self.scope.iter().enumerate().rev() {
            let ruled = self.scope[place + 1..].iter().all(|inner| inner.0 != *name);
            if ruled && sort.as_ref() == Some(wanted) {
                names.push(*name);
            }
        }
        if *wanted == Sort::Number {
            names.extend(0..self.inputs.len() as u16);
        }
        names
    }

    fn leaf(&mut self, wanted: &Sort) -> Term {
        let names = self.names_of(wanted);
        let known = !names.is_empty();
        match wanted {
            Sort::Number if !known || self.random.chance(35) => constant(self.small()),
            Sort::Function(parameter, result) if !known => {
                self.lambda(&parameter.clone(), &result.clone(), 0)
            }
            _ if self.random.chance(40) => variable(names[0]),
            _ => variable(self.random.pick(&names)),
        }
    }

    fn small(&mut self) -> i32 {
        if self.random.chance(97) {
            self.random.between(0, 16) as i32 - 4
        } else {
            self.random.border_number()
        }
    }

    /// Sizes of two children.
    fn halves(&mut self, size: usize) -> (usize, usize) {
        let left = self.random.below(size.max(2));
        (left, size.saturating_sub(1 + left))
    }

    fn lambda(&mut self, parameter: &Sort, result: &Sort, size: usize) -> Term {
        let name = self.binder_name();
        self.scope.push((name, Some(parameter.clone())));
        let body = self.term(result, size.saturating_sub(1));
        self.scope.pop();
        function(name, S, body)
    }

    fn operation(&mut self, size: usize) -> Term {
        let (left, right) = self.halves(size);
        let operator = self.random.pick(&[PLUS, PLUS, MINUS, MINUS, LESS, EQUAL, TIMES, DIVIDE]);
        let left = self.term(&Sort::Number, left);
        let right = match operator {
            DIVIDE if self.random.chance(80) => constant(self.random.pick(&[1, -1, 2, 3, -7])),
            TIMES if self.random.chance(60) => constant(self.small()),
            _ => self.term(&Sort::Number, right),
        };
        operation(operator, left, right)
    }

    fn choice(&mut self, wanted: &Sort, size: usize) -> Term {
        let third = size / 3;
        let condition = self.term(&Sort::Number, third);
        if_else(condition, self.term(wanted, third), self.term(wanted, third))
    }

    fn application(&mut self, wanted: &Sort, size: usize) -> Term {
        let (left, right) = self.halves(size);
        let parameter = self.random_sort(2);
        let applied = self.term(&to(parameter.clone(), wanted.clone()), left);
        apply(applied, self.term(&parameter, right))
    }

    /// A recursion over a falling number k, whose body sees k and the result for k - 1.
    fn countdown(&mut self, wanted: &Sort, size: usize) -> Term {
        let (p, r) = (self.binder_name(), self.binder_name());
        let mut k = self.binder_name();
        while k == p {
            k = self.binder_name();
        }
        self.scope.push((p, None));
        self.scope.push((k, Some(Sort::Number)));
        self.scope.push((r, Some(wanted.clone())));
        let body = self.term(wanted, size / 3);
        self.scope.pop();
        let base = self.term(wanted, size / 4);
        self.scope.truncate(self.scope.len() - 2);
        let rest = apply(variable(p), operation(MINUS, variable(k), constant(1)));
        let turn = apply(function(r, S, body), rest);
        let choice = if_else(variable(k), turn, base);
        let body =
            if self.random.chance(self.slips) { constant(1) } else { function(k, S, choice) };
        let start = match self.random.below(30) {
            0 => self.term(&Sort::Number, size / 8),
            1 => constant(self.random.between(12, 40) as i32),
            _ => constant(self.random.below(6) as i32),
        };
        apply(fix(function(p, S, body)), start)
    }

    /// Two calls at each turn, of which the greatest spend all fuel.
    fn tree_recursion(&mut self) -> Term {
        let (p, k) = (self.inputs.len() as u16, self.inputs.len() as u16 + 1);
        let less = |by| apply(variable(p), operation(MINUS, variable(k), constant(by)));
        let small = operation(LESS, variable(k), constant(2));
        let body = if_else(small, variable(k), operation(PLUS, less(1), less(2)));
        let few = self.random.below(7) as i32;
        let many = self.random.between(7, 25) as i32;
        let start = self.random.pick(&[few, few, few, few, few, many]);
        apply(fix(function(p, S, function(k, S, body))), constant(start))
    }
}
