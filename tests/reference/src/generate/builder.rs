//! Terms well typed by construction.

use crate::assemble::*;
use crate::random::Random;
use crate::script::*;

/// Builds terms of wanted types, and lists the function types they need.
pub struct Builder<'r> {
    pub random: &'r mut Random,
    pub types: Vec<(u16, u16)>,
    pub inputs: Vec<u16>,
    /// Binders around the current place, the innermost last.
    scope: Vec<(u16, u16)>,
}

/// Hides a name from `variable_of` while its binder still rules.
const HIDDEN: u16 = u16::MAX;

impl<'r> Builder<'r> {
    pub fn new(random: &'r mut Random) -> Builder<'r> {
        let mut builder = Builder { random, types: vec![], inputs: vec![], scope: vec![] };
        let count = if builder.random.chance(10) {
            builder.random.pick(&[0, 15, 16])
        } else {
            builder.random.between(0, 4)
        };
        for _ in 0..count {
            let input = builder.random.pick(&[S, D]);
            builder.inputs.push(input);
        }
        for _ in 0..builder.random.below(4) {
            builder.random_type(3);
        }
        builder
    }

    /// The script with a term as its tree.
    pub fn script(&self, term: &Term) -> Script {
        Script { types: self.types.clone(), inputs: self.inputs.clone(), nodes: lay_out(term) }
    }

    /// The number of a function type, listed if it wasn't yet.
    pub fn function_type(&mut self, parameter: u16, result: u16) -> Option<u16> {
        let pair = (parameter, result);
        let known = self.types.iter().position(|&other| other == pair);
        if known.is_none() && self.types.len() == MAX_TYPES {
            return None;
        }
        let index = known.unwrap_or_else(|| {
            self.types.push(pair);
            self.types.len() - 1
        });
        Some(FIRST_LISTED + index as u16)
    }

    pub fn random_type(&mut self, depth: usize) -> u16 {
        if depth > 0 && self.random.chance(35) {
            let parameter = self.random_type(depth - 1);
            let result = self.random_type(depth - 1);
            return self.function_type(parameter, result).unwrap_or(D);
        }
        self.random.pick(&[S, D])
    }

    /// A name for a binder: new, or one that hides another.
    pub fn binder_name(&mut self) -> u16 {
        let first = self.inputs.len();
        match self.random.below(20) {
            0 => u16::MAX - self.random.below(3) as u16,
            1 => self.random.between(first, u16::MAX as usize) as u16,
            _ => (first + self.random.below(5)) as u16,
        }
    }

    /// A variable of the type, if one can be seen from here.
    fn variable_of(&mut self, wanted: u16) -> Option<Term> {
        let mut names: Vec<u16> = Vec::new();
        for (place, &(name, found)) in self.scope.iter().enumerate().rev() {
            let ruled = self.scope[place + 1..].iter().all(|other| other.0 != name);
            if ruled && found == wanted {
                names.push(name);
            }
        }
        for (name, &found) in self.inputs.iter().enumerate() {
            if found == wanted {
                names.push(name as u16);
            }
        }
        if names.is_empty() {
            return None;
        }
        // The innermost binder's variable is the likeliest.
        let likely = self.random.chance(40) && !self.scope.is_empty();
        let name = if likely { names[0] } else { self.random.pick(&names) };
        Some(variable(name))
    }

    /// A term under a binder.
    fn under(&mut self, name: u16, parameter: u16, wanted: u16, size: usize) -> Term {
        self.scope.push((name, parameter));
        let body = self.term(wanted, size);
        self.scope.pop();
        body
    }

    /// A term of the wanted type with roughly `size` nodes.
    pub fn term(&mut self, wanted: u16, size: usize) -> Term {
        if size <= 1 || self.random.chance(4) {
            return self.leaf(wanted);
        }
        match wanted {
            S => self.number_term(size),
            D => self.code_term(size),
            _ => self.function_term(wanted, size),
        }
    }

    fn leaf(&mut self, wanted: u16) -> Term {
        let known = self.variable_of(wanted);
        match wanted {
            S if known.is_none() || self.random.chance(50) => constant(self.random.number()),
            D if known.is_none() || self.random.chance(20) => lift(self.leaf(S)),
            _ if known.is_none() => self.function_leaf(wanted),
            _ => known.expect("a variable of the type"),
        }
    }

    fn function_leaf(&mut self, wanted: u16) -> Term {
        let (parameter, result) = self.types[(wanted - FIRST_LISTED) as usize];
        let name = self.binder_name();
        self.scope.push((name, parameter));
        let body = self.leaf(result);
        self.scope.pop();
        function(name, parameter, body)
    }

    /// Sizes of two children.
    fn halves(&mut self, size: usize) -> (usize, usize) {
        let left = self.random.below(size.max(2));
        (left, size.saturating_sub(1 + left))
    }

    fn number_term(&mut self, size: usize) -> Term {
        let (left, right) = self.halves(size);
        match self.random.below(10) {
            0..=4 => {
                let operator = self.random.below(6) as u16;
                operation(operator, self.term(S, left), self.term(S, right))
            }
            5 | 6 => self.if_term(S, size),
            7 => self.countdown(S, size),
            _ => self.application(S, size),
        }
    }

    fn code_term(&mut self, size: usize) -> Term {
        let (left, right) = self.halves(size);
        match self.random.below(18) {
            0 | 1 => lift(self.term(S, size - 1)),
            2..=4 => {
                let name = self.binder_name();
                late_function(name, self.under(name, D, D, size - 1))
            }
            5 | 6 => late_apply(self.term(D, left), self.term(D, right)),
            7 => late_fix(self.term(D, size - 1)),
            8 => {
                let third = size / 3;
                late_if(self.term(D, third), self.term(D, third), self.term(D, third))
            }
            9 | 10 => {
                let operator = self.random.below(6) as u16;
                late_operation(operator, self.term(D, left), self.term(D, right))
            }
            11 => self.if_term(D, size),
            12 | 13 => self.countdown(D, size),
            _ => self.application(D, size),
        }
    }

    fn function_term(&mut self, wanted: u16, size: usize) -> Term {
        let (parameter, result) = self.types[(wanted - FIRST_LISTED) as usize];
        match self.random.below(12) {
            0 => self.if_term(wanted, size),
            1 | 2 => self.application(wanted, size),
            3 => self.fix_term(wanted, size),
            4 => self.countdown(wanted, size),
            _ => {
                let name = self.binder_name();
                function(name, parameter, self.under(name, parameter, result, size - 1))
            }
        }
    }

    fn if_term(&mut self, wanted: u16, size: usize) -> Term {
        let third = size / 3;
        if_else(self.term(S, third), self.term(wanted, third), self.term(wanted, third))
    }

    fn application(&mut self, wanted: u16, size: usize) -> Term {
        let (left, right) = self.halves(size);
        let parameter = self.random_type(2);
        match self.function_type(parameter, wanted) {
            Some(function) => apply(self.term(function, left), self.term(parameter, right)),
            None => self.leaf(wanted),
        }
    }

    /// A fix of any function on the type: its run may well not end.
    fn fix_term(&mut self, wanted: u16, size: usize) -> Term {
        match self.function_type(wanted, wanted) {
            Some(function) => fix(self.term(function, size - 1)),
            None => self.leaf(wanted),
        }
    }

    /// A recursion over a falling number k, whose body sees k and the result
    /// for k - 1.
    fn countdown(&mut self, wanted: u16, size: usize) -> Term {
        let types = self.function_type(S, wanted).and_then(|recursive| {
            self.function_type(recursive, recursive)?;
            self.function_type(wanted, wanted)?;
            Some(recursive)
        });
        let Some(recursive) = types else { return self.leaf(wanted) };
        let (p, r) = (self.binder_name(), self.binder_name());
        let mut k = self.binder_name();
        while k == p {
            k = self.binder_name();
        }
        self.scope.push((p, HIDDEN));
        self.scope.push((k, S));
        let body = self.under(r, wanted, wanted, size / 2);
        let base = self.term(wanted, size / 4);
        self.scope.truncate(self.scope.len() - 2);
        let less = operation(MINUS, variable(k), constant(1));
        let rest = apply(variable(p), less);
        let turn = apply(function(r, wanted, body), rest);
        let choice = if_else(variable(k), turn, base);
        let start = match self.random.below(8) {
            0 => self.term(S, size / 8),
            1 => constant(self.random.between(12, 40) as i32),
            _ => constant(self.random.below(8) as i32),
        };
        apply(fix(function(p, recursive, function(k, S, choice))), start)
    }
}
