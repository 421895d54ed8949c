//! Scripts from terms, and terms from a small text notation (for tests).
//!
//! `(script (types (S D) (t2 t2)) (inputs S D) TERM)` with terms
//! `7`, `i0`, `v2`, `(lift e)`, `(lam v2 S e)`, `(app e e)`, `(fix e)`,
//! `(if e e e)`, `(+ e e)`, and the late kinds with a leading `_`:
//! `(_lam v2 e)`, `(_app e e)`, `(_fix e)`, `(_if e e e)`, `(_+ e e)`.

use crate::script::*;

/// A node with its children; the node's own child fields are still 0.
#[derive(Clone, Debug)]
pub struct Term {
    pub node: Node,
    pub children: Vec<Term>,
}

fn term(kind: u8, fields: [u16; 3], children: Vec<Term>) -> Term {
    Term { node: Node { kind, fields, value: 0 }, children }
}

pub fn constant(value: i32) -> Term {
    Term { node: Node { kind: CONSTANT, fields: [0; 3], value }, children: vec![] }
}

pub fn variable(name: u16) -> Term {
    term(VARIABLE, [name, 0, 0], vec![])
}

pub fn lift(child: Term) -> Term {
    term(LIFT, [0; 3], vec![child])
}

pub fn function(name: u16, parameter: u16, body: Term) -> Term {
    term(FUNCTION, [name, parameter, 0], vec![body])
}

pub fn apply(function: Term, argument: Term) -> Term {
    term(APPLICATION, [0; 3], vec![function, argument])
}

pub fn fix(child: Term) -> Term {
    term(FIX, [0; 3], vec![child])
}

pub fn if_else(condition: Term, second: Term, third: Term) -> Term {
    term(IF, [0; 3], vec![condition, second, third])
}

pub fn operation(operator: u16, left: Term, right: Term) -> Term {
    term(OPERATION, [0, 0, operator], vec![left, right])
}

pub fn late_function(name: u16, body: Term) -> Term {
    term(LATE_FUNCTION, [name, 0, 0], vec![body])
}

pub fn late_apply(function: Term, argument: Term) -> Term {
    term(LATE_APPLICATION, [0; 3], vec![function, argument])
}

pub fn late_fix(child: Term) -> Term {
    term(LATE_FIX, [0; 3], vec![child])
}

pub fn late_if(condition: Term, second: Term, third: Term) -> Term {
    term(LATE_IF, [0; 3], vec![condition, second, third])
}

pub fn late_operation(operator: u16, left: Term, right: Term) -> Term {
    term(LATE_OPERATION, [0, 0, operator], vec![left, right])
}

/// The nodes of a term, children in field order just before their parent.
pub fn lay_out(term: &Term) -> Vec<Node> {
    let mut nodes = Vec::new();
    place(term, &mut nodes);
    nodes
}

fn place(term: &Term, nodes: &mut Vec<Node>) -> u16 {
    let mut node = term.node;
    let uses = node.uses();
    let fields = (0..3).filter(|&f| uses[f] == Field::Child);
    for (field, child) in fields.zip(&term.children) {
        node.fields[field] = place(child, nodes);
    }
    nodes.push(node);
    nodes.len() as u16 - 1
}

/// A script from its text.
pub fn assemble(text: &str) -> Result<Script, String> {
    let tokens = text.replace('(', " ( ").replace(')', " ) ");
    let mut reader = Reader { tokens: tokens.split_whitespace().collect(), at: 0 };
    reader.take("(")?;
    reader.take("script")?;
    let types = reader.types()?;
    let inputs = reader.inputs()?;
    let body = reader.term()?;
    reader.take(")")?;
    match reader.tokens.get(reader.at) {
        None => Ok(Script { types, inputs, nodes: lay_out(&body) }),
        Some(more) => Err(format!("{more} after the end")),
    }
}

struct Reader<'t> {
    tokens: Vec<&'t str>,
    at: usize,
}

impl<'t> Reader<'t> {
    fn peek(&self) -> Result<&'t str, String> {
        self.tokens.get(self.at).copied().ok_or("text ends early".to_string())
    }

    fn next(&mut self) -> Result<&'t str, String> {
        let token = self.peek()?;
        self.at += 1;
        Ok(token)
    }

    fn take(&mut self, wanted: &str) -> Result<(), String> {
        match self.next()? {
            token if token == wanted => Ok(()),
            token => Err(format!("{token} in place of {wanted}")),
        }
    }

    fn types(&mut self) -> Result<Vec<(u16, u16)>, String> {
        let mut types = Vec::new();
        self.take("(")?;
        self.take("types")?;
        while self.peek()? == "(" {
            self.take("(")?;
            types.push((self.type_number()?, self.type_number()?));
            self.take(")")?;
        }
        self.take(")")?;
        Ok(types)
    }

    fn inputs(&mut self) -> Result<Vec<u16>, String> {
        let mut inputs = Vec::new();
        self.take("(")?;
        self.take("inputs")?;
        while self.peek()? != ")" {
            inputs.push(self.type_number()?);
        }
        self.take(")")?;
        Ok(inputs)
    }

    fn type_number(&mut self) -> Result<u16, String> {
        match self.next()? {
            "S" => Ok(S),
            "D" => Ok(D),
            token => numbered(token, &["t"]).ok_or(format!("{token} is no type")),
        }
    }

    fn name(&mut self) -> Result<u16, String> {
        let token = self.next()?;
        numbered(token, &["i", "v"]).ok_or(format!("{token} is no name"))
    }

    fn term(&mut self) -> Result<Term, String> {
        let token = self.next()?;
        if token != "(" {
            let value = token.parse().map(constant).ok();
            let name = numbered(token, &["i", "v"]).map(variable);
            return value.or(name).ok_or(format!("{token} is no term"));
        }
        let word = self.next()?;
        let term = match word {
            "lift" => lift(self.term()?),
            "lam" => function(self.name()?, self.type_number()?, self.term()?),
            "app" => apply(self.term()?, self.term()?),
            "fix" => fix(self.term()?),
            "if" => if_else(self.term()?, self.term()?, self.term()?),
            "_lam" => late_function(self.name()?, self.term()?),
            "_app" => late_apply(self.term()?, self.term()?),
            "_fix" => late_fix(self.term()?),
            "_if" => late_if(self.term()?, self.term()?, self.term()?),
            _ => {
                let sign = word.trim_start_matches('_');
                let operator = OPERATORS.iter().position(|&known| known == sign);
                let operator = operator.ok_or(format!("{word} is no step"))? as u16;
                let build = if word == sign { operation } else { late_operation };
                build(operator, self.term()?, self.term()?)
            }
        };
        self.take(")")?;
        Ok(term)
    }
}

/// The number in a word such as `v2`, behind one of the given letters.
fn numbered(word: &str, letters: &[&str]) -> Option<u16> {
    letters.iter().find_map(|letter| word.strip_prefix(letter)?.parse().ok())
}
