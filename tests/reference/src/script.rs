//! Script files: the tables, their reading (refusals 1 to 8) and their bytes.

pub const MAX_TYPES: usize = 64;
pub const MAX_INPUTS: usize = 16;
pub const MAX_NODES: usize = 4096;
pub const MAX_HEIGHT: usize = 256;

pub const HEAD_LENGTH: usize = 8;
pub const TYPE_LENGTH: usize = 6;
pub const INPUT_LENGTH: usize = 4;
pub const NODE_LENGTH: usize = 13;

/// Type 0: an early number. Type 1: late code. Listed function types follow.
pub const S: u16 = 0;
pub const D: u16 = 1;
pub const FIRST_LISTED: u16 = 2;

pub const CONSTANT: u8 = 0;
pub const VARIABLE: u8 = 1;
pub const LIFT: u8 = 2;
pub const FUNCTION: u8 = 3;
pub const APPLICATION: u8 = 4;
pub const FIX: u8 = 5;
pub const IF: u8 = 6;
pub const OPERATION: u8 = 7;
pub const LATE_FUNCTION: u8 = 8;
pub const LATE_APPLICATION: u8 = 9;
pub const LATE_FIX: u8 = 10;
pub const LATE_IF: u8 = 11;
pub const LATE_OPERATION: u8 = 12;

/// The signs of operators 0 to 5.
pub const OPERATORS: [&str; 6] = ["+", "-", "*", "/", "=", "<"];
pub const PLUS: u16 = 0;
pub const MINUS: u16 = 1;
pub const TIMES: u16 = 2;
pub const DIVIDE: u16 = 3;
pub const EQUAL: u16 = 4;
pub const LESS: u16 = 5;

/// What a kind does with one of its fields.
#[derive(Clone, Copy, Debug, PartialEq, Eq)]
pub enum Field {
    Unused,
    Child,
    /// The name of a variable.
    Name,
    /// The name that a function binds.
    Binder,
    Type,
    Operator,
}

use Field::{Binder, Child, Name, Operator, Type, Unused};

/// The thirteen rows: fields a, b, c of each kind.
pub const FIELDS: [[Field; 3]; 13] = [
    [Unused, Unused, Unused],
    [Name, Unused, Unused],
    [Child, Unused, Unused],
    [Binder, Type, Child],
    [Child, Child, Unused],
    [Child, Unused, Unused],
    [Child, Child, Child],
    [Child, Child, Operator],
    [Binder, Unused, Child],
    [Child, Child, Unused],
    [Child, Unused, Unused],
    [Child, Child, Child],
    [Child, Child, Operator],
];

/// A reply: its number, its place, and the steps of the run (0 before it).
#[derive(Clone, Copy, Debug, PartialEq, Eq)]
pub struct Reply {
    pub number: u8,
    pub place: usize,
    pub steps: usize,
}

impl Reply {
    pub fn new(number: u8, place: usize) -> Reply {
        Reply { number, place, steps: 0 }
    }
}

/// The counts in a head.
#[derive(Clone, Copy, Debug, PartialEq, Eq)]
pub struct Counts {
    pub types: usize,
    pub inputs: usize,
    pub nodes: usize,
}

impl Counts {
    /// The length that these counts give a script file.
    pub fn length(&self) -> usize {
        self.node_at(self.nodes)
    }

    /// The offset of a type record, counting listed types from 0.
    pub fn type_at(&self, index: usize) -> usize {
        HEAD_LENGTH + index * TYPE_LENGTH
    }

    pub fn input_at(&self, index: usize) -> usize {
        self.type_at(self.types) + index * INPUT_LENGTH
    }

    pub fn node_at(&self, index: usize) -> usize {
        self.input_at(self.inputs) + index * NODE_LENGTH
    }

    fn within_limits(&self) -> bool {
        self.types <= MAX_TYPES
            && self.inputs <= MAX_INPUTS
            && 1 <= self.nodes
            && self.nodes <= MAX_NODES
    }
}

#[derive(Clone, Copy, Debug, PartialEq, Eq)]
pub struct Node {
    pub kind: u8,
    pub fields: [u16; 3],
    pub value: i32,
}

impl Node {
    pub fn uses(&self) -> [Field; 3] {
        FIELDS[self.kind as usize]
    }

    /// The numbers of the children, in field order.
    pub fn children(&self) -> Vec<usize> {
        let uses = self.uses();
        (0..3).filter(|&f| uses[f] == Child).map(|f| self.fields[f] as usize).collect()
    }

    pub fn is_binder(&self) -> bool {
        self.uses()[0] == Binder
    }
}

/// The tables of a script.
#[derive(Clone, Debug, PartialEq, Eq)]
pub struct Script {
    /// Parameter and result of each listed function type, from type 2 on.
    pub types: Vec<(u16, u16)>,
    /// The type of each input.
    pub inputs: Vec<u16>,
    pub nodes: Vec<Node>,
}

impl Script {
    pub fn counts(&self) -> Counts {
        Counts { types: self.types.len(), inputs: self.inputs.len(), nodes: self.nodes.len() }
    }

    pub fn root(&self) -> usize {
        self.nodes.len() - 1
    }

    pub fn early_inputs(&self) -> usize {
        self.inputs.iter().filter(|&&t| t == S).count()
    }

    /// The parent of each node of a tree; the root has none.
    pub fn parents(&self) -> Vec<Option<usize>> {
        let mut parents = vec![None; self.nodes.len()];
        for (number, node) in self.nodes.iter().enumerate() {
            for child in node.children() {
                parents[child] = Some(number);
            }
        }
        parents
    }

    /// The innermost node around `number` that binds `name`.
    pub fn binder(&self, parents: &[Option<usize>], number: usize, name: u16) -> Option<usize> {
        let mut at = parents[number];
        while let Some(outer) = at {
            let node = &self.nodes[outer];
            if node.is_binder() && node.fields[0] == name {
                return Some(outer);
            }
            at = parents[outer];
        }
        None
    }

    /// Refusals 6, 7 and 8, for nodes that are each well formed.
    fn check_tree(&self) -> Result<(), Reply> {
        let mut used = vec![0; self.nodes.len()];
        for node in &self.nodes {
            for child in node.children() {
                used[child] += 1;
            }
        }
        if let Some(number) = (0..self.root()).find(|&number| used[number] != 1) {
            return Err(Reply::new(6, number));
        }

        let mut height = vec![0; self.nodes.len()];
        for (number, node) in self.nodes.iter().enumerate() {
            let below = node.children().iter().map(|&child| height[child]).max();
            height[number] = 1 + below.unwrap_or(0);
            if height[number] > MAX_HEIGHT {
                return Err(Reply::new(7, number));
            }
        }

        let parents = self.parents();
        for (number, node) in self.nodes.iter().enumerate() {
            if node.kind != VARIABLE {
                continue;
            }
            let name = node.fields[0];
            let is_input = (name as usize) < self.inputs.len();
            if !is_input && self.binder(&parents, number, name).is_none() {
                return Err(Reply::new(8, number));
            }
        }
        Ok(())
    }
}

fn word(bytes: &[u8], at: usize) -> u16 {
    u16::from_le_bytes([bytes[at], bytes[at + 1]])
}

fn signed(bytes: &[u8], at: usize) -> i32 {
    i32::from_le_bytes([bytes[at], bytes[at + 1], bytes[at + 2], bytes[at + 3]])
}

fn expect_mark(bytes: &[u8], at: usize, mark: &[u8; 2]) -> Result<(), Reply> {
    if &bytes[at..at + 2] == mark {
        Ok(())
    } else {
        Err(Reply::new(2, at))
    }
}

/// Reads the head alone: refusals 1 (below 8 bytes), 2 and 3.
pub fn read_head(bytes: &[u8]) -> Result<Counts, Reply> {
    if bytes.len() < HEAD_LENGTH {
        return Err(Reply::new(1, bytes.len()));
    }
    expect_mark(bytes, 0, b"HD")?;
    let counts = Counts {
        types: word(bytes, 2) as usize,
        inputs: word(bytes, 4) as usize,
        nodes: word(bytes, 6) as usize,
    };
    if counts.within_limits() {
        Ok(counts)
    } else {
        Err(Reply::new(3, 0))
    }
}

/// Reads a script file: refusals 1 to 8.
pub fn read(bytes: &[u8]) -> Result<Script, Reply> {
    let counts = read_head(bytes)?;
    if bytes.len() != counts.length() {
        return Err(Reply::new(1, bytes.len()));
    }
    let mut script = Script { types: vec![], inputs: vec![], nodes: vec![] };
    for index in 0..counts.types {
        let at = counts.type_at(index);
        expect_mark(bytes, at, b"TY")?;
        let pair = (word(bytes, at + 2), word(bytes, at + 4));
        let own = FIRST_LISTED + index as u16;
        if pair.0 >= own || pair.1 >= own || script.types.contains(&pair) {
            return Err(Reply::new(4, at));
        }
        script.types.push(pair);
    }
    for index in 0..counts.inputs {
        let at = counts.input_at(index);
        expect_mark(bytes, at, b"IN")?;
        let input = word(bytes, at + 2);
        if input > D {
            return Err(Reply::new(4, at));
        }
        script.inputs.push(input);
    }
    for number in 0..counts.nodes {
        let at = counts.node_at(number);
        expect_mark(bytes, at, b"ND")?;
        let node = Node {
            kind: bytes[at + 2],
            fields: [word(bytes, at + 3), word(bytes, at + 5), word(bytes, at + 7)],
            value: signed(bytes, at + 9),
        };
        if !well_formed(&node, number, &counts) {
            return Err(Reply::new(5, at));
        }
        script.nodes.push(node);
    }
    script.check_tree()?;
    Ok(script)
}

/// Whether a node record by itself is good (else refusal 5).
fn well_formed(node: &Node, number: usize, counts: &Counts) -> bool {
    if node.kind as usize >= FIELDS.len() {
        return false;
    }
    if node.kind != CONSTANT && node.value != 0 {
        return false;
    }
    let uses = node.uses();
    (0..3).all(|f| {
        let field = node.fields[f] as usize;
        match uses[f] {
            Unused => field == 0,
            Child => field < number,
            Name => true,
            Binder => field >= counts.inputs,
            Type => field < FIRST_LISTED as usize + counts.types,
            Operator => field < OPERATORS.len(),
        }
    })
}

/// The bytes of a script file, whatever its tables hold.
pub fn encode(script: &Script) -> Vec<u8> {
    let mut bytes = Vec::new();
    bytes.extend(b"HD");
    for count in [script.types.len(), script.inputs.len(), script.nodes.len()] {
        bytes.extend((count as u16).to_le_bytes());
    }
    for &(parameter, result) in &script.types {
        bytes.extend(b"TY");
        bytes.extend(parameter.to_le_bytes());
        bytes.extend(result.to_le_bytes());
    }
    for &input in &script.inputs {
        bytes.extend(b"IN");
        bytes.extend(input.to_le_bytes());
    }
    for node in &script.nodes {
        bytes.extend(b"ND");
        bytes.push(node.kind);
        for field in node.fields {
            bytes.extend(field.to_le_bytes());
        }
        bytes.extend(node.value.to_le_bytes());
    }
    bytes
}
