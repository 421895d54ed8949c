//! The entries on lent memory: the reply of each, and what it leaves in what it was lent.

use crate::bands::{self, Row};
use crate::checker;
use crate::listing::listing;
use crate::plain::{run, Outcome};
use crate::script::{encode, read, Counts, Node, Reply, Script, MAX_NODES};
use crate::specializer::{specialize, Lent};

#[derive(Clone, Copy, Debug, PartialEq, Eq)]
pub enum Entry {
    Read,
    Write,
    List,
    Check,
    Make,
    BareRun,
    Run,
}

/// The tables of a script as columns, of any lengths and with any contents.
#[derive(Clone, Debug, Default, PartialEq, Eq)]
pub struct Columns {
    pub parameters: Vec<u16>,
    pub results: Vec<u16>,
    pub inputs: Vec<u16>,
    pub kinds: Vec<u8>,
    pub a: Vec<u16>,
    pub b: Vec<u16>,
    pub c: Vec<u16>,
    pub values: Vec<i32>,
}

/// All that a call may be lent. An entry leaves alone what it does not take. The settings are the numbers of a plain run too.
#[derive(Clone, Debug, PartialEq, Eq)]
pub struct Memory {
    pub file: Vec<u8>,
    pub counts: Counts,
    pub columns: Columns,
    pub settings: Vec<i32>,
    pub fuel: u32,
    pub heap: Vec<u64>,
    pub codes: Vec<u64>,
    pub out: Vec<u8>,
}

/// A reply with all that some entry tells: the counts of what was read, the bytes of what was written, the nodes of made code,
/// whether a plain run gave a function, and else its number. What an entry does not tell is 0, and so is everything but number,
/// place and steps after a refusal or a stop.
#[derive(Clone, Copy, Debug, PartialEq, Eq)]
pub struct Answer {
    pub number: u8,
    pub place: usize,
    pub steps: usize,
    pub counts: Counts,
    pub length: usize,
    pub nodes: usize,
    pub function: bool,
    pub value: i32,
}

impl Answer {
    pub const SUCCESS: Answer = Answer {
        number: 0,
        place: 0,
        steps: 0,
        counts: Counts { types: 0, inputs: 0, nodes: 0 },
        length: 0,
        nodes: 0,
        function: false,
        value: 0,
    };

    pub fn without(Reply { number, place, steps }: Reply) -> Answer {
        Answer { number, place, steps, ..Answer::SUCCESS }
    }
}

impl Columns {
    /// The columns of records, whatever they hold.
    pub fn of(script: &Script) -> Columns {
        let nodes = &script.nodes;
        Columns {
            parameters: script.types.iter().map(|pair| pair.0).collect(),
            results: script.types.iter().map(|pair| pair.1).collect(),
            inputs: script.inputs.clone(),
            kinds: nodes.iter().map(|node| node.kind).collect(),
            a: nodes.iter().map(|node| node.fields[0]).collect(),
            b: nodes.iter().map(|node| node.fields[1]).collect(),
            c: nodes.iter().map(|node| node.fields[2]).collect(),
            values: nodes.iter().map(|node| node.value).collect(),
        }
    }

    /// Whether one of them is shorter than the counts.
    fn short(&self, counts: &Counts) -> bool {
        let types = self.parameters.len().min(self.results.len());
        let fields = self.a.len().min(self.b.len()).min(self.c.len());
        let nodes = self.kinds.len().min(fields).min(self.values.len());
        types < counts.types || self.inputs.len() < counts.inputs || nodes < counts.nodes
    }

    /// The first records, as many as the counts say.
    fn records(&self, counts: &Counts) -> Script {
        let node = |k: usize| Node {
            kind: self.kinds[k],
            fields: [self.a[k], self.b[k], self.c[k]],
            value: self.values[k],
        };
        Script {
            types: (0..counts.types).map(|k| (self.parameters[k], self.results[k])).collect(),
            inputs: self.inputs[..counts.inputs].to_vec(),
            nodes: (0..counts.nodes).map(node).collect(),
        }
    }

    /// Puts the columns of a script into the first places.
    fn fill(&mut self, script: &Script) {
        let new = Columns::of(script);
        put(&mut self.parameters, &new.parameters);
        put(&mut self.results, &new.results);
        put(&mut self.inputs, &new.inputs);
        put(&mut self.kinds, &new.kinds);
        put(&mut self.a, &new.a);
        put(&mut self.b, &new.b);
        put(&mut self.c, &new.c);
        put(&mut self.values, &new.values);
    }
}

fn put<T: Copy>(lent: &mut [T], first: &[T]) {
    lent[..first.len()].copy_from_slice(first);
}

/// A text into an output; a short output gives 21.
fn written(out: &mut [u8], text: &[u8]) -> Result<Answer, Reply> {
    if out.len() < text.len() {
        return Err(Reply::new(21, 0));
    }
    put(out, text);
    Ok(Answer { length: text.len(), ..Answer::SUCCESS })
}

impl Memory {
    /// A script's file and its tables, no stores, and an output of zeros.
    pub fn of(script: &Script, room: usize) -> Memory {
        Memory {
            file: encode(script),
            counts: script.counts(),
            columns: Columns::of(script),
            settings: vec![],
            fuel: 0,
            heap: vec![],
            codes: vec![],
            out: vec![0; room],
        }
    }

    /// The script in the tables. Tables shorter than the counts give 1 [0]; then come the refusals of the reader of their file.
    fn script(&self) -> Result<Script, Reply> {
        if self.columns.short(&self.counts) {
            return Err(Reply::new(1, 0));
        }
        read(&encode(&self.columns.records(&self.counts)))
    }

    /// Tables shorter than the counts of the file give 21, after all refusals.
    fn read(&mut self) -> Result<Answer, Reply> {
        let script = read(&self.file)?;
        if self.columns.short(&script.counts()) {
            return Err(Reply::new(21, 0));
        }
        self.columns.fill(&script);
        Ok(Answer { counts: script.counts(), ..Answer::SUCCESS })
    }

    /// The stores hold zeros after any run, and are untouched before it.
    fn made(&mut self, script: &Script) -> Result<Answer, Reply> {
        let lent = Lent { store: self.heap.len(), code: self.codes.len(), output: MAX_NODES };
        let outcome = specialize(script, &self.settings, self.fuel as usize, &lent);
        if !matches!(outcome, Err(Reply { number: 1..=20, .. })) {
            self.heap.fill(0);
            self.codes.fill(0);
        }
        let made = outcome?;
        let (steps, nodes) = (made.steps, made.script.nodes.len());
        let answer = written(&mut self.out, &encode(&made.script));
        let answer = answer.map_err(|reply| Reply { steps, ..reply })?;
        Ok(Answer { steps, nodes, ..answer })
    }

    /// The heap holds zeros after any plain run, and is untouched before it.
    fn ran(&mut self, script: &Script) -> Result<Answer, Reply> {
        let outcome = run(script, &self.settings, self.fuel as usize, self.heap.len());
        if !matches!(outcome, Err(Reply { number: 1..=20, .. })) {
            self.heap.fill(0);
        }
        let ran = outcome?;
        let answer = Answer { steps: ran.steps, ..Answer::SUCCESS };
        Ok(match ran.outcome {
            Outcome::Number(value) => Answer { value, ..answer },
            Outcome::Function => Answer { function: true, ..answer },
        })
    }

    fn answer(&mut self, entry: Entry) -> Result<Answer, Reply> {
        if entry == Entry::Read {
            return self.read();
        }
        let script = self.script()?;
        match entry {
            Entry::Write => return written(&mut self.out, &encode(&script)),
            Entry::List => return written(&mut self.out, listing(&script).as_bytes()),
            Entry::BareRun => return self.made(&script),
            Entry::Run => return self.ran(&script),
            _ => checker::check(&script)?,
        };
        match entry {
            Entry::Make => self.made(&script),
            _ => Ok(Answer::SUCCESS),
        }
    }

    /// Calls an entry.
    pub fn call(&mut self, entry: Entry) -> Answer {
        self.answer(entry).unwrap_or_else(Answer::without)
    }
}

/// All that a call for bands is lent: a count of rows, the rows as columns of any lengths, and an output.
#[derive(Clone, Debug, PartialEq, Eq)]
pub struct BandCall {
    pub count: u16,
    pub low: Vec<i32>,
    pub high: Vec<i32>,
    pub grade: Vec<i32>,
    pub out: Vec<u8>,
}

impl BandCall {
    /// What a fresh output holds in each place.
    pub const FRESH: u8 = 238;

    /// Some rows, and a fresh output.
    pub fn of(rows: &[Row], room: usize) -> BandCall {
        BandCall {
            count: rows.len() as u16,
            low: rows.iter().map(|row| row.low).collect(),
            high: rows.iter().map(|row| row.high).collect(),
            grade: rows.iter().map(|row| row.grade).collect(),
            out: vec![BandCall::FRESH; room],
        }
    }

    /// The first rows, as many as the count says. Columns shorter than that give 1 [0].
    pub fn rows(&self) -> Result<Vec<Row>, Reply> {
        let count = usize::from(self.count);
        if self.low.len().min(self.high.len()).min(self.grade.len()) < count {
            return Err(Reply::new(1, 0));
        }
        let row = |k| Row { low: self.low[k], high: self.high[k], grade: self.grade[k] };
        Ok((0..count).map(row).collect())
    }

    fn answer(&mut self) -> Result<Answer, Reply> {
        let script = bands::script(&self.rows()?)?;
        written(&mut self.out, &encode(&script))
    }

    /// Calls the entry. A refusal leaves the output alone, and so does a success past the file.
    pub fn call(&mut self) -> Answer {
        self.answer().unwrap_or_else(Answer::without)
    }
}
