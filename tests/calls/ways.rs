//! The two ways to call the library: by the header, in C, on memory between margins, and by the wrapper in Rust.

use reference::lent::{Answer, Columns, Entry, Memory};
use reference::random::Random;
use reference::script::{Counts, Reply};
use scriptmaker::{Outcome, Ran, Refusal, Script, Stores};

#[repr(C)]
struct Lent {
    file: *const u8,
    file_length: usize,
    counts: [u16; 3],
    parameters: *mut u16,
    parameters_length: usize,
    results: *mut u16,
    results_length: usize,
    inputs: *mut u16,
    inputs_length: usize,
    kinds: *mut u8,
    kinds_length: usize,
    a: *mut u16,
    a_length: usize,
    b: *mut u16,
    b_length: usize,
    c: *mut u16,
    c_length: usize,
    values: *mut i32,
    values_length: usize,
    settings: *const i32,
    settings_length: usize,
    fuel: u32,
    heap: *mut u64,
    heap_length: usize,
    codes: *mut u64,
    codes_length: usize,
    out: *mut u8,
    out_length: usize,
}

#[repr(C)]
#[derive(Default)]
struct Told {
    number: u8,
    place: usize,
    steps: u16,
    counts: [u16; 3],
    length: usize,
    nodes: u16,
    function: u8,
    value: i32,
}

unsafe extern "C" {
    fn header_read(lent: *const Lent, told: *mut Told);
    fn header_write(lent: *const Lent, told: *mut Told);
    fn header_list(lent: *const Lent, told: *mut Told);
    fn header_check(lent: *const Lent, told: *mut Told);
    fn header_make(lent: *const Lent, told: *mut Told);
    fn header_bare_run(lent: *const Lent, told: *mut Told);
    fn header_run(lent: *const Lent, told: *mut Told);
}

/// A piece of memory between two margins, which no call may touch. The first is of any length, so that bytes stand at any address.
pub struct Between<T> {
    all: Vec<T>,
    first: usize,
    margin: T,
}

const LAST: usize = 8;

impl<T: Copy + PartialEq> Between<T> {
    pub fn new(lent: &[T], margin: T, random: &mut Random) -> Between<T> {
        let first = random.between(1, 16);
        let all = [&vec![margin; first], lent, &[margin; LAST]].concat();
        Between { all, first, margin }
    }

    pub fn at(&mut self) -> *mut T {
        self.all[self.first..].as_mut_ptr()
    }

    pub fn length(&self) -> usize {
        self.all.len() - self.first - LAST
    }

    /// What was lent, if the margins are as they were.
    pub fn back(self, kept: &mut bool) -> Vec<T> {
        let end = self.all.len() - LAST;
        let mut margins = self.all[..self.first].iter().chain(&self.all[end..]);
        *kept &= margins.all(|&x| x == self.margin);
        self.all[self.first..end].to_vec()
    }
}

fn word(count: usize) -> u16 {
    count.try_into().expect("a count of 16 bits")
}

fn flag(function: u8) -> bool {
    assert!(function < 2, "a function is told by 1, anything else by 0");
    function == 1
}

/// The answer, the memory after the call, and whether the margins are as they were.
pub fn by_header(entry: Entry, memory: &Memory, random: &mut Random) -> (Answer, Memory, bool) {
    let columns = &memory.columns;
    let mut file = Between::new(&memory.file, 0xA5, random);
    let mut parameters = Between::new(&columns.parameters, 0xA5A5, random);
    let mut results = Between::new(&columns.results, 0xA5A5, random);
    let mut inputs = Between::new(&columns.inputs, 0xA5A5, random);
    let mut kinds = Between::new(&columns.kinds, 0xA5, random);
    let mut a = Between::new(&columns.a, 0xA5A5, random);
    let mut b = Between::new(&columns.b, 0xA5A5, random);
    let mut c = Between::new(&columns.c, 0xA5A5, random);
    let mut values = Between::new(&columns.values, 0x5A5A5A5A, random);
    let mut settings = Between::new(&memory.settings, 0x5A5A5A5A, random);
    let mut heap = Between::new(&memory.heap, 0xA5A5_A5A5_A5A5_A5A5, random);
    let mut codes = Between::new(&memory.codes, 0xA5A5_A5A5_A5A5_A5A5, random);
    let mut out = Between::new(&memory.out, 0xA5, random);
    let lent = Lent {
        file: file.at(),
        file_length: file.length(),
        counts: [memory.counts.types, memory.counts.inputs, memory.counts.nodes].map(word),
        parameters: parameters.at(),
        parameters_length: parameters.length(),
        results: results.at(),
        results_length: results.length(),
        inputs: inputs.at(),
        inputs_length: inputs.length(),
        kinds: kinds.at(),
        kinds_length: kinds.length(),
        a: a.at(),
        a_length: a.length(),
        b: b.at(),
        b_length: b.length(),
        c: c.at(),
        c_length: c.length(),
        values: values.at(),
        values_length: values.length(),
        settings: settings.at(),
        settings_length: settings.length(),
        fuel: memory.fuel,
        heap: heap.at(),
        heap_length: heap.length(),
        codes: codes.at(),
        codes_length: codes.length(),
        out: out.at(),
        out_length: out.length(),
    };
    let call = match entry {
        Entry::Read => header_read,
        Entry::Write => header_write,
        Entry::List => header_list,
        Entry::Check => header_check,
        Entry::Make => header_make,
        Entry::BareRun => header_bare_run,
        Entry::Run => header_run,
    };
    let mut told = Told::default();
    // SAFETY: each pointer and length are those of a piece of its own.
    unsafe { call(&lent, &mut told) };
    let [types, count, nodes] = told.counts.map(usize::from);
    let answer = Answer {
        number: told.number,
        place: told.place,
        steps: told.steps.into(),
        counts: Counts { types, inputs: count, nodes },
        length: told.length,
        nodes: told.nodes.into(),
        function: flag(told.function),
        value: told.value,
    };
    let mut kept = true;
    let after = Memory {
        file: file.back(&mut kept),
        counts: memory.counts,
        columns: Columns {
            parameters: parameters.back(&mut kept),
            results: results.back(&mut kept),
            inputs: inputs.back(&mut kept),
            kinds: kinds.back(&mut kept),
            a: a.back(&mut kept),
            b: b.back(&mut kept),
            c: c.back(&mut kept),
            values: values.back(&mut kept),
        },
        settings: settings.back(&mut kept),
        fuel: memory.fuel,
        heap: heap.back(&mut kept),
        codes: codes.back(&mut kept),
        out: out.back(&mut kept),
    };
    (answer, after, kept)
}

fn ran(Ran { outcome, steps }: Ran) -> Answer {
    let answer = Answer { steps: steps.into(), ..Answer::SUCCESS };
    match outcome {
        Outcome::Number(value) => Answer { value, ..answer },
        Outcome::Function => Answer { function: true, ..answer },
    }
}

/// The same by the wrapper, which tells of a refusal and a stop only what a reply without code has.
pub fn by_wrapper(entry: Entry, memory: &Memory) -> (Answer, Memory) {
    let mut after = memory.clone();
    let columns = std::mem::take(&mut after.columns);
    let Counts { types, inputs, nodes } = memory.counts;
    let counts =
        scriptmaker::Counts { types: word(types), inputs: word(inputs), nodes: word(nodes) };
    let Columns { parameters, results, inputs, kinds, a, b, c, values } = columns;
    let mut script = Script { counts, parameters, results, inputs, kinds, a, b, c, values };
    let heap = std::mem::take(&mut after.heap);
    let mut stores = Stores { heap, codes: std::mem::take(&mut after.codes) };
    let success = Answer::SUCCESS;
    let making = if entry == Entry::Make { Script::make } else { Script::bare_run };
    let told = match entry {
        Entry::Read => script.read(&memory.file).map(|()| {
            let scriptmaker::Counts { types, inputs, nodes } = script.counts;
            let [types, inputs, nodes] = [types, inputs, nodes].map(usize::from);
            Answer { counts: Counts { types, inputs, nodes }, ..success }
        }),
        Entry::Write => script.write(&mut after.out).map(|length| Answer { length, ..success }),
        Entry::List => script.list(&mut after.out).map(|length| Answer { length, ..success }),
        Entry::Check => script.check().map(|()| success),
        Entry::Make | Entry::BareRun => {
            let made = making(&script, &memory.settings, memory.fuel, &mut stores, &mut after.out);
            made.map(|made| {
                let (steps, nodes) = (made.steps.into(), made.nodes.into());
                Answer { steps, nodes, length: made.length, ..success }
            })
        }
        Entry::Run => script.run(&memory.settings, memory.fuel, &mut stores.heap).map(ran),
    };
    let answer = told.unwrap_or_else(|Refusal { number, place, steps }| {
        Answer::without(Reply { number, place, steps: steps.into() })
    });
    let Script { parameters, results, inputs, kinds, a, b, c, values, .. } = script;
    after.columns = Columns { parameters, results, inputs, kinds, a, b, c, values };
    after.heap = stores.heap;
    after.codes = stores.codes;
    (answer, after)
}
