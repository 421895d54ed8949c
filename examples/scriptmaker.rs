//! The script maker for callers in Rust: safe functions over the proved library `libscriptmaker.a` (`tests/build`).
//! What is promised of each call is proved; `crates/scriptmaker/specs/Calls.antt` says it.

pub const MAX_TYPES: usize = 64;
pub const MAX_INPUTS: usize = 16;
pub const MAX_NODES: usize = 4096;
pub const MAX_FUEL: u32 = 16000;
/// The longest script file.
pub const MAX_FILE: usize = 8 + 6 * MAX_TYPES + 4 * MAX_INPUTS + 13 * MAX_NODES;

/// No listing is longer.
pub const MAX_LISTING: usize = 65536;

/// The most rows of bands.
pub const MAX_ROWS: usize = 32;

/// The bytes of the file that this many rows of bands give, from 1 on.
pub const fn bands_length(rows: usize) -> usize {
    91 * rows - 53
}

/// The longest of them.
pub const MAX_BANDS: usize = bands_length(MAX_ROWS);

/// The numbers of replies.
pub mod number {
    /// The place is 0.
    pub const SUCCESS: u8 = 0;
    /// Not the length that the counts give; the place is the length. Tables below the counts, with place 0.
    pub const WRONG_LENGTH: u8 = 1;
    /// At its offset.
    pub const WRONG_MARK: u8 = 2;
    /// Outside its limit; the place is 0.
    pub const WRONG_COUNT: u8 = 3;
    /// A bad type or input, at its offset.
    pub const BAD_RECORD: u8 = 4;
    /// At its offset.
    pub const BAD_NODE: u8 = 5;
    /// A node used never or twice.
    pub const NOT_USED_ONCE: u8 = 6;
    /// At the node.
    pub const TREE_TOO_HIGH: u8 = 7;
    /// At its node.
    pub const UNBOUND_VARIABLE: u8 = 8;
    /// Marks that do not fit, at the node.
    pub const NODE_AT_FAULT: u8 = 9;
    /// Of the function at the node.
    pub const TYPE_NOT_LISTED: u8 = 10;
    /// At the root.
    pub const ROOT_NOT_LATE: u8 = 11;
    /// Not as many settings, or numbers, as are wanted; the place is 0.
    pub const WRONG_SETTINGS: u8 = 12;
    /// The place is 0.
    pub const TOO_MUCH_FUEL: u8 = 13;
    /// The place is 0.
    pub const STORE_TOO_SHORT: u8 = 20;
    /// The place is 0.
    pub const OUTPUT_TOO_SHORT: u8 = 21;
    /// At the node to be visited, or the application that unfolds.
    pub const FUEL_SPENT: u8 = 22;
    /// At the node to be visited, or the application that unfolds.
    pub const TOO_DEEP: u8 = 23;
    /// A result above 2147483647, at the operation.
    pub const ABOVE_RANGE: u8 = 24;
    /// At the operation.
    pub const DIVISOR_ZERO: u8 = 25;
    /// For a script file; the place is 0.
    pub const CODE_TOO_LARGE: u8 = 26;
    /// Marks that do not fit, met by a bare run at the node.
    pub const CLASH: u8 = 27;
    /// A number used as a function or a function as a number, in a plain run, at the node.
    pub const PLAIN_CLASH: u8 = 28;
    /// A result below -2147483648, at the operation.
    pub const BELOW_RANGE: u8 = 29;
    /// No rows or more than 32, with place 0; or a row whose low is above its high or whose grade is outside 0 to 255.
    pub const BAD_ROW: u8 = 30;
    /// A row whose low is not above the high of the row before.
    pub const OVERLAP: u8 = 31;
    /// Readings that fall in no row; the place is the row after them, or the count of rows.
    pub const GAP: u8 = 32;
}

/// How many types, inputs and nodes a script has.
#[repr(C)]
#[derive(Clone, Copy, Debug, Default, PartialEq, Eq)]
pub struct Counts {
    pub types: u16,
    pub inputs: u16,
    pub nodes: u16,
}

/// The paper's number and place of a reply without code or result, with the steps of the run (0 before it).
#[derive(Clone, Copy, Debug, PartialEq, Eq)]
pub struct Refusal {
    pub number: u8,
    pub place: usize,
    pub steps: u16,
}

/// Finished code: the steps of the run, the nodes of the code, and the bytes of its file.
#[derive(Clone, Copy, Debug, PartialEq, Eq)]
pub struct Made {
    pub steps: u16,
    pub nodes: u16,
    pub length: usize,
}

/// What a plain run gives.
#[derive(Clone, Copy, Debug, PartialEq, Eq)]
pub enum Outcome {
    Number(i32),
    Function,
}

/// A plain run that finished: its result and its steps.
#[derive(Clone, Copy, Debug, PartialEq, Eq)]
pub struct Ran {
    pub outcome: Outcome,
    pub steps: u16,
}

#[repr(C)]
struct CheckReply {
    number: u8,
    place: usize,
}

#[repr(C)]
struct ReadReply {
    number: u8,
    place: usize,
    counts: Counts,
}

#[repr(C)]
struct WriteReply {
    number: u8,
    place: usize,
    length: usize,
}

#[repr(C)]
struct MakeReply {
    number: u8,
    place: usize,
    steps: u16,
    nodes: u16,
}

#[repr(C)]
struct RunReply {
    number: u8,
    place: usize,
    steps: u16,
    function: u8,
    value: i32,
}

// A slice is passed as a pointer and a length.
#[link(name = "scriptmaker", kind = "static")]
unsafe extern "C" {
    fn scriptmaker_read(
        file: *const u8,
        _: usize,
        parameters: *mut u16,
        _: usize,
        results: *mut u16,
        _: usize,
        inputs: *mut u16,
        _: usize,
        kinds: *mut u8,
        _: usize,
        a: *mut u16,
        _: usize,
        b: *mut u16,
        _: usize,
        c: *mut u16,
        _: usize,
        values: *mut i32,
        _: usize,
    ) -> ReadReply;
    fn scriptmaker_write(
        counts: Counts,
        parameters: *const u16,
        _: usize,
        results: *const u16,
        _: usize,
        inputs: *const u16,
        _: usize,
        kinds: *const u8,
        _: usize,
        a: *const u16,
        _: usize,
        b: *const u16,
        _: usize,
        c: *const u16,
        _: usize,
        values: *const i32,
        _: usize,
        out: *mut u8,
        _: usize,
    ) -> WriteReply;
    fn scriptmaker_list(
        counts: Counts,
        parameters: *const u16,
        _: usize,
        results: *const u16,
        _: usize,
        inputs: *const u16,
        _: usize,
        kinds: *const u8,
        _: usize,
        a: *const u16,
        _: usize,
        b: *const u16,
        _: usize,
        c: *const u16,
        _: usize,
        values: *const i32,
        _: usize,
        out: *mut u8,
        _: usize,
    ) -> WriteReply;
    fn scriptmaker_check(
        counts: Counts,
        parameters: *const u16,
        _: usize,
        results: *const u16,
        _: usize,
        inputs: *const u16,
        _: usize,
        kinds: *const u8,
        _: usize,
        a: *const u16,
        _: usize,
        b: *const u16,
        _: usize,
        c: *const u16,
        _: usize,
        values: *const i32,
        _: usize,
    ) -> CheckReply;
    fn scriptmaker_make(
        counts: Counts,
        parameters: *const u16,
        _: usize,
        results: *const u16,
        _: usize,
        inputs: *const u16,
        _: usize,
        kinds: *const u8,
        _: usize,
        a: *const u16,
        _: usize,
        b: *const u16,
        _: usize,
        c: *const u16,
        _: usize,
        values: *const i32,
        _: usize,
        settings: *const i32,
        _: usize,
        fuel: u32,
        heap: *mut u64,
        _: usize,
        codes: *mut u64,
        _: usize,
        out: *mut u8,
        _: usize,
    ) -> MakeReply;
    fn scriptmaker_bare_run(
        counts: Counts,
        parameters: *const u16,
        _: usize,
        results: *const u16,
        _: usize,
        inputs: *const u16,
        _: usize,
        kinds: *const u8,
        _: usize,
        a: *const u16,
        _: usize,
        b: *const u16,
        _: usize,
        c: *const u16,
        _: usize,
        values: *const i32,
        _: usize,
        settings: *const i32,
        _: usize,
        fuel: u32,
        heap: *mut u64,
        _: usize,
        codes: *mut u64,
        _: usize,
        out: *mut u8,
        _: usize,
    ) -> MakeReply;
    fn scriptmaker_run(
        counts: Counts,
        parameters: *const u16,
        _: usize,
        results: *const u16,
        _: usize,
        inputs: *const u16,
        _: usize,
        kinds: *const u8,
        _: usize,
        a: *const u16,
        _: usize,
        b: *const u16,
        _: usize,
        c: *const u16,
        _: usize,
        values: *const i32,
        _: usize,
        numbers: *const i32,
        _: usize,
        fuel: u32,
        heap: *mut u64,
        _: usize,
    ) -> RunReply;
    fn scriptmaker_bands(
        count: u16,
        low: *const i32,
        _: usize,
        high: *const i32,
        _: usize,
        grade: *const i32,
        _: usize,
        out: *mut u8,
        _: usize,
    ) -> WriteReply;
}

/// The type of `scriptmaker_make` and `scriptmaker_bare_run`.
type Specialize = unsafe extern "C" fn(
    Counts,
    *const u16,
    usize,
    *const u16,
    usize,
    *const u16,
    usize,
    *const u8,
    usize,
    *const u16,
    usize,
    *const u16,
    usize,
    *const u16,
    usize,
    *const i32,
    usize,
    *const i32,
    usize,
    u32,
    *mut u64,
    usize,
    *mut u64,
    usize,
    *mut u8,
    usize,
) -> MakeReply;

/// The counts and tables of a script, whatever they hold.
#[derive(Clone, Debug)]
pub struct Script {
    pub counts: Counts,
    pub parameters: Vec<u16>,
    pub results: Vec<u16>,
    pub inputs: Vec<u16>,
    pub kinds: Vec<u8>,
    pub a: Vec<u16>,
    pub b: Vec<u16>,
    pub c: Vec<u16>,
    pub values: Vec<i32>,
}

/// The stores of a run.
pub struct Stores {
    pub heap: Vec<u64>,
    pub codes: Vec<u64>,
}

impl Stores {
    /// Stores that suffice for runs with up to this fuel.
    pub fn new(fuel: u32) -> Stores {
        let places = fuel as usize + MAX_INPUTS;
        Stores { heap: vec![0; places], codes: vec![0; places + fuel as usize] }
    }
}

impl Script {
    /// Tables as long as any script needs.
    pub fn new() -> Script {
        Script {
            counts: Counts::default(),
            parameters: vec![0; MAX_TYPES],
            results: vec![0; MAX_TYPES],
            inputs: vec![0; MAX_INPUTS],
            kinds: vec![0; MAX_NODES],
            a: vec![0; MAX_NODES],
            b: vec![0; MAX_NODES],
            c: vec![0; MAX_NODES],
            values: vec![0; MAX_NODES],
        }
    }

    /// Reads a script file into these tables: refusals 1 to 8, then 21.
    pub fn read(&mut self, file: &[u8]) -> Result<(), Refusal> {
        // SAFETY: each pointer and length come from one slice, and no two of them overlap.
        let reply = unsafe {
            scriptmaker_read(
                file.as_ptr(),
                file.len(),
                self.parameters.as_mut_ptr(),
                self.parameters.len(),
                self.results.as_mut_ptr(),
                self.results.len(),
                self.inputs.as_mut_ptr(),
                self.inputs.len(),
                self.kinds.as_mut_ptr(),
                self.kinds.len(),
                self.a.as_mut_ptr(),
                self.a.len(),
                self.b.as_mut_ptr(),
                self.b.len(),
                self.c.as_mut_ptr(),
                self.c.len(),
                self.values.as_mut_ptr(),
                self.values.len(),
            )
        };
        answer(reply.number, reply.place, 0, ())?;
        self.counts = reply.counts;
        Ok(())
    }

    /// Writes the script file of these tables, and gives its length: refusals 1 to 8, then 21. Here and below, tables shorter than
    /// the counts give 1 with place 0; the other refusals have the places that they have in the file of the tables.
    pub fn write(&self, out: &mut [u8]) -> Result<usize, Refusal> {
        // SAFETY: each pointer and length come from one slice, and `out` overlaps no other.
        let reply = unsafe {
            scriptmaker_write(
                self.counts,
                self.parameters.as_ptr(),
                self.parameters.len(),
                self.results.as_ptr(),
                self.results.len(),
                self.inputs.as_ptr(),
                self.inputs.len(),
                self.kinds.as_ptr(),
                self.kinds.len(),
                self.a.as_ptr(),
                self.a.len(),
                self.b.as_ptr(),
                self.b.len(),
                self.c.as_ptr(),
                self.c.len(),
                self.values.as_ptr(),
                self.values.len(),
                out.as_mut_ptr(),
                out.len(),
            )
        };
        answer(reply.number, reply.place, 0, reply.length)
    }

    /// Lists the script of these tables, and gives the length of the text: refusals 1 to 8, then 21.
    pub fn list(&self, out: &mut [u8]) -> Result<usize, Refusal> {
        // SAFETY: each pointer and length come from one slice, and `out` overlaps no other.
        let reply = unsafe {
            scriptmaker_list(
                self.counts,
                self.parameters.as_ptr(),
                self.parameters.len(),
                self.results.as_ptr(),
                self.results.len(),
                self.inputs.as_ptr(),
                self.inputs.len(),
                self.kinds.as_ptr(),
                self.kinds.len(),
                self.a.as_ptr(),
                self.a.len(),
                self.b.as_ptr(),
                self.b.len(),
                self.c.as_ptr(),
                self.c.len(),
                self.values.as_ptr(),
                self.values.len(),
                out.as_mut_ptr(),
                out.len(),
            )
        };
        answer(reply.number, reply.place, 0, reply.length)
    }

    /// Checks the marks: refusals 1 to 11.
    pub fn check(&self) -> Result<(), Refusal> {
        // SAFETY: each pointer and length come from one slice; nothing is written.
        let reply = unsafe {
            scriptmaker_check(
                self.counts,
                self.parameters.as_ptr(),
                self.parameters.len(),
                self.results.as_ptr(),
                self.results.len(),
                self.inputs.as_ptr(),
                self.inputs.len(),
                self.kinds.as_ptr(),
                self.kinds.len(),
                self.a.as_ptr(),
                self.a.len(),
                self.b.as_ptr(),
                self.b.len(),
                self.c.as_ptr(),
                self.c.len(),
                self.values.as_ptr(),
                self.values.len(),
            )
        };
        answer(reply.number, reply.place, 0, ())
    }

    /// Makes the script for settings, and writes the file of the finished code to `out`.
    pub fn make(&self, settings: &[i32], fuel: u32, stores: &mut Stores, out: &mut [u8]) -> Result<Made, Refusal> {
        self.specialize(scriptmaker_make, settings, fuel, stores, out)
    }

    /// The bare run, which leaves out refusals 9 to 11.
    pub fn bare_run(&self, settings: &[i32], fuel: u32, stores: &mut Stores, out: &mut [u8]) -> Result<Made, Refusal> {
        self.specialize(scriptmaker_bare_run, settings, fuel, stores, out)
    }

    fn specialize(
        &self,
        entry: Specialize,
        settings: &[i32],
        fuel: u32,
        stores: &mut Stores,
        out: &mut [u8],
    ) -> Result<Made, Refusal> {
        // SAFETY: each pointer and length come from one slice, and the stores and `out` overlap nothing.
        let reply = unsafe {
            entry(
                self.counts,
                self.parameters.as_ptr(),
                self.parameters.len(),
                self.results.as_ptr(),
                self.results.len(),
                self.inputs.as_ptr(),
                self.inputs.len(),
                self.kinds.as_ptr(),
                self.kinds.len(),
                self.a.as_ptr(),
                self.a.len(),
                self.b.as_ptr(),
                self.b.len(),
                self.c.as_ptr(),
                self.c.len(),
                self.values.as_ptr(),
                self.values.len(),
                settings.as_ptr(),
                settings.len(),
                fuel,
                stores.heap.as_mut_ptr(),
                stores.heap.len(),
                stores.codes.as_mut_ptr(),
                stores.codes.len(),
                out.as_mut_ptr(),
                out.len(),
            )
        };
        let length = 8 + 4 * self.counts.inputs as usize + 13 * reply.nodes as usize;
        answer(reply.number, reply.place, reply.steps, Made { steps: reply.steps, nodes: reply.nodes, length })
    }

    /// The plain run, without marks and lifts, on a number for every input, in order: refusals 1 to 8, then 12, 13 and 20; stops 22
    /// to 25, 28 and 29.
    pub fn run(&self, numbers: &[i32], fuel: u32, heap: &mut [u64]) -> Result<Ran, Refusal> {
        // SAFETY: each pointer and length come from one slice, and `heap` overlaps no other.
        let reply = unsafe {
            scriptmaker_run(
                self.counts,
                self.parameters.as_ptr(),
                self.parameters.len(),
                self.results.as_ptr(),
                self.results.len(),
                self.inputs.as_ptr(),
                self.inputs.len(),
                self.kinds.as_ptr(),
                self.kinds.len(),
                self.a.as_ptr(),
                self.a.len(),
                self.b.as_ptr(),
                self.b.len(),
                self.c.as_ptr(),
                self.c.len(),
                self.values.as_ptr(),
                self.values.len(),
                numbers.as_ptr(),
                numbers.len(),
                fuel,
                heap.as_mut_ptr(),
                heap.len(),
            )
        };
        let outcome = if reply.function == 1 { Outcome::Function } else { Outcome::Number(reply.value) };
        answer(reply.number, reply.place, reply.steps, Ran { outcome, steps: reply.steps })
    }
}

/// Bands for coin sensors: `count` rows of low, high and grade, ends inclusive, become the file of a script with one late input,
/// which is accepted and whose plain run grades each reading by its row. It gives the length of the file. Columns shorter than the
/// count are refused with 1 and place 0; then all rows are tried for 30, then for 31, then for 32; then 21.
pub fn bands(count: u16, low: &[i32], high: &[i32], grade: &[i32], out: &mut [u8]) -> Result<usize, Refusal> {
    // SAFETY: each pointer and length come from one slice, and `out` overlaps no other.
    let reply = unsafe {
        scriptmaker_bands(
            count,
            low.as_ptr(),
            low.len(),
            high.as_ptr(),
            high.len(),
            grade.as_ptr(),
            grade.len(),
            out.as_mut_ptr(),
            out.len(),
        )
    };
    answer(reply.number, reply.place, 0, reply.length)
}

/// A reply of number 0 is a success.
fn answer<T>(number: u8, place: usize, steps: u16, success: T) -> Result<T, Refusal> {
    if number == 0 {
        Ok(success)
    } else {
        Err(Refusal { number, place, steps })
    }
}
