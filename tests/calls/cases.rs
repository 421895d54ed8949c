//! Seeded calls: scripts good, ill typed and damaged, in memory of odd lengths and with odd contents.

use reference::benchmake::{read_settings, split};
use reference::generate;
use reference::lent::{Answer, Columns, Entry, Memory};
use reference::random::Random;
use reference::script::*;
use reference::specializer::MAX_FUEL;

pub const ENTRIES: [Entry; 7] =
    [Entry::Read, Entry::Write, Entry::List, Entry::Check, Entry::Make, Entry::BareRun, Entry::Run];

/// More room than any output takes.
const AMPLE: usize = 70_000;

/// The call at one place of a seeded sequence.
pub fn case(seed: u64, index: u64) -> (Entry, Memory) {
    let mut random = Random::new(seed ^ 0xCA11, index);
    let entry = ENTRIES[random.pick(&[0, 0, 1, 1, 2, 3, 3, 4, 4, 4, 4, 5, 5, 5, 6, 6, 6, 6])];
    let mut memory = if entry == Entry::Read {
        read_case(seed, index, &mut random)
    } else {
        table_case(seed, index, entry, &mut random)
    };
    if matches!(entry, Entry::Make | Entry::BareRun | Entry::Run) {
        lend_run(&mut memory, entry, &mut random);
    }
    lend_output(&mut memory, entry, &mut random);
    (entry, memory)
}

/// Nothing lent beside the file, but for some places that the entry must leave alone.
fn plain(file: &[u8], random: &mut Random) -> Memory {
    Memory {
        file: file.to_vec(),
        counts: Counts { types: 0, inputs: 0, nodes: 1 },
        columns: Columns::default(),
        settings: dirty(2, random, |x| x as i32),
        fuel: random.next() as u32,
        heap: dirty(3, random, |x| x),
        codes: dirty(4, random, |x| x),
        out: dirty(5, random, |x| x as u8),
    }
}

/// Places with anything in them.
fn dirty<T>(count: usize, random: &mut Random, of: fn(u64) -> T) -> Vec<T> {
    (0..count).map(|_| of(random.next())).collect()
}

/// A length near the one that is wanted: it, one less, more, or none.
fn near(wanted: usize, random: &mut Random) -> usize {
    let more = wanted + random.between(2, 40);
    let exact = wanted;
    random.pick(&[exact, exact, exact, exact, wanted.saturating_sub(1), wanted + 1, more, more, 0])
}

fn resize<T: Clone>(column: &mut Vec<T>, length: usize, random: &mut Random, of: fn(u64) -> T) {
    let old = column.len();
    column.truncate(length);
    column.extend(dirty(length.saturating_sub(old), random, of));
}

/// Columns as long as the counts say; or one of them one shorter; or each longer; or each of any length near it.
fn lend_columns(columns: &mut Columns, counts: &Counts, random: &mut Random) {
    let Counts { types, inputs, nodes } = *counts;
    let mut lengths = [types, types, inputs, nodes, nodes, nodes, nodes, nodes];
    match random.below(8) {
        0 | 1 | 2 => {}
        3 | 4 => {
            let one = random.below(8);
            lengths[one] = lengths[one].saturating_sub(1);
        }
        5 | 6 => lengths.iter_mut().for_each(|length| *length += random.below(9)),
        _ => lengths.iter_mut().for_each(|length| *length = near(*length, random)),
    }
    resize(&mut columns.parameters, lengths[0], random, |x| x as u16);
    resize(&mut columns.results, lengths[1], random, |x| x as u16);
    resize(&mut columns.inputs, lengths[2], random, |x| x as u16);
    resize(&mut columns.kinds, lengths[3], random, |x| x as u8);
    resize(&mut columns.a, lengths[4], random, |x| x as u16);
    resize(&mut columns.b, lengths[5], random, |x| x as u16);
    resize(&mut columns.c, lengths[6], random, |x| x as u16);
    resize(&mut columns.values, lengths[7], random, |x| x as i32);
}

/// A file, whole or not, and tables that hold anything.
fn read_case(seed: u64, index: u64, random: &mut Random) -> Memory {
    let input =
        if random.chance(60) { generate::whole(seed, index) } else { generate::input(seed, index) };
    let script = if random.chance(90) { split(&input).0 } else { &input };
    let mut memory = plain(script, random);
    let counts = read_head(script).unwrap_or(Counts { types: 3, inputs: 2, nodes: 9 });
    lend_columns(&mut memory.columns, &counts, random);
    memory
}

/// The records of a file with a good head and a length to suit, whatever they hold.
fn records(file: &[u8]) -> Option<Script> {
    let counts = read_head(file).ok().filter(|counts| counts.length() == file.len())?;
    let word = |at: usize| u16::from_le_bytes([file[at], file[at + 1]]);
    let node = |at: usize| Node {
        kind: file[at + 2],
        fields: [word(at + 3), word(at + 5), word(at + 7)],
        value: i32::from_le_bytes([file[at + 9], file[at + 10], file[at + 11], file[at + 12]]),
    };
    let types = (0..counts.types).map(|k| counts.type_at(k));
    Some(Script {
        types: types.map(|at| (word(at + 2), word(at + 4))).collect(),
        inputs: (0..counts.inputs).map(|k| word(counts.input_at(k) + 2)).collect(),
        nodes: (0..counts.nodes).map(|k| node(counts.node_at(k))).collect(),
    })
}

/// Another number in some place of some column.
fn spoil(columns: &mut Columns, random: &mut Random) {
    let far = random.next() as u16;
    let word = random.pick(&[0, 1, 2, 3, 5, 6, 12, 13, 64, 66, 4_095, 4_096, 65_535, far]);
    let column = match random.below(8) {
        0 => &mut columns.parameters,
        1 => &mut columns.results,
        2 => &mut columns.inputs,
        3 => &mut columns.a,
        4 => &mut columns.b,
        5 => &mut columns.c,
        6 => return put(&mut columns.kinds, word as u8, random),
        _ => return put(&mut columns.values, word as i32, random),
    };
    put(column, word, random);
}

/// Puts a number into some place of a column that has one.
fn put<T>(column: &mut [T], number: T, random: &mut Random) {
    if !column.is_empty() {
        column[random.below(column.len())] = number;
    }
}

/// Counts that the tables do not have, or that no script has.
fn miscount(counts: &mut Counts, random: &mut Random) {
    let (count, limit) = match random.below(3) {
        0 => (&mut counts.types, MAX_TYPES),
        1 => (&mut counts.inputs, MAX_INPUTS),
        _ => (&mut counts.nodes, MAX_NODES),
    };
    *count = random.pick(&[0, count.saturating_sub(1), *count + 1, limit, limit + 1, 65_535]);
}

/// Tables of a script, or of records that the reader would refuse.
fn table_case(seed: u64, index: u64, entry: Entry, random: &mut Random) -> Memory {
    // Most checks are of scripts that may be ill typed, most makings are of scripts that are not.
    let damaged = generate::input(seed, index);
    let whole = match entry {
        Entry::Make => generate::whole(seed, 3 * index),
        Entry::Run => generate::reading(seed, index),
        _ => generate::whole(seed, index),
    };
    let input = if random.chance(35) { damaged } else { whole };
    let (file, rest) = split(&input);
    let mut memory = plain(file, random);
    let script = records(file).or_else(|| records(split(&generate::whole(seed, index)).0));
    let script = script.expect("a whole file");
    memory.columns = Columns::of(&script);
    memory.counts = script.counts();
    memory.settings = read_settings(rest).unwrap_or_default();
    if random.chance(20) {
        (0..random.between(1, 3)).for_each(|_| spoil(&mut memory.columns, random));
    }
    if random.chance(12) {
        miscount(&mut memory.counts, random);
        if random.chance(50) {
            return memory;
        }
    }
    if random.chance(50) {
        let counts = memory.counts;
        lend_columns(&mut memory.columns, &counts, random);
    }
    memory
}

/// How many settings are wanted: one for each early input; a plain run wants a number for each input.
fn wanted(entry: Entry, memory: &Memory) -> usize {
    match entry {
        Entry::Run => memory.counts.inputs,
        _ => early(memory),
    }
}

fn early(memory: &Memory) -> usize {
    memory.columns.inputs.iter().take(memory.counts.inputs).filter(|&&t| t == S).count()
}

/// Settings one too few or too many, fuel at its limits and at what the run takes, and stores of lengths near what the fuel wants.
fn lend_run(memory: &mut Memory, entry: Entry, random: &mut Random) {
    let wanted = wanted(entry, memory).min(2 * MAX_INPUTS);
    resize(&mut memory.settings, wanted, random, |x| x as i32 % 10);
    memory.fuel = MAX_FUEL as u32;
    memory.heap = vec![0; MAX_FUEL + 16];
    memory.codes = vec![0; 2 * MAX_FUEL + 16];
    memory.fuel = fuel(memory, entry, random);
    let one_less = wanted.saturating_sub(1);
    let settings = random.pick(&[wanted, wanted, wanted, wanted + 1, one_less, early(memory)]);
    if random.chance(20) {
        resize(&mut memory.settings, settings, random, |x| x as i32);
    }
    let fuel = memory.fuel.min(MAX_FUEL as u32 + 1) as usize;
    let lengths = [fuel + 16, 2 * fuel + 16];
    let [heap, codes] = lengths.map(|n| if random.chance(70) { n } else { near(n, random) });
    let clean = random.chance(20);
    memory.heap = dirty(heap, random, |x| x);
    memory.codes = dirty(codes, random, |x| x);
    if clean {
        memory.heap.fill(0);
        memory.codes.fill(0);
    }
}

/// Fuel for a run that takes some steps with the most.
fn fuel(memory: &Memory, entry: Entry, random: &mut Random) -> u32 {
    let most = MAX_FUEL as u32;
    let steps = taken(memory, entry).steps as u32;
    let few = random.below(60) as u32;
    match random.below(16) {
        0 => few,
        1 => steps.saturating_sub(1),
        2 => steps,
        3 => steps + 1,
        4..=7 => 4_000,
        8..=11 => most,
        12 => random.pick(&[0, most - 1]),
        13 => random.pick(&[most + 1, u32::MAX, 1 << 31, 65_536]),
        _ => random.pick(&[400, 1_000, 2_001]),
    }
}

/// The answer of an entry that is given room enough for what it writes.
fn taken(memory: &Memory, entry: Entry) -> Answer {
    let mut ample = memory.clone();
    ample.out = vec![0; AMPLE];
    ample.call(entry)
}

/// An output near as long as what is written to it.
fn lend_output(memory: &mut Memory, entry: Entry, random: &mut Random) {
    let length = near(taken(memory, entry).length, random);
    memory.out = dirty(length, random, |x| x as u8);
}

/// What may be odd about a call, by name, and whether it is. Each must be tried.
pub fn oddities(entry: Entry, memory: &Memory) -> Vec<(&'static str, bool)> {
    let answer = taken(memory, entry);
    let mut oddities = table_oddities(entry, memory, &answer).to_vec();
    oddities.extend(run_oddities(entry, memory, &answer));
    oddities
}

fn table_oddities(entry: Entry, memory: &Memory, answer: &Answer) -> [(&'static str, bool); 9] {
    let Counts { types, inputs, nodes } = match read_head(&memory.file) {
        Ok(counts) if entry == Entry::Read => counts,
        _ => memory.counts,
    };
    let x = &memory.columns;
    let tables = [
        (x.parameters.len(), types),
        (x.results.len(), types),
        (x.inputs.len(), inputs),
        (x.kinds.len(), nodes),
        (x.a.len(), nodes),
        (x.b.len(), nodes),
        (x.c.len(), nodes),
        (x.values.len(), nodes),
    ];
    let short = tables.iter().filter(|(lent, count)| lent < count).count();
    let (refused, written, room) = (answer.number, answer.length, memory.out.len());
    [
        ("one table short by one", short == 1 && tables.iter().any(|(lent, n)| lent + 1 == *n)),
        ("tables as long as the counts", tables.iter().all(|(lent, n)| lent == n)),
        ("tables longer", short == 0 && tables.iter().any(|(lent, n)| lent > n)),
        ("counts past the tables", entry != Entry::Read && short > 0),
        ("counts past a limit", entry != Entry::Read && refused == 3),
        ("tables that the reader would refuse", entry != Entry::Read && (4..=8).contains(&refused)),
        ("output short by one", room + 1 == written),
        ("output as long as what is written", written > 0 && room == written),
        ("output longer", written > 0 && room > written),
    ]
}

fn run_oddities(entry: Entry, memory: &Memory, answer: &Answer) -> [(&'static str, bool); 14] {
    let making = matches!(entry, Entry::Make | Entry::BareRun);
    let plain = entry == Entry::Run;
    let run = making || plain;
    let (given, wanted) = (memory.settings.len(), wanted(entry, memory));
    let (fuel, heap, codes) = (memory.fuel as usize, memory.heap.len(), memory.codes.len());
    let dirty = |store: &[u64]| store.iter().any(|&place| place != 0);
    let (dirty_heap, dirty_codes) = (dirty(&memory.heap), dirty(&memory.codes));
    let finished = plain && answer.number == 0;
    [
        ("fuel 0", run && fuel == 0),
        ("fuel 16000", run && fuel == 16_000),
        ("fuel 16001", run && fuel == 16_001),
        ("fuel 4294967295", run && memory.fuel == u32::MAX),
        ("one setting too few", run && given + 1 == wanted),
        ("one setting too many", run && given == wanted + 1),
        ("numbers for the early inputs alone", plain && given < wanted && given == early(memory)),
        ("heap short by one", run && heap + 1 == fuel + 16),
        ("code store short by one", making && codes + 1 == 2 * fuel + 16),
        ("stores as long as the fuel wants", run && heap == fuel + 16 && codes == 2 * fuel + 16),
        ("dirty stores", run && (dirty_heap || dirty_codes)),
        ("a plain run on a dirty heap", finished && dirty_heap),
        ("a plain run to a number", finished && !answer.function),
        ("a plain run to a function", finished && answer.function),
    ]
}
