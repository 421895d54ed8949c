//! Calls for bands, packed for the program `trials`, and the replies to them: hand-made trials, then seeded rows, some of them
//! damaged, with anything lent.

use crate::band_trials::trials;
use crate::bands::border_readings;
use crate::checker;
use crate::generate::bands::{damage, some_rows};
use crate::lent::{Answer, BandCall};
use crate::makes::told_file;
use crate::plain::run;
use crate::random::Random;
use crate::runs::told_run;
use crate::script::read;
use crate::specializer::MAX_FUEL;

/// The longest output that is packed, and the longest column.
const MOST_OUT: usize = 4_096;
const MOST_PLACES: usize = 40;

/// The most readings of a seeded call, but for one call in eight.
const FEW_READINGS: usize = 24;

/// A call, and the readings that its script is run on.
#[derive(Clone, Debug, PartialEq, Eq)]
pub struct Packed {
    pub call: BandCall,
    pub readings: Vec<i32>,
}

impl Packed {
    /// The border readings of the rows of a good call; none of a refused one.
    pub fn of(call: BandCall) -> Packed {
        let refused = call.clone().call().number != 0;
        let rows = if refused { None } else { call.rows().ok() };
        Packed { call, readings: rows.map_or(vec![], |rows| border_readings(&rows)) }
    }

    /// The count, the length of the output, those of the columns, the columns, then the readings behind their count.
    pub fn pack(&self) -> Vec<u8> {
        let BandCall { count, low, high, grade, out } = &self.call;
        let columns = [low, high, grade];
        assert!(out.len() <= MOST_OUT && columns.iter().all(|column| column.len() <= MOST_PLACES));
        let mut bytes = count.to_le_bytes().to_vec();
        bytes.extend((out.len() as u32).to_le_bytes());
        bytes.extend(columns.map(|column| column.len() as u8));
        let places = columns.into_iter().flatten();
        places.for_each(|place| bytes.extend(place.to_le_bytes()));
        bytes.extend((self.readings.len() as u16).to_le_bytes());
        self.readings.iter().for_each(|reading| bytes.extend(reading.to_le_bytes()));
        bytes
    }

    pub fn unpack(bytes: &[u8]) -> Packed {
        let mut rest = bytes;
        let count = u16::from_le_bytes(taken(&mut rest));
        let room = u32::from_le_bytes(taken(&mut rest)) as usize;
        let lengths: [u8; 3] = taken(&mut rest);
        let [low, high, grade] = lengths.map(|length| numbers(&mut rest, length.into()));
        let length = u16::from_le_bytes(taken(&mut rest));
        let readings = numbers(&mut rest, length.into());
        assert!(rest.is_empty(), "bytes after the readings");
        let out = vec![BandCall::FRESH; room];
        Packed { call: BandCall { count, low, high, grade, out }, readings }
    }
}

/// Takes the next bytes.
fn taken<const N: usize>(rest: &mut &[u8]) -> [u8; N] {
    let (head, tail) = rest.split_first_chunk().expect("a whole call");
    *rest = tail;
    *head
}

/// Takes numbers of four bytes.
fn numbers(rest: &mut &[u8], count: usize) -> Vec<i32> {
    (0..count).map(|_| i32::from_le_bytes(taken(rest))).collect()
}

/// Number, place and length; then the bytes of the file on a line of their own, and a line for the plain run on each reading. The
/// file is read back, and accepted.
pub fn told(packed: &[u8]) -> String {
    let Packed { mut call, readings } = Packed::unpack(packed);
    let Answer { number, place, length, .. } = call.call();
    let mut text = format!("{number} {place} {length}\n");
    if number != 0 {
        return text;
    }
    let file = &call.out[..length];
    text += &told_file(file);
    let script = read(file).expect("a script that is read");
    checker::check(&script).expect("a script that is accepted");
    let ran = |&reading: &i32| told_run(run(&script, &[reading], MAX_FUEL, MAX_FUEL + 16));
    text + &readings.iter().map(ran).collect::<String>()
}

/// Seeded rows. Every third call is damaged, in one place or two.
pub fn seeded_call(seed: u64, index: u64) -> Packed {
    let mut random = Random::new(seed, index);
    let mut rows = some_rows(&mut random);
    let places = if index % 3 == 2 { random.between(1, 2) } else { 0 };
    let in_rows = (0..places).filter(|_| random.chance(70)).count();
    (0..in_rows).for_each(|_| damage(&mut rows, &mut random));
    let mut call = BandCall::of(&rows, MOST_OUT);
    let length = call.clone().call().length;
    lend(&mut call, length, &mut random);
    (in_rows..places).for_each(|_| cut(&mut call, length, &mut random));
    let mut packed = Packed::of(call);
    let most = if index.is_multiple_of(8) { usize::MAX } else { FEW_READINGS };
    while packed.readings.len() > most {
        packed.readings.remove(random.below(packed.readings.len()));
    }
    packed
}

/// An output of the length of the file or longer, and at times columns longer than the count.
fn lend(call: &mut BandCall, length: usize, random: &mut Random) {
    let room = match random.below(4) {
        0 => length + 1,
        1 => random.between(length, MOST_OUT),
        _ => length,
    };
    call.out.truncate(room);
    for column in [&mut call.low, &mut call.high, &mut call.grade] {
        if random.chance(20) {
            let places = random.between(column.len(), MOST_PLACES);
            column.resize_with(places, || random.border_number());
        }
    }
}

/// Damages what is lent: a short column, a count off by one, an output short by one or more.
fn cut(call: &mut BandCall, length: usize, random: &mut Random) {
    let shorter = |length: usize, random: &mut Random| random.below(length.max(1));
    match random.below(6) {
        0 | 1 => {
            let column = random.below(3);
            let length = shorter(call.count.into(), random);
            [&mut call.low, &mut call.high, &mut call.grade][column].truncate(length);
        }
        2 => call.count = random.pick(&[call.count + 1, call.count.saturating_sub(1)]),
        3 => call.out.truncate(length.saturating_sub(1)),
        _ => call.out.truncate(shorter(length, random)),
    }
}

/// All calls, the last `count` of them seeded.
pub fn calls(seed: u64, count: usize) -> Vec<Vec<u8>> {
    let hand_made = trials().into_iter().map(|trial| Packed::of(trial.call));
    let seeded = (0..count as u64).map(|index| seeded_call(seed, index));
    hand_made.chain(seeded).map(|packed| packed.pack()).collect()
}
