//! Bands on lent memory, by the header and by the wrapper, compared with the second implementation: the hand-made trials, then seeded
//! calls. Columns and output stand between margins.

use crate::ways::Between;
use reference::band_calls::{calls, Packed};
use reference::lent::{Answer, BandCall};
use reference::random::Random;
use reference::script::Reply;
use scriptmaker::Refusal;
use std::collections::BTreeMap;

/// The numbers that the entry can give.
pub const NUMBERS: [u8; 6] = [0, 1, 21, 30, 31, 32];

#[repr(C)]
struct Lent {
    count: u16,
    low: *const i32,
    low_length: usize,
    high: *const i32,
    high_length: usize,
    grade: *const i32,
    grade_length: usize,
    out: *mut u8,
    out_length: usize,
}

#[repr(C)]
#[derive(Default)]
struct Told {
    number: u8,
    place: usize,
    length: usize,
}

unsafe extern "C" {
    fn header_bands(lent: *const Lent, told: *mut Told);
}

/// The answer, and what is left; nothing if a margin was written to.
fn by_header(call: &BandCall, random: &mut Random) -> Option<(Answer, BandCall)> {
    let mut low = Between::new(&call.low, 0x5A5A5A5A, random);
    let mut high = Between::new(&call.high, 0x5A5A5A5A, random);
    let mut grade = Between::new(&call.grade, 0x5A5A5A5A, random);
    let mut out = Between::new(&call.out, 0xA5, random);
    let lent = Lent {
        count: call.count,
        low: low.at(),
        low_length: low.length(),
        high: high.at(),
        high_length: high.length(),
        grade: grade.at(),
        grade_length: grade.length(),
        out: out.at(),
        out_length: out.length(),
    };
    let mut told = Told::default();
    // SAFETY: each pointer and length are those of a piece of its own.
    unsafe { header_bands(&lent, &mut told) };
    let answer = Answer { number: told.number, place: told.place, length: told.length, ..Answer::SUCCESS };
    let mut kept = true;
    let after = BandCall {
        count: call.count,
        low: low.back(&mut kept),
        high: high.back(&mut kept),
        grade: grade.back(&mut kept),
        out: out.back(&mut kept),
    };
    kept.then_some((answer, after))
}

fn by_wrapper(call: &BandCall) -> (Answer, BandCall) {
    let mut after = call.clone();
    let told = scriptmaker::bands(call.count, &call.low, &call.high, &call.grade, &mut after.out);
    let answer = match told {
        Ok(length) => Answer { length, ..Answer::SUCCESS },
        Err(Refusal { number, place, steps }) => Answer::without(Reply { number, place, steps: steps.into() }),
    };
    (answer, after)
}

/// Tries all calls; how often each number was given, and how many differ.
pub fn try_all(seed: u64, count: usize) -> (BTreeMap<u8, usize>, usize) {
    let mut given = BTreeMap::new();
    let mut differences = 0;
    for (index, packed) in calls(seed, count).iter().enumerate() {
        let call = Packed::unpack(packed).call;
        let mut end = call.clone();
        let wanted = (end.call(), end);
        *given.entry(wanted.0.number).or_default() += 1;
        let header = by_header(&call, &mut Random::new(seed, index as u64));
        if header.as_ref() != Some(&wanted) || by_wrapper(&call) != wanted {
            differences += 1;
            println!("bands {index}: wanted {:?}, got {:?}", wanted.0, header.map(|(answer, _)| answer));
        }
    }
    (given, differences)
}
