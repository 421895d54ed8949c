//! Calls of the plain run, packed for the program `trials`, and the replies to them: hand-made trials, then seeded scripts under
//! any fuel and with any heap.

use crate::benchmake::{read_settings, split};
use crate::generate;
use crate::plain::{run_file, Outcome, Ran};
use crate::random::Random;
use crate::run_trials::trials;
use crate::script::{read, Reply};
use crate::specializer::MAX_FUEL;

/// A call: what is run on which numbers, and the length of the heap that is lent.
#[derive(Clone)]
pub struct Call {
    pub fuel: usize,
    pub heap: usize,
    pub numbers: Vec<i32>,
    pub file: Vec<u8>,
}

impl Call {
    pub fn ample(file: &[u8], numbers: &[i32]) -> Call {
        Call { fuel: MAX_FUEL, heap: MAX_FUEL + 16, numbers: numbers.to_vec(), file: file.to_vec() }
    }

    /// Fuel, places lent, the numbers behind their count, then the script file.
    fn pack(&self) -> Vec<u8> {
        let mut bytes = vec![];
        for size in [self.fuel, self.heap] {
            bytes.extend((size as u32).to_le_bytes());
        }
        bytes.push(self.numbers.len() as u8);
        self.numbers.iter().for_each(|number| bytes.extend(number.to_le_bytes()));
        bytes.extend(&self.file);
        bytes
    }

    fn unpack(bytes: &[u8]) -> Call {
        let word = |at: usize| [bytes[at], bytes[at + 1], bytes[at + 2], bytes[at + 3]];
        let count = bytes[8] as usize;
        Call {
            fuel: u32::from_le_bytes(word(0)) as usize,
            heap: u32::from_le_bytes(word(4)) as usize,
            numbers: (0..count).map(|k| i32::from_le_bytes(word(9 + 4 * k))).collect(),
            file: bytes[9 + 4 * count..].to_vec(),
        }
    }

    pub fn answer(&self) -> Result<Ran, Reply> {
        run_file(&self.file, &self.numbers, self.fuel, self.heap)
    }
}

pub fn told(packed: &[u8]) -> String {
    told_run(Call::unpack(packed).answer())
}

/// Number, place, steps, 1 for a function, and the number of the result.
pub fn told_run(answer: Result<Ran, Reply>) -> String {
    match answer {
        Ok(Ran { steps, outcome: Outcome::Number(value) }) => format!("0 0 {steps} 0 {value}\n"),
        Ok(Ran { steps, outcome: Outcome::Function }) => format!("0 0 {steps} 1 0\n"),
        Err(Reply { number, place, steps }) => format!("{number} {place} {steps} 0 0\n"),
    }
}

/// A seeded script under fuel and with a heap at or near their bounds.
fn seeded_call(seed: u64, index: u64) -> Option<Call> {
    let input = generate::reading(seed, index);
    let (file, rest) = split(&input);
    read(file).ok()?;
    let numbers = read_settings(rest)?;
    if numbers.len() > 255 || file.len() > 6_000 {
        return None;
    }
    let mut call = Call::ample(file, &numbers);
    let steps = call.answer().map_or_else(|reply| reply.steps, |ran| ran.steps);
    let mut random = Random::new(seed + 1, index);
    let any = random.below(MAX_FUEL + 2);
    call.fuel = match random.below(10) {
        0 => steps,
        1 => steps.saturating_sub(1),
        2 => steps + 1,
        3 => any,
        4 => random.below(steps + 1),
        5 => random.pick(&[0, 1, 2, 5, 20, 60, 400, 4_000]),
        6 => random.pick(&[MAX_FUEL - 1, MAX_FUEL + 1]),
        _ => MAX_FUEL,
    };
    let wanted = (call.fuel + 16).min(call.heap);
    call.heap = match random.below(20) {
        0 => wanted - 1,
        1 => random.below(MAX_FUEL + 17),
        2 => 0,
        3..=6 => MAX_FUEL + 16,
        _ => wanted,
    };
    Some(call)
}

/// All calls, the last `count` of them seeded.
pub fn calls(seed: u64, count: usize) -> Vec<Vec<u8>> {
    let hand_made = trials().into_iter().map(|trial| trial.call);
    let seeded = (0..).filter_map(|index| seeded_call(seed, index)).take(count);
    hand_made.chain(seeded).map(|call| call.pack()).collect()
}
