//! What the program `benchmake` prints for the bytes of its standard input.

use crate::checker;
use crate::listing::{listing_lent, MAX_LISTING};
use crate::script::{read, read_head, Reply, Script};
use crate::specializer::{specialize, Lent, Made};

pub const FUEL: usize = 4_000;
pub const SETTING_LENGTH: usize = 6;

/// The standard input in its two parts: the script file, which is as long as
/// its head says, and what follows. Without a good head or enough bytes the
/// whole input is the script file.
pub fn split(input: &[u8]) -> (&[u8], &[u8]) {
    match read_head(input) {
        Ok(counts) if counts.length() <= input.len() => input.split_at(counts.length()),
        _ => (input, &[]),
    }
}

/// The values of whole `SV` records, if the bytes are nothing else.
pub fn read_settings(bytes: &[u8]) -> Option<Vec<i32>> {
    if !bytes.len().is_multiple_of(SETTING_LENGTH) {
        return None;
    }
    let record = |record: &[u8]| match *record {
        [b'S', b'V', a, b, c, d] => Some(i32::from_le_bytes([a, b, c, d])),
        _ => None,
    };
    bytes.chunks(SETTING_LENGTH).map(record).collect()
}

pub fn encode_settings(settings: &[i32]) -> Vec<u8> {
    let mut bytes = Vec::new();
    for setting in settings {
        bytes.extend(b"SV");
        bytes.extend(setting.to_le_bytes());
    }
    bytes
}

/// Refusals 1 to 11.
pub fn accept(input: &[u8]) -> Result<Script, Reply> {
    let script = read(split(input).0)?;
    checker::check(&script)?;
    Ok(script)
}

/// The making with the settings that follow the script.
pub fn make(input: &[u8], script: &Script, fuel: usize) -> Result<Made, Reply> {
    let settings = read_settings(split(input).1).ok_or(Reply::new(12, 0))?;
    specialize(script, &settings, fuel, &Lent::AMPLE)
}

/// The whole way of an input, with the making's reply or its code.
pub fn answer(input: &[u8], fuel: usize) -> Result<Made, Reply> {
    make(input, &accept(input)?, fuel)
}

/// What the program prints.
pub fn benchmake(input: &[u8]) -> String {
    let made = answer(input, FUEL);
    let listed = made.and_then(|made| {
        let text = listing_lent(&made.script, MAX_LISTING)?;
        let nodes = made.script.nodes.len();
        Ok(format!("accepted\nsteps {}\nnodes {nodes}\n{text}", made.steps))
    });
    listed.unwrap_or_else(|Reply { number, place, .. }| {
        if number < 20 {
            format!("refused {number} {place}\n")
        } else {
            format!("accepted\nstopped {number} {place}\n")
        }
    })
}
