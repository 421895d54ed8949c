//! Compares a program that takes rows as text with the own answer, on seeded rows: its standard output, its status and the script
//! file that it writes.

use crate::bands::{border_readings, grade_of, script, Row};
use crate::differ::{keep_first, shortened, sum_up};
use crate::generate::bands::{damage, good_rows, some_rows};
use crate::random::Random;
use crate::script::{encode, Reply};
use std::collections::BTreeMap;
use std::path::{Path, PathBuf};
use std::process::{self, Command};
use std::{env, fs};

/// One call of the program: the text of its rows, the readings behind it, and what the script file holds before.
pub struct Call {
    pub rows: Vec<Row>,
    pub text: String,
    pub readings: Vec<i32>,
    pub before: Vec<u8>,
}

/// What is wanted of a call, with the number of its reply; of refused rows the first line is compared alone.
pub struct Wanted {
    pub number: u8,
    pub status: i32,
    pub printed: String,
    pub script: Vec<u8>,
}

/// What a call left. A status is missing if a signal ended the program, a script if it took it away.
struct Left {
    status: Option<i32>,
    printed: Vec<u8>,
    script: Option<Vec<u8>>,
}

impl Call {
    /// The call at one place of a seeded sequence.
    pub fn seeded(seed: u64, index: u64) -> Call {
        let mut random = Random::new(seed, index);
        let rows = seeded_rows(index % 2 == 1, &mut random);
        let text = text_of(&rows, &mut random);
        let readings = some_readings(&rows, &mut random);
        let length = random.pick(&[1, 20, 38, 129, 220, 1_000, 2_859, 5_000]);
        let before = (0..length).map(|_| random.below(256) as u8).collect();
        Call { rows, text, readings, before }
    }

    /// The own answer.
    pub fn wanted(&self) -> Wanted {
        match script(&self.rows) {
            Ok(script) => {
                let file = encode(&script);
                let grade = |reading| grade_of(&self.rows, reading).expect("one row for a reading");
                let line = |&reading: &i32| format!("{reading}: {}\n", grade(reading));
                let lines: String = self.readings.iter().map(line).collect();
                let printed = format!("wrote {} bytes\n{lines}", file.len());
                Wanted { number: 0, status: 0, printed, script: file }
            }
            Err(Reply { number, place, .. }) => {
                let printed = format!("refused {number} {place}\n");
                Wanted { number, status: 1, printed, script: self.before.clone() }
            }
        }
    }
}

/// Good rows, or damaged ones: mostly in one place or two, at times no rows or more than 32.
fn seeded_rows(damaged: bool, random: &mut Random) -> Vec<Row> {
    let mut rows = match random.below(16) {
        0 if damaged => vec![],
        1 if damaged => return good_rows(random.between(33, 40), random),
        2 if damaged => good_rows(random.between(33, 39), random),
        _ => some_rows(random),
    };
    if damaged {
        let places = if random.chance(30) { 2 } else { 1 };
        (0..places).for_each(|_| damage(&mut rows, random));
    }
    rows
}

/// A row on each line. At times there are lines between that are skipped, or the last line has no end.
fn text_of(rows: &[Row], random: &mut Random) -> String {
    let skipped = random.pick(&[0, 0, 15, 50]);
    let mixed = random.chance(50);
    let mut text = String::new();
    for Row { low, high, grade } in rows {
        skipped_lines(&mut text, skipped, random);
        let mut between = || if mixed { random.pick(&SEPARATORS) } else { " " };
        text += &format!("{low}{}{high}{}{grade}\n", between(), between());
    }
    skipped_lines(&mut text, skipped, random);
    if random.chance(10) {
        text.pop();
    }
    text
}

/// What may stand between two numbers.
const SEPARATORS: [&str; 9] = [" ", "  ", "\t", ",", ", ", " , ", "\t,\t", " \t", " ,"];

/// Lines that are skipped.
const SKIPPED: [&str; 7] = ["", "", "#", "# low high grade", "#1 2 3", "# 5, 6, 7", "#, -1 #"];

fn skipped_lines(text: &mut String, percent: usize, random: &mut Random) {
    while random.chance(percent) {
        *text += random.pick(&SKIPPED);
        text.push('\n');
    }
}

/// Up to 14 border readings and up to 6 others, in any order.
fn some_readings(rows: &[Row], random: &mut Random) -> Vec<i32> {
    let borders = border_readings(rows);
    let mut readings: Vec<i32> = (0..random.below(15)).map(|_| random.pick(&borders)).collect();
    for _ in 0..random.below(7) {
        let reading = if random.chance(50) { random.next() as i32 } else { random.border_number() };
        readings.insert(random.below(readings.len() + 1), reading);
    }
    readings
}

/// A folder for the two files of a call, which goes when it is dropped.
struct Folder(PathBuf);

impl Folder {
    fn new() -> Result<Folder, String> {
        let path = env::temp_dir().join(format!("reference-bands-{}", process::id()));
        fs::create_dir_all(&path).map_err(|e| format!("{}: {e}", path.display()))?;
        Ok(Folder(path))
    }

    /// Puts the files of a call there, calls the program, and looks at what it left.
    fn run(&self, program: &str, call: &Call) -> Result<Left, String> {
        let (rows, script) = (self.0.join("rows"), self.0.join("script"));
        fs::write(&rows, &call.text).map_err(|e| format!("{}: {e}", rows.display()))?;
        fs::write(&script, &call.before).map_err(|e| format!("{}: {e}", script.display()))?;
        let mut command = Command::new(program);
        command.arg(&rows).arg(&script).args(call.readings.iter().map(i32::to_string));
        let output = command.output().map_err(|e| format!("{program}: {e}"))?;
        let (status, script) = (output.status.code(), fs::read(&script).ok());
        Ok(Left { status, printed: output.stdout, script })
    }
}

impl Drop for Folder {
    fn drop(&mut self) {
        fs::remove_dir_all(&self.0).ok();
    }
}

impl Wanted {
    fn printed_by(&self, left: &Left) -> bool {
        let wanted = self.printed.as_bytes();
        left.printed == wanted || (self.number != 0 && left.printed.starts_with(wanted))
    }

    fn written_by(&self, left: &Left) -> bool {
        left.script.as_ref() == Some(&self.script)
    }

    fn is(&self, left: &Left) -> bool {
        self.printed_by(left) && self.written_by(left) && left.status == Some(self.status)
    }
}

/// Calls a built program on seeded rows and tells whether it gives the own answers. The first text that differs is kept in a file.
pub fn differ(program: &str, seed: u64, count: u64, keep: Option<&Path>) -> Result<bool, String> {
    let folder = Folder::new()?;
    let mut differences = 0;
    let mut replies = BTreeMap::new();
    for index in 0..count {
        let call = Call::seeded(seed, index);
        let wanted = call.wanted();
        *replies.entry(wanted.number).or_insert(0) += 1;
        let left = folder.run(program, &call)?;
        if wanted.is(&left) {
            continue;
        }
        differences += 1;
        if differences == 1 {
            tell(index, &call, &wanted, &left);
            keep_first(keep, call.text.as_bytes())?;
        }
    }
    Ok(sum_up(&replies, count, differences))
}

/// Prints a difference.
fn tell(index: u64, call: &Call, wanted: &Wanted, left: &Left) {
    println!("input {index}: readings {:?}", call.readings);
    if !wanted.printed_by(left) {
        println!("input {index}: wanted {:?}", shortened(wanted.printed.as_bytes()));
        println!("input {index}: got {:?}", shortened(&left.printed));
    }
    match left.status {
        Some(status) if status == wanted.status => {}
        Some(status) => println!("input {index}: wanted status {}, got {status}", wanted.status),
        None => println!("input {index}: ended by a signal"),
    }
    if !wanted.written_by(left) {
        let length = left.script.as_ref().map(Vec::len);
        println!("input {index}: wanted a script of {}, got {length:?}", wanted.script.len());
    }
}
