//! Makes a script from rows of bands and grades readings by it: bands ROWS SCRIPT [READING..]. ROWS is a text,
//! one row a line: low, high and grade, with blanks or a comma between them; empty lines and lines that begin
//! with # are skipped. SCRIPT is the file that is written. Rows that are refused are told by number and place,
//! and in words with their line; SCRIPT is then left alone. Exit status: 0 if all was graded, 1 for refused
//! rows, 2 where a word or a file is at fault.

use scriptmaker::{bands, number, Outcome, Refusal, Script, MAX_BANDS, MAX_FUEL, MAX_INPUTS, MAX_ROWS};
use std::ffi::{OsStr, OsString};
use std::fmt::Display;
use std::io::Write;
use std::path::Path;
use std::process::ExitCode;

/// One row more than a script takes: as many are refused like any that are more.
const MOST: usize = MAX_ROWS + 1;

/// The rows of a text, each with its line.
#[derive(Default)]
struct Rows {
    low: Vec<i32>,
    high: Vec<i32>,
    grade: Vec<i32>,
    line: Vec<usize>,
}

fn main() -> ExitCode {
    let words: Vec<OsString> = std::env::args_os().skip(1).collect();
    let mut said = String::new();
    let status = make_and_grade(&words, &mut said).unwrap_or_else(complain);
    let mut out = std::io::stdout();
    let printed = out.write_all(said.as_bytes()).and_then(|()| out.flush());
    ExitCode::from(printed.map_or_else(|error| complain(format!("standard output: {error}")), |()| status))
}

fn complain(message: String) -> u8 {
    _ = writeln!(std::io::stderr(), "{message}");
    2
}

fn about(name: &OsStr, what: impl Display) -> String {
    format!("{}: {what}", Path::new(name).display())
}

/// A word as a number.
fn reading(word: &OsString) -> Result<i32, String> {
    let number = word.to_str().and_then(|word| word.parse().ok());
    number.ok_or_else(|| about(word, "not a whole number of 32 bits"))
}

/// The exit status, or what to complain of.
fn make_and_grade(words: &[OsString], said: &mut String) -> Result<u8, String> {
    let [rows, script, readings @ ..] = words else {
        return Err("bands ROWS SCRIPT [READING..]".to_string());
    };
    let readings = readings.iter().map(reading).collect::<Result<Vec<i32>, String>>()?;
    let rows = load(rows)?;
    let mut file = vec![0; MAX_BANDS];
    let count = rows.line.len();
    match bands(count as u16, &rows.low, &rows.high, &rows.grade, &mut file) {
        Err(refusal) => {
            *said += &format!("refused {} {}\n{}\n", refusal.number, refusal.place, rows.explain(refusal));
            Ok(1)
        }
        Ok(length) => {
            std::fs::write(script, &file[..length]).map_err(|error| about(script, error))?;
            *said += &format!("wrote {length} bytes\n");
            Ok(if grade_all(&file[..length], &readings, said).is_ok() { 0 } else { 1 })
        }
    }
}

/// Grades readings by the plain run of a script file.
fn grade_all(file: &[u8], readings: &[i32], said: &mut String) -> Result<(), Refusal> {
    let mut script = Script::new();
    script.read(file)?;
    let mut heap = vec![0; MAX_FUEL as usize + MAX_INPUTS];
    for reading in readings {
        match script.run(&[*reading], MAX_FUEL, &mut heap) {
            Ok(ran) => match ran.outcome {
                Outcome::Number(grade) => *said += &format!("{reading}: {grade}\n"),
                Outcome::Function => *said += &format!("{reading}: a function\n"),
            },
            Err(f) => {
                *said += &format!("ran: number {} place {} steps {}\n", f.number, f.place, f.steps);
                return Err(f);
            }
        }
    }
    Ok(())
}

/// Takes the rows of a text.
fn load(name: &OsString) -> Result<Rows, String> {
    let text = std::fs::read(name).map_err(|error| about(name, error))?;
    let mut rows = Rows::default();
    for (k, line) in text.split(|byte| *byte == b'\n').enumerate() {
        let line = String::from_utf8_lossy(line);
        if line.starts_with('#') || past_blanks(&line).is_empty() {
            continue;
        }
        let fault = || about(name, format!("line {}: not three whole numbers of 32 bits: low, high, grade", k + 1));
        let [low, high, grade] = row_of(&line).ok_or_else(fault)?;
        if rows.line.len() < MOST {
            rows.low.push(low);
            rows.high.push(high);
            rows.grade.push(grade);
            rows.line.push(k + 1);
        }
    }
    Ok(rows)
}

fn past_blanks(text: &str) -> &str {
    text.trim_start_matches([' ', '\t', '\r'])
}

/// A number at the start of a text, and what follows it.
fn number_at(text: &str) -> Option<(i32, &str)> {
    let signed = text.strip_prefix(['-', '+']).unwrap_or(text);
    let digits = signed.find(|letter: char| !letter.is_ascii_digit()).unwrap_or(signed.len());
    let (word, rest) = text.split_at(text.len() - signed.len() + digits);
    Some((word.parse().ok()?, rest))
}

/// Blanks, a comma, or both.
fn past_separator(text: &str) -> Option<&str> {
    let next = past_blanks(text);
    match next.strip_prefix(',') {
        Some(rest) => Some(past_blanks(rest)),
        None if next.len() < text.len() => Some(next),
        None => None,
    }
}

/// The row of a line.
fn row_of(line: &str) -> Option<[i32; 3]> {
    let (low, rest) = number_at(past_blanks(line))?;
    let (high, rest) = number_at(past_separator(rest)?)?;
    let (grade, rest) = number_at(past_separator(rest)?)?;
    past_blanks(rest).is_empty().then_some([low, high, grade])
}

impl Rows {
    /// Why rows are refused, in words.
    fn explain(&self, refusal: Refusal) -> String {
        let (k, count) = (refusal.place, self.line.len());
        match refusal.number {
            number::BAD_ROW if count == 0 => "there are no rows".to_string(),
            number::BAD_ROW if count > MAX_ROWS => format!("line {}: a row more than {MAX_ROWS}", self.line[MAX_ROWS]),
            number::BAD_ROW if self.low[k] > self.high[k] => {
                format!("line {}: the low {} is above the high {}", self.line[k], self.low[k], self.high[k])
            }
            number::BAD_ROW => format!("line {}: the grade {} is outside 0 to 255", self.line[k], self.grade[k]),
            number::OVERLAP => format!(
                "line {}: the low {} is not above {}, the high of the row before",
                self.line[k],
                self.low[k],
                self.high[k - 1]
            ),
            number::GAP if k < count => format!(
                "line {}: the readings {} to {} before it fall in no row",
                self.line[k],
                if k == 0 { i32::MIN } else { self.high[k - 1] + 1 },
                self.low[k] - 1
            ),
            number::GAP => format!(
                "line {}: the readings {} to 2147483647 after it fall in no row",
                self.line[k - 1],
                self.high[k - 1] + 1
            ),
            _ => "rows that are not refused for themselves".to_string(),
        }
    }
}
