//! Bands for coin sensors (request 2.4): the script that grades a reading by its row, and the row that a reading falls in.

use crate::assemble::{constant, late_if, late_operation, lay_out, lift, variable, Term};
use crate::script::{Reply, Script, D, LESS};
use std::collections::BTreeSet;
use std::ops::RangeInclusive;

pub const MAX_ROWS: usize = 32;
pub const GRADES: RangeInclusive<i32> = 0..=255;

/// A row: its ends, both included, and its grade.
#[derive(Clone, Copy, Debug, PartialEq, Eq)]
pub struct Row {
    pub low: i32,
    pub high: i32,
    pub grade: i32,
}

/// The script of some rows. All rows are tried for 30, then all for 31, then all for 32.
pub fn script(rows: &[Row]) -> Result<Script, Reply> {
    try_each(rows)?;
    try_order(rows)?;
    try_gaps(rows)?;
    Ok(Script { types: vec![], inputs: vec![D], nodes: lay_out(&part(rows)) })
}

/// A refusal, if there is a place for it.
fn refuse(number: u8, place: Option<usize>) -> Result<(), Reply> {
    place.map_or(Ok(()), |place| Err(Reply::new(number, place)))
}

/// 30: no rows or more than 32; or low above high, or a grade outside 0 to 255.
fn try_each(rows: &[Row]) -> Result<(), Reply> {
    if rows.is_empty() || rows.len() > MAX_ROWS {
        return Err(Reply::new(30, 0));
    }
    refuse(30, rows.iter().position(|row| row.low > row.high || !GRADES.contains(&row.grade)))
}

/// 31: low is not above the high of the row before.
fn try_order(rows: &[Row]) -> Result<(), Reply> {
    refuse(31, (1..rows.len()).find(|&k| rows[k].low <= rows[k - 1].high))
}

/// 32: a gap before a row, or after the last one. Counted in 64 bits, as the end of a row may be the end of the range.
fn try_gaps(rows: &[Row]) -> Result<(), Reply> {
    let mut next = i64::from(i32::MIN);
    for (k, row) in rows.iter().enumerate() {
        if i64::from(row.low) != next {
            return Err(Reply::new(32, k));
        }
        next = i64::from(row.high) + 1;
    }
    refuse(32, (next <= i64::from(i32::MAX)).then_some(rows.len()))
}

/// The part of the first of some rows, which ends with the part of the next.
fn part(rows: &[Row]) -> Term {
    let own = lift(constant(rows[0].grade));
    match rows.get(1) {
        None => own,
        Some(next) => {
            let below = late_operation(LESS, variable(0), lift(constant(next.low)));
            late_if(below, own, part(&rows[1..]))
        }
    }
}

/// The rows that a reading falls in, by their ends alone.
pub fn rows_of(rows: &[Row], reading: i32) -> Vec<usize> {
    (0..rows.len()).filter(|&k| rows[k].low <= reading && reading <= rows[k].high).collect()
}

/// The grade of a reading that falls in exactly one row.
pub fn grade_of(rows: &[Row], reading: i32) -> Option<i32> {
    match rows_of(rows, reading)[..] {
        [row] => Some(rows[row].grade),
        _ => None,
    }
}

/// Rising: the readings at the ends of each row and next to them, zero, and both ends of the range.
pub fn border_readings(rows: &[Row]) -> Vec<i32> {
    let ends = rows.iter().flat_map(|row| [row.low, row.high]);
    let near = ends.flat_map(|end| [end.checked_sub(1), Some(end), end.checked_add(1)]);
    let all: BTreeSet<i32> = near.flatten().chain([0, i32::MIN, i32::MAX]).collect();
    all.into_iter().collect()
}
