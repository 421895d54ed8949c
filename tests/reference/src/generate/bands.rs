//! Seeded rows for coin sensors: good ones, and damage to them.

use crate::bands::Row;
use crate::random::Random;
use std::collections::BTreeSet;

/// Mostly any number of rows from 1 to 32, at times one of the fewest or of the most.
pub fn some_rows(random: &mut Random) -> Vec<Row> {
    let count = match random.below(6) {
        0 => random.between(1, 3),
        1 => random.between(30, 32),
        _ => random.between(1, 32),
    };
    good_rows(count, random)
}

/// Rows in which every reading falls once. All lows but the first are cuts.
pub fn good_rows(count: usize, random: &mut Random) -> Vec<Row> {
    let cuts = cuts(count - 1, random);
    let lows = [i32::MIN].into_iter().chain(cuts.iter().copied());
    let highs = cuts.iter().map(|cut| cut - 1).chain([i32::MAX]);
    let mut grade = || match random.below(4) {
        0 => 0,
        1 => 255,
        _ => random.below(256) as i32,
    };
    lows.zip(highs).map(|(low, high)| Row { low, high, grade: grade() }).collect()
}

/// Cuts above the lower end of the range. At times most of them lie close together.
fn cuts(count: usize, random: &mut Random) -> BTreeSet<i32> {
    let close = random.pick(&[0, 40, 85, 100]);
    let mut cuts = BTreeSet::new();
    let mut last = anywhere(random);
    while cuts.len() < count {
        last = if random.chance(close) { near(last, random) } else { anywhere(random) };
        if last > i32::MIN {
            cuts.insert(last);
        }
    }
    cuts
}

/// A number next to another, or a little farther.
fn near(number: i32, random: &mut Random) -> i32 {
    let by = random.pick(&[1, 1, 1, 2, 3, 17]);
    if random.chance(50) {
        number.saturating_add(by)
    } else {
        number.saturating_sub(by)
    }
}

/// Any number, with a liking for small ones and for the ends of the range.
fn anywhere(random: &mut Random) -> i32 {
    match random.below(5) {
        0 => i32::MIN + random.below(5) as i32,
        1 => i32::MAX - random.below(5) as i32,
        2 => random.below(600) as i32 - 300,
        3 => random.border_number(),
        _ => random.next() as i32,
    }
}

/// A reading of a row.
fn inside(row: &Row, random: &mut Random) -> i32 {
    let width = (i64::from(row.high) - i64::from(row.low)).max(0);
    (i64::from(row.low) + random.between(0, width as usize) as i64) as i32
}

/// Damages rows in one place. At an end of the range, and with one row, some ways change nothing.
pub fn damage(rows: &mut Vec<Row>, random: &mut Random) {
    if rows.is_empty() {
        return;
    }
    match random.below(12) {
        0..=2 => gap_by_one(rows, random),
        3..=4 => overlap_by_one(rows, random),
        5..=6 => any_end(rows, random),
        7 => swapped(rows, random),
        8 => missing(rows, random),
        9 => doubled(rows, random),
        10 => bad_grade(rows, random),
        _ => turned(rows, random),
    }
}

fn one_of<'r>(rows: &'r mut [Row], random: &mut Random) -> &'r mut Row {
    let row = random.below(rows.len());
    &mut rows[row]
}

/// An end of a row one farther in. A row of one reading goes.
fn gap_by_one(rows: &mut Vec<Row>, random: &mut Random) {
    let at = random.below(rows.len());
    let row = &mut rows[at];
    if row.low == row.high {
        rows.remove(at);
    } else if random.chance(50) {
        row.low = row.low.saturating_add(1);
    } else {
        row.high = row.high.saturating_sub(1);
    }
}

/// An end of a row one farther out.
fn overlap_by_one(rows: &mut [Row], random: &mut Random) {
    let row = one_of(rows, random);
    if random.chance(50) {
        row.low = row.low.saturating_sub(1);
    } else {
        row.high = row.high.saturating_add(1);
    }
}

/// An end of a row anywhere: a gap or an overlap of any size, or a row that is turned.
fn any_end(rows: &mut [Row], random: &mut Random) {
    let row = one_of(rows, random);
    let end = if random.chance(60) { inside(row, random) } else { anywhere(random) };
    if random.chance(50) {
        row.low = end;
    } else {
        row.high = end;
    }
}

fn swapped(rows: &mut [Row], random: &mut Random) {
    let count = rows.len();
    let first = random.below(count);
    let second = if random.chance(50) { first + 1 } else { random.below(count) };
    rows.swap(first, second % count);
}

fn missing(rows: &mut Vec<Row>, random: &mut Random) {
    rows.remove(random.below(rows.len()));
}

fn doubled(rows: &mut Vec<Row>, random: &mut Random) {
    let row = *one_of(rows, random);
    rows.insert(random.below(rows.len() + 1), row);
}

/// Mostly out of its range by one.
fn bad_grade(rows: &mut [Row], random: &mut Random) {
    let grade = random.pick(&[-1, -1, -1, 256, 256, 256, 511, 65_536, i32::MIN, i32::MAX]);
    one_of(rows, random).grade = grade;
}

/// Low above high, by one or by the width of the row.
fn turned(rows: &mut [Row], random: &mut Random) {
    let row = one_of(rows, random);
    match random.below(3) {
        0 => std::mem::swap(&mut row.low, &mut row.high),
        1 => row.low = row.high.saturating_add(1),
        _ => row.high = row.low.saturating_sub(1),
    }
}
