//! Hand-made trials of the bands for coin sensors, each with the reply that the paper gives it.
//!
//! A file has 8 bytes for its head, 4 for its input and 13 for each node. The last row has 2 nodes, any other 7: so 38 bytes for
//! one row, 129 for two, 220 for three, and so on by 91, to 2,859 for 32.

use crate::bands::Row;
use crate::lent::BandCall;

/// A call and the reply to it: number, place, and the length of the file.
pub struct Trial {
    pub name: String,
    pub call: BandCall,
    pub wanted: (u8, usize, usize),
}

/// An output that is long enough for any file.
const AMPLE: usize = 4_096;

/// Rows as text, and the reply to them with an output that is long enough.
type Few = (&'static str, u8, usize, usize);

const ROWS: &[Few] = &[
    // One row, with a grade at both ends of its range and between.
    ("min max 0", 0, 0, 38),
    ("min max 255", 0, 0, 38),
    ("min max 7", 0, 0, 38),
    // Two rows, cut at zero, next to it, and elsewhere.
    ("min -1 1; 0 max 2", 0, 0, 129),
    ("min 0 0; 1 max 255", 0, 0, 129),
    ("min -2 255; -1 max 0", 0, 0, 129),
    ("min 99 5; 100 max 5", 0, 0, 129),
    // Too weak, accepted, too strong; too strong may have the grade of too weak.
    ("min 99 0; 100 200 1; 201 max 2", 0, 0, 220),
    ("min 99 0; 100 200 1; 201 max 0", 0, 0, 220),
    ("min -201 0; -200 -100 255; -99 max 0", 0, 0, 220),
    ("min 2147483645 1; 2147483646 2147483646 2; max max 3", 0, 0, 220),
    ("min 9 1; 10 19 2; 20 29 3; 30 max 4", 0, 0, 311),
    // One reading in a row: at the lower end, at the upper, at both, and between.
    ("min min 3; -2147483647 max 4", 0, 0, 129),
    ("min 2147483646 3; max max 4", 0, 0, 129),
    ("min min 9; -2147483647 2147483646 8; max max 7", 0, 0, 220),
    ("min -1 1; 0 0 2; 1 max 3", 0, 0, 220),
    ("min 99 1; 100 100 2; 101 max 3", 0, 0, 220),
    ("min -2 1; -1 -1 2; 0 0 3; 1 1 4; 2 max 5", 0, 0, 402),
    ("min min 1; -2147483647 -2147483647 2; -2147483646 max 3", 0, 0, 220),
    // 30: low above high, in the first row, between, in the last, and in several.
    ("1 0 5", 30, 0, 0),
    ("max min 5", 30, 0, 0),
    ("max 2147483646 5", 30, 0, 0),
    ("-2147483647 min 5", 30, 0, 0),
    ("0 -1 1; 0 max 2", 30, 0, 0),
    ("min 99 0; 100 99 1; 100 max 2", 30, 1, 0),
    ("min 99 0; 200 100 1; 201 max 2", 30, 1, 0),
    ("min 99 0; 100 200 1; max 201 2", 30, 2, 0),
    ("min 99 0; 100 200 1; max 2147483646 2", 30, 2, 0),
    ("min 99 0; 200 100 1; max 201 2", 30, 1, 0),
    ("99 min 0; 200 100 1; max 201 2", 30, 0, 0),
    ("max min 0; max min 0; max min 0", 30, 0, 0),
    // 30: a grade out of its range.
    ("min max -1", 30, 0, 0),
    ("min max 256", 30, 0, 0),
    ("min max min", 30, 0, 0),
    ("min max max", 30, 0, 0),
    ("min 99 -1; 100 200 1; 201 max 2", 30, 0, 0),
    ("min 99 0; 100 200 256; 201 max 2", 30, 1, 0),
    ("min 99 0; 100 200 1; 201 max -1", 30, 2, 0),
    ("min 99 0; 100 200 1; 201 max 256", 30, 2, 0),
    ("min 99 0; 100 200 min; 201 max 2", 30, 1, 0),
    ("min 99 0; 100 200 1; 201 max max", 30, 2, 0),
    ("min 99 0; 100 200 511; 201 max 300", 30, 1, 0),
    // Both kinds of 30: the lowest row, whichever it is, and one row with both.
    ("min 99 256; 200 100 1; 201 max 2", 30, 0, 0),
    ("min 99 0; 200 100 1; 201 max 256", 30, 1, 0),
    ("min 99 0; 100 200 -1; max 201 2", 30, 1, 0),
    ("min 99 0; 200 100 -1; 201 max 2", 30, 1, 0),
    // 30 in a later row comes before 31 and 32 in an earlier one.
    ("min 99 0; 99 200 1; 201 max 256", 30, 2, 0),
    ("min 99 0; 99 200 1; max 201 2", 30, 2, 0),
    ("min 99 0; 101 200 1; 201 max -1", 30, 2, 0),
    ("-2147483647 99 0; 101 200 1; max 201 2", 30, 2, 0),
    ("5 9 0; 7 8 1; 20 30 2; 6 5 3", 30, 3, 0),
    ("min 99 0; 99 200 1; 202 max 256", 30, 2, 0),
    // 31: low is the high before, or far below it.
    ("min 0 1; 0 max 2", 31, 1, 0),
    ("min 99 0; 99 200 1; 201 max 2", 31, 1, 0),
    ("min 99 0; 100 200 1; 200 max 2", 31, 2, 0),
    ("min min 1; min max 2", 31, 1, 0),
    ("min -1 1; -1 -1 2; 0 max 3", 31, 1, 0),
    ("min 99 0; -1000 200 1; 201 max 2", 31, 1, 0),
    ("min 99 0; min 200 1; 201 max 2", 31, 1, 0),
    ("min 99 0; 100 200 1; min max 2", 31, 2, 0),
    // 31: equal rows, rows inside the row before, falling rows.
    ("min max 1; min max 1", 31, 1, 0),
    ("5 9 1; 5 9 1", 31, 1, 0),
    ("min 99 0; 100 200 1; 100 200 1; 201 max 2", 31, 2, 0),
    ("min 99 0; 100 200 1; 150 160 2; 201 max 3", 31, 2, 0),
    ("0 max 2; min -1 1", 31, 1, 0),
    ("201 max 2; 100 200 1; min 99 0", 31, 1, 0),
    ("min 99 0; 201 max 2; 100 200 1", 31, 2, 0),
    ("max max 1; min min 2", 31, 1, 0),
    // 31 against the row before, not against those before it.
    ("min 99 0; 50 60 1; 61 max 2", 31, 1, 0),
    ("min 99 0; 50 60 1; 60 70 2; 70 max 3", 31, 1, 0),
    // The upper end of the range before another row: nothing lies above it.
    ("min max 1; max max 2", 31, 1, 0),
    ("min max 1; 0 0 2", 31, 1, 0),
    ("min max 1; min min 2", 31, 1, 0),
    ("max max 1; max max 2", 31, 1, 0),
    ("min 99 0; 100 max 1; min 99 2", 31, 2, 0),
    ("min 99 0; 100 max 1; 2147483646 max 2", 31, 2, 0),
    ("min 99 0; 100 max 1; min min 2; -2147483647 max 3", 31, 2, 0),
    // 31 in a later row comes before 32 in an earlier one; the lowest 31.
    ("5 9 1; 20 30 2; 30 max 3", 31, 2, 0),
    ("-2147483647 99 0; 100 200 1; 200 max 2", 31, 2, 0),
    ("min 99 0; 101 200 1; 100 max 2", 31, 2, 0),
    ("min 99 0; 101 200 1; 202 300 2; 299 400 3", 31, 3, 0),
    ("min 99 0; 99 200 1; 199 max 2", 31, 1, 0),
    ("min 99 0; 100 200 1; 200 300 2; 300 max 3", 31, 2, 0),
    // 32: one reading is missing before the first row, between, after the last.
    ("-2147483647 max 1", 32, 0, 0),
    ("-2147483647 99 0; 100 max 1", 32, 0, 0),
    ("min 0 1; 2 max 2", 32, 1, 0),
    ("min -1 1; 1 max 2", 32, 1, 0),
    ("min 99 0; 100 200 1; 202 max 2", 32, 2, 0),
    ("min 98 0; 100 200 1; 201 max 2", 32, 1, 0),
    ("min 2147483646 1", 32, 1, 0),
    ("min 99 0; 100 2147483646 1", 32, 2, 0),
    ("min 99 0; 100 200 1; 201 2147483646 2", 32, 3, 0),
    ("min min 1; -2147483646 max 2", 32, 1, 0),
    ("min 2147483645 1; max max 2", 32, 1, 0),
    // 32: gaps of all sizes.
    ("0 max 1", 32, 0, 0),
    ("max max 1", 32, 0, 0),
    ("0 0 1", 32, 0, 0),
    ("5 9 1; 10 20 2", 32, 0, 0),
    ("min min 1", 32, 1, 0),
    ("min -1 1", 32, 1, 0),
    ("min 0 1", 32, 1, 0),
    ("min min 1; max max 2", 32, 1, 0),
    ("min 99 0; 102 max 1", 32, 1, 0),
    ("min 99 0; 1000000 max 1", 32, 1, 0),
    ("min -1000000000 0; 1500000000 max 1", 32, 1, 0),
    ("min 99 0; 100 200 1", 32, 2, 0),
    ("min 99 0; 100 200 1; 300 400 2; 401 max 3", 32, 2, 0),
    // 32: the lowest of several.
    ("min 0 1; 2 3 2; 5 max 3", 32, 1, 0),
    ("min 0 1; 1 3 2; 5 9 3", 32, 2, 0),
    ("min 0 1; 1 3 2; 4 9 3", 32, 3, 0),
    ("-5 0 1; 2 3 2; 5 9 3", 32, 0, 0),
    ("-2147483647 2147483646 1", 32, 0, 0),
];

/// Many rows, and the reply to them with an output that is long enough.
type Many = (&'static str, fn() -> Vec<Row>, u8, usize, usize);

const MANY_ROWS: &[Many] = &[
    ("31 rows", || stairs(31, 0, 10), 0, 0, 2_768),
    ("32 rows", || stairs(32, 0, 10), 0, 0, 2_859),
    ("32 rows of one width", || stairs(32, i32::MIN + (1 << 27), 1 << 27), 0, 0, 2_859),
    ("32 rows, 30 of one reading", || stairs(32, -15, 1), 0, 0, 2_859),
    ("32 rows, the lowest of one reading", || stairs(32, i32::MIN + 1, 1), 0, 0, 2_859),
    ("32 rows, the highest of one reading", || stairs(32, i32::MAX - 30, 1), 0, 0, 2_859),
    ("no rows", Vec::new, 30, 0, 0),
    ("33 rows", || stairs(33, 0, 10), 30, 0, 0),
    ("34 rows", || stairs(34, 0, 10), 30, 0, 0),
    ("40 rows", || stairs(40, 0, 1), 30, 0, 0),
    ("33 rows, the last turned", || [stairs(32, 0, 10), rows("9 8 1")].concat(), 30, 0, 0),
    ("33 rows, the last of grade 256", || [stairs(32, 0, 10), rows("0 0 256")].concat(), 30, 0, 0),
    ("33 equal rows", || vec![rows("5 9 1")[0]; 33], 30, 0, 0),
];

/// An edit of 32 rows cut at 0, 10, and so on to 300; then number and place of the reply.
type Edit = (&'static str, fn(&mut Vec<Row>), u8, usize);

const EDITS: &[Edit] = &[
    ("turned first", |rows| rows[0].low = 0, 30, 0),
    ("turned between", |rows| rows[16].high = 149, 30, 16),
    ("turned last", |rows| rows[31].high = 299, 30, 31),
    ("grade -1 first", |rows| rows[0].grade = -1, 30, 0),
    ("grade 256 between", |rows| rows[15].grade = 256, 30, 15),
    ("grade 256 last", |rows| rows[31].grade = 256, 30, 31),
    ("an overlap second", |rows| rows[1].low = -1, 31, 1),
    ("an overlap between", |rows| rows[17].high = 170, 31, 18),
    ("an overlap last", |rows| rows[31].low = 299, 31, 31),
    ("overlaps, the lowest", |rows| (9..20).for_each(|k| rows[k].low -= 1), 31, 9),
    ("swapped first", |rows| rows.swap(0, 1), 31, 1),
    ("swapped between", |rows| rows.swap(12, 13), 31, 13),
    ("swapped last", |rows| rows.swap(30, 31), 31, 31),
    ("first and last swapped", |rows| rows.swap(0, 31), 31, 1),
    ("falling", |rows| rows.reverse(), 31, 1),
    ("a gap before the first", |rows| rows[0].low += 1, 32, 0),
    ("a gap between", |rows| rows[17].high = 168, 32, 18),
    ("a gap before the last", |rows| rows[31].low = 301, 32, 31),
    ("a gap after the last", |rows| rows[31].high -= 1, 32, 32),
    ("one missing", |rows| rows.retain(|row| row.low != 40), 32, 5),
    ("the last missing", |rows| rows.truncate(31), 32, 31),
    ("all but the first missing", |rows| rows.truncate(1), 32, 1),
    ("the first missing", |rows| rows.retain(|row| row.low >= 0), 32, 0),
];

/// Rows of which the columns are cut to some lengths, under any count and with any output: the rows, the count, the lengths of
/// low, high, grade and output, then the reply.
type Cut = (fn() -> Vec<Row>, u16, [usize; 4], (u8, usize, usize));

const CUTS: &[Cut] = &[
    // Each column shorter than the count, by one and by all.
    (two, 2, [1, 2, 2, AMPLE], (1, 0, 0)),
    (two, 2, [2, 1, 2, AMPLE], (1, 0, 0)),
    (two, 2, [2, 2, 1, AMPLE], (1, 0, 0)),
    (two, 2, [0, 2, 2, AMPLE], (1, 0, 0)),
    (two, 2, [2, 0, 2, AMPLE], (1, 0, 0)),
    (two, 2, [2, 2, 0, AMPLE], (1, 0, 0)),
    (two, 2, [0, 0, 0, 0], (1, 0, 0)),
    (two, 1, [0, 1, 1, AMPLE], (1, 0, 0)),
    (two, 1, [1, 0, 1, AMPLE], (1, 0, 0)),
    (two, 1, [1, 1, 0, AMPLE], (1, 0, 0)),
    (two, 3, [2, 2, 2, AMPLE], (1, 0, 0)),
    // Even with no output, rows that are bad otherwise, or too many.
    (two, 2, [1, 2, 2, 0], (1, 0, 0)),
    (two, 2, [2, 1, 2, 0], (1, 0, 0)),
    (two, 2, [2, 2, 1, 0], (1, 0, 0)),
    (|| rows("5 4 300; 5 4 -1"), 2, [1, 2, 2, AMPLE], (1, 0, 0)),
    (|| rows("5 4 300; 5 4 -1"), 2, [2, 1, 2, AMPLE], (1, 0, 0)),
    (|| rows("5 4 300; 5 4 -1"), 2, [2, 2, 1, 0], (1, 0, 0)),
    (|| rows("min 0 1; 0 max 2"), 2, [2, 2, 1, AMPLE], (1, 0, 0)),
    (|| rows("5 9 1; 11 20 2"), 2, [2, 1, 2, AMPLE], (1, 0, 0)),
    (|| stairs(32, 0, 10), 32, [31, 32, 32, AMPLE], (1, 0, 0)),
    (|| stairs(32, 0, 10), 32, [32, 31, 32, AMPLE], (1, 0, 0)),
    (|| stairs(32, 0, 10), 32, [32, 32, 31, AMPLE], (1, 0, 0)),
    (|| stairs(33, 0, 10), 33, [32, 33, 33, AMPLE], (1, 0, 0)),
    (|| stairs(33, 0, 10), 33, [33, 32, 33, AMPLE], (1, 0, 0)),
    (|| stairs(33, 0, 10), 33, [33, 33, 32, AMPLE], (1, 0, 0)),
    (|| stairs(33, 0, 10), 33, [33, 33, 0, 0], (1, 0, 0)),
    (|| stairs(40, 0, 10), 41, [40, 40, 40, AMPLE], (1, 0, 0)),
    (|| stairs(40, 0, 10), 65_535, [40, 40, 40, AMPLE], (1, 0, 0)),
    (|| stairs(40, 0, 10), 65_535, [40, 40, 39, 0], (1, 0, 0)),
    (two, 65_535, [0, 0, 0, AMPLE], (1, 0, 0)),
    (two, 32_768, [2, 2, 2, AMPLE], (1, 0, 0)),
    (two, 256, [2, 2, 2, AMPLE], (1, 0, 0)),
    (two, 258, [2, 2, 2, AMPLE], (1, 0, 0)),
    // A count of no rows or too many, whatever the columns hold.
    (two, 0, [0, 0, 0, AMPLE], (30, 0, 0)),
    (two, 0, [2, 2, 2, AMPLE], (30, 0, 0)),
    (two, 0, [2, 0, 1, 0], (30, 0, 0)),
    (|| stairs(33, 0, 10), 33, [33, 33, 33, AMPLE], (30, 0, 0)),
    (|| stairs(40, 0, 10), 33, [40, 33, 36, 0], (30, 0, 0)),
    (|| stairs(40, 0, 10), 40, [40, 40, 40, 0], (30, 0, 0)),
    // Columns longer than the count: the rest is not looked at.
    (two, 1, [2, 2, 2, AMPLE], (32, 1, 0)),
    (two, 1, [1, 1, 2, AMPLE], (32, 1, 0)),
    (|| rows("min max 9; 5 4 300"), 1, [2, 2, 2, AMPLE], (0, 0, 38)),
    (|| rows("min max 9; 5 4 300"), 1, [2, 1, 1, AMPLE], (0, 0, 38)),
    (|| rows("min 0 1; 1 max 2; 5 4 300"), 2, [3, 3, 3, AMPLE], (0, 0, 129)),
    (|| rows("min 0 1; 1 max 2; 5 4 300"), 2, [2, 3, 2, AMPLE], (0, 0, 129)),
    (|| rows("min 0 1; 1 max 2; 5 4 300"), 2, [2, 2, 3, 128], (21, 0, 0)),
    (|| rows("min 0 1; 1 max 2; 5 4 300"), 3, [3, 3, 3, AMPLE], (30, 2, 0)),
    (|| stairs(33, 0, 10), 32, [33, 33, 33, AMPLE], (32, 32, 0)),
    (|| [stairs(32, 0, 10), rows("5 4 300")].concat(), 32, [33, 33, 33, AMPLE], (0, 0, 2_859)),
    // Outputs of other lengths.
    (|| rows("min max 9"), 1, [1, 1, 1, 1], (21, 0, 0)),
    (|| rows("min max 9"), 1, [1, 1, 1, 12], (21, 0, 0)),
    (|| rows("min max 9"), 1, [1, 1, 1, 25], (21, 0, 0)),
    (two, 2, [2, 2, 2, 38], (21, 0, 0)),
    (two, 2, [2, 2, 2, 220], (0, 0, 129)),
    (|| stairs(32, 0, 10), 32, [32, 32, 32, 2_768], (21, 0, 0)),
];

/// Readings of good rows, each with its grade and the steps of its run: 4 for each comparison, and 1 for the grade.
pub type Graded = (&'static str, &'static [(i32, i32, usize)]);

pub const GRADED: &[Graded] = &[
    ("min max 7", &[(i32::MIN, 7, 1), (0, 7, 1), (i32::MAX, 7, 1)]),
    (
        "min -1 255; 0 max 0",
        &[(i32::MIN, 255, 5), (-1, 255, 5), (0, 0, 5), (1, 0, 5), (i32::MAX, 0, 5)],
    ),
    (
        "min 99 0; 100 200 1; 201 max 2",
        &[
            (i32::MIN, 0, 5),
            (0, 0, 5),
            (99, 0, 5),
            (100, 1, 9),
            (150, 1, 9),
            (200, 1, 9),
            (201, 2, 9),
            (i32::MAX, 2, 9),
        ],
    ),
    (
        "min min 9; -2147483647 -1 8; 0 0 7; 1 2147483646 6; max max 5",
        &[
            (i32::MIN, 9, 5),
            (-2_147_483_647, 8, 9),
            (-1, 8, 9),
            (0, 7, 13),
            (1, 6, 17),
            (2_147_483_646, 6, 17),
            (i32::MAX, 5, 17),
        ],
    ),
];

/// Rows from a text, with `;` between them; `min` and `max` are the ends of the range.
pub fn rows(text: &str) -> Vec<Row> {
    let number = |word: &str| match word {
        "min" => i32::MIN,
        "max" => i32::MAX,
        _ => word.parse().expect("a number"),
    };
    let row = |text: &str| {
        let numbers: Vec<i32> = text.split_whitespace().map(number).collect();
        let [low, high, grade] = numbers[..] else { panic!("{text}: three numbers in a row") };
        Row { low, high, grade }
    };
    text.split(';').map(row).collect()
}

/// Rows cut at a first low and by a width from there on. The grades fall from 255 by 8, down to 0.
pub fn stairs(count: usize, first: i32, width: i32) -> Vec<Row> {
    let cut = |k: usize| i64::from(first) + (k as i64 - 1) * i64::from(width);
    let row = |k: usize| Row {
        low: if k == 0 { i32::MIN } else { cut(k) as i32 },
        high: if k == count - 1 { i32::MAX } else { (cut(k + 1) - 1) as i32 },
        grade: (255 - 8 * k as i32).max(0),
    };
    (0..count).map(row).collect()
}

fn two() -> Vec<Row> {
    rows("min 0 1; 1 max 2")
}

/// Rows with an output that is long enough, and with none; good ones also with an output of the file's length, one less, one more.
fn of_rows(name: &str, rows: &[Row], wanted: (u8, usize, usize)) -> Vec<Trial> {
    let trial = |room: usize, wanted: (u8, usize, usize)| Trial {
        name: format!("{name}, output {room}"),
        call: BandCall::of(rows, room),
        wanted,
    };
    let (number, _, length) = wanted;
    if number != 0 {
        return vec![trial(AMPLE, wanted), trial(0, wanted)];
    }
    let short = [0, length - 1].map(|room| trial(room, (21, 0, 0)));
    let enough = [length, length + 1, AMPLE].map(|room| trial(room, wanted));
    short.into_iter().chain(enough).collect()
}

fn of_cut(&(rows, count, lengths, wanted): &Cut) -> Trial {
    let mut call = BandCall { count, ..BandCall::of(&rows(), lengths[3]) };
    call.low.truncate(lengths[0]);
    call.high.truncate(lengths[1]);
    call.grade.truncate(lengths[2]);
    let name = format!("count {count}, lengths {lengths:?} of {:?}", rows());
    Trial { name, call, wanted }
}

/// All trials, as one table.
pub fn trials() -> Vec<Trial> {
    let of_few =
        |&(text, number, place, length): &Few| of_rows(text, &rows(text), (number, place, length));
    let of_many = |&(name, rows, number, place, length): &Many| {
        of_rows(name, &rows(), (number, place, length))
    };
    let of_edit = |&(name, edit, number, place): &Edit| {
        let mut rows = stairs(32, 0, 10);
        edit(&mut rows);
        of_rows(&format!("32 rows, {name}"), &rows, (number, place, 0))
    };
    let few = ROWS.iter().flat_map(of_few);
    let many = MANY_ROWS.iter().flat_map(of_many).chain(EDITS.iter().flat_map(of_edit));
    few.chain(many).chain(CUTS.iter().map(of_cut)).collect()
}
