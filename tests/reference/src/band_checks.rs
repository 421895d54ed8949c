//! Trials of the bands for coin sensors: the hand-made ones, and seeded rows under a second opinion.

use crate::assemble::assemble;
use crate::band_calls::{seeded_call, told, Packed};
use crate::band_differ::Call;
use crate::band_trials::{rows, stairs, trials, Trial, GRADED};
use crate::bands::{border_readings, grade_of, rows_of, script, Row};
use crate::checker;
use crate::entries;
use crate::lent::BandCall;
use crate::plain::{run, Outcome, Ran};
use crate::script::*;
use crate::self_check::{often, Tally};
use crate::specializer::{make, Lent, MAX_FUEL};

pub fn band_checks(tally: &mut Tally) {
    trials().iter().for_each(|trial| checked(tally, trial));
    file_trials(tally);
    graded_trials(tally);
    lent_trials(tally);
    printed_trials(tally);
    seeded_trials(tally);
    differ_trials(tally);
}

/// Number, place and length of a reply, and whether nothing was touched but the places of the file.
fn called(call: &BandCall) -> ((u8, usize, usize), bool, BandCall) {
    let mut after = call.clone();
    let answer = after.call();
    let mut restored = after.clone();
    restored.out[..answer.length].copy_from_slice(&call.out[..answer.length]);
    ((answer.number, answer.place, answer.length), restored == *call, after)
}

/// One trial: its reply, what it touched, its packed form; of a success the file and the grades too.
fn checked(tally: &mut Tally, Trial { name, call, wanted }: &Trial) {
    let (reply, kept, after) = called(call);
    tally.trial(&format!("bands: {name}"), reply, *wanted);
    tally.trial(&format!("bands: {name}, memory"), kept, true);
    let packed = Packed::of(call.clone());
    let again = Packed::unpack(&packed.pack());
    tally.trial(&format!("bands: {name}, packed"), &again, &packed);
    tally.trial(&format!("bands: {name}, readings"), packed.readings.is_empty(), wanted.0 != 0);
    if let (0, Ok(rows)) = (reply.0, call.rows()) {
        let file = &after.out[..reply.2];
        tally.trial(&format!("bands: {name}, file"), finished(file), true);
        let readings = badly_graded(&rows, file, &packed.readings);
        tally.trial(&format!("bands: {name}, grades"), readings, vec![]);
    }
}

/// Whether a file is read and accepted, has no types and one late input, and is the code that its own making leaves.
fn finished(file: &[u8]) -> bool {
    let Ok(script) = read(file) else { return false };
    let accepted = checker::check(&script).is_ok();
    let made = make(file, &[], MAX_FUEL, &Lent::AMPLE).map(|made| encode(&made.script));
    accepted && script.types.is_empty() && script.inputs == [D] && made.as_deref() == Ok(file)
}

fn graded(file: &[u8], reading: i32) -> Result<Ran, Reply> {
    run(&read(file)?, &[reading], MAX_FUEL, MAX_FUEL + 16)
}

/// The readings that a file does not grade by their row. A comparison takes 4 steps, and the grade one more.
fn badly_graded(rows: &[Row], file: &[u8], readings: &[i32]) -> Vec<i32> {
    let badly = |&reading: &i32| {
        let comparisons = rows_of(rows, reading).first().map(|row| (row + 1).min(rows.len() - 1));
        let wanted = comparisons.zip(grade_of(rows, reading)).map(|(comparisons, grade)| Ran {
            steps: 4 * comparisons + 1,
            outcome: Outcome::Number(grade),
        });
        graded(file, reading).ok() != wanted
    };
    readings.iter().copied().filter(badly).collect()
}

/// Scripts written as text, and one written byte by byte.
fn file_trials(tally: &mut Tally) {
    let file = |rows: &[Row]| script(rows).map(|script| encode(&script));
    for (text, term) in [
        ("min max 7", "(lift 7)"),
        ("min -1 1; 0 max 2", "(_if (_< i0 (lift 0)) (lift 1) (lift 2))"),
        (
            "min 99 0; 100 200 1; 201 max 255",
            "(_if (_< i0 (lift 100)) (lift 0) (_if (_< i0 (lift 201)) (lift 1) (lift 255)))",
        ),
        ("min min 3; -2147483647 max 4", "(_if (_< i0 (lift -2147483647)) (lift 3) (lift 4))"),
        ("min 2147483646 3; max max 4", "(_if (_< i0 (lift 2147483647)) (lift 3) (lift 4))"),
    ] {
        let wanted = assemble(&format!("(script (types) (inputs D) {term})")).expect("a good text");
        tally.trial(&format!("bands: script of {text}"), file(&rows(text)), Ok(encode(&wanted)));
    }
    let bytes = b"HD\0\0\x01\0\x09\0IN\x01\0\
        ND\x01\0\0\0\0\0\0\0\0\0\0\
        ND\0\0\0\0\0\0\0\xf4\x01\0\0\
        ND\x02\x01\0\0\0\0\0\0\0\0\0\
        ND\x0c\0\0\x02\0\x05\0\0\0\0\0\
        ND\0\0\0\0\0\0\0\x11\0\0\0\
        ND\x02\x04\0\0\0\0\0\0\0\0\0\
        ND\0\0\0\0\0\0\0\xff\0\0\0\
        ND\x02\x06\0\0\0\0\0\0\0\0\0\
        ND\x0b\x03\0\x05\0\x07\0\0\0\0\0";
    let two = rows("min 499 17; 500 max 255");
    tally.trial("bands: two rows byte by byte", file(&two), Ok(bytes.to_vec()));
}

/// Grades and steps by hand.
fn graded_trials(tally: &mut Tally) {
    let mut trial = |name: &str, rows: &[Row], graded_by_hand: &[(i32, i32, usize)]| {
        let file = encode(&script(rows).expect("good rows"));
        for &(reading, grade, steps) in graded_by_hand {
            let wanted = Ok(Ran { steps, outcome: Outcome::Number(grade) });
            let name = format!("bands: {name} on {reading}");
            tally.trial(&name, graded(&file, reading), wanted);
            tally.trial(&name, grade_of(rows, reading), Some(grade));
        }
    };
    GRADED.iter().for_each(|(text, by_hand)| trial(text, &rows(text), by_hand));
    let by_hand = [
        (i32::MIN, 255, 5),
        (-1, 255, 5),
        (0, 247, 9),
        (9, 247, 9),
        (10, 239, 13),
        (289, 23, 121),
        (290, 15, 125),
        (299, 15, 125),
        (300, 7, 125),
        (i32::MAX, 7, 125),
    ];
    trial("32 rows", &stairs(32, 0, 10), &by_hand);
}

/// Counts as high as they go, with columns to match.
fn lent_trials(tally: &mut Tally) {
    for (count, places, wanted) in [
        (65_535, 65_535, (30, 0, 0)),
        (65_535, 65_534, (1, 0, 0)),
        (256, 256, (30, 0, 0)),
        (257, 300, (30, 0, 0)),
        (288, 288, (30, 0, 0)),
    ] {
        let whole = rows("min max 5")[0];
        let mut call = BandCall { count, ..BandCall::of(&vec![whole; 65_535], 50) };
        call.high.truncate(places);
        let (reply, kept, _) = called(&call);
        tally.trial(&format!("bands: count {count} of {places}"), (reply, kept), (wanted, true));
    }
}

/// What the commands print.
fn printed_trials(tally: &mut Tally) {
    let whole = || [vec![i32::MIN], vec![i32::MAX], vec![7]];
    let file = "72 68 0*2 1 0 2 0 73 78 1 0 78 68 0*7 7 0*3 78 68 2 0*10";
    let wanted = format!("bands: number 0 place 0 length 38\nout {file} 238*2\n");
    tally.trial("bands: printed", entries::bands(1, 40, whole()), wanted);
    let wanted = "bands: number 1 place 0 length 0\nout 238*3\n".to_string();
    tally.trial("bands: printed, 1", entries::bands(2, 3, whole()), wanted);
    let wanted = "bands: number 21 place 0 length 0\nout\n".to_string();
    tally.trial("bands: printed, 21", entries::bands(1, 0, whole()), wanted);

    let hex = "4844000001000200 494e0100 4e440000000000000007000000 4e440200000000000000000000";
    let wanted = format!("0 0 38\n{}\n{}", hex.replace(' ', ""), "0 0 1 0 7\n".repeat(5));
    let packed = Packed::of(BandCall::of(&rows("min max 7"), 38)).pack();
    tally.trial("bands: told", told(&packed), wanted);
    let packed = Packed::of(BandCall::of(&rows("min 5 0; 7 max 1"), 38)).pack();
    tally.trial("bands: told, 32", told(&packed), "32 1 0\n".to_string());

    let answer = |text: &str| {
        let (text, rows) = (text.to_string(), rows(text));
        let call = Call { rows, text, readings: vec![100, -5, 201], before: vec![1, 2, 3] };
        let wanted = call.wanted();
        (wanted.printed, wanted.status, wanted.script.len())
    };
    let wanted = ("wrote 220 bytes\n100: 1\n-5: 0\n201: 2\n".to_string(), 0, 220);
    tally.trial("bands: program", answer("min 99 0; 100 200 1; 201 max 2"), wanted);
    let wanted = ("refused 31 2\n".to_string(), 1, 3);
    tally.trial("bands: program, 31", answer("min 99 0; 100 200 1; 200 max 2"), wanted);
}

/// A second opinion on rows: number and place, from the rows that hold the border readings.
fn judged(rows: &[Row]) -> (u8, usize) {
    if !(1..=32).contains(&rows.len()) {
        return (30, 0);
    }
    let grade_fits = |row: &Row| i32::from(row.grade as u8) == row.grade;
    let holds_its_low = |row: &Row| rows_of(&[*row], row.low) == [0];
    if let Some(row) = rows.iter().position(|row| !grade_fits(row) || !holds_its_low(row)) {
        return (30, row);
    }
    let readings = border_readings(rows);
    // The lowest row that holds a reading of a row before it, or begins no higher than the row before.
    let shared = readings.iter().filter_map(|&reading| rows_of(rows, reading).get(1).copied());
    let fallen = (1..rows.len()).filter(|&k| rows[k].low <= rows[k - 1].low);
    if let Some(row) = shared.chain(fallen).min() {
        return (31, row);
    }
    // The rows that end below the lowest reading that no row holds.
    let lost = readings.iter().find(|&&reading| rows_of(rows, reading).is_empty());
    lost.map_or((0, 0), |lost| (32, rows.iter().filter(|row| row.high < *lost).count()))
}

/// Whether a seeded call is answered as the second opinion has it, and grades its readings.
fn agrees(Packed { call, readings }: &Packed) -> bool {
    let (reply, kept, after) = called(call);
    let length = (91 * usize::from(call.count)).saturating_sub(53);
    let rows = call.rows().unwrap_or_default();
    let wanted = match call.rows().map_or((1, 0), |rows| judged(&rows)) {
        (0, _) if call.out.len() < length => (21, 0, 0),
        (0, _) => (0, 0, length),
        (number, place) => (number, place, 0),
    };
    let file = &after.out[..reply.2];
    let well = || finished(file) && badly_graded(&rows, file, readings).is_empty();
    kept && reply == wanted && (reply.0 != 0 || well())
}

/// Among 1,500 seeded calls each reply occurs, and two thirds or so are good.
fn seeded_trials(tally: &mut Tally) {
    let calls: Vec<Packed> = (0..1_500).map(|index| seeded_call(1, index)).collect();
    let differing: Vec<usize> = (0..calls.len()).filter(|&k| !agrees(&calls[k])).collect();
    tally.trial("bands: seeded calls", differing, vec![]);
    let whole = |packed: &&Packed| Packed::unpack(&packed.pack()) == **packed;
    tally.trial("bands: seeded calls, packed", calls.iter().filter(whole).count(), calls.len());
    let often = often(calls.iter().map(|packed| called(&packed.call).0 .0));
    let numbers: Vec<u8> = often.keys().copied().collect();
    tally.trial("bands: replies to seeded calls", numbers, vec![0, 1, 21, 30, 31, 32]);
    tally.trial("bands: each many times", often.values().all(|&often| often >= 30), true);
    tally.trial("bands: good calls", (900..1_200).contains(&often[&0]), true);
}

/// The rows in a text: of each line that is neither empty nor a comment its three numbers.
fn rows_in(text: &str) -> Vec<Row> {
    let lines = text.split('\n').filter(|line| !line.is_empty() && !line.starts_with('#'));
    let row = |line: &str| {
        let words = line.split([' ', '\t', ',']).filter(|word| !word.is_empty());
        let numbers: Vec<i32> = words.map(|word| word.parse().expect("a number")).collect();
        let [low, high, grade] = numbers[..] else { panic!("{line}: three numbers in a row") };
        Row { low, high, grade }
    };
    lines.map(row).collect()
}

/// Among 2,000 texts each reply of rows occurs many times; each text holds its rows.
fn differ_trials(tally: &mut Tally) {
    let calls: Vec<Call> = (0..2_000).map(|index| Call::seeded(1, index)).collect();
    let lost = calls.iter().filter(|call| rows_in(&call.text) != call.rows).count();
    tally.trial("bands: texts without their rows", lost, 0);
    let within = calls.iter().all(|call| call.readings.len() <= 20 && call.rows.len() <= 40);
    tally.trial("bands: readings and rows of texts", within, true);
    let often = often(calls.iter().map(|call| call.wanted().number));
    let numbers: Vec<u8> = often.keys().copied().collect();
    tally.trial("bands: replies to texts", numbers, vec![0, 30, 31, 32]);
    tally.trial("bands: each many times", often.values().all(|&often| often >= 200), true);
    tally.trial("bands: good texts", (900..1_200).contains(&often[&0]), true);
    let differing = calls.iter().filter(|call| judged(&call.rows).0 != call.wanted().number);
    tally.trial("bands: texts under a second opinion", differing.count(), 0);
}
