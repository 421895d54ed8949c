//! Numbers and names around the powers of ten and at the ends of their ranges, each with its decimals: trials of the listing and of
//! what both programs print. The inputs of the programs are packed for the program `trials` too.
//!
//! The decimals are texts made from texts, by rule or by counting, and never from the numbers.

use crate::assemble::*;
use crate::benchmake::benchmake;
use crate::benchrun::benchrun;
use crate::lent::{Entry, Memory};
use crate::listing::{listing, listing_lent};
use crate::script::*;
use crate::self_check::{with_settings, Tally};
use std::iter::successors;
use std::ops::RangeInclusive;

/// A number and its decimals.
type Number = (i32, String);

/// A name and its decimals.
type Name = (u16, String);

/// A term and its listing.
type Part = (Term, String);

/// Zero, and the ends of the range from inside.
const ENDS: [(i32, &str); 5] = [
    (0, "0"),
    (2_147_483_647, "2147483647"),
    (2_147_483_646, "2147483646"),
    (-2_147_483_647, "-2147483647"),
    (-2_147_483_648, "-2147483648"),
];

/// The same of names; an input's is below 16.
const NAME_ENDS: [(u16, &str); 5] =
    [(0, "0"), (15, "15"), (16, "16"), (65_534, "65534"), (65_535, "65535")];

/// The digits of one less than 10^k, of 10^k, and of one more.
fn digits(k: usize) -> [String; 3] {
    if k == 0 {
        return ["0", "1", "2"].map(String::from);
    }
    ["9".repeat(k), format!("1{}", "0".repeat(k)), format!("1{}1", "0".repeat(k - 1))]
}

/// The powers of ten through 10^last, one less and one more of each; 0 is left to the ends.
fn around_powers(last: usize) -> Vec<Number> {
    let around = |k: usize| {
        let power = 10_i32.pow(k as u32);
        let [less, exact, more] = digits(k);
        [(power - 1, less), (power, exact), (power + 1, more)]
    };
    (0..=last).flat_map(around).filter(|number| number.0 != 0).collect()
}

/// All numbers.
fn numbers() -> Vec<Number> {
    let ends = ENDS.iter().map(|&(value, text)| (value, text.to_string()));
    let both = |(value, digits): Number| [(-value, format!("-{digits}")), (value, digits)];
    ends.chain(around_powers(9).into_iter().flat_map(both)).collect()
}

/// All names.
fn names() -> Vec<Name> {
    let ends = NAME_ENDS.iter().map(|&(name, text)| (name, text.to_string()));
    ends.chain(around_powers(4).into_iter().map(|(name, text)| (name as u16, text))).collect()
}

/// The decimals of the next number: nines at the end become zeros, and the digit before them grows.
fn after(text: &str) -> String {
    let mut front = text.trim_end_matches('9').to_string();
    let nines = text.len() - front.len();
    let grown = front.pop().map_or('1', |digit| (digit as u8 + 1) as char);
    front.push(grown);
    front + &"0".repeat(nines)
}

/// Names from the first on, counted.
fn counted(first: u16, count: usize) -> Vec<Name> {
    let texts = successors(Some("0".to_string()), |text| Some(after(text)));
    (0..=u16::MAX).zip(texts).skip(first as usize).take(count).collect()
}

/// A script without types.
fn script(inputs: &[u16], term: &Term) -> Script {
    Script { types: vec![], inputs: inputs.to_vec(), nodes: lay_out(term) }
}

/// A tree of additions over parts, early or late, as low as can be.
fn added(add: fn(u16, Term, Term) -> Term, parts: &[Part]) -> Part {
    if let [part] = parts {
        return part.clone();
    }
    let (left, right) = parts.split_at(parts.len() / 2);
    let ((left, left_text), (right, right_text)) = (added(add, left), added(add, right));
    (add(PLUS, left, right), format!("(+ {left_text} {right_text})"))
}

/// A late function of each name around those of the next, which uses its name at once.
fn nested(names: &[Name], bottom: Part) -> Part {
    names.iter().rev().fold(bottom, |(body, text), (name, digits)| {
        let sum = late_operation(PLUS, variable(*name), body);
        (late_function(*name, sum), format!("(lam v{digits} (+ v{digits} {text}))"))
    })
}

fn late_constant(&(value, ref text): &Number) -> Part {
    (lift(constant(value)), text.clone())
}

/// An input of a program, and what the program prints for it.
pub struct Printed {
    pub input: Vec<u8>,
    name: String,
    wanted: String,
}

/// The making of a script: its steps, its nodes and its code as they are printed.
fn making(name: &str, input: Vec<u8>, [steps, nodes, code]: [&str; 3]) -> Printed {
    let wanted = format!("accepted\nsteps {steps}\nnodes {nodes}\n{code}\n");
    Printed { input, name: format!("{name}, made"), wanted }
}

/// A run, with its steps and its number.
fn running(name: &str, input: Vec<u8>, [steps, number]: [&str; 2]) -> Printed {
    let wanted = format!("steps {steps}\n{number}\n");
    Printed { input, name: format!("{name}, run"), wanted }
}

/// All numbers as late constants, added.
fn all_added() -> Part {
    added(late_operation, &numbers().iter().map(late_constant).collect::<Vec<_>>())
}

/// All numbers twice: each as a threshold, and as the value below it.
fn all_thresholds() -> Part {
    let input = (variable(0), "i0".to_string());
    numbers().iter().fold(input, |(rest, rest_text), number| {
        let (value, text) = late_constant(number);
        let below = late_operation(LESS, variable(0), value.clone());
        (late_if(below, value, rest), format!("(if (< i0 {text}) {text} {rest_text})"))
    })
}

/// Numbers as settings; the code is that of their sum as late constants.
fn of_settings(numbers: &[Number]) -> (Vec<u8>, String) {
    let inputs = vec![S; numbers.len()];
    let lifted = |name: usize| (lift(variable(name as u16)), numbers[name].1.clone());
    let (term, text) = added(late_operation, &(0..numbers.len()).map(lifted).collect::<Vec<_>>());
    let settings: Vec<i32> = numbers.iter().map(|number| number.0).collect();
    (with_settings(&encode(&script(&inputs, &term)), &settings), text)
}

/// All names with 16 inputs, all late: those below 16 are inputs, the others are bound and used. Its listing, and that of its code,
/// where the bound names are 16, 17 and so on.
fn inputs_and_binders() -> (Script, [String; 2]) {
    let (inputs, binders): (Vec<Name>, Vec<Name>) =
        names().into_iter().partition(|name| name.0 < MAX_INPUTS as u16);
    let used = |(name, digits): &Name| (variable(*name), format!("i{digits}"));
    let bottom = added(late_operation, &inputs.iter().map(used).collect::<Vec<_>>());
    let (_, made) = nested(&counted(MAX_INPUTS as u16, binders.len()), bottom.clone());
    let (term, text) = nested(&binders, bottom);
    (script(&[D; MAX_INPUTS], &term), [text, made])
}

/// All names bound and used without inputs, in a function that is called 53 times, so that the names of the code pass 1,001. Its
/// listing, and that of its code.
fn called_binders() -> (Script, [String; 2]) {
    let calls = 53;
    let bottom = late_constant(&(7, "7".to_string()));
    let (body, body_text) = nested(&names(), bottom.clone());
    let call = (apply(variable(0), constant(7)), "(app v0 7)".to_string());
    let (sum, sum_text) = added(late_operation, &vec![call; calls]);
    // Type 2 goes from numbers to code, and type 3 from that to code.
    let types = vec![(S, D), (2, D)];
    let term = apply(function(0, 2, sum), function(1, S, body));
    let text = format!("(app (lam v0 {sum_text}) (lam v1 {body_text}))");
    let fresh = counted(0, calls * names().len());
    let bodies = fresh.chunks(names().len()).map(|names| nested(names, bottom.clone()));
    let (_, made) = added(late_operation, &bodies.collect::<Vec<_>>());
    (Script { types, inputs: vec![], nodes: lay_out(&term) }, [text, made])
}

/// Late code of so many nodes, which takes as many steps: leaves and additions are an odd number, and a late fix is one more.
fn late_tree(nodes: usize) -> Part {
    let leaf = (variable(0), "i0".to_string());
    let (term, text) = added(late_operation, &vec![leaf; nodes.div_ceil(2)]);
    if nodes.is_multiple_of(2) {
        (late_fix(term), format!("(fix {text})"))
    } else {
        (term, text)
    }
}

/// Makings of as many steps and nodes as the names in a range.
fn trees(range: RangeInclusive<u16>) -> Vec<Printed> {
    let names = names().into_iter().filter(|name| range.contains(&name.0));
    let tree = |(nodes, digits): Name| {
        let (term, text) = late_tree(nodes as usize);
        making("a tree", encode(&script(&[D], &term)), [&digits, &digits, &text])
    };
    names.map(tree).collect()
}

/// Inputs of `benchmake`: all numbers in one code, as constants and as settings; all names; and some counts of steps and nodes.
pub fn inputs() -> Vec<Printed> {
    let (term, text) = all_added();
    let sum = making("all numbers", encode(&script(&[], &term)), ["188", "188", &text]);
    let (term, text) = all_thresholds();
    let file = encode(&script(&[D], &term));
    let thresholds = making("all thresholds", file, ["442", "442", &text]);
    let numbers = numbers();
    let settings = numbers.chunks(9).map(|nine| {
        let (input, text) = of_settings(nine);
        making("nine settings", input, ["26", "26", &text])
    });
    let (script, [_, made]) = inputs_and_binders();
    let sixteen = making("all names, 16 inputs", encode(&script), ["49", "49", &made]);
    let (script, [_, made]) = called_binders();
    let called = making("all names, 53 times", encode(&script), ["3341", "3179", &made]);
    let all = [sum, thresholds].into_iter().chain(settings).chain([sixteen, called]);
    all.chain(trees(1..=101)).collect()
}

/// Plain runs by recursion: turns, leaves added at each turn, leaves added at the end; steps and result. The steps are 8, one less
/// than twice the leaves at the end, and for each turn 9 and twice its leaves.
const LONG_RUNS: [(i32, usize, usize, [&str; 2]); 3] =
    [(90, 51, 1, ["9999", "4591"]), (97, 47, 1, ["10000", "4560"]), (90, 51, 2, ["10001", "4592"])];

fn ones(leaves: usize) -> Term {
    added(operation, &vec![(constant(1), "1".to_string()); leaves]).0
}

fn long_run(turns: i32, each: usize, end: usize) -> Vec<u8> {
    let less = operation(MINUS, variable(1), constant(1));
    let turn = operation(PLUS, apply(variable(0), less), ones(each));
    let body = function(1, S, if_else(variable(1), turn, ones(end)));
    let types = vec![(S, S), (2, 2)];
    let term = apply(fix(function(0, 2, body)), constant(turns));
    encode(&Script { types, inputs: vec![], nodes: lay_out(&term) })
}

/// Inputs of `benchrun`: each number as a reading, and some counts of steps.
pub fn readings() -> Vec<Printed> {
    let file = encode(&script(&[S], &variable(0)));
    let reading =
        |(value, text): Number| running(&text, with_settings(&file, &[value]), ["1", &text]);
    let numbers = numbers().into_iter().map(reading);
    let long = LONG_RUNS.iter().map(|&(turns, each, end, wanted)| {
        running("a recursion", long_run(turns, each, end), wanted)
    });
    numbers.chain(long).collect()
}

pub fn decimal_checks(tally: &mut Tally) {
    table_trials(tally);
    numbers().iter().for_each(|number| number_trials(tally, number));
    name_trials(tally);
    listing_trials(tally);
    place_trials(tally);
    for Printed { input, name, wanted } in inputs().into_iter().chain(trees(102..=1_001)) {
        tally.trial(&name, benchmake(&input), wanted);
    }
    for Printed { input, name, wanted } in readings() {
        tally.trial(&name, benchrun(&input), wanted);
    }
}

/// The number that decimals stand for.
fn worth(text: &str) -> i64 {
    let digits = text.trim_start_matches('-');
    let size = digits.bytes().fold(0, |size, digit| 10 * size + i64::from(digit - b'0'));
    if digits == text {
        size
    } else {
        -size
    }
}

/// Both tables: their lengths, no doubles, decimals that stand for their numbers, and counting from one to the next.
fn table_trials(tally: &mut Tally) {
    let (numbers, names) = (numbers(), names());
    let mut values: Vec<i32> = numbers.iter().map(|number| number.0).collect();
    values.sort();
    values.dedup();
    tally.trial("numbers", (numbers.len(), values.len()), (63, 63));
    let mut values: Vec<u16> = names.iter().map(|name| name.0).collect();
    values.sort();
    values.dedup();
    tally.trial("names", (names.len(), values.len()), (19, 19));
    let wrong: Vec<_> = numbers.iter().filter(|n| worth(&n.1) != i64::from(n.0)).collect();
    tally.trial("decimals of numbers", wrong, vec![]);
    let wrong: Vec<_> = names.iter().filter(|n| worth(&n.1) != i64::from(n.0)).collect();
    tally.trial("decimals of names", wrong, vec![]);
    for [less, exact, more] in (0..=9).map(digits) {
        tally.trial(&format!("after {less}"), after(&less), exact.clone());
        tally.trial(&format!("after {exact}"), after(&exact), more);
    }
}

/// A number as a constant, as code, as a threshold and as the result of a run. Its listing takes its length and no less.
fn number_trials(tally: &mut Tally, (value, text): &Number) {
    let line = format!("{text}\n");
    let lone = script(&[], &constant(*value));
    tally.trial(&format!("{text}, listed"), listing(&lone), line.clone());
    let room = line.len();
    tally.trial(&format!("{text}, fits"), listing_lent(&lone, room), Ok(line.clone()));
    let short = listing_lent(&lone, room - 1);
    tally.trial(&format!("{text}, short"), short, Err(Reply::new(21, 0)));
    let lifted = encode(&script(&[], &lift(constant(*value))));
    let wanted = format!("accepted\nsteps 2\nnodes 2\n{line}");
    tally.trial(&format!("{text}, a constant made"), benchmake(&lifted), wanted);
    let threshold = late_operation(LESS, variable(1), lift(variable(0)));
    let input = with_settings(&encode(&script(&[S, D], &threshold)), &[*value]);
    let wanted = format!("accepted\nsteps 4\nnodes 4\n(< i1 {text})\n");
    tally.trial(&format!("{text}, a threshold made"), benchmake(&input), wanted);
    let printed = benchrun(&encode(&lone));
    tally.trial(&format!("{text}, a constant run"), printed, format!("steps 1\n{line}"));
}

/// A name with so many inputs: an input, or a late function that uses it.
fn named(name: u16, inputs: usize) -> Script {
    let used = variable(name);
    let is_input = (name as usize) < inputs;
    script(&vec![D; inputs], &if is_input { used } else { late_function(name, used) })
}

/// Each name under each count of inputs, then every name there is and every number of its size.
fn name_trials(tally: &mut Tally) {
    for inputs in 0..=MAX_INPUTS {
        for (name, digits) in names() {
            let is_input = (name as usize) < inputs;
            let bound = format!("(lam v{digits} v{digits})\n");
            let wanted = if is_input { format!("i{digits}\n") } else { bound };
            let trial = format!("the name {digits}, {inputs} inputs");
            let file = encode(&named(name, inputs));
            tally.trial(&trial, read(&file).map(|script| listing(&script)), Ok(wanted));
        }
    }
    let listed = |value: i32| listing(&script(&[], &constant(value)));
    let wrong = |(name, digits): &Name| {
        let value = i32::from(*name);
        let minus = if value == 0 { "" } else { "-" };
        listing(&named(*name, 0)) != format!("(lam v{digits} v{digits})\n")
            || listed(value) != format!("{digits}\n")
            || listed(-value) != format!("{minus}{digits}\n")
    };
    let all = counted(0, 65_536);
    tally.trial("the last name", all.last().cloned(), Some((65_535, "65535".to_string())));
    let wrong: Vec<Name> = all.into_iter().filter(wrong).collect();
    tally.trial("every name", wrong, vec![]);
}

/// A script with its listing.
pub struct Listed {
    pub script: Script,
    pub text: String,
    name: &'static str,
}

/// Scripts that hold a whole table: early and late numbers, thresholds, and names.
pub fn listed() -> Vec<Listed> {
    let line = |name: &'static str, script: Script, text: String| Listed {
        script,
        text: text + "\n",
        name,
    };
    let part = |name: &'static str, inputs: &[u16], (term, text): Part| {
        line(name, script(inputs, &term), text)
    };
    let early: Vec<Part> =
        numbers().into_iter().map(|(value, text)| (constant(value), text)).collect();
    let (sixteen, [sixteen_text, _]) = inputs_and_binders();
    let (called, [called_text, _]) = called_binders();
    vec![
        part("early numbers", &[], added(operation, &early)),
        part("late numbers", &[], all_added()),
        part("thresholds", &[D], all_thresholds()),
        line("all names, 16 inputs", sixteen, sixteen_text),
        line("all names, no inputs", called, called_text),
    ]
}

/// Whole tables, listed. Then in an output that fits, is longer or is short.
fn listing_trials(tally: &mut Tally) {
    for Listed { script, text, name } in listed() {
        let read = read(&encode(&script)).map(|script| listing(&script));
        tally.trial(&format!("{name}, listed"), read, Ok(text));
    }
    let late = all_added();
    let line = late.1 + "\n";
    let length = line.len();
    let lent = |room: usize| {
        let mut memory = Memory::of(&script(&[], &late.0), room);
        memory.out.fill(7);
        let answer = memory.call(Entry::List);
        (answer.number, answer.length, memory.out)
    };
    tally.trial("numbers, an output that fits", lent(length), (0, length, line.clone().into()));
    let longer = (0, length, [line.as_bytes(), &[7, 7]].concat());
    tally.trial("numbers, a longer output", lent(length + 2), longer);
    tally.trial("numbers, a short output", lent(length - 1), (21, 0, vec![7; length - 1]));
}

/// Places: the length of an input that is cut short, and the node of an operation.
fn place_trials(tally: &mut Tally) {
    for (length, digits) in names().into_iter().filter(|name| name.0 <= 10_001) {
        // A head that tells of 4,096 nodes.
        let mut input = b"HD\0\0\0\0\0\x10".to_vec();
        input.resize(length as usize, 0);
        let wanted = format!("refused 1 {digits}\n");
        tally.trial(&format!("{digits} bytes, made"), benchmake(&input), wanted.clone());
        tally.trial(&format!("{digits} bytes, run"), benchrun(&input), wanted);
    }
    for k in 1..=3 {
        // Half as many leaves, the additions and the divisor come before node 10^k.
        let [_, node, _] = digits(k);
        let quotient = operation(DIVIDE, ones(10_usize.pow(k as u32) / 2), constant(0));
        let input = encode(&script(&[], &lift(quotient)));
        let stopped = format!("stopped 25 {node}\n");
        let made = format!("accepted\n{stopped}");
        tally.trial(&format!("node {node}, made"), benchmake(&input), made);
        tally.trial(&format!("node {node}, run"), benchrun(&input), stopped);
    }
}
