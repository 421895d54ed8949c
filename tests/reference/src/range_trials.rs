//! Operations at both ends of the range, with what the papers give for them: trials of the maker, of its bare run, and of what both
//! programs print. Those of the plain run in `run_trials.rs` use the same tables.

use crate::assemble::assemble;
use crate::benchmake::{benchmake, FUEL};
use crate::benchrun::benchrun;
use crate::script::encode;
use crate::self_check::{failure, success, told, with_settings, Tally, Told};
use crate::specializer::{bare_run, make, Lent};

/// Operations, each with its result or the number of its stop: 24 above the range, 29 below it. Of `+ - *` both ends are here from
/// inside and from outside; no quotient is below the range.
pub const OPERATIONS: &[(&str, Result<i32, u8>)] = &[
    ("(+ 2147483646 1)", Ok(i32::MAX)),
    ("(+ 2147483647 0)", Ok(i32::MAX)),
    ("(+ 2147483647 1)", Err(24)),
    ("(+ 1 2147483647)", Err(24)),
    ("(+ 1073741824 1073741824)", Err(24)),
    ("(+ 2147483647 2147483647)", Err(24)),
    ("(+ -2147483647 -1)", Ok(i32::MIN)),
    ("(+ 0 -2147483648)", Ok(i32::MIN)),
    ("(+ -1073741824 -1073741824)", Ok(i32::MIN)),
    ("(+ -2147483648 -1)", Err(29)),
    ("(+ -1 -2147483648)", Err(29)),
    ("(+ -2147483648 -2147483648)", Err(29)),
    ("(+ 2147483647 -2147483648)", Ok(-1)),
    ("(- 2147483646 -1)", Ok(i32::MAX)),
    ("(- -1 -2147483648)", Ok(i32::MAX)),
    ("(- 2147483647 -1)", Err(24)),
    ("(- 0 -2147483648)", Err(24)),
    ("(- 2147483647 -2147483648)", Err(24)),
    ("(- -2147483647 1)", Ok(i32::MIN)),
    ("(- -1 2147483647)", Ok(i32::MIN)),
    ("(- -2147483648 1)", Err(29)),
    ("(- -2 2147483647)", Err(29)),
    ("(- -2147483648 2147483647)", Err(29)),
    ("(- -2147483648 -2147483648)", Ok(0)),
    ("(- 2147483647 2147483647)", Ok(0)),
    ("(* 1 2147483647)", Ok(i32::MAX)),
    ("(* -2147483647 -1)", Ok(i32::MAX)),
    ("(* 65536 32768)", Err(24)),
    ("(* -65536 -32768)", Err(24)),
    ("(* -1 -2147483648)", Err(24)),
    ("(* -2147483648 -1)", Err(24)),
    ("(* 65536 -32768)", Ok(i32::MIN)),
    ("(* -65536 32768)", Ok(i32::MIN)),
    ("(* -2147483648 1)", Ok(i32::MIN)),
    ("(* 3 -715827883)", Err(29)),
    ("(* -715827883 3)", Err(29)),
    ("(* 65536 -32769)", Err(29)),
    // What wraps to 0, to the other sign and to the same sign.
    ("(* 65536 65536)", Err(24)),
    ("(* 65536 49152)", Err(24)),
    ("(* 65536 81920)", Err(24)),
    ("(* 65536 -65536)", Err(29)),
    ("(* -65536 49152)", Err(29)),
    ("(* 65536 -81920)", Err(29)),
    // The farthest, in all signs.
    ("(* 2147483647 2147483647)", Err(24)),
    ("(* -2147483648 -2147483648)", Err(24)),
    ("(* -2147483648 2147483647)", Err(29)),
    ("(* 2147483647 -2147483648)", Err(29)),
    ("(* 0 -2147483648)", Ok(0)),
    ("(/ 2147483647 1)", Ok(i32::MAX)),
    ("(/ -2147483647 -1)", Ok(i32::MAX)),
    ("(/ -2147483648 -1)", Err(24)),
    ("(/ -2147483648 1)", Ok(i32::MIN)),
    ("(/ 2147483647 -1)", Ok(-i32::MAX)),
    ("(/ -2147483648 2)", Ok(-1_073_741_824)),
    ("(/ -2147483648 -2)", Ok(1_073_741_824)),
    ("(/ -2147483648 -2147483648)", Ok(1)),
    ("(/ 2147483647 0)", Err(25)),
    ("(/ -2147483648 0)", Err(25)),
    ("(= 2147483647 2147483647)", Ok(1)),
    ("(= -2147483648 -2147483648)", Ok(1)),
    ("(= 2147483647 -2147483648)", Ok(0)),
    ("(= -2147483648 2147483647)", Ok(0)),
    ("(< -2147483648 2147483647)", Ok(1)),
    ("(< 2147483647 -2147483648)", Ok(0)),
    ("(< 2147483646 2147483647)", Ok(1)),
    ("(< -2147483648 -2147483647)", Ok(1)),
    ("(< 2147483647 2147483647)", Ok(0)),
    ("(< -2147483648 -2147483648)", Ok(0)),
];

/// The moment of a stop: number, place and steps in a plain run. At each of them the node before the operation is visited last.
pub const MOMENTS: &[(&str, u8, usize, usize)] = &[
    // The left operand is finished before the right is visited.
    ("(- (+ 2147483647 1) (+ -2147483648 -1))", 24, 2, 4),
    ("(- (+ -2147483648 -1) (+ 2147483647 1))", 29, 2, 4),
    ("(+ (- -2147483648 1) (/ 1 0))", 29, 2, 4),
    ("(+ (/ 1 0) (- -2147483648 1))", 25, 2, 4),
    ("(- (+ 2147483647 0) (- -2147483648 1))", 29, 5, 7),
    // What would lead back into the range, or make no difference, comes too late.
    ("(- (+ 2147483647 1) 1)", 24, 2, 4),
    ("(+ (- -2147483648 1) 1)", 29, 2, 4),
    ("(* (- -2147483648 1) 0)", 29, 2, 4),
    // A condition, and the branch that is taken.
    ("(if (* 65536 65536) 1 2)", 24, 2, 4),
    ("(if (* -65536 65536) 1 2)", 29, 2, 4),
    ("(if 1 (* -65536 65536) (* 65536 65536))", 29, 3, 5),
    ("(if 0 (* -65536 65536) (* 65536 65536))", 24, 6, 5),
    // An argument, which comes before the body, and a body.
    ("(app (lam v0 S 7) (- -2147483648 1))", 29, 4, 5),
    ("(app (lam v0 S (- v0 1)) -2147483648)", 29, 2, 6),
    // A recursion: 1 doubled 31 times is above, and -1 doubled 32 times is below.
    ("(app (fix (lam v0 t2 (lam v1 S (if v1 (* (app v0 (- v1 1)) 2) 1)))) 31)", 24, 7, 350),
    ("(app (fix (lam v0 t2 (lam v1 S (if v1 (* (app v0 (- v1 1)) 2) -1)))) 32)", 29, 7, 361),
];

/// The sign of an operation and its two numbers.
fn parts(operation: &str) -> [&str; 3] {
    let words: Vec<&str> = operation.trim_matches(['(', ')']).split(' ').collect();
    words.try_into().expect("a sign and two numbers")
}

/// The same operation, late.
pub fn late(operation: &str) -> String {
    let [sign, left, right] = parts(operation);
    format!("(_{sign} (lift {left}) (lift {right}))")
}

/// The same operation on two inputs, and their numbers.
pub fn on_inputs(operation: &str) -> (String, [i32; 2]) {
    let [sign, left, right] = parts(operation);
    let number = |word: &str| word.parse().expect("a number");
    (format!("({sign} i0 i1)"), [number(left), number(right)])
}

/// A call of the maker or of its bare run, and the reply to it.
pub struct Making {
    pub bare: bool,
    pub fuel: usize,
    pub settings: Vec<i32>,
    pub file: Vec<u8>,
    name: String,
    wanted: Told,
}

fn script_file(inputs: &str, term: &str) -> Vec<u8> {
    let text = format!("(script (types (S S) (t2 t2)) (inputs {inputs}) {term})");
    encode(&assemble(&text).expect("a good text"))
}

/// The making of a term without inputs.
fn making(term: &str, wanted: Told) -> Making {
    let (file, name) = (script_file("", term), term.to_string());
    Making { bare: false, fuel: FUEL, settings: vec![], file, name, wanted }
}

/// The same of an early number, under a lift.
fn lifted(term: &str, wanted: Told) -> Making {
    making(&format!("(lift {term})"), wanted)
}

/// An operation on two settings, under a lift, as a file and its settings.
fn on_settings(operation: &str) -> (Vec<u8>, [i32; 2]) {
    let (term, settings) = on_inputs(operation);
    (script_file("S S", &format!("(lift {term})")), settings)
}

/// All calls of both tables.
pub fn makings() -> Vec<Making> {
    let operations =
        OPERATIONS.iter().flat_map(|&(operation, result)| of_operation(operation, result));
    let moments = MOMENTS
        .iter()
        .flat_map(|&(term, number, place, steps)| of_moment(term, number, place, steps));
    operations.chain(moments).collect()
}

fn of_operation(operation: &str, result: Result<i32, u8>) -> [Making; 4] {
    let value = |value: i32| success(4, &value.to_string());
    let wanted = result.map_or_else(|number| failure(number, 2, 4), value);
    let (file, settings) = on_settings(operation);
    let on_constants = lifted(operation, wanted.clone());
    let on_settings = Making { file, settings: settings.to_vec(), ..lifted(operation, wanted) };
    // Without its lift a result is a clash at the root.
    let unlifted = failure(result.err().unwrap_or(27), 2, 3);
    let bare = Making { bare: true, ..making(operation, unlifted) };
    // Late, it is left in the code.
    let late = making(&late(operation), success(5, operation));
    [on_constants, on_settings, bare, late]
}

/// Under all fuel, just enough, and one less.
fn of_moment(term: &str, number: u8, place: usize, steps: usize) -> [Making; 3] {
    // The lift is one step more.
    let wanted = failure(number, place, steps + 1);
    let spent = failure(22, place - 1, steps);
    [
        lifted(term, wanted.clone()),
        Making { fuel: steps + 1, ..lifted(term, wanted) },
        Making { fuel: steps, ..lifted(term, spent) },
    ]
}

pub fn range_checks(tally: &mut Tally) {
    for Making { bare, fuel, settings, file, name, wanted } in makings() {
        let run = if bare { bare_run } else { make };
        let name = format!("{name}, bare {bare}, settings {settings:?}, fuel {fuel}");
        tally.trial(&name, told(run(&file, &settings, fuel, &Lent::AMPLE)), wanted);
    }
    OPERATIONS.iter().for_each(|&(operation, result)| printed(tally, operation, result));
}

/// What both programs print for an operation.
fn printed(tally: &mut Tally, operation: &str, result: Result<i32, u8>) {
    let (file, settings) = on_settings(operation);
    let input = with_settings(&file, &settings);
    let (made, ran) = match result {
        Ok(value) => (format!("steps 4\nnodes 2\n{value}\n"), format!("steps 3\n{value}\n")),
        Err(number) => (format!("stopped {number} 2\n"), format!("stopped {number} 2\n")),
    };
    tally.trial(&format!("{operation}, made"), benchmake(&input), format!("accepted\n{made}"));
    tally.trial(&format!("{operation}, run"), benchrun(&input), ran);
}
