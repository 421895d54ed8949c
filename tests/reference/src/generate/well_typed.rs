//! Scripts well typed by construction, and runs at the limits.

use super::builder::Builder;
use super::shapes::*;
use super::{ends, maybe_renumber, settings_of, with, with_settings, Recipe};
use crate::assemble::*;
use crate::random::Random;
use crate::script::*;
use crate::self_check::{script_a, POWER};

pub const RECIPES: &[Recipe] = &[
    (24, random_script),
    (2, input_a),
    (3, power),
    (3, arithmetic),
    (3, range_ends),
    (7, range_places),
    (4, doubled_code),
    (3, doubled_by_recursion),
    (4, tall_code),
    (2, dropped_code),
    (4, spent_fuel),
    (3, unfolding_depth),
    (4, recursion_depth),
    (4, twice_of_twice),
    (3, nested_fix),
    (3, copied_late_functions),
    (2, many_inputs),
    (2, many_types),
    (3, tall_script),
    (2, script_of_4096),
];

/// Encodes a script of a finished shape, often in another numbering.
fn finish(mut script: Script, random: &mut Random) -> Vec<u8> {
    maybe_renumber(&mut script, random);
    with_settings(&script, random)
}

fn finish_with(mut script: Script, settings: &[i32], random: &mut Random) -> Vec<u8> {
    maybe_renumber(&mut script, random);
    with(&script, settings)
}

fn assembled(text: &str) -> Script {
    assemble(text).expect("a good text")
}

/// Any script of type D.
pub fn random_typed(random: &mut Random, size: usize) -> Script {
    let mut builder = Builder::new(random);
    let term = builder.term(D, size);
    builder.script(&term)
}

fn random_script(random: &mut Random) -> Vec<u8> {
    let size = random.pick(&[3, 8, 15, 30, 60, 120, 250, 600]);
    let script = random_typed(random, size);
    finish(script, random)
}

/// Input A around its two ends.
fn input_a(random: &mut Random) -> Vec<u8> {
    let near = random.between(0, 4) as i32 - 2;
    let middle = random.border_number();
    let setting = random.pick(&[21_474_836 + near, -21_474_836 + near, near, middle]);
    let script = script_a();
    with(&script, &[setting])
}

fn power(random: &mut Random) -> Vec<u8> {
    let near = random.between(247, 252) as i32;
    let small = random.below(20) as i32;
    let n = random.pick(&[near, small, small, -1, i32::MAX, i32::MIN]);
    finish_with(assembled(POWER), &[n], random)
}

/// One or two operations on numbers from the ends of the range.
fn arithmetic(random: &mut Random) -> Vec<u8> {
    let number = |random: &mut Random| {
        let around_zero = random.between(0, 4) as i32 - 2;
        let border = random.border_number();
        constant(random.pick(&[border, border, around_zero]))
    };
    let operator = random.below(6) as u16;
    let mut term = operation(operator, number(random), number(random));
    if random.chance(40) {
        let operator = random.below(6) as u16;
        term = operation(operator, number(random), term);
    }
    if random.chance(30) {
        term = if_else(term, number(random), operation(DIVIDE, number(random), constant(0)));
    }
    finish(untyped(&[], &lift(term)), random)
}

/// An operation whose exact result is an end of the range or one past it.
pub fn range_ends(random: &mut Random) -> Vec<u8> {
    let end = random.pick(&[i32::MAX as i64, i32::MIN as i64]);
    let target = end + random.below(2) as i64 * end.signum();
    let (left, right) = (random.next() as i32, random.number());
    let shift = random.between(1, 30);
    // `target` is a sum, a difference, a product or a quotient.
    let (operator, left, right) = match random.below(4) {
        0 => (PLUS, left as i64, target - left as i64),
        1 => (MINUS, target + right as i64, right as i64),
        2 if target.abs() == 1 << 31 => (TIMES, target >> shift, 1 << shift),
        2 if target < 0 => (TIMES, 3, target / 3),
        2 => (TIMES, -target, -1),
        _ => (DIVIDE, i32::MIN as i64, random.pick(&[1, -1])),
    };
    let settings: Vec<i32> = [left, right].iter().filter_map(|&n| i32::try_from(n).ok()).collect();
    // Where no such pair exists, the nearest numbers do.
    let settings = if settings.len() == 2 { settings } else { vec![end as i32, 1] };
    let term = lift(operation(operator, variable(0), variable(1)));
    finish_with(untyped(&[S, S], &term), &settings, random)
}

/// Such operations at various places of a script.
fn range_places(random: &mut Random) -> Vec<u8> {
    let (script, numbers) = ends::script(random);
    let settings = settings_of(&script, &numbers);
    finish_with(script, &settings, random)
}

/// Nested copies of one piece of code: sizes around 4,096 and far beyond.
fn doubled_code(random: &mut Random) -> Vec<u8> {
    let (mut term, mut levels) = match random.below(4) {
        0 => (variable(0), 11),
        1 => (lift(constant(random.number())), 10),
        2 => (late_function(1, late_apply(variable(0), variable(1))), 9),
        _ => (variable(0), random.between(1, 60)),
    };
    if random.chance(20) {
        levels += 1;
    }
    for _ in 0..levels {
        let operator = random.below(6) as u16;
        let copies = match random.below(6) {
            0 => late_apply(variable(1), variable(1)),
            _ => late_operation(operator, variable(1), variable(1)),
        };
        term = apply(function(1, D, copies), term);
    }
    term = late_chain(random.below(5), term);
    // Room for what one copying step leaves short of 4,096.
    if random.chance(40) {
        let size = random.between(1, 1040);
        term = late_apply(late_tree(random, size, 0), term);
    }
    let mut script = untyped(&[D], &term);
    script.types = vec![(D, D)];
    finish(script, random)
}

/// A recursion that copies its result at each turn.
fn doubled_by_recursion(random: &mut Random) -> Vec<u8> {
    let turns = random.pick(&[1, 5, 10, 11, 12, 30, 63, 64, 100, 250]);
    let top = "(_fix ".repeat(random.below(4));
    let copies = random.pick(&["(_+ v5 v5)", "(_if v5 i0 v5)", "(_app v5 (_lam v5 v5))"]);
    let script = assembled(&format!(
        "(script (types (S D) (t2 t2) (D D)) (inputs D)
           {top}(app (fix (lam v2 t2 (lam v3 S (if v3
             (app (lam v5 D {copies}) (app v2 (- v3 1))) i0)))) {turns}){})",
        ")".repeat(top.len() / 6)
    ));
    finish(script, random)
}

/// Heights around 256 from a recursion: late fixes, functions, operations.
fn tall_code(random: &mut Random) -> Vec<u8> {
    let rest = "(app v2 (- v3 1))";
    let layer = match random.below(4) {
        0 => format!("(_fix {rest})"),
        1 => format!("(_lam v9 {rest})"),
        2 => format!("(_+ (lift v3) {rest})"),
        _ => format!("(_if i0 {rest} i0)"),
    };
    let base = random.pick(&["i0", "(lift 0)", "(_lam v2 v2)"]);
    let turns = random.between(250, 258);
    let script = assembled(&format!(
        "(script (types (S D) (t2 t2)) (inputs D)
           (app (fix (lam v2 t2 (lam v3 S (if v3 {layer} {base})))) {turns}))"
    ));
    finish(script, random)
}

/// Code beyond 26 that is dropped again.
fn dropped_code(random: &mut Random) -> Vec<u8> {
    let turns = random.between(10, 300);
    let layer = random.pick(&["(_+ v5 v5)", "(_fix v5)", "(_lam v2 v5)"]);
    let kept = random.pick(&["i0", "(lift 1)", "(_fix v6)", "(_lam v1 i0)"]);
    let script = assembled(&format!(
        "(script (types (S D) (t2 t2) (D D)) (inputs D)
           (app (lam v6 D {kept}) (app (fix (lam v2 t2 (lam v3 S (if v3
             (app (lam v5 D {layer}) (app v2 (- v3 1))) i0)))) {turns})))"
    ));
    finish(script, random)
}

/// As many steps as nodes, around the fuel of 4,000.
fn spent_fuel(random: &mut Random) -> Vec<u8> {
    let near = random.between(3998, 4002);
    let size = random.pick(&[near, near, near, 4_095, 4_096]);
    let script = untyped(&[D], &late_tree(random, size, 0));
    finish(script, random)
}

/// Endless unfolding: fuel and depth end within a few steps of each other.
fn unfolding_depth(random: &mut Random) -> Vec<u8> {
    let loops = apply(fix(function(0, 2, variable(0))), constant(0));
    let few = random.below(6);
    let many = random.below(250);
    let length = random.pick(&[few, few, many]);
    let term = if random.chance(70) {
        late_chain(length, loops)
    } else {
        // Here the name 0 needs a binder.
        late_function(0, mixed_chain(random, length, 0, loops))
    };
    let mut script = untyped(&[], &term);
    script.types = vec![(S, D), (2, 2)];
    finish(script, random)
}

/// A recursion whose deepest visit stands near depth 2,000; its code is
/// dropped or kept.
fn recursion_depth(random: &mut Random) -> Vec<u8> {
    let chain = random.between(8, 110);
    let turns = 1990 / (chain + 3);
    // The deepest visit stands at 5 + turns * (chain + 3) + top.
    let deepest = random.pick(&[1998, 1999, 2000, 2000, 2001, 2001, 2002, 2010]);
    let top = deepest - 5 - turns * (chain + 3);
    let (p, k) = (2, 3);
    let rest = apply(variable(p), operation(MINUS, variable(k), constant(1)));
    let choice = if_else(variable(k), late_chain(chain, rest), variable(0));
    let recursion = fix(function(p, 2, function(k, S, choice)));
    let tall = late_chain(top, apply(recursion, constant(turns as i32)));
    let kept = if random.chance(80) { variable(0) } else { variable(9) };
    let term = apply(function(9, D, kept), tall);
    let mut script = untyped(&[D], &term);
    script.types = vec![(S, D), (2, 2), (D, D)];
    finish(script, random)
}

/// Church numerals: `twice` at rising types, down to a function on code.
fn twice_of_twice(random: &mut Random) -> Vec<u8> {
    let levels = random.between(1, 4) as u16;
    // Type 2 goes from D to D, type t + 1 from t to t.
    let types: Vec<(u16, u16)> = (0..=levels).map(|below| (below + 1, below + 1)).collect();
    let twice = |level: u16| {
        let (f, x) = (1, 2);
        let body = apply(variable(f), apply(variable(f), variable(x)));
        function(f, level + 1, function(x, level, body))
    };
    let mut term = twice(levels);
    for level in (1..levels).rev() {
        term = apply(term, twice(level));
    }
    let step = match random.below(5) {
        0 => late_function(3, late_apply(variable(2), variable(3))),
        1 => late_operation(PLUS, variable(2), variable(2)),
        2 => late_fix(variable(2)),
        3 => late_function(2, variable(2)),
        _ => late_function(2, late_function(1, late_apply(variable(1), variable(2)))),
    };
    let term = apply(apply(term, function(2, D, step)), variable(0));
    let mut script = untyped(&[D], &term);
    script.types = types;
    finish(script, random)
}

/// A fix of a fix: unfoldings that ask for unfoldings.
fn nested_fix(random: &mut Random) -> Vec<u8> {
    let inner = random.pick(&[
        "(lam v4 t3 (lam v5 t2 (lam v6 S (if v6 (_fix (app v5 (- v6 1))) i0))))",
        "(lam v4 t3 (lam v5 t2 (lam v6 S (if v6 (_fix (app (app v4 v5) (- v6 1))) i0))))",
        "(lam v4 t3 (lam v5 t2 (app v4 (app v4 v5))))",
        "(lam v4 t3 v4)",
        "(lam v4 t3 (lam v5 t2 (lam v6 S (app (app v4 v5) v6))))",
        "(lam v4 t3 (lam v4 t2 (lam v4 S (lift v4))))",
    ]);
    let count = random.pick(&["0", "1", "3", "20", "200", "-1"]);
    let top = random.pick(&["(fix (fix {}))", "(app (fix {}) (fix (fix {})))", "(fix (fix {}))"]);
    let function = top.replace("{}", inner);
    let script = assembled(&format!(
        "(script (types (S D) (t2 t2) (t3 t3)) (inputs D) (app {function} {count}))"
    ));
    finish(script, random)
}

/// Late functions that are copied, nested and made again at each turn.
fn copied_late_functions(random: &mut Random) -> Vec<u8> {
    let make = |random: &mut Random| {
        let name = random.pick(&[1, 2, 7]);
        let inner = late_apply(variable(2), variable(name));
        match random.below(3) {
            0 => function(2, D, late_function(name, inner)),
            1 => function(2, D, late_function(7, late_function(name, inner))),
            _ => function(2, D, late_apply(late_function(name, inner), variable(2))),
        }
    };
    let mut code = match random.below(2) {
        0 => variable(0),
        _ => late_function(1, variable(1)),
    };
    for _ in 0..random.between(1, 8) {
        code = match random.below(4) {
            0 => late_function(2, apply(make(random), late_apply(variable(2), code))),
            1 => apply(function(7, D, late_apply(variable(7), variable(7))), code),
            _ => apply(make(random), code),
        };
    }
    let mut script = untyped(&[D], &code);
    script.types = vec![(D, D)];
    finish(script, random)
}

/// Sixteen inputs, early and late, all of them used.
fn many_inputs(random: &mut Random) -> Vec<u8> {
    let count = random.pick(&[15, 16]);
    let inputs: Vec<u16> = (0..count).map(|_| random.pick(&[S, D])).collect();
    let mut term = lift(constant(0));
    for (name, &input) in inputs.iter().enumerate() {
        let used = variable(name as u16);
        let used = if input == S { lift(used) } else { used };
        let operator = random.below(6) as u16;
        term = late_operation(operator, used, term);
    }
    if random.chance(50) {
        let name = random.pick(&[16, 17, 65_535]);
        term = late_function(name, late_apply(term, variable(name)));
    }
    finish(untyped(&inputs, &term), random)
}

/// Function types up to the limit of 64, the deepest of them used.
fn many_types(random: &mut Random) -> Vec<u8> {
    let count = random.pick(&[10, 63, 64]);
    // Type t + 1 goes from S to t: a function of many early parameters.
    let mut types = vec![(S, D)];
    while types.len() < count {
        let last = types.len() as u16 + 1;
        types.push((S, last));
    }
    let names: Vec<u16> = (0..count).map(|_| random.below(4) as u16).collect();
    let mut term = lift(variable(random.pick(&names)));
    for &name in &names {
        term = function(name, S, term);
    }
    for argument in 0..count {
        term = apply(term, constant(argument as i32));
    }
    finish(Script { types, inputs: vec![], nodes: lay_out(&term) }, random)
}

/// Scripts of height 255 to 256, all late or part early.
fn tall_script(random: &mut Random) -> Vec<u8> {
    let height = random.between(255, 256);
    let term = match random.below(3) {
        0 => late_chain(height - 1, variable(0)),
        1 => late_chain(height - 2, lift(constant(random.number()))),
        _ => {
            let mut number = constant(1);
            for _ in 0..height - 2 {
                number = operation(random.below(2) as u16, number, constant(random.number()));
            }
            lift(number)
        }
    };
    finish(untyped(&[D], &term), random)
}

/// The most nodes a script may have; part of them in a branch not taken.
fn script_of_4096(random: &mut Random) -> Vec<u8> {
    let taken = random.between(1, 4_092);
    let (second, third) =
        if random.chance(50) { (taken, 4_094 - taken) } else { (4_094 - taken, taken) };
    let condition = constant(random.pick(&[0, 1, -1, i32::MIN]));
    let (second, third) = (late_tree(random, second, 0), late_tree(random, third, 0));
    finish(untyped(&[D], &if_else(condition, second, third)), random)
}
