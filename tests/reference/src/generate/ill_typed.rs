//! Scripts past refusals 1 to 8 whose marks are wrong.

use super::shapes::untyped;
use super::well_typed::random_typed;
use super::{maybe_renumber, random_settings, with, Recipe};
use crate::assemble::*;
use crate::random::Random;
use crate::script::*;

pub const RECIPES: &[Recipe] = &[
    (14, mutated),
    (6, random_marks),
    (3, wrong_root),
    (4, deep_types),
    (10, faulty_branches),
    (4, shadowed_names),
];

/// Recipes of `whole` alone.
pub const ORDERED: &[Recipe] = &[(10, both_faults)];

/// At times the settings are wrong too: 9 to 11 come before 12.
fn finish(mut script: Script, random: &mut Random) -> Vec<u8> {
    maybe_renumber(&mut script, random);
    let mut settings = random_settings(&script, random);
    if random.chance(10) {
        settings.push(0);
    }
    with(&script, &settings)
}

/// A well typed script with a few marks changed.
fn mutated(random: &mut Random) -> Vec<u8> {
    let size = random.pick(&[5, 15, 40, 100, 300]);
    let mut script = random_typed(random, size);
    for _ in 0..random.pick(&[1, 1, 1, 2, 3, 6]) {
        match random.below(8) {
            0 => drop_type(&mut script, random),
            1 => flip_input(&mut script, random),
            2 => change_name(&mut script, random),
            3 => change_leaf(&mut script, random),
            _ => change_mark(&mut script, random),
        }
    }
    finish(script, random)
}

fn random_type(script: &Script, random: &mut Random) -> u16 {
    random.below(2 + script.types.len()) as u16
}

/// Turns one node into another kind with as many children.
fn change_mark(script: &mut Script, random: &mut Random) {
    let number = random.below(script.nodes.len());
    let parameter = random_type(script, random);
    let node = &mut script.nodes[number];
    match node.kind {
        LIFT | FIX | LATE_FIX => node.kind = random.pick(&[LIFT, FIX, LATE_FIX]),
        FUNCTION if random.chance(50) => {
            node.kind = LATE_FUNCTION;
            node.fields[1] = 0;
        }
        FUNCTION | LATE_FUNCTION => {
            node.kind = FUNCTION;
            node.fields[1] = parameter;
        }
        APPLICATION => node.kind = LATE_APPLICATION,
        LATE_APPLICATION => node.kind = APPLICATION,
        IF => node.kind = LATE_IF,
        LATE_IF => node.kind = IF,
        OPERATION => node.kind = LATE_OPERATION,
        LATE_OPERATION => node.kind = OPERATION,
        _ => {}
    }
}

/// A variable gets the name of an input or of any binder around it.
fn change_name(script: &mut Script, random: &mut Random) {
    let number = random.below(script.nodes.len());
    if script.nodes[number].kind != VARIABLE {
        return;
    }
    let parents = script.parents();
    let mut names: Vec<u16> = (0..script.inputs.len() as u16).collect();
    let mut at = parents[number];
    while let Some(outer) = at {
        if script.nodes[outer].is_binder() {
            names.push(script.nodes[outer].fields[0]);
        }
        at = parents[outer];
    }
    if !names.is_empty() {
        script.nodes[number].fields[0] = random.pick(&names);
    }
}

/// A constant becomes an input, or a variable becomes a constant.
fn change_leaf(script: &mut Script, random: &mut Random) {
    let number = random.below(script.nodes.len());
    let inputs = script.inputs.len();
    let node = &mut script.nodes[number];
    if node.kind == VARIABLE {
        *node = Node { kind: CONSTANT, fields: [0; 3], value: random.number() };
    } else if node.kind == CONSTANT && inputs > 0 {
        let name = random.below(inputs) as u16;
        *node = Node { kind: VARIABLE, fields: [name, 0, 0], value: 0 };
    }
}

fn flip_input(script: &mut Script, random: &mut Random) {
    if !script.inputs.is_empty() {
        let input = random.below(script.inputs.len());
        script.inputs[input] = if script.inputs[input] == S { D } else { S };
    }
}

/// Takes a type that no other type needs off the list.
fn drop_type(script: &mut Script, random: &mut Random) {
    if script.types.is_empty() {
        return;
    }
    let index = random.below(script.types.len());
    let dropped = FIRST_LISTED + index as u16;
    let needed = script.types.iter().any(|&(p, r)| p == dropped || r == dropped);
    if needed {
        return;
    }
    script.types.remove(index);
    let renumbered = |number: u16| if number > dropped { number - 1 } else { number };
    for pair in &mut script.types {
        *pair = (renumbered(pair.0), renumbered(pair.1));
    }
    for node in &mut script.nodes {
        if node.kind == FUNCTION {
            let parameter = node.fields[1];
            node.fields[1] = if parameter == dropped { S } else { renumbered(parameter) };
        }
    }
}

/// Any tree with any marks.
fn random_marks(random: &mut Random) -> Vec<u8> {
    let inputs: Vec<u16> = (0..random.below(4)).map(|_| random.pick(&[S, D])).collect();
    let mut types = vec![(S, D), (D, D), (S, S), (2, 2)];
    types.truncate(random.below(5));
    let mut names: Vec<u16> = (0..inputs.len() as u16).collect();
    let size = random.pick(&[1, 2, 4, 8, 20, 60]);
    let term = random_term(random, size, inputs.len() as u16, types.len(), &mut names);
    finish(Script { types, inputs, nodes: lay_out(&term) }, random)
}

fn random_term(
    random: &mut Random,
    size: usize,
    inputs: u16,
    types: usize,
    names: &mut Vec<u16>,
) -> Term {
    if size <= 1 {
        if names.is_empty() || random.chance(40) {
            return constant(random.number());
        }
        return variable(random.pick(names));
    }
    let half = size / 2;
    let mut below =
        |random: &mut Random, size: usize| random_term(random, size, inputs, types, names);
    match random.below(11) {
        0 => lift(below(random, size - 1)),
        1 => apply(below(random, half), below(random, half)),
        2 => fix(below(random, size - 1)),
        3 => if_else(below(random, half / 2), below(random, half), below(random, half)),
        4 => operation(random.below(6) as u16, below(random, half), below(random, half)),
        5 => late_apply(below(random, half), below(random, half)),
        6 => late_fix(below(random, size - 1)),
        7 => late_if(below(random, half / 2), below(random, half), below(random, half)),
        8 => late_operation(random.below(6) as u16, below(random, half), below(random, half)),
        kind => {
            let name = inputs + random.below(3) as u16;
            names.push(name);
            let body = random_term(random, size - 1, inputs, types, names);
            names.pop();
            if kind == 9 {
                function(name, random.below(2 + types) as u16, body)
            } else {
                late_function(name, body)
            }
        }
    }
}

/// Roots that have a type other than D.
fn wrong_root(random: &mut Random) -> Vec<u8> {
    let text = random.pick(&[
        "(script (types) (inputs) 7)",
        "(script (types) (inputs S) i0)",
        "(script (types) (inputs S D) (+ i0 1))",
        "(script (types (S D)) (inputs) (lam v0 S (lift v0)))",
        "(script (types (D D)) (inputs D) (lam v1 D (_lam v2 v1)))",
        "(script (types (S D) (t2 t2)) (inputs) (fix (lam v0 t2 v0)))",
        "(script (types (S S)) (inputs) (app (lam v0 S v0) (/ 1 0)))",
        "(script (types (S S)) (inputs D) (if 1 (lam v1 S v1) (lam v1 S 2)))",
        "(script (types) (inputs S) (if i0 1 (* i0 2)))",
    ]);
    finish(assemble(text).expect("a good text"), random)
}

/// Function types as deep as the list is long, right or wrong at the end.
fn deep_types(random: &mut Random) -> Vec<u8> {
    let count = random.pick(&[4, 30, 63, 64]);
    let right = random.chance(25);
    // Type t + 1 goes from t to t, or from t to D.
    let to_itself = random.chance(50);
    let mut types = vec![(D, D)];
    while types.len() < count {
        let last = types.len() as u16 + 1;
        types.push((last, if to_itself { last } else { D }));
    }
    let last = count as u16 + 1;
    // The function of type `last`, whose parameter is of type `last` - 1.
    let body = if to_itself { variable(1) } else { lift(constant(3)) };
    let good = function(1, last - 1, body.clone());
    let wrong = match random.below(5) {
        0 => function(1, last, body),
        1 => function(1, last - 2, body),
        2 => apply(good.clone(), good.clone()),
        3 => fix(function(1, last, variable(1))),
        _ => if_else(constant(1), good.clone(), function(1, D, variable(1))),
    };
    let user = function(2, last, lift(constant(1)));
    // `user` has a type only if it is listed.
    if types.len() < 64 && random.chance(60) {
        types.push((last, D));
    }
    let term = apply(user, if right { good } else { wrong });
    finish(Script { types, inputs: vec![], nodes: lay_out(&term) }, random)
}

/// Small terms under the types and inputs of `faulty_branches`: each is D and
/// right, or at fault somewhere.
const RIGHT: &[&str] = &[
    "i1",
    "(lift i0)",
    "(app (lam v2 S (lift v2)) 5)",
    "(_lam v2 (_app v2 v2))",
    "(app (fix (lam v2 t3 (lam v3 S (if v3 i1 (app v2 i0))))) 1)",
    "(app (app (lam v2 t2 v2) (lam v3 D v3)) i1)",
];
const WRONG: &[&str] = &[
    // A number, a piece of code or a function in the wrong place.
    "i0",
    "(lift i1)",
    "(lift (lift 1))",
    "(lift (lam v2 D v2))",
    "(_fix 3)",
    "(_lam v2 7)",
    "(_lam v2 (lift v2))",
    "(_app i0 i1)",
    "(_app i1 i0)",
    "(_if i0 i1 i1)",
    "(_if i1 i0 i1)",
    "(_if i1 i1 i0)",
    "(_+ i1 (+ i0 1))",
    "(_< (lam v2 D v2) i1)",
    "(+ i1 i0)",
    "(lift (+ i0 i1))",
    "(lift (- i1 i0))",
    "(lift (* (lam v2 D v2) 1))",
    "(if i1 i1 i1)",
    "(if i0 i1 i0)",
    "(if i0 i0 i1)",
    "(if (lam v2 D v2) i1 i1)",
    "(app i1 i1)",
    "(app i0 i0)",
    "(app (lam v2 S (lift v2)) i1)",
    "(app (lam v2 D v2) i0)",
    "(app (lam v2 S (lift v2)) (lam v2 D v2))",
    "(app (lam v2 t4 i1) (lam v3 S (lift v3)))",
    // Fix wants a function from a function type to that same type.
    "(fix i0)",
    "(fix i1)",
    "(fix (lam v2 S (lift v2)))",
    "(fix (lam v2 D v2))",
    "(fix (lam v2 S v2))",
    "(app (fix (lam v2 t4 (lam v3 S (lift v3)))) i1)",
    // Functions whose types aren't listed, once or twice.
    "(app (lam v2 D 1) i1)",
    "(app (lam v2 S (lam v3 S v3)) 1)",
    "(app (lam v2 S (lam v3 S (lift v3))) 1)",
    "(app (lam v2 t3 i1) (lam v3 S (lam v4 S 1)))",
    // A fault below keeps those above from having a type.
    "(_fix (_fix (_fix (+ i1 1))))",
    "(app (lam v2 D (lift i1)) (lift i1))",
    "(app (lam v2 D (lift i1)) i0)",
    // The branch that isn't taken is typed too.
    "(if 0 (lift i1) i1)",
    "(if 1 i1 (app i1 i1))",
];

/// Several faults in several branches, in any numbering.
fn faulty_branches(random: &mut Random) -> Vec<u8> {
    let faults = random.pick(&[1, 1, 2, 2, 3, 5]);
    let mut texts: Vec<&str> = (0..faults).map(|_| random.pick(WRONG)).collect();
    for _ in 0..random.below(4) {
        let at = random.below(texts.len() + 1);
        texts.insert(at, random.pick(RIGHT));
    }
    let mut body = texts[0].to_string();
    for text in &texts[1..] {
        body = match random.below(5) {
            0 => format!("(_app {body} {text})"),
            1 => format!("(_+ {text} {body})"),
            2 => format!("(if i0 {body} {text})"),
            3 => format!("(app (lam v4 D {text}) {body})"),
            _ => format!("(_if {text} {body} i1)"),
        };
    }
    // Here t2 is D to D, t3 is S to D, t4 is t3 to t3, t5 is t2 to t2.
    let text = format!(
        "(script (types (D D) (S D) (t3 t3) (t2 t2) (S S) (t2 D) (t4 D)) (inputs S D) {body})"
    );
    finish(assemble(&text).expect("a good text"), random)
}

/// A fault and a function whose type isn't listed, in two branches, either of them the lower.
fn both_faults(random: &mut Random) -> Vec<u8> {
    let fault = random.pick(&[
        "(lift i1)",
        "(_app i0 i1)",
        "(app i1 i1)",
        "(if i1 i1 i1)",
        "(fix i1)",
        "i0",
    ]);
    let unlisted = random.pick(&[
        "(app (lam v2 D 1) i1)",
        "(app (lam v2 S (lam v3 D v3)) 1)",
        "(_fix (app (lam v2 D (lam v2 D i1)) i1))",
    ]);
    let (first, second) = if random.chance(50) { (fault, unlisted) } else { (unlisted, fault) };
    let body = match random.below(4) {
        0 => format!("(_app {first} {second})"),
        1 => format!("(if i0 {first} {second})"),
        2 => format!("(_if {first} i1 {second})"),
        _ => format!("(_lam v2 (_+ {first} {second}))"),
    };
    let text = format!("(script (types (D D)) (inputs S D) {body})");
    finish(assemble(&text).expect("a good text"), random)
}

/// One name with several types: the innermost binder rules.
fn shadowed_names(random: &mut Random) -> Vec<u8> {
    let name = random.pick(&[0, 1, 65_535]);
    // The term under the binders is right under some of their orders only.
    let x = || variable(name);
    let mut body = match random.below(4) {
        0 => lift(x()),
        1 => late_fix(x()),
        2 => apply(x(), constant(1)),
        _ => late_apply(x(), lift(constant(1))),
    };
    for _ in 0..random.between(1, 5) {
        body = match random.below(4) {
            0 => apply(function(name, S, body), constant(2)),
            1 => apply(function(name, D, body), lift(constant(3))),
            2 => apply(function(name, 2, body), function(name, S, lift(x()))),
            _ => late_function(name, body),
        };
    }
    let script = untyped(&[], &body);
    let types = vec![(S, D), (D, D), (2, D)];
    finish(Script { types, ..script }, random)
}
