//! Files that the reader refuses, with one fault or several at once, and
//! settings that don't suit the script.

use super::builder::Builder;
use super::shapes::*;
use super::{maybe_renumber, renumber, shifted, with_settings, Recipe};
use crate::assemble::*;
use crate::random::Random;
use crate::script::*;

pub const RECIPES: &[Recipe] = &[
    (8, cut),
    (6, bad_head),
    (30, bad_records),
    (8, bad_use),
    (6, bad_height),
    (8, bad_scope),
    (8, bad_settings),
];

/// A script in which each kind occurs, with types and mostly with inputs.
fn base(random: &mut Random) -> Script {
    let size = random.pick(&[1, 6, 20, 50]);
    let mut builder = Builder::new(random);
    let to_code = builder.function_type(S, D).expect("room for a type");
    builder.function_type(to_code, to_code).expect("room for a type");
    let term = builder.term(D, size);
    let (x, y) = (builder.inputs.len() as u16, builder.inputs.len() as u16 + 1);
    let number = operation(PLUS, constant(1), constant(2));
    let choice = if_else(variable(y), lift(variable(y)), lift(number));
    let recursive = fix(function(x, to_code, function(y, S, choice)));
    let each_kind = late_if(
        late_apply(late_function(x, late_fix(variable(x))), lift(constant(3))),
        apply(recursive, constant(1)),
        late_operation(LESS, lift(constant(4)), lift(constant(5))),
    );
    let term = match builder.random.below(2) {
        0 => late_apply(each_kind, term),
        _ => late_apply(term, each_kind),
    };
    let mut script = builder.script(&term);
    maybe_renumber(&mut script, random);
    script
}

fn put(bytes: &mut [u8], at: usize, word: u16) {
    bytes[at..at + 2].copy_from_slice(&word.to_le_bytes());
}

fn get(bytes: &[u8], at: usize) -> u16 {
    u16::from_le_bytes([bytes[at], bytes[at + 1]])
}

/// A wrong value for a 16-bit field with the given limit.
fn past(random: &mut Random, limit: usize) -> u16 {
    let further = random.between(limit, u16::MAX as usize);
    random.pick(&[limit, limit, limit + 1, further, u16::MAX as usize]) as u16
}

/// Shorter or longer than the counts say; at times with other faults too.
fn cut(random: &mut Random) -> Vec<u8> {
    let script = base(random);
    let mut bytes = encode(&script);
    if random.chance(40) {
        damage_record(&mut bytes, &script, random);
    }
    if random.chance(20) {
        damage_head(&mut bytes, random);
    }
    let length = match random.below(8) {
        0 => random.below(9),
        1 => random.below(bytes.len()),
        2 => bytes.len() - 1,
        3 => bytes.len() + 1,
        4 => bytes.len() - random.pick(&[TYPE_LENGTH, INPUT_LENGTH, NODE_LENGTH]),
        // A count that asks for one record more or less.
        5..=6 => {
            let at = random.pick(&[2, 4, 6]);
            let count = get(&bytes, at);
            let more = random.chance(60);
            put(
                &mut bytes,
                at,
                if more { count.saturating_add(1) } else { count.saturating_sub(1) },
            );
            bytes.len()
        }
        _ => 8,
    };
    bytes.resize(length, 0);
    bytes
}

/// The head's mark, or a count at or past its limit.
fn damage_head(bytes: &mut [u8], random: &mut Random) {
    match random.below(6) {
        0 | 1 => damage_mark(bytes, 0, random),
        2 => put(bytes, 6, 0),
        3 => put(bytes, 6, past(random, MAX_NODES + 1)),
        4 => put(bytes, 2, past(random, MAX_TYPES + 1)),
        _ => put(bytes, 4, past(random, MAX_INPUTS + 1)),
    }
}

/// A bad head over good records, or good records past a limit.
fn bad_head(random: &mut Random) -> Vec<u8> {
    let mut script = base(random);
    match random.below(8) {
        0 => {
            // Types from S to each of the others, one too many or just not.
            let count = random.pick(&[64, 65]);
            script.types = vec![(S, S)];
            while script.types.len() < count {
                script.types.push((S, 1 + script.types.len() as u16));
            }
        }
        1 => {
            let count = random.pick(&[16, 17]);
            script = untyped(&vec![D; count], &late_chain(2, variable(0)));
        }
        2 => {
            let count = random.pick(&[4_096, 4_097]);
            script = untyped(&[D], &late_tree(random, count, 0));
        }
        3 => script.nodes.clear(),
        _ => {
            let mut bytes = encode(&script);
            for _ in 0..random.between(1, 2) {
                damage_head(&mut bytes, random);
            }
            if random.chance(50) {
                damage_record(&mut bytes, &script, random);
            }
            return bytes;
        }
    }
    with_settings(&script, random)
}

/// One to three bad records, in any order of their faults.
fn bad_records(random: &mut Random) -> Vec<u8> {
    let mut script = base(random);
    if random.chance(20) {
        twist(&mut script, random);
    }
    let mut bytes = with_settings(&script, random);
    for _ in 0..random.pick(&[1, 1, 2, 2, 3]) {
        let at = damage_record(&mut bytes, &script, random);
        if random.chance(10) {
            damage_mark(&mut bytes, at, random);
        }
    }
    bytes
}

fn damage_mark(bytes: &mut [u8], at: usize, random: &mut Random) {
    match random.below(4) {
        0 => bytes[at] ^= 0x20,
        1 => bytes[at + 1] ^= 0x20,
        2 => bytes.swap(at, at + 1),
        _ => {
            // Another record's mark.
            let own = [bytes[at], bytes[at + 1]];
            let mut others = vec![*b"HD", *b"TY", *b"IN", *b"ND", *b"SV"];
            others.retain(|&mark| mark != own);
            bytes[at..at + 2].copy_from_slice(&random.pick(&others));
        }
    }
}

/// Damages one record of the file of a script, and gives its offset.
fn damage_record(bytes: &mut [u8], script: &Script, random: &mut Random) -> usize {
    let counts = script.counts();
    loop {
        let damaged = match random.below(12) {
            0 => damage_type(bytes, &counts, random),
            1 => damage_input(bytes, &counts, random),
            2 | 3 => damage_any_mark(bytes, &counts, random),
            _ => damage_node(bytes, script, random),
        };
        if let Some(at) = damaged {
            return at;
        }
    }
}

/// The mark of a type, an input or a node.
fn damage_any_mark(bytes: &mut [u8], counts: &Counts, random: &mut Random) -> Option<usize> {
    let at = match random.below(3) {
        0 => counts.type_at(random.below(counts.types.max(1))),
        1 => counts.input_at(random.below(counts.inputs.max(1))),
        _ => counts.node_at(random.below(counts.nodes)),
    };
    damage_mark(bytes, at, random);
    Some(at)
}

/// A part that isn't below its record's number, or a pair listed twice.
fn damage_type(bytes: &mut [u8], counts: &Counts, random: &mut Random) -> Option<usize> {
    if counts.types == 0 {
        return None;
    }
    let index = random.below(counts.types);
    let at = counts.type_at(index);
    if index > 0 && random.chance(50) {
        let other = counts.type_at(random.below(index));
        bytes.copy_within(other + 2..other + 6, at + 2);
    } else {
        let part = random.pick(&[2, 4]);
        put(bytes, at + part, past(random, 2 + index));
    }
    Some(at)
}

fn damage_input(bytes: &mut [u8], counts: &Counts, random: &mut Random) -> Option<usize> {
    if counts.inputs == 0 {
        return None;
    }
    let at = counts.input_at(random.below(counts.inputs));
    put(bytes, at + 2, random.pick(&[2, 2, 3, 256, 257, u16::MAX]));
    Some(at)
}

/// A fault of kind, value or field, if the script can have it.
fn damage_node(bytes: &mut [u8], script: &Script, random: &mut Random) -> Option<usize> {
    use Field::*;
    let counts = script.counts();
    let wanted = match random.below(8) {
        0 => {
            let at = counts.node_at(random.below(counts.nodes));
            bytes[at + 2] = random.pick(&[13, 13, 14, 128, 255]);
            return Some(at);
        }
        1 => {
            // A value where none is used.
            let kind = random.between(1, 12) as u8;
            let at = counts.node_at(node_of_kind(script, kind, random)?);
            bytes[at + 9 + random.below(4)] = random.pick(&[1, 128, 255]);
            return Some(at);
        }
        2..=4 => random.pick(&[Unused, Child]),
        _ => random.pick(&[Binder, Type, Operator]),
    };
    // Each kind that has such a field is as likely as the others.
    let kinds: Vec<u8> = (0..13).filter(|&k| FIELDS[k as usize].contains(&wanted)).collect();
    let kind = random.pick(&kinds);
    let number = node_of_kind(script, kind, random)?;
    let uses = FIELDS[kind as usize];
    let fields: Vec<usize> = (0..3).filter(|&f| uses[f] == wanted).collect();
    let wrong = match wanted {
        Unused => past(random, 1),
        Child => past(random, number),
        Binder if script.inputs.is_empty() => return None,
        Binder => random.below(script.inputs.len()) as u16,
        Type => past(random, 2 + counts.types),
        _ => past(random, OPERATORS.len()),
    };
    let at = counts.node_at(number);
    put(bytes, at + 3 + 2 * random.pick(&fields), wrong);
    Some(at)
}

fn node_of_kind(script: &Script, kind: u8, random: &mut Random) -> Option<usize> {
    let numbers: Vec<usize> =
        (0..script.nodes.len()).filter(|&number| script.nodes[number].kind == kind).collect();
    if numbers.is_empty() {
        return None;
    }
    Some(random.pick(&numbers))
}

/// A tree fault: a node used never or twice, or a name without binder.
fn twist(script: &mut Script, random: &mut Random) {
    match random.below(4) {
        0 => add_unused(script, random),
        1 => change_child(script, random),
        2 => same_child(script, random),
        _ => unbind(script, random),
    }
}

/// A node that nothing uses, somewhere below the root.
fn add_unused(script: &mut Script, random: &mut Random) {
    let place = random.below(script.nodes.len());
    let old = script.clone();
    let map = |number: usize| if number < place { number } else { number + 1 };
    script.nodes = (0..old.nodes.len()).map(|number| shifted(&old, number, map)).collect();
    let node = Node { kind: CONSTANT, fields: [0; 3], value: random.number() };
    script.nodes.insert(place, node);
}

/// Another child for one place.
fn change_child(script: &mut Script, random: &mut Random) {
    let number = random.below(script.nodes.len());
    let uses = script.nodes[number].uses();
    let places: Vec<usize> = (0..3).filter(|&f| uses[f] == Field::Child).collect();
    if !places.is_empty() {
        script.nodes[number].fields[random.pick(&places)] = random.below(number) as u16;
    }
}

/// One child in two places of one node.
fn same_child(script: &mut Script, random: &mut Random) {
    let parents: Vec<usize> = (0..script.nodes.len())
        .filter(|&number| script.nodes[number].children().len() > 1)
        .collect();
    if !parents.is_empty() {
        let fields = &mut script.nodes[random.pick(&parents)].fields;
        if random.chance(50) {
            fields[0] = fields[1];
        } else {
            fields[1] = fields[0];
        }
    }
}

/// A variable whose name nothing binds, or binds elsewhere.
fn unbind(script: &mut Script, random: &mut Random) {
    let variables: Vec<usize> =
        (0..script.nodes.len()).filter(|&number| script.nodes[number].kind == VARIABLE).collect();
    if variables.is_empty() {
        return;
    }
    let inputs = script.inputs.len();
    let free = random.between(inputs, u16::MAX as usize);
    let near = inputs + random.below(4);
    let name = random.pick(&[inputs, near, near, free, u16::MAX as usize]);
    script.nodes[random.pick(&variables)].fields[0] = name as u16;
}

/// Nodes used never or twice, in several places at once.
fn bad_use(random: &mut Random) -> Vec<u8> {
    let mut script = base(random);
    for _ in 0..random.pick(&[1, 1, 2, 4]) {
        twist(&mut script, random);
    }
    with_settings(&script, random)
}

/// Heights of 256 and above, in one branch or two.
fn bad_height(random: &mut Random) -> Vec<u8> {
    let tall = |random: &mut Random| {
        let near = random.between(254, 259);
        let far = random.between(260, 1_500);
        let length = random.pick(&[near, near, far]);
        let bottom = match random.below(3) {
            0 => lift(constant(1)),
            _ => variable(0),
        };
        mixed_chain(random, length, 1, bottom)
    };
    let mut term = tall(random);
    if random.chance(40) {
        term = late_apply(tall(random), term);
    }
    // At times some names stay without a binder: 7 comes before 8.
    if random.chance(70) {
        term = late_function(1, term);
    }
    let mut script = untyped(&[D], &term);
    if random.chance(60) {
        renumber(&mut script, random);
    }
    if random.chance(25) {
        add_unused(&mut script, random);
    }
    with_settings(&script, random)
}

/// Names bound by nothing, by a sibling, by an input, or twice over.
fn bad_scope(random: &mut Random) -> Vec<u8> {
    let text = random.pick(&[
        "(script (types) (inputs) v0)",
        "(script (types) (inputs D) v1)",
        "(script (types) (inputs D) i0)",
        "(script (types) (inputs S) i0)",
        "(script (types) (inputs) (_app (_lam v0 v0) v0))",
        "(script (types) (inputs) (_app v0 (_lam v0 v0)))",
        "(script (types) (inputs D) (_lam v1 (_app v1 v2)))",
        "(script (types) (inputs D) (_lam v65535 (_app v65535 v65534)))",
        "(script (types) (inputs D) (_if (_lam v1 v1) (_lam v2 v1) (_lam v1 v2)))",
        "(script (types (D D)) (inputs D) (app (lam v1 D v1) v1))",
        "(script (types (D D)) (inputs D) (app (lam v1 D i0) (_lam v2 v2)))",
        "(script (types (D D)) (inputs D) (_app (app (lam v1 D v1) i0) (_fix v1)))",
        "(script (types (D D)) (inputs) (_lam v0 (app (lam v0 D v0) (_+ v0 v1))))",
        "(script (types) (inputs D D D) (_app (_lam v3 v3) (_app i2 v3)))",
    ]);
    let mut script =
        if random.chance(70) { assemble(text).expect("a good text") } else { base(random) };
    maybe_renumber(&mut script, random);
    for _ in 0..random.below(4) {
        unbind(&mut script, random);
    }
    with_settings(&script, random)
}

/// Settings missing, too many, cut or wrongly marked; at times after a script
/// that is refused anyway.
fn bad_settings(random: &mut Random) -> Vec<u8> {
    let mut script = base(random);
    if random.chance(20) {
        twist(&mut script, random);
    }
    if random.chance(20) {
        // A root that isn't D.
        script.nodes.truncate(1);
    }
    let start = encode(&script).len();
    let mut bytes = with_settings(&script, random);
    match random.below(6) {
        0 => bytes.extend(b"SV\x01\x00\x00\x00"),
        1 => {
            let extra = random.between(1, 13);
            bytes.resize(bytes.len() + extra, random.pick(&[0, b'S', b'V', b'\n']));
        }
        2 => bytes.extend(b"SW\x01\x00\x00\x00"),
        _ if bytes.len() == start => bytes.extend(&b"SV\x01\x00\x00\x00"[..random.between(1, 6)]),
        3 => {
            let length = random.between(start, bytes.len() - 1);
            bytes.truncate(length);
        }
        4 => damage_mark(&mut bytes, start, random),
        _ => {
            let length = bytes.len() - 6;
            bytes.truncate(length);
        }
    }
    bytes
}
