//! The inputs, in the text notation of the second implementation.

use crate::assemble::assemble;
use crate::script::Script;

pub struct Input {
    pub name: String,
    pub script: Script,
    pub settings: Vec<i32>,
    /// What the plain run takes, one for every input.
    pub numbers: Vec<i32>,
    pub fuel: u32,
}

/// Late inputs hold `late` in the plain run.
pub fn input(name: &str, text: &str, settings: &[i32], late: i32, fuel: u32) -> Input {
    let script = assemble(text).expect("a good text");
    let mut early = settings.iter().copied();
    let numbers = script.inputs.iter().map(|&t| if t == 0 { early.next().expect("a setting") } else { late }).collect();
    Input { name: name.to_string(), script, settings: settings.to_vec(), numbers, fuel }
}

/// A balanced tree of late sums over so many leaves.
fn tree(leaves: usize, leaf: &str) -> String {
    if leaves == 1 {
        return leaf.to_string();
    }
    format!("(_+ {} {})", tree(leaves / 2, leaf), tree(leaves - leaves / 2, leaf))
}

/// x to the power n, of source document 001, Example 1: n early, x late.
const POWER: &str = "(fix (lam v2 t3 (lam v3 S (lam v4 D
    (if (= v3 0) (lift 1) (_* v4 (app (app v2 (- v3 1)) v4)))))))";

pub fn power(n: i32, fuel: u32) -> Input {
    let text = format!("(script (types (D D) (S t2) (t3 t3)) (inputs S D) (app (app {POWER} i0) i1))");
    input(&format!("power, n {n}, fuel {fuel}"), &text, &[n], 1, fuel)
}

/// A sum of powers, some 1,000 steps each.
pub fn powers(fuel: u32) -> Input {
    let sum = tree(fuel as usize / 1000, "(app (app v5 i0) i1)");
    let types = "(types (D D) (S t2) (t3 t3) (t3 D))";
    let text = format!("(script {types} (inputs S D) (app (lam v5 t3 {sum}) {POWER}))");
    input(&format!("sum of powers, fuel {fuel}"), &text, &[60], 1, fuel)
}

/// Late functions, so many inside each other, around a tree whose leaves name the outermost.
pub fn environment(depth: usize, leaves: usize) -> Input {
    let open: String = (1..=depth).map(|name| format!("(_lam v{name} ")).collect();
    let text = format!("(script (types) (inputs D) {open}{}{})", tree(leaves, "v1"), ")".repeat(depth));
    input(&format!("environment {depth} deep, {leaves} lookups"), &text, &[], 1, 16000)
}

/// A late tree with so many nodes (odd).
pub fn wide(nodes: usize) -> Input {
    let text = format!("(script (types) (inputs D) {})", tree(nodes.div_ceil(2), "i0"));
    input(&format!("wide late tree, {nodes} nodes"), &text, &[], 1, 16000)
}

/// 64 types of which the last two are used, 4,096 nodes, height 256: functions that are arguments of functions, which call the
/// outermost one.
pub fn typed() -> Input {
    let mut types: Vec<(u16, u16)> = vec![];
    'all: for second in 0.. {
        for first in 0..=second {
            for pair in [(first, second), (second, first)] {
                if types.len() == 62 {
                    break 'all;
                }
                if pair != (0, 1) && !types.contains(&pair) && pair.0.max(pair.1) < 2 + types.len() as u16 {
                    types.push(pair);
                }
            }
        }
    }
    types.extend([(0, 1), (64, 1)]);
    let name = |t: u16| match t {
        0 => "S".to_string(),
        1 => "D".to_string(),
        t => format!("t{t}"),
    };
    let listed: String = types.iter().map(|&(p, r)| format!("({} {})", name(p), name(r))).collect();
    // 2 nodes and 2 of height for each level, with an argument of 30 nodes, 8 high; then late fixes up to the limits.
    let levels = 122;
    let argument = |k: usize| {
        let call = format!("(app v{} (+ 1 2))", if k == 0 { "9999" } else { "1" });
        let leaf = if k == 0 { "(lift v9999)".to_string() } else { call };
        let body = (0..4).fold(leaf.clone(), |sum, _| format!("(_+ {leaf} {sum})"));
        format!("(lam v9999 S {body})")
    };
    let mut text = "(lift 1)".to_string();
    for k in (0..levels).rev() {
        text = format!("(app (lam v{} t64 {text}) {})", k + 1, argument(k));
    }
    let count = |text: &str| assemble(&format!("(script (types {listed}) (inputs) {text})")).expect("a good text");
    let made = count(&text);
    let (nodes, height) = (made.nodes.len(), height(&made));
    // fill up with a tree beside it, and with late fixes on top
    let fixes = 255usize.checked_sub(height).expect("not too high");
    let beside = 4095usize.checked_sub(nodes + fixes).expect("not too many");
    let lifts = (beside + 1) / 3;
    let filler = match beside % 3 {
        2 => tree(lifts, "(lift 1)"),
        0 => format!("(_fix {})", tree(lifts, "(lift 1)")),
        _ => format!("(_fix (_fix {}))", tree(lifts, "(lift 1)")),
    };
    let text = format!("{}(_app {text} {filler}){}", "(_fix ".repeat(fixes), ")".repeat(fixes));
    let text = format!("(script (types {listed}) (inputs) {text})");
    let made = input("4,096 nodes, height 256, 64 types", &text, &[], 1, 16000);
    assert_eq!((made.script.nodes.len(), self::height(&made.script), made.script.types.len()), (4096, 256, 64));
    made
}

pub fn height(script: &Script) -> usize {
    let mut heights: Vec<usize> = vec![];
    for node in &script.nodes {
        let below = node.children().iter().map(|&child| heights[child]).max();
        heights.push(1 + below.unwrap_or(0));
    }
    heights[script.root()]
}

/// Code that is doubled n times: it ends in 26.
pub fn doubled(n: i32) -> Input {
    let text = "(script (types (D D) (S D) (t3 t3)) (inputs S D)
        (app (fix (lam v2 t3 (lam v3 S (if (= v3 0) i1
            (app (lam v4 D (_+ v4 v4)) (app v2 (- v3 1))))))) i0))";
    input(&format!("code doubled {n} times (26)"), text, &[n], 0, 16000)
}

/// Late functions, so many inside each other and each applied, around a tree whose leaves name the outermost: the plain run goes
/// through all of them at each leaf.
pub fn applied(depth: usize, leaves: usize) -> Input {
    let open: String = (1..=depth).map(|name| format!("(_app (_lam v{name} ")).collect();
    let text = format!("(script (types) (inputs D) {open}{}{})", tree(leaves, "v1"), ") i0)".repeat(depth));
    input(&format!("applied functions {depth} deep, {leaves} lookups"), &text, &[], 1, 16000)
}

/// Two calls in each call, not deep but without end for any fuel.
pub fn calls(fuel: u32) -> Input {
    let text = "(script (types (S S) (t2 t2)) (inputs) (app (fix (lam v1 t2 (lam v2 S
        (if (= v2 0) 1 (+ (app v1 (- v2 1)) (app v1 (- v2 1))))))) 40))";
    input(&format!("calls, fuel {fuel} (22)"), text, &[], 0, fuel)
}

/// Input A of the paper.
pub fn a(fuel: u32) -> Input {
    let text = "(script (types) (inputs S D) (_< i1 (lift (* i0 100))))";
    input(&format!("input A, fuel {fuel}"), text, &[40], 5, fuel)
}
