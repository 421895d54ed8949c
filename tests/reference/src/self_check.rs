//! The bench trials, operations at both ends of the range, decimals, the power script of
//! source document 001, Example 1, trials of the parts, those of the plain run, and bands.

use crate::assemble::assemble;
use crate::band_checks::band_checks;
use crate::benchmake::{answer, benchmake, encode_settings, FUEL};
use crate::checker;
use crate::decimal_trials::decimal_checks;
use crate::generate;
use crate::lent::{Entry, Memory};
use crate::listing::{listing, listing_lent, MAX_LISTING};
use crate::range_trials::range_checks;
use crate::run_checks::run_checks;
use crate::script::*;
use crate::specializer::{bare_run, make, Lent, Made};
use std::collections::BTreeMap;

pub struct Tally {
    passed: usize,
    failed: usize,
}

impl Tally {
    pub fn trial<T: PartialEq + std::fmt::Debug>(&mut self, name: &str, got: T, wanted: T) {
        if got == wanted {
            self.passed += 1;
        } else {
            self.failed += 1;
            println!("{name}: got {got:?}, wanted {wanted:?}");
        }
    }
}

/// Runs all trials and tells whether none failed.
pub fn self_check() -> bool {
    let mut tally = Tally { passed: 0, failed: 0 };
    input_a_trials(&mut tally);
    bench_trials(&mut tally);
    range_checks(&mut tally);
    decimal_checks(&mut tally);
    power_trials(&mut tally);
    part_trials(&mut tally);
    corpus_trials(&mut tally);
    reply_trials(&mut tally);
    run_checks(&mut tally);
    band_checks(&mut tally);
    println!("{} passed, {} failed", tally.passed, tally.failed);
    tally.failed == 0
}

fn node(kind: u8, fields: [u16; 3], value: i32) -> Node {
    Node { kind, fields, value }
}

/// Input A of the paper, in the paper's numbering.
pub fn script_a() -> Script {
    Script {
        types: vec![],
        inputs: vec![S, D],
        nodes: vec![
            node(VARIABLE, [0, 0, 0], 0),
            node(CONSTANT, [0, 0, 0], 100),
            node(OPERATION, [0, 1, TIMES], 0),
            node(LIFT, [2, 0, 0], 0),
            node(VARIABLE, [1, 0, 0], 0),
            node(LATE_OPERATION, [4, 3, LESS], 0),
        ],
    }
}

pub fn script_a_without_lift() -> Script {
    let mut script = script_a();
    script.nodes.remove(3);
    script.nodes[4] = node(LATE_OPERATION, [3, 2, LESS], 0);
    script
}

fn file(text: &str) -> Vec<u8> {
    encode(&assemble(text).expect("a good text"))
}

pub fn with_settings(script: &[u8], settings: &[i32]) -> Vec<u8> {
    let mut input = script.to_vec();
    input.extend(encode_settings(settings));
    input
}

/// Number, place and steps of a reply, with the listing of made code.
pub type Told = (u8, usize, usize, String);

pub fn told(result: Result<Made, Reply>) -> Told {
    match result {
        Ok(made) => (0, 0, made.steps, listing(&made.script)),
        Err(reply) => (reply.number, reply.place, reply.steps, String::new()),
    }
}

pub fn success(steps: usize, text: &str) -> Told {
    (0, 0, steps, format!("{text}\n"))
}

pub fn failure(number: u8, place: usize, steps: usize) -> Told {
    (number, place, steps, String::new())
}

fn input_a_trials(tally: &mut Tally) {
    let a = encode(&script_a());
    tally.trial("A, length", a.len(), 94);
    let prints = |settings: &[i32]| benchmake(&with_settings(&a, settings));
    let fine = |constant: &str| format!("accepted\nsteps 6\nnodes 4\n(< i1 {constant})\n");
    let stopped = |number: u8| format!("accepted\nstopped {number} 2\n");
    tally.trial("A with 40", prints(&[40]), fine("4000"));
    tally.trial("A with 21474836", prints(&[21474836]), fine("2147483600"));
    tally.trial("A with 21474837", prints(&[21474837]), stopped(24));
    tally.trial("A with -21474836", prints(&[-21474836]), fine("-2147483600"));
    tally.trial("A with -21474837", prints(&[-21474837]), stopped(29));
    let made = |setting: i32| told(make(&a, &[setting], FUEL, &Lent::AMPLE));
    tally.trial("A, made for 21474837", made(21474837), failure(24, 2, 6));
    tally.trial("A, made for -21474837", made(-21474837), failure(29, 2, 6));
    let bare = |setting: i32| told(bare_run(&a, &[setting], FUEL, &Lent::AMPLE));
    tally.trial("A, bare run for 21474837", bare(21474837), failure(24, 2, 6));
    tally.trial("A, bare run for -21474837", bare(-21474837), failure(29, 2, 6));

    let fuelled = |fuel| told(make(&a, &[40], fuel, &Lent::AMPLE));
    tally.trial("A, fuel 6", fuelled(6), success(6, "(< i1 4000)"));
    tally.trial("A, fuel 5", fuelled(5), failure(22, 1, 5));
    tally.trial("A, fuel 0", fuelled(0), failure(22, 5, 0));
    tally.trial("A, fuel 16,001", fuelled(16_001), failure(13, 0, 0));
}

/// The bench trials besides those of input A.
fn bench_trials(tally: &mut Tally) {
    let early = |operation: &str| {
        let text = format!("(script (types) (inputs) (lift {operation}))");
        told(make(&file(&text), &[], FUEL, &Lent::AMPLE))
    };
    tally.trial("-7 / 2", early("(/ -7 2)"), success(4, "-3"));
    tally.trial("the end / -1", early("(/ -2147483648 -1)"), failure(24, 2, 4));
    tally.trial("1 / 0", early("(/ 1 0)"), failure(25, 2, 4));

    let unlifted = encode(&script_a_without_lift());
    let printed = benchmake(&with_settings(&unlifted, &[40]));
    tally.trial("A without lift", printed, "refused 9 4\n".to_string());
    let bare = told(bare_run(&unlifted, &[40], FUEL, &Lent::AMPLE));
    tally.trial("A without lift, bare run", bare, failure(27, 4, 5));

    let applied = |types: &str| {
        let text = format!("(script {types} (inputs) (app (lam v0 S (lift v0)) 5))");
        benchmake(&file(&text))
    };
    tally.trial("function, no types", applied("(types)"), "refused 10 2\n".to_string());
    let five = "accepted\nsteps 5\nnodes 2\n5\n".to_string();
    tally.trial("function, type listed", applied("(types (S D))"), five);

    let captured = file(
        "(script (types (D D)) (inputs)
           (_lam v0 (app (lam v1 D (_lam v0 (_app v1 v0))) v0)))",
    );
    let made = make(&captured, &[], FUEL, &Lent::AMPLE);
    let wanted = success(8, "(lam v0 (lam v1 (app v0 v1)))");
    tally.trial("no capture", told(made), wanted);

    let lone = file("(script (types) (inputs) 7)");
    tally.trial("a lone constant", benchmake(&lone), "refused 11 0\n".to_string());
}

/// The annotated power program: n is input 0 (early), x is input 1 (late).
/// p, n' and x' are the names 2, 3 and 4.
pub const POWER: &str = "(script (types (D D) (S t2) (t3 t3)) (inputs S D)
  (app (app (fix (lam v2 t3 (lam v3 S (lam v4 D
    (if (= v3 0) (lift 1) (_* v4 (app (app v2 (- v3 1)) v4))))))) i0) i1))";

fn power_trials(tally: &mut Tally) {
    let power = file(POWER);
    let raised = |n: i32, fuel| told(make(&power, &[n], fuel, &Lent::AMPLE));
    // 15 steps, and 16 more for each unfolding that multiplies.
    let wanted = |n: usize| success(15 + 16 * n, &("(* i1 ".repeat(n) + "1" + &")".repeat(n)));
    for n in [0, 2, 5, 249] {
        tally.trial(&format!("power {n}"), raised(n, FUEL), wanted(n as usize));
    }
    tally.trial("power 250", raised(250, FUEL), failure(22, 10, FUEL));
    tally.trial("power -1", raised(-1, FUEL).0, 22);
    tally.trial("power 254, fuel 16,000", raised(254, 16_000), wanted(254));
    tally.trial("power 255, fuel 16,000", raised(255, 16_000), failure(26, 0, 4095));
    let printed = benchmake(&with_settings(&power, &[2]));
    let two = "accepted\nsteps 47\nnodes 6\n(* i1 (* i1 1))\n".to_string();
    tally.trial("power 2, printed", printed, two);
}

fn part_trials(tally: &mut Tally) {
    let a = script_a();
    let bytes = encode(&a);
    let place = |reply: Result<Script, Reply>| reply.map_err(|r| (r.number, r.place)).err();
    let damaged = |at: usize, byte: u8| {
        let mut copy = bytes.clone();
        copy[at] = byte;
        place(read(&copy))
    };
    tally.trial("empty", place(read(&[])), Some((1, 0)));
    tally.trial("head cut", place(read(&bytes[..7])), Some((1, 7)));
    tally.trial("file cut", place(read(&bytes[..93])), Some((1, 93)));
    tally.trial("head mark", damaged(0, b'h'), Some((2, 0)));
    tally.trial("no nodes", damaged(6, 0), Some((3, 0)));
    tally.trial("input mark", damaged(9, b'n'), Some((2, 8)));
    tally.trial("input type", damaged(14, 2), Some((4, 12)));
    tally.trial("node mark", damaged(81, b'n'), Some((2, 81)));
    tally.trial("kind", damaged(83, 13), Some((5, 81)));
    tally.trial("operator", damaged(88, 6), Some((5, 81)));
    tally.trial("used never and twice", damaged(84, 3), Some((6, 3)));
    tally.trial("bound by nothing", damaged(71, 2), Some((8, 4)));

    let read_lent = |nodes| {
        let mut memory = Memory::of(&a, 0);
        memory.columns.c.truncate(nodes);
        let answer = memory.call(Entry::Read);
        (answer.number, answer.place, answer.counts.nodes)
    };
    tally.trial("tables fit", read_lent(6), (0, 0, 6));
    tally.trial("tables short", read_lent(5), (21, 0, 0));
    let written = |nodes, room| {
        let mut memory = Memory::of(&a, room);
        memory.counts.nodes = nodes;
        let answer = memory.call(Entry::Write);
        (answer.number, answer.place, memory.out)
    };
    tally.trial("written", written(6, 94), (0, 0, bytes.clone()));
    tally.trial("output short", written(6, 93), (21, 0, vec![0; 93]));
    tally.trial("writer's tables short", written(7, 0), (1, 0, vec![]));
    tally.trial("no nodes to write", written(0, 0), (3, 0, vec![]));
    tally.trial("part of a script", written(5, 0), (6, 3, vec![]));

    let lent = |store, code, output| {
        let lent = Lent { store, code, output };
        told(make(&bytes, &[40], 10, &lent)).0
    };
    tally.trial("stores at their bounds", lent(26, 36, 4), 0);
    tally.trial("a short store", lent(25, 36, 4), 20);
    tally.trial("a short store for code", lent(26, 35, 4), 20);
    tally.trial("a short output", lent(26, 36, 3), 21);
    let ample = |settings: &[i32]| told(make(&bytes, settings, FUEL, &Lent::AMPLE));
    tally.trial("no settings", ample(&[]), failure(12, 0, 0));
    tally.trial("two settings", ample(&[1, 2]), failure(12, 0, 0));
    let mut trailing = with_settings(&bytes, &[40]);
    trailing.push(0);
    tally.trial("a byte too many", benchmake(&trailing), "refused 12 0\n".to_string());
    tally.trial("listing fits", listing_lent(&a, 18), Ok("(< i1 (* i0 100))\n".to_string()));
    tally.trial("listing short", listing_lent(&a, 17).map_err(|r| r.number), Err(21));

    // Nothing but unfoldings and the visits of v0: fuel first, then depth.
    // Each late fix on top is one step and one deeper.
    let looping = |fixes: usize| {
        let (open, close) = ("(_fix ".repeat(fixes), ")".repeat(fixes));
        let script = format!(
            "(script (types (S D) (t2 t2)) (inputs) {open}(app (fix (lam v0 t2 v0)) 0){close})"
        );
        told(make(&file(&script), &[], FUEL, &Lent::AMPLE))
    };
    tally.trial("unfolding to the end of fuel", looping(0), failure(22, 4, 4000));
    tally.trial("fuel and depth at once", looping(1), failure(22, 0, 4000));
    tally.trial("unfolding too deep", looping(2), failure(23, 0, 3999));
}

/// How often each number of a reply without a result occurs.
pub fn often(numbers: impl Iterator<Item = u8>) -> BTreeMap<u8, usize> {
    let mut often = BTreeMap::new();
    numbers.for_each(|number| *often.entry(number).or_insert(0) += 1);
    often
}

/// Whether the wanted replies occur, no others, and those at the ends of the range many times.
pub fn replies_trial(tally: &mut Tally, name: &str, often: &BTreeMap<u8, usize>, wanted: &[u8]) {
    let numbers: Vec<u8> = often.keys().copied().collect();
    tally.trial(name, numbers.as_slice(), wanted);
    for number in [24, 29] {
        let many = often.get(&number).is_some_and(|&often| often >= 60);
        tally.trial(&format!("{name}, {number} many times"), many, true);
    }
}

/// Among 5,000 inputs each reply occurs that `benchmake` can give.
fn reply_trials(tally: &mut Tally) {
    let replies = (0..5_000).filter_map(|index| answer(&generate::input(1, index), FUEL).err());
    let often = often(replies.map(|reply| reply.number));
    let wanted = [1, 2, 3, 4, 5, 6, 7, 8, 9, 10, 11, 12, 22, 23, 24, 25, 26, 29];
    replies_trial(tally, "replies to inputs", &often, &wanted);
}

/// Facts that hold of every made script in a corpus.
fn corpus_trials(tally: &mut Tally) {
    let mut failures = Vec::new();
    for index in 0..600 {
        let input = generate::input(1, index);
        let Ok(made) = answer(&input, FUEL) else { continue };
        let bytes = encode(&made.script);
        let read_back = read(&bytes) == Ok(made.script.clone());
        let accepted = checker::check(&made.script).is_ok();
        let listed = listing(&made.script).len() <= MAX_LISTING;
        // The making of made code only renames; once renamed, it stays.
        let settings = vec![0; made.script.early_inputs()];
        let again = |script: &Script| {
            make(&encode(script), &settings, 16_000, &Lent::AMPLE).ok().map(|made| made.script)
        };
        let renamed = again(&made.script);
        let stays = renamed.is_some() && renamed == renamed.as_ref().and_then(again);
        if !(read_back && accepted && listed && stays) {
            failures.push(index);
        }
    }
    tally.trial("made scripts of a corpus", failures, vec![]);
}
