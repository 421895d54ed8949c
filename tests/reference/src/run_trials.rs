//! Hand-made trials of the plain run, each with the reply that the papers give it.

use crate::assemble::assemble;
use crate::plain::{Outcome, Ran};
use crate::range_trials::{late, on_inputs, MOMENTS, OPERATIONS};
use crate::runs::Call;
use crate::script::*;
use crate::self_check::{script_a, script_a_without_lift, POWER};
use crate::specializer::{make, Lent, MAX_FUEL};

/// A call and the reply to it.
pub struct Trial {
    pub name: String,
    pub call: Call,
    pub wanted: Result<Ran, Reply>,
}

pub fn trials() -> Vec<Trial> {
    let mut trials = Trials(vec![]);
    input_a(&mut trials);
    before_the_run(&mut trials);
    arithmetic(&mut trials);
    range_ends(&mut trials);
    power(&mut trials);
    clashes(&mut trials);
    lifts(&mut trials);
    late_kinds(&mut trials);
    names(&mut trials);
    depth(&mut trials);
    nested_unfolding(&mut trials);
    endless(&mut trials);
    finished_code(&mut trials);
    trials.0
}

struct Trials(Vec<Trial>);

impl Trials {
    fn add(&mut self, name: &str, call: Call, wanted: Result<Ran, Reply>) {
        self.0.push(Trial { name: name.to_string(), call, wanted });
    }

    /// A term without inputs, under the most fuel.
    fn term(&mut self, term: &str, wanted: Result<Ran, Reply>) {
        self.add(term, Call::ample(&file("", term), &[]), wanted);
    }

    /// The same under less fuel.
    fn fuelled(&mut self, term: &str, fuel: usize, wanted: Result<Ran, Reply>) {
        let name = format!("{term}, fuel {fuel}");
        self.add(&name, Call { fuel, ..Call::ample(&file("", term), &[]) }, wanted);
    }

    /// A test that finds a clash: with all fuel, with just enough, and with one less, which stops at the visit before it.
    fn clash(&mut self, term: &str, place: usize, steps: usize, before: usize) {
        self.term(term, stop(28, place, steps));
        self.fuelled(term, steps, stop(28, place, steps));
        self.fuelled(term, steps - 1, stop(22, before, steps - 1));
    }
}

/// The file of a term, with the given inputs.
fn file(inputs: &str, term: &str) -> Vec<u8> {
    let text = format!("(script (types (S D) (D D)) (inputs {inputs}) {term})");
    encode(&assemble(&text).expect("a good text"))
}

fn number(value: i32, steps: usize) -> Result<Ran, Reply> {
    Ok(Ran { steps, outcome: Outcome::Number(value) })
}

fn function(steps: usize) -> Result<Ran, Reply> {
    Ok(Ran { steps, outcome: Outcome::Function })
}

fn stop(number: u8, place: usize, steps: usize) -> Result<Ran, Reply> {
    Err(Reply { number, place, steps })
}

fn refusal(number: u8) -> Result<Ran, Reply> {
    stop(number, 0, 0)
}

/// Input A: its lift is no step, so node 2 comes right after node 4.
fn input_a(trials: &mut Trials) {
    let a = encode(&script_a());
    let on = |numbers: &[i32]| Call::ample(&a, numbers);
    trials.add("A on 40 and 5", on(&[40, 5]), number(1, 5));
    for (reading, verdict) in [(5_000, 0), (3_999, 1), (4_000, 0), (i32::MIN, 1), (i32::MAX, 0)] {
        trials.add("A on 40", on(&[40, reading]), number(verdict, 5));
    }
    for (fuel, place) in [(4, 1), (3, 0), (2, 2), (1, 4), (0, 5)] {
        trials.add("A, fuel", Call { fuel, ..on(&[40, 5]) }, stop(22, place, fuel));
    }
    trials.add("A, fuel 5", Call { fuel: 5, ..on(&[40, 5]) }, number(1, 5));
    for (setting, reading, verdict) in [
        (21_474_836, 2_147_483_599, 1),
        (21_474_836, 2_147_483_600, 0),
        (-21_474_836, -2_147_483_601, 1),
        (-21_474_836, -2_147_483_600, 0),
    ] {
        trials.add("A at both ends", on(&[setting, reading]), number(verdict, 5));
    }
    trials.add("A above", on(&[21_474_837, 5]), stop(24, 2, 5));
    trials.add("A below", on(&[-21_474_837, 5]), stop(29, 2, 5));
    let unlifted = encode(&script_a_without_lift());
    trials.add("A without lift", Call::ample(&unlifted, &[40, 5]), number(1, 5));
}

/// 12, 13 and 20, in this order; the heap at its bound.
fn before_the_run(trials: &mut Trials) {
    let a = encode(&script_a());
    let on = |numbers: &[i32]| Call::ample(&a, numbers);
    trials.add("a number for each early input", on(&[40]), refusal(12));
    trials.add("one number more than inputs", on(&[40, 5, 6]), refusal(12));
    trials.add("no numbers", on(&[]), refusal(12));
    let fuel = MAX_FUEL + 1;
    trials.add("fuel 16,001", Call { fuel, ..on(&[40, 5]) }, refusal(13));
    trials.add("12 before 13", Call { fuel, ..on(&[40]) }, refusal(12));
    trials.add("13 before 20", Call { fuel, heap: 0, ..on(&[40, 5]) }, refusal(13));
    for fuel in [0, 5, 10, 16_000] {
        let short = Call { fuel, heap: fuel + 15, ..on(&[40, 5]) };
        trials.add("heap short by one", short.clone(), refusal(20));
        let wanted = if fuel == 0 { stop(22, 5, 0) } else { number(1, 5) };
        trials.add("heap at its bound", Call { heap: fuel + 16, ..short }, wanted);
    }
    let inputs: Vec<String> = (1..16).map(|k| format!("i{k}")).collect();
    let sum = inputs.iter().fold("i0".to_string(), |sum, input| format!("(+ (* 3 {sum}) {input})"));
    let many = file(&["S"; 16].join(" "), &sum);
    let digits = [1, 0, 2, 1, 1, 0, 0, 2, 2, 1, 0, 1, 2, 0, 1, 2];
    let value = digits.iter().fold(0, |sum, digit| 3 * sum + digit);
    trials.add("16 numbers in order", Call::ample(&many, &digits), number(value, 61));
}

/// Each operator; quotients of all signs, and operations with any marks below them.
fn arithmetic(trials: &mut Trials) {
    for (term, value) in [
        ("(/ -7 2)", -3),
        ("(/ 7 -2)", -3),
        ("(/ -7 -2)", 3),
        ("(_/ (lift 1) (lift 2))", 0),
        ("(_- -2147483647 1)", i32::MIN),
        ("(= 3 3)", 1),
        ("(= 3 -3)", 0),
        ("(_< -2147483648 2147483647)", 1),
        ("(< 3 3)", 0),
    ] {
        trials.term(term, number(value, 3));
    }
    trials.term("(/ 1 0)", stop(25, 2, 3));
    trials.term("(_/ (lift 0) (lift 0))", stop(25, 4, 3));
}

/// Operations at both ends of the range: early, late, and on inputs.
fn range_ends(trials: &mut Trials) {
    for &(operation, result) in OPERATIONS {
        let wanted = |place| match result {
            Ok(value) => number(value, 3),
            Err(reason) => stop(reason, place, 3),
        };
        trials.term(operation, wanted(2));
        trials.term(&late(operation), wanted(4));
        let (term, numbers) = on_inputs(operation);
        trials.add(operation, Call::ample(&file("S D", &term), &numbers), wanted(2));
    }
    for &(term, reason, place, steps) in MOMENTS {
        trials.term(term, stop(reason, place, steps));
        trials.fuelled(term, steps, stop(reason, place, steps));
        trials.fuelled(term, steps - 1, stop(22, place - 1, steps - 1));
    }
}

/// The power script: 14 steps and 16 for each multiplication, 3 deeper at each.
fn power(trials: &mut Trials) {
    let power = encode(&assemble(POWER).expect("a good text"));
    let raised = |n: i32, x: i32| Call::ample(&power, &[n, x]);
    for (n, x, value) in [
        (0, 7, 1),
        (1, 7, 7),
        (5, -3, -243),
        (10, 2, 1_024),
        (3, 1_290, 2_146_689_000),
        (31, -2, i32::MIN),
        (665, 1, 1),
    ] {
        trials.add(&format!("power {n}"), raised(n, x), number(value, 14 + 16 * n as usize));
    }
    trials.add("power, above", raised(3, 1_291), stop(24, 13, 62));
    trials.add("power, below", raised(3, -1_291), stop(29, 13, 62));
    trials.add("power 31", raised(31, 2), stop(24, 13, 510));
    trials.add("power 666", raised(666, 1), stop(23, 6, 10_657));
    trials.add("power -1", raised(-1, 1), stop(23, 6, 10_657));
    let fuelled = |fuel| Call { fuel, ..raised(2, 5) };
    trials.add("power 2, fuel 46", fuelled(46), number(25, 46));
    trials.add("power 2, fuel 45", fuelled(45), stop(22, 3, 45));
}

/// A number used as a function and a function as a number, tested before the next visit.
fn clashes(trials: &mut Trials) {
    // The application's first child.
    trials.clash("(app 5 (/ 1 0))", 4, 2, 0);
    trials.clash("(_app (lift 5) (/ 1 0))", 5, 2, 0);
    trials.clash("(app (app (lam v0 S v0) 3) (/ 1 0))", 7, 5, 0);
    // An operation's first child, and its second.
    trials.clash("(+ (lam v0 S v0) (/ 1 0))", 5, 2, 1);
    trials.clash("(_< (lift (_lam v0 v0)) (/ 1 0))", 6, 2, 1);
    trials.clash("(+ 1 (lam v0 S v0))", 3, 3, 2);
    trials.clash("(_/ (lift 1) (lift (lift (_lam v0 v0))))", 6, 3, 3);
    trials.clash("(= (fix (lam v0 S v0)) (/ 1 0))", 6, 3, 1);
    // A condition.
    trials.clash("(if (lam v0 S v0) (/ 1 0) (/ 1 0))", 8, 2, 1);
    trials.clash("(_if (lift (_lam v0 v0)) (/ 1 0) (/ 1 0))", 9, 2, 1);
    // The child of a fix.
    trials.clash("(fix 3)", 1, 2, 0);
    trials.clash("(app (_fix (lift (+ 1 2))) (/ 1 0))", 4, 5, 1);
    // What the first application of an unfolding gives.
    trials.clash("(app (fix (lam v0 S 5)) 7)", 4, 6, 0);
    trials.clash("(_app (_fix (_lam v0 (lift 5))) (lift 7))", 6, 6, 0);
    trials.clash("(app (fix (fix (lam v0 S (lam v1 S 9)))) 1)", 6, 9, 0);
    trials.clash("(+ 1 (app (fix (lam v0 S 5)) (lam v1 S v1)))", 6, 8, 1);
    // The argument comes before the unfolding.
    trials.term("(app (fix (lam v0 S 5)) (/ 1 0))", stop(25, 5, 6));
    // Not used, no clash.
    trials.term("(app (lam v0 S 5) (lam v1 S v1))", number(5, 4));
    trials.term("(if 0 (app 1 2) (fix (lam v0 S 3)))", function(4));
    trials.term("(lam v0 S (app 1 (/ 1 0)))", function(1));
}

/// A lift is no step and adds no depth, wherever it stands, and is never named.
fn lifts(trials: &mut Trials) {
    trials.term("(lift 7)", number(7, 1));
    trials.fuelled("(lift 7)", 0, stop(22, 0, 0));
    trials.term("(lift (lift (lift 7)))", number(7, 1));
    trials.fuelled("(lift (lift (lift 7)))", 1, number(7, 1));
    trials.fuelled("(lift (lift (lift 7)))", 0, stop(22, 0, 0));
    trials.fuelled("(+ 1 (lift (lift 2)))", 2, stop(22, 1, 2));
    trials.term("(lift (lam v0 S v0))", function(1));
    trials.term("(lift (app (lam v0 S (lift v0)) (lift 6)))", number(6, 4));
    trials.term("(if (lift 0) 1 2)", number(2, 3));
    trials.term("(_if (lift (lift 1)) 3 4)", number(3, 3));
    trials.term("(_app (lift (lam v0 S (lift v0))) (lift 8))", number(8, 4));
    trials.term("(if 1 (lift (+ 1 2)) 0)", number(3, 5));
    trials.term("(_if (lift 0) 0 (lift (lift (_+ (lift 1) 2))))", number(3, 5));
    let each = "(app (lift (fix (lift (lam v0 S (lift (lam v1 S (lift v1))))))) (lift 4))";
    trials.term(each, number(4, 7));
    let (open, close) = ("(lift ".repeat(255), ")".repeat(255));
    trials.term(&format!("{open}7{close}"), number(7, 1));
    trials.fuelled(&format!("{open}7{close}"), 0, stop(22, 0, 0));
}

/// A late kind does what its early kind does.
fn late_kinds(trials: &mut Trials) {
    trials.term("(_if 0 (/ 1 0) 5)", number(5, 3));
    trials.term("(_if 1 5 (/ 1 0))", number(5, 3));
    trials.term("(_if -2147483648 5 (/ 1 0))", number(5, 3));
    trials.term("(_lam v0 (_/ (lift 1) (lift 0)))", function(1));
    trials.term("(_fix (_lam v0 v0))", function(2));
    trials.term("(_app (_lam v0 (_+ v0 v0)) (lift 4))", number(8, 6));
    let captured = "(_lam v0 (app (lam v1 D (_lam v0 (_app v1 v0))) v0))";
    trials.term(captured, function(1));
    let applied = format!("(_app (_app {captured} (_lam v5 (_+ v5 (lift 1)))) (lift 7))");
    trials.term(&applied, number(8, 15));
    let sum = "(_app (_fix (_lam v0 (_lam v1 (_if v1 (_+ v1 (_app v0 (_- v1 1))) 0)))) 4)";
    trials.term(sum, number(10, 53));
}

/// The innermost binder rules, and a function keeps the names of its place.
fn names(trials: &mut Trials) {
    trials.term("(app (app (lam v0 S (lam v0 S v0)) 1) 2)", number(2, 7));
    trials.term("(app (app (lam v0 S (_lam v1 v0)) 1) 2)", number(1, 7));
    trials.term("(app (lam v1 S (app (app (lam v0 S (lam v1 S v0)) v1) 9)) 1)", number(1, 10));
    trials.term(
        "(app (app (lam v0 S (app (lam v1 S (lam v0 S (- v1 v0))) v0)) 10) 3)",
        number(7, 12),
    );
    let file = file("D S", "(app (lam v65535 S (- v65535 i1)) (app (lam v2 S (* 10 v2)) i0))");
    trials.add("inputs below binders", Call::ample(&file, &[3, 4]), number(26, 11));
}

/// Counts down from input 0 to a bottom, which stands at depth 4 + 4n: 9 steps and 11 for each turn, with one for the bottom.
fn counting(bottom: &str) -> String {
    format!("(app (fix (lam v1 S (lam v2 S (if v2 (+ 1 (app v1 (- v2 1))) {bottom})))) i0)")
}

/// The same, all late, with lifts between.
fn lifted_counting(bottom: &str) -> String {
    let rest = "(_app (lift v1) (lift (lift (_- (lift v2) (lift 1)))))";
    let choice = format!("(lift (_if (lift v2) (lift (_+ (lift 1) (lift {rest}))) {bottom}))");
    let fixed = format!("(lift (_fix (lift (_lam v1 (lift (lift (_lam v2 {choice})))))))");
    format!("(lift (_app {fixed} (lift i0)))")
}

/// Depth 2,000 is reached, and not passed; fuel is tested first.
fn depth(trials: &mut Trials) {
    let on = |text: &str, n: i32| Call::ample(&file("S", text), &[n]);
    // The first node of the bottom, and that of the constant 1.
    for (count, first, one) in [(counting as fn(&str) -> String, 8, 1), (lifted_counting, 17, 2)] {
        trials.add("depth 2,000", on(&count("0"), 499), number(499, 5_498));
        let lower = on(&count("(+ 5 6)"), 499);
        trials.add("depth 2,001", lower.clone(), stop(23, first, 5_498));
        let fuel = 5_498;
        trials.add("fuel and depth at once", Call { fuel, ..lower.clone() }, stop(22, first, fuel));
        let fuel = 5_499;
        trials.add("depth with fuel left", Call { fuel, ..lower }, stop(23, first, 5_498));
        let higher = on(&count("(+ 5 6)"), 498);
        trials.add("depth 1,997", higher, number(509, 5_489));
        trials.add("one turn more", on(&count("0"), 500), stop(23, one, 5_498));
    }
}

/// An unfolding that asks for an unfolding: the second is the deepest, and is named by the application.
fn nested_unfolding(trials: &mut Trials) {
    let twice = "(fix (fix (lam v5 S (lam v6 S (lam v7 S 7)))))";
    trials.term(&format!("(app {twice} 1)"), number(7, 10));
    let nested = |bottom: &str| {
        let text = format!("(app (lam v9 S {}) {twice})", counting(bottom));
        file("S", &text)
    };
    let on = |bottom: &str| Call::ample(&nested(bottom), &[498]);
    // The bottom stands at 1,997, so its application at 1,999 and the second unfolding at 2,001.
    trials.add("nested unfolding", on("(+ (+ (app v9 1) 0) 0)"), stop(23, 10, 5_497));
    // One higher the function v6, the body of v5, is too deep; two higher nothing is.
    trials.add("one higher", on("(+ (app v9 1) 0)"), stop(23, 22, 5_497));
    trials.add("two higher", on("(app v9 1)"), number(505, 5_499));
}

/// Recursion without end: at each turn 2 deeper, with 19 steps or 5.
fn endless(trials: &mut Trials) {
    let wide = "(+ (+ (+ 0 0) (+ 0 0)) (+ (+ 0 0) (+ 0 0)))";
    let looping =
        |argument: &str| format!("(app (fix (lam v0 S (lam v1 S (app v0 {argument})))) 0)");
    trials.term(&looping(wide), stop(22, 11, 16_000));
    trials.fuelled(&looping(wide), 15_999, stop(22, 13, 15_999));
    trials.term(&looping("0"), stop(23, 3, 5_000));
    trials.term("(app (fix (lam v0 S v0)) 0)", stop(23, 0, 4_001));
}

/// Made files keep their inputs, so they take a number for each.
fn finished_code(trials: &mut Trials) {
    let made = |file: &[u8], settings: &[i32]| {
        let made = make(file, settings, MAX_FUEL, &Lent::AMPLE).expect("code");
        encode(&made.script)
    };
    let a = made(&encode(&script_a()), &[40]);
    for (numbers, verdict) in [([40, 5], 1), ([40, 5_000], 0), ([0, 3_999], 1), ([0, 4_000], 0)] {
        trials.add("A made for 40", Call::ample(&a, &numbers), number(verdict, 3));
    }
    trials.add("A made for 40, late alone", Call::ample(&a, &[5]), refusal(12));
    let power = made(&encode(&assemble(POWER).expect("a good text")), &[5]);
    for (x, value) in [(2, 32), (-3, -243), (73, 2_073_071_593)] {
        trials.add("power made for 5", Call::ample(&power, &[5, x]), number(value, 11));
    }
    trials.add("power made for 5, above", Call::ample(&power, &[5, 74]), stop(24, 11, 11));
    trials.add("power made for 5, below", Call::ample(&power, &[5, -74]), stop(29, 11, 11));
    let captured = "(_lam v0 (app (lam v1 D (_lam v0 (_app v1 v0))) v0))";
    trials.add("made function", Call::ample(&made(&file("", captured), &[]), &[]), function(1));
    // The quotient is made before the reading is known; the late branch is not taken.
    let branches = "(_if i1 (lift (/ 100 i0)) (_/ i1 i1))";
    let branches = made(&file("S D", branches), &[7]);
    trials.add("made branches, second", Call::ample(&branches, &[7, 1]), number(14, 3));
    trials.add("made branches, third", Call::ample(&branches, &[7, 0]), stop(25, 5, 5));
    let late =
        "(_app (_fix (_lam v1 (_lam v2 (_if v2 (_+ v2 (_app v1 (_- v2 (lift 1)))) (lift 0))))) i0)";
    let late = made(&file("D", late), &[]);
    trials.add("made recursion", Call::ample(&late, &[4]), number(10, 53));
}
