//! Calls of the maker, packed for the program `trials`, and the replies to them: the bench trials, operations at both ends of the
//! range, the power script of source document 001, Example 1, runs that go deep or grow large, and seeded scripts under any fuel,
//! stores and output.

use crate::assemble::assemble;
use crate::benchmake::{read_settings, split};
use crate::generate;
use crate::random::Random;
use crate::range_trials::{makings, Making};
use crate::script::{encode, read, Reply};
use crate::self_check::{script_a, script_a_without_lift, POWER};
use crate::specializer::{bare_run, make, Lent, MAX_FUEL};

/// A call: what is made, and what is lent. The output is counted in bytes.
struct Call {
    bare: bool,
    fuel: usize,
    store: usize,
    code: usize,
    output: usize,
    settings: Vec<i32>,
    file: Vec<u8>,
}

impl Call {
    fn ample(file: &[u8], settings: &[i32], fuel: usize) -> Call {
        Call {
            bare: false,
            fuel,
            store: MAX_FUEL + 16,
            code: 2 * MAX_FUEL + 16,
            output: 65_536,
            settings: settings.to_vec(),
            file: file.to_vec(),
        }
    }

    /// Bare or not, fuel, places lent, the settings behind their count, then the script file.
    fn pack(&self) -> Vec<u8> {
        let mut bytes = vec![self.bare as u8];
        for size in [self.fuel, self.store, self.code, self.output] {
            bytes.extend((size as u32).to_le_bytes());
        }
        bytes.push(self.settings.len() as u8);
        self.settings.iter().for_each(|setting| bytes.extend(setting.to_le_bytes()));
        bytes.extend(&self.file);
        bytes
    }

    fn unpack(bytes: &[u8]) -> Call {
        let word = |at: usize| [bytes[at], bytes[at + 1], bytes[at + 2], bytes[at + 3]];
        let size = |k: usize| u32::from_le_bytes(word(1 + 4 * k)) as usize;
        let count = bytes[17] as usize;
        Call {
            bare: bytes[0] == 1,
            fuel: size(0),
            store: size(1),
            code: size(2),
            output: size(3),
            settings: (0..count).map(|k| i32::from_le_bytes(word(18 + 4 * k))).collect(),
            file: bytes[18 + 4 * count..].to_vec(),
        }
    }
}

/// Number, place and steps, and the nodes of made code; then the bytes of its file on a line of their own.
pub fn told(packed: &[u8]) -> String {
    let call = Call::unpack(packed);
    let run = if call.bare { bare_run } else { make };
    let lent = Lent { store: call.store, code: call.code, ..Lent::AMPLE };
    match run(&call.file, &call.settings, call.fuel, &lent) {
        Ok(made) => {
            let file = encode(&made.script);
            if file.len() > call.output {
                return format!("21 0 {} 0\n", made.steps);
            }
            format!("0 0 {} {}\n{}", made.steps, made.script.nodes.len(), told_file(&file))
        }
        Err(Reply { number, place, steps }) => format!("{number} {place} {steps} 0\n"),
    }
}

/// Each byte of a file, on one line.
pub fn told_file(file: &[u8]) -> String {
    let bytes: String = file.iter().map(|byte| format!("{byte:02x}")).collect();
    bytes + "\n"
}

fn file(text: &str) -> Vec<u8> {
    encode(&assemble(text).expect("a good text"))
}

/// The paper's trials, starred or not.
fn bench_trials(calls: &mut Vec<Call>) {
    let a = encode(&script_a());
    for setting in [40, 21474836, 21474837, -21474836, -21474837] {
        calls.push(Call::ample(&a, &[setting], 4_000));
        calls.push(Call { bare: true, ..Call::ample(&a, &[setting], 4_000) });
    }
    for fuel in [6, 5, 0, 16_001] {
        calls.push(Call::ample(&a, &[40], fuel));
    }
    for operation in ["(/ -7 2)", "(/ 7 -2)", "(/ -2147483648 -1)", "(/ 1 0)"] {
        let text = format!("(script (types) (inputs) (lift {operation}))");
        calls.push(Call::ample(&file(&text), &[], 4_000));
    }
    let unlifted = encode(&script_a_without_lift());
    calls.push(Call::ample(&unlifted, &[40], 4_000));
    calls.push(Call { bare: true, ..Call::ample(&unlifted, &[40], 4_000) });
    for types in ["(types)", "(types (S D))"] {
        let text = format!("(script {types} (inputs) (app (lam v0 S (lift v0)) 5))");
        calls.push(Call::ample(&file(&text), &[], 4_000));
    }
    let captured = "(script (types (D D)) (inputs)
       (_lam v0 (app (lam v1 D (_lam v0 (_app v1 v0))) v0)))";
    calls.push(Call::ample(&file(captured), &[], 4_000));
    calls.push(Call::ample(&file("(script (types) (inputs) 7)"), &[], 4_000));
}

/// Operations at both ends of the range.
fn range_trials(calls: &mut Vec<Call>) {
    for Making { bare, fuel, settings, file, .. } in makings() {
        calls.push(Call { bare, ..Call::ample(&file, &settings, fuel) });
    }
}

/// Power: n of 0, 2, 5; out of fuel; the highest that fits a file, and the first that does not.
fn power_trials(calls: &mut Vec<Call>) {
    let power = file(POWER);
    for (n, fuel) in
        [(0, 4_000), (2, 4_000), (5, 4_000), (250, 4_000), (254, 16_000), (255, 16_000)]
    {
        calls.push(Call::ample(&power, &[n], fuel));
    }
    // too deep
    calls.push(Call::ample(&power, &[30_000], 16_000));
}

/// Runs as deep as the limits allow, and code as large as fuel allows.
fn large_trials(calls: &mut Vec<Call>) {
    let looping =
        "(script (types (S D) (t2 t2)) (inputs) (_fix (_fix (app (fix (lam v0 t2 v0)) 0))))";
    calls.push(Call::ample(&file(looping), &[], 16_000));
    // n unfoldings, at each of which the code grows by `step`
    let growing = |step: &str| {
        let text = format!(
            "(script (types (D D) (S t2) (t3 t3)) (inputs S D)
               (app (app (fix (lam v2 t3 (lam v3 S (lam v4 D
                 (if (= v3 0) v4 (app (app v2 (- v3 1)) {step})))))) i0) i1))"
        );
        file(&text)
    };
    for step in ["(_* i1 v4)", "(_* v4 v4)", "(_lam v5 (_app v4 v5))", "(_if v4 v4 v4)"] {
        for n in [3, 10, 120, 250, 396, 397, 2_000] {
            calls.push(Call::ample(&growing(step), &[n], 16_000));
        }
    }
}

/// A seeded script under fuel, stores and an output at or near their bounds.
fn seeded_call(seed: u64, index: u64) -> Option<Call> {
    let input = generate::input(seed, index);
    let (script, rest) = split(&input);
    read(script).ok()?;
    let settings = read_settings(rest)?;
    if settings.len() > 16 || script.len() > 6_000 {
        return None;
    }
    let mut random = Random::new(seed + 1, index);
    let fuel = random.pick(&[0, 1, 5, 20, 60, 400, 4_000, 4_000, 16_000, 16_000, 16_001]);
    let short = |random: &mut Random| if random.chance(4) { 1 } else { 0 };
    let mut call = Call::ample(script, &settings, fuel);
    call.bare = random.chance(30);
    call.store = (fuel + 16).min(call.store) - short(&mut random);
    call.code = (2 * fuel + 16).min(call.code) - short(&mut random);
    if random.chance(15) {
        call.output = random.below(200);
    }
    Some(call)
}

/// All calls, the last `count` of them seeded.
pub fn calls(seed: u64, count: usize) -> Vec<Vec<u8>> {
    let mut calls = Vec::new();
    bench_trials(&mut calls);
    range_trials(&mut calls);
    power_trials(&mut calls);
    large_trials(&mut calls);
    calls.extend((0..).filter_map(|index| seeded_call(seed, index)).take(count));
    calls.iter().map(Call::pack).collect()
}
