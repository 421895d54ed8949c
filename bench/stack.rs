//! How many bytes of the stack the deepest calls take: each runs in a thread whose stack is painted first.

use crate::assemble::assemble;
use crate::script::{self, Script};

const STACK: usize = 16 << 20;
const PAINT: u8 = 0xA5;

/// The bytes that a call takes below its caller's frame.
fn taken(call: impl FnOnce() + Send) -> usize {
    std::thread::scope(|scope| {
        let run = move || {
            let mark = 0u8;
            let top = &raw const mark as usize - 1024;
            let bottom = top - (STACK - (1 << 20));
            // SAFETY: the bytes lie in this thread's own stack, below every frame in use, and nothing else runs on it.
            unsafe { std::ptr::write_bytes(bottom as *mut u8, PAINT, top - bottom) };
            std::hint::black_box(&mark);
            call();
            // SAFETY: as above.
            let left = unsafe { std::slice::from_raw_parts(bottom as *const u8, top - bottom) };
            let free = left.iter().take_while(|&&byte| byte == PAINT).count();
            left.len() - free + 1024
        };
        let thread = std::thread::Builder::new().stack_size(STACK).spawn_scoped(scope, run);
        thread.expect("a thread").join().expect("the call")
    })
}

fn library(script: &Script) -> scriptmaker::Script {
    let mut library = scriptmaker::Script::new();
    library.read(&script::encode(script)).expect("past 1 to 8");
    library
}

/// A bare run: steps that go so deep that 23 stops them.
fn bare(script: &Script, settings: &[i32]) -> (usize, (u8, u16)) {
    let library = library(script);
    let mut stores = scriptmaker::Stores::new(16000);
    let mut out = vec![0; scriptmaker::MAX_FILE];
    let mut reply = (0, 0);
    let bytes = taken(|| {
        let made = library.bare_run(settings, 16000, &mut stores, &mut out);
        reply = made.map_or_else(|f| (f.number, f.steps), |made| (0, made.steps));
    });
    (bytes, reply)
}

/// A plain run of the same.
fn plain(script: &Script) -> (usize, (u8, u16)) {
    let library = library(script);
    let numbers = vec![0; script.inputs.len()];
    let mut stores = scriptmaker::Stores::new(16000);
    let mut reply = (0, 0);
    let bytes = taken(|| {
        let ran = library.run(&numbers, 16000, &mut stores.heap);
        reply = ran.map_or_else(|f| (f.number, f.steps), |ran| (0, ran.steps));
    });
    (bytes, reply)
}

/// Around a hole `_`: each way in which a step stands right below another.
const NESTS: [(&str, &str); 20] = [
    ("lift", "(lift _)"),
    ("application, function", "(app _ 1)"),
    ("application, argument", "(app (lam v9 S v9) _)"),
    ("application, body", "(app (lam v9 S _) 1)"),
    ("fix", "(fix _)"),
    ("if, condition", "(if _ 1 1)"),
    ("if, branch", "(if 1 _ 1)"),
    ("operation, first", "(+ _ 1)"),
    ("operation, second", "(+ 1 _)"),
    ("late function", "(_lam v9 _)"),
    ("late application, first", "(_app _ i0)"),
    ("late application, second", "(_app i0 _)"),
    ("late fix", "(_fix _)"),
    ("late if, first", "(_if _ i0 i0)"),
    ("late if, second", "(_if i0 _ i0)"),
    ("late if, third", "(_if i0 i0 _)"),
    ("late operation, first", "(_+ _ i0)"),
    ("late operation, second", "(_+ i0 _)"),
    ("unfolding of fix values", "(app (app (fix (lam v7 t2 (lam v8 S _))) 1) 1)"),
    ("application of a branch", "(app (if 1 (lam v9 S _) 1) 1)"),
];

/// The ways that the plain run goes too.
const PLAIN: [&str; 4] = ["application, body", "if, branch", "operation, second", "unfolding of fix values"];

/// A run without end, in which so many steps of one sort stand inside each other in each unfolding.
fn endless(nest: &str) -> Script {
    let (open, close) =
        nest.split_once('_').filter(|(open, _)| !open.is_empty() && !open.ends_with('(')).unwrap_or_else(|| {
            // the late kinds have a `_` of their own
            let at = nest.rfind('_').expect("a hole");
            (&nest[..at], &nest[at + 1..])
        });
    let levels = 200 / open.matches('(').count().max(1);
    let body = format!("{}(app v2 1){}", open.repeat(levels), close.repeat(levels));
    let text = format!("(script (types (S D)) (inputs D) (app (fix (lam v2 t2 (lam v3 S {body}))) 1))");
    assemble(&text).expect("a good text")
}

/// A table of nodes that is one chain, refused 7.
fn chain(nodes: u16) -> scriptmaker::Script {
    let mut script = scriptmaker::Script::new();
    script.counts = scriptmaker::Counts { types: 0, inputs: 0, nodes };
    for number in 1..nodes as usize {
        script.kinds[number] = 2;
        script.a[number] = number as u16 - 1;
    }
    script
}

pub fn report() {
    println!("Bytes of the stack");
    let mut most = 0;
    for (name, nest) in NESTS {
        let (bytes, (number, steps)) = bare(&endless(nest), &[]);
        println!("       depth 2,000 by {name:<28} {bytes:>9} (reply {number} after {steps} steps)");
        most = most.max(bytes);
    }
    for (name, nest) in NESTS.into_iter().filter(|nest| PLAIN.contains(&nest.0)) {
        let (bytes, (number, steps)) = plain(&endless(nest));
        println!("       plain run, 2,000 by {name:<23} {bytes:>9} (reply {number} after {steps} steps)");
        most = most.max(bytes);
    }
    let high = chain(4096);
    let bytes = taken(|| assert_eq!(high.check().map_err(|f| f.number), Err(7)));
    println!("       check of a chain of 4,096 nodes            {bytes:>9} (refused 7)");
    most = most.max(bytes);
    let mut file = vec![];
    file.extend(b"HD\0\0\0\0");
    file.extend(4096u16.to_le_bytes());
    for number in 0..4096u16 {
        file.extend(b"ND");
        file.push(if number == 0 { 0 } else { 2 });
        file.extend(number.saturating_sub(1).to_le_bytes());
        file.extend([0; 8]);
    }
    let bytes = taken(|| assert_eq!(scriptmaker::Script::new().read(&file).map_err(|f| f.number), Err(7)));
    println!("       reading of a chain of 4,096 nodes          {bytes:>9} (refused 7)");
    most = most.max(bytes);
    for input in [crate::inputs::typed(), crate::inputs::doubled(250), crate::inputs::power(254, 16000), deep_code()] {
        let (bytes, (number, steps)) = bare(&input.script, &input.settings);
        println!("       {:<42} {bytes:>9} (reply {number} after {steps} steps)", input.name);
        most = most.max(bytes);
    }
    println!("       the most: {most} of 8,388,608");
    assert!(most < 4 << 20, "at least half of 8 MiB is to spare");
}

/// A code graph as deep as 16,000 steps allow: applications of a late fix, one around the other; 26.
fn deep_code() -> crate::inputs::Input {
    let around = "(_fix ".repeat(230) + "v4" + &")".repeat(230);
    let calls = (0..60).fold("i1".to_string(), |inner, _| format!("(app v5 {inner})"));
    let text = format!("(script (types (D D) (t2 D)) (inputs S D) (app (lam v5 t2 {calls}) (lam v4 D {around})))");
    crate::inputs::input("code 13,800 deep", &text, &[0], 1, 16000)
}
