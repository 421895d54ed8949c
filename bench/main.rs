//! Times the proved library against the second implementation and versions tuned by hand, on the same inputs in the same run, and
//! asserts that all reply alike. Prints a table, and writes the growth of cost to an SVG file.

#[path = "../tests/reference/src/arithmetic.rs"]
mod arithmetic;
#[path = "../tests/reference/src/assemble.rs"]
#[allow(dead_code)]
mod assemble;
#[path = "../tests/reference/src/checker.rs"]
mod checker;
#[path = "../tests/reference/src/listing.rs"]
#[allow(dead_code)]
mod listing;
#[path = "../tests/reference/src/plain.rs"]
mod plain;
#[path = "../tests/reference/src/script.rs"]
#[allow(dead_code)]
mod script;
#[path = "../tests/reference/src/specializer.rs"]
#[allow(dead_code)]
mod specializer;

mod inputs;
mod plot;
mod stack;
mod tuned;

use inputs::Input;
use specializer::Lent;
use std::hint::black_box;
use std::process::ExitCode;
use tuned::{Reply, RunReply};

const REPEATS: usize = 25;
/// How long a batch of calls takes at least, in seconds.
const BATCH: f64 = 0.002;

/// One input in the form of each.
struct Case {
    input: Input,
    file: Vec<u8>,
    library: scriptmaker::Script,
    stores: scriptmaker::Stores,
    tuned: tuned::Script,
    tuned_stores: tuned::Stores,
    further_heap: Vec<tuned::Place>,
    scratch: Box<tuned::Scratch>,
    out: Vec<u8>,
    text: Vec<u8>,
}

impl Case {
    fn new(input: Input) -> Case {
        let file = script::encode(&input.script);
        let mut library = scriptmaker::Script::new();
        library.read(&file).expect("past 1 to 8");
        let nodes = input.script.nodes.iter();
        let tuned = tuned::Script {
            types: input.script.types.clone(),
            inputs: input.script.inputs.clone(),
            nodes: nodes.map(|n| tuned::Node { kind: n.kind, fields: n.fields, value: n.value }).collect(),
        };
        Case {
            stores: scriptmaker::Stores::new(input.fuel),
            tuned_stores: tuned::Stores::new(input.fuel),
            further_heap: tuned::heap(input.fuel),
            scratch: tuned::Scratch::new(),
            out: vec![0; scriptmaker::MAX_FILE],
            text: vec![0; scriptmaker::MAX_LISTING],
            file,
            library,
            tuned,
            input,
        }
    }

    fn make_library(&mut self) -> Reply {
        match self.library.make(&self.input.settings, self.input.fuel, &mut self.stores, &mut self.out) {
            Ok(made) => Reply { number: 0, place: 0, steps: made.steps, nodes: made.nodes },
            Err(f) => Reply { number: f.number, place: f.place, steps: f.steps, nodes: 0 },
        }
    }

    fn make_tuned(&mut self) -> Reply {
        let (fuel, scratch, stores) = (self.input.fuel, &mut self.scratch, &mut self.tuned_stores);
        self.tuned.make(&self.input.settings, fuel, scratch, stores, &mut self.out)
    }

    fn make_reference(&mut self) -> Result<specializer::Made, script::Reply> {
        specializer::make(&self.file, &self.input.settings, self.input.fuel as usize, &Lent::AMPLE)
    }

    fn check_library(&self) -> (u8, usize) {
        self.library.check().map_or_else(|f| (f.number, f.place), |()| (0, 0))
    }

    fn check_tuned(&mut self) -> (u8, usize) {
        self.tuned.check(&mut self.scratch).map_or_else(|f| (f.number, f.place), |()| (0, 0))
    }

    fn check_by_passes(&mut self) -> (u8, usize) {
        self.tuned.check_by_passes(&mut self.scratch).map_or_else(|f| (f.number, f.place), |()| (0, 0))
    }

    fn check_reference(&self) -> (u8, usize) {
        let checked = script::read(&self.file).and_then(|script| checker::check(&script));
        checked.map_or_else(|f| (f.number, f.place), |_| (0, 0))
    }

    fn list_library(&mut self) -> usize {
        self.library.list(&mut self.text).expect("room for any listing")
    }

    fn list_reference(&self) -> String {
        let script = script::read(&self.file).expect("past 1 to 8");
        listing::listing(&script)
    }

    fn list_tuned(&mut self) -> usize {
        self.tuned.list(&mut self.scratch, &mut self.text).expect("room for any listing")
    }

    fn run_library(&mut self) -> RunReply {
        match self.library.run(&self.input.numbers, self.input.fuel, &mut self.stores.heap) {
            Ok(ran) => match ran.outcome {
                scriptmaker::Outcome::Number(value) => RunReply::number(value, ran.steps),
                scriptmaker::Outcome::Function => RunReply::function(ran.steps),
            },
            Err(f) => RunReply::unfinished(f.number, f.place, f.steps),
        }
    }

    fn run_tuned(&mut self) -> RunReply {
        self.tuned.plain_run(&self.input.numbers, self.input.fuel, &mut self.scratch, &mut self.tuned_stores)
    }

    fn run_further(&mut self) -> RunReply {
        self.tuned.further_run(&self.input.numbers, self.input.fuel, &mut self.scratch, &mut self.further_heap)
    }

    fn run_reference(&mut self) -> RunReply {
        let (fuel, heap) = (self.input.fuel as usize, self.stores.heap.len());
        match plain::run_file(&self.file, &self.input.numbers, fuel, heap) {
            Ok(ran) => match ran.outcome {
                plain::Outcome::Number(value) => RunReply::number(value, ran.steps as u16),
                plain::Outcome::Function => RunReply::function(ran.steps as u16),
            },
            Err(f) => RunReply::unfinished(f.number, f.place, f.steps as u16),
        }
    }

    /// The code that the library makes of this case, as a case of its own.
    fn code(mut self) -> Case {
        let made = self.library.make(&self.input.settings, self.input.fuel, &mut self.stores, &mut self.out);
        let length = made.expect("finished code").length;
        let script = script::read(&self.out[..length]).expect("past 1 to 8");
        Case::new(Input { name: format!("code of {}", self.input.name), script, ..self.input })
    }

    /// All reply alike to the plain run; library and tuned versions leave zeros in the heap.
    fn agree_in_run(&mut self) -> RunReply {
        self.stores.heap.fill(u64::MAX);
        let library = self.run_library();
        assert!(self.stores.heap.iter().all(|&x| x == 0), "{}", self.input.name);
        assert_eq!(library, self.run_tuned(), "{}", self.input.name);
        assert!(self.tuned_stores == tuned::Stores::new(self.input.fuel), "{}", self.input.name);
        assert_eq!(library, self.run_further(), "{}", self.input.name);
        assert!(self.further_heap == tuned::heap(self.input.fuel), "{}", self.input.name);
        assert_eq!(library, self.run_reference(), "{}", self.input.name);
        library
    }

    /// All three reply alike, and leave the same file and the same listing.
    fn agree(&mut self) -> Reply {
        let length = self.list_library();
        let text = self.text[..length].to_vec();
        assert_eq!(text, self.list_reference().as_bytes(), "{}", self.input.name);
        self.text.fill(0);
        assert_eq!(length, self.list_tuned(), "{}", self.input.name);
        assert_eq!(text, self.text[..length], "{}", self.input.name);
        let check = self.check_library();
        assert_eq!(check, self.check_reference(), "{}", self.input.name);
        assert_eq!(check, self.check_tuned(), "{}", self.input.name);
        assert_eq!(check, self.check_by_passes(), "{}", self.input.name);
        self.out.fill(0);
        let library = self.make_library();
        let zeros = self.stores.heap.iter().chain(&self.stores.codes).all(|&x| x == 0);
        assert!(zeros, "stores hold zeros");
        let file = std::mem::replace(&mut self.out, vec![0; scriptmaker::MAX_FILE]);
        assert_eq!(library, self.make_tuned(), "{}", self.input.name);
        assert_eq!(file, self.out, "{}", self.input.name);
        let reference = match self.make_reference() {
            Ok(made) => {
                let bytes = script::encode(&made.script);
                assert_eq!(bytes, file[..bytes.len()], "{}", self.input.name);
                Reply { number: 0, place: 0, steps: made.steps as u16, nodes: made.script.nodes.len() as u16 }
            }
            Err(f) => Reply { number: f.number, place: f.place, steps: f.steps as u16, nodes: 0 },
        };
        assert_eq!(library, reference, "{}", self.input.name);
        library
    }
}

type Job = (&'static str, fn(&mut Case));

const RUN: [Job; 4] = [
    ("library", |c| _ = black_box(c.run_library())),
    ("reference", |c| _ = black_box(c.run_reference())),
    ("tuned", |c| _ = black_box(c.run_tuned())),
    ("further tuned", |c| _ = black_box(c.run_further())),
];

const MAKE: [Job; 3] = [
    ("library", |c| _ = black_box(c.make_library())),
    ("reference", |c| _ = black_box(c.make_reference().is_ok())),
    ("tuned", |c| _ = black_box(c.make_tuned())),
];

const CHECK: [Job; 4] = [
    ("library", |c| _ = black_box(c.check_library())),
    ("reference", |c| _ = black_box(c.check_reference())),
    ("tuned", |c| _ = black_box(c.check_tuned())),
    ("by passes", |c| _ = black_box(c.check_by_passes())),
];

#[repr(C)]
struct Timespec {
    seconds: i64,
    nanoseconds: i64,
}

unsafe extern "C" {
    fn clock_gettime(clock: i32, time: *mut Timespec) -> i32;
}

/// The processor's time of this thread, in seconds: what other programs take does not count.
fn now() -> f64 {
    const CLOCK_THREAD_CPUTIME_ID: i32 = 3;
    let mut time = Timespec { seconds: 0, nanoseconds: 0 };
    // SAFETY: the pointer is good for the call.
    unsafe { clock_gettime(CLOCK_THREAD_CPUTIME_ID, &mut time) };
    time.seconds as f64 + time.nanoseconds as f64 * 1e-9
}

const LIST: [Job; 3] = [
    ("library", |c| _ = black_box(c.list_library())),
    ("reference", |c| _ = black_box(c.list_reference().len())),
    ("tuned", |c| _ = black_box(c.list_tuned())),
];

fn time(case: &mut Case, job: fn(&mut Case), calls: usize) -> f64 {
    let start = now();
    for _ in 0..calls {
        job(case);
    }
    (now() - start) / calls as f64
}

fn median(mut xs: Vec<f64>) -> (f64, f64, f64) {
    xs.sort_by(f64::total_cmp);
    let at = |part: f64| xs[((xs.len() - 1) as f64 * part).round() as usize];
    (at(0.5), at(0.1), at(0.9))
}

/// For each job the seconds of a call in each repeat; the jobs take turns.
fn measure(case: &mut Case, jobs: &[Job]) -> Vec<Vec<f64>> {
    let calls: Vec<usize> =
        jobs.iter().map(|&(_, job)| (BATCH / time(case, job, 3).max(1e-9)).ceil() as usize).collect();
    let mut taken = vec![vec![]; jobs.len()];
    for repeat in 0..REPEATS {
        for turn in 0..jobs.len() {
            let job = (turn + repeat) % jobs.len();
            taken[job].push(time(case, jobs[job].1, calls[job]));
        }
    }
    taken
}

/// A row of the table: the library's time, and its ratio to each other with the spread from the 10th to the 90th percentile. Gives
/// each job's least time, which other programs disturb least.
fn row(what: &str, case: &mut Case, jobs: &[Job]) -> Vec<f64> {
    let taken = measure(case, jobs);
    print!("{what:<6} {:<42} {:>9.1} µs", case.input.name, median(taken[0].clone()).0 * 1e6);
    for (job, xs) in jobs.iter().zip(&taken).skip(1) {
        let (ratio, low, high) = median(taken[0].iter().zip(xs).map(|(l, x)| l / x).collect());
        print!("   {}: {ratio:.2} ({low:.2}..{high:.2})", job.0);
    }
    println!();
    taken.iter().map(|xs| xs.iter().copied().fold(f64::MAX, f64::min)).collect()
}

const USAGE: &str = "bench PLOT (a file to write), bench stack, or bench once JOB INPUT (make-library, check-tuned, \
                     list-reference, run-further and the like; 0 to 5, for run 0 to 11)";

fn main() -> ExitCode {
    let words: Vec<String> = std::env::args().skip(1).collect();
    let words: Vec<&str> = words.iter().map(String::as_str).collect();
    let done = match words[..] {
        ["once", job, index] => once(job, index),
        ["stack"] => Some(stack::report()),
        [plot] if plot != "once" && !plot.starts_with('-') => Some(all(plot)),
        _ => None,
    };
    if done.is_none() {
        eprintln!("{USAGE}");
        return ExitCode::from(2);
    }
    ExitCode::SUCCESS
}

/// What every job is timed on.
fn cases() -> Vec<Case> {
    let all = vec![
        inputs::power(249, 4000),
        inputs::powers(16000),
        inputs::environment(240, 1900),
        inputs::wide(4095),
        inputs::typed(),
        inputs::doubled(200),
    ];
    all.into_iter().map(Case::new).collect()
}

/// What the plain run is timed on besides: finished code, a walk of deep environments, a long run and short ones.
fn run_cases() -> Vec<Case> {
    let made = [inputs::power(249, 4000), inputs::wide(4095)].map(|input| Case::new(input).code());
    let others = [inputs::applied(120, 1800), inputs::calls(16000), inputs::a(100), inputs::a(16000)];
    made.into_iter().chain(others.map(Case::new)).collect()
}

/// 20 calls of one job on one input, for a profiler; nothing where there is no such job or input. The first word of a job's name will
/// do.
fn once(job: &str, index: &str) -> Option<()> {
    let (what, who) = job.split_once('-')?;
    let (jobs, mut cases): (&[Job], Vec<Case>) = match what {
        "make" => (&MAKE, cases()),
        "check" => (&CHECK, cases()),
        "list" => (&LIST, cases()),
        "run" => (&RUN, cases().into_iter().chain(run_cases()).collect()),
        _ => return None,
    };
    let job = jobs.iter().find(|job| job.0 == who || job.0.split(' ').next() == Some(who))?;
    let case = cases.get_mut(index.parse::<usize>().ok()?)?;
    println!("{}", case.input.name);
    for _ in 0..20 {
        job.1(case);
    }
    Some(())
}

fn all(plot_to: &str) {
    let (mut cases, mut run_cases) = (cases(), run_cases());
    println!("Time of a call, and its ratio to the others' (median of {REPEATS} repeats, 10th to 90th percentile)");
    for case in cases.iter_mut() {
        let reply = case.agree();
        println!("       {}: {reply:?}", case.input.name);
    }
    for case in cases.iter_mut().chain(&mut run_cases) {
        let reply = case.agree_in_run();
        println!("       run of {}: {reply:?}", case.input.name);
    }
    for case in cases.iter_mut() {
        row("check", case, &CHECK);
    }
    for case in cases.iter_mut() {
        row("make", case, &MAKE);
    }
    for case in cases.iter_mut() {
        row("list", case, &LIST);
    }
    for case in cases.iter_mut().chain(&mut run_cases) {
        row("run", case, &RUN);
    }
    let mut panels = vec![];
    let fuels: Vec<u32> = (0..5).map(|k| 1000 << k).collect();
    let runs: Vec<(f64, Input)> = fuels.iter().map(|&fuel| (fuel as f64, inputs::powers(fuel))).collect();
    panels.push(grow("make", "fuel", &MAKE, runs));
    let sizes = (0..5).map(|k| (256 << k) - 1);
    let trees: Vec<(f64, Input)> = sizes.clone().map(|nodes| (nodes as f64, inputs::wide(nodes))).collect();
    panels.push(grow("check", "nodes", &CHECK, trees));
    let trees: Vec<(f64, Input)> = sizes.map(|nodes| (nodes as f64, inputs::wide(nodes))).collect();
    panels.push(grow("make", "nodes", &MAKE, trees));
    let runs: Vec<(f64, Input)> = fuels.iter().map(|&fuel| (fuel as f64, inputs::calls(fuel))).collect();
    panels.push(grow("run", "fuel", &RUN, runs));
    std::fs::write(plot_to, plot::svg(&panels)).expect("the plot");
    println!("growth: {plot_to}");
    stack::report();
}

/// The time of each job over inputs of growing size.
fn grow(what: &str, size: &str, jobs: &[Job], over: Vec<(f64, Input)>) -> plot::Panel {
    let mut lines: Vec<plot::Line> =
        jobs.iter().map(|job| plot::Line { name: job.0.to_string(), points: vec![] }).collect();
    for (x, input) in over {
        let mut case = Case::new(input);
        case.agree();
        case.agree_in_run();
        let least = row(what, &mut case, jobs);
        for (line, y) in lines.iter_mut().zip(least) {
            line.points.push((x, y * 1e6));
        }
    }
    for line in &lines {
        println!("       {what} over {size}, {}: slope {:.2}", line.name, plot::slope(&line.points));
    }
    plot::Panel { title: format!("{what}: µs over {size} (least of {REPEATS})"), lines }
}
