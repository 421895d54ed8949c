//! The same as entries.c, by the wrapper.

use scriptmaker::{bands, Counts, Made, Outcome, Ran, Refusal, Script, Stores, MAX_FILE, MAX_FUEL};
use std::fmt::Display;

fn print<T: PartialEq + Display>(name: &str, places: &[T]) {
    let mut line = name.to_string();
    for run in places.chunk_by(|x, y| x == y) {
        line += &format!(" {}", run[0]);
        if run.len() > 1 {
            line += &format!("*{}", run.len());
        }
    }
    println!("{line}");
}

fn fill(script: &mut Script) {
    script.parameters.fill(100);
    script.results.fill(101);
    script.inputs.fill(102);
    script.kinds.fill(103);
    script.a.fill(104);
    script.b.fill(105);
    script.c.fill(106);
    script.values.fill(107);
}

/// Number and place of a reply.
fn told<T>(reply: &Result<T, Refusal>) -> String {
    let (number, place) = reply.as_ref().err().map_or((0, 0), |f| (f.number, f.place));
    format!("number {number} place {place}")
}

fn read(script: &mut Script, file: &[u8]) {
    fill(script);
    let reply = script.read(file);
    let Counts { types, inputs, nodes } = script.counts;
    println!("read: {} types {types} inputs {inputs} nodes {nodes}", told(&reply));
    print("parameters", &script.parameters);
    print("results", &script.results);
    print("inputs", &script.inputs);
    print("kinds", &script.kinds);
    print("a", &script.a);
    print("b", &script.b);
    print("c", &script.c);
    print("values", &script.values);
}

fn wrote(entry: &str, room: usize, call: impl Fn(&mut [u8]) -> Result<usize, Refusal>) {
    let mut out = vec![238; room];
    let reply = call(&mut out);
    println!("{entry}: {} length {}", told(&reply), reply.unwrap_or(0));
    print("out", &out);
}

fn made(
    entry: &str,
    stores: &mut Stores,
    room: usize,
    call: impl Fn(&mut Stores, &mut [u8]) -> Result<Made, Refusal>,
) {
    let mut out = vec![238; room];
    stores.heap.fill(600);
    stores.codes.fill(700);
    let reply = call(stores, &mut out);
    let (steps, nodes) = reply.map_or_else(|f| (f.steps, 0), |made| (made.steps, made.nodes));
    println!("{entry}: {} steps {steps} nodes {nodes}", told(&reply));
    print("heap", &stores.heap);
    print("codes", &stores.codes);
    print("out", &out);
}

fn ran(heap: &mut [u64], call: impl Fn(&mut [u64]) -> Result<Ran, Refusal>) {
    heap.fill(600);
    let reply = call(heap);
    let (steps, function, value) = match reply {
        Ok(Ran { outcome: Outcome::Number(value), steps }) => (steps, 0, value),
        Ok(Ran { outcome: Outcome::Function, steps }) => (steps, 1, 0),
        Err(f) => (f.steps, 0, 0),
    };
    println!("run: {} steps {steps} function {function} value {value}", told(&reply));
    print("heap", heap);
}

/// The numbers of a word.
fn column(word: &str) -> Vec<i32> {
    word.split_terminator(',').map(|part| part.parse().expect("a number")).collect()
}

fn main() {
    let words: Vec<String> = std::env::args().skip(1).collect();
    let number = |word: &String| word.parse::<i64>().expect("a number");
    if let [name, count, room, low, high, grade] = &words[..] {
        if name == "bands" {
            let (count, [low, high, grade]) = (number(count) as u16, [low, high, grade].map(|word| column(word)));
            return wrote("bands", number(room) as usize, |out| bands(count, &low, &high, &grade, out));
        }
    }
    let file = std::fs::read(&words[0]).expect("a file");
    let fuel = number(&words[1]) as u32;
    let [heap, codes, room] = [2, 3, 4].map(|k: usize| number(&words[k]) as usize);
    let numbers: Vec<i32> = words[5..].iter().map(|word| number(word) as i32).collect();

    let mut few = Script {
        counts: Counts::default(),
        parameters: vec![0; 5],
        results: vec![0; 6],
        inputs: vec![0; 7],
        kinds: vec![0; 40],
        a: vec![0; 41],
        b: vec![0; 42],
        c: vec![0; 43],
        values: vec![0; 44],
    };
    let mut stores = Stores { heap: vec![0; heap], codes: vec![0; codes] };
    read(&mut few, &file);
    wrote("write", room, |out| few.write(out));
    wrote("list", room, |out| few.list(out));
    println!("check: {}", told(&few.check()));
    made("make", &mut stores, room, |stores, out| few.make(&numbers, fuel, stores, out));
    made("bare_run", &mut stores, room, |stores, out| few.bare_run(&numbers, fuel, stores, out));
    ran(&mut stores.heap, |heap| few.run(&numbers, fuel, heap));

    let mut any = Script::new();
    let mut stores = Stores::new(MAX_FUEL);
    read(&mut any, &file);
    made("make", &mut stores, MAX_FILE, |stores, out| any.make(&numbers, MAX_FUEL, stores, out));
    ran(&mut stores.heap, |heap| any.run(&numbers, MAX_FUEL, heap));
}
