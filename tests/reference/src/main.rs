//! The commands of the second implementation: its answers, and a corpus to
//! compare the two.

use std::fs;
use std::io::{self, Read, Write};
use std::path::{Path, PathBuf};
use std::process::ExitCode;

use reference::decimal_trials::{self, Printed};
use reference::script::Reply;
use reference::{assemble, band_calls, band_differ, benchmake, benchrun, checker, differ, entries};
use reference::{generate, makes, runs, script, self_check};

const USAGE: &str = "commands:
  self-check
  benchmake                      (standard input: a benchmake input)
  benchrun                       (standard input: a benchrun input)
  assemble                       (standard input: a script as text)
  corpus DIR SEED COUNT
  expect DIR [FUEL]
  bare DIR [FUEL]
  read DIR
  check DIR
  pack FILE SEED COUNT
  pack-scripts FILE SEED COUNT
  pack-damaged FILE SEED COUNT
  pack-whole FILE SEED COUNT MOST
  pack-long FILE COUNT
  pack-makes FILE SEED COUNT
  pack-runs FILE SEED COUNT
  pack-readings FILE SEED COUNT
  pack-bands FILE SEED COUNT
  packed read|check|benchmake|make|run|benchrun|bands FILE
  entries FILE FUEL HEAP CODES OUT [NUMBER..]
  entries bands COUNT OUT LOWS HIGHS GRADES
  differ benchmake|benchrun|bands PROGRAM SEED COUNT [FILE]
";

fn main() -> ExitCode {
    let arguments: Vec<String> = std::env::args().skip(1).collect();
    let words: Vec<&str> = arguments.iter().map(String::as_str).collect();
    match run(&words) {
        Ok(true) => ExitCode::SUCCESS,
        Ok(false) => ExitCode::FAILURE,
        Err(problem) => {
            eprintln!("{problem}");
            ExitCode::from(2)
        }
    }
}

/// Runs a command and tells whether all it looked at was well.
fn run(words: &[&str]) -> Result<bool, String> {
    match *words {
        ["self-check"] => Ok(self_check::self_check()),
        ["benchmake"] => print(benchmake::benchmake(&standard_input()?).as_bytes()),
        ["benchrun"] => print(benchrun::benchrun(&standard_input()?).as_bytes()),
        ["assemble"] => {
            let text = String::from_utf8(standard_input()?).map_err(|e| e.to_string())?;
            print(&script::encode(&assemble::assemble(&text)?))
        }
        ["corpus", dir, seed, count] => corpus(dir, number(seed)?, number(count)?),
        ["expect", dir] => expect(dir, benchmake::FUEL),
        ["expect", dir, fuel] => expect(dir, number(fuel)? as usize),
        ["bare", dir] => bare(dir, benchmake::FUEL),
        ["bare", dir, fuel] => bare(dir, number(fuel)? as usize),
        ["read", dir] => tell(dir, |input| place(script::read(benchmake::split(input).0))),
        ["check", dir] => tell(dir, |input| place(benchmake::accept(input))),
        ["packed", what, file] => packed(what, file),
        ["pack-long", file, count] => {
            let bytes = script::encode(&generate::long_to_check());
            pack(file, number(count)?, |_| bytes.clone())
        }
        ["pack-whole", file, seed, count, most] => {
            pack_whole(file, number(seed)?, number(count)?, number(most)? as usize)
        }
        ["entries", "bands", count, out, lows, highs, grades] => {
            call_bands(count, out, [lows, highs, grades])
        }
        ["entries", file, fuel, heap, codes, out, ref numbers @ ..] => {
            let lengths = [number(heap)?, number(codes)?, number(out)?].map(|n| n as usize);
            call_entries(file, number(fuel)? as u32, lengths, numbers)
        }
        ["differ", name, path, seed, count, ref file @ ..] if file.len() < 2 => {
            let keep = file.first().map(Path::new);
            differ_from(name, path, number(seed)?, number(count)?, keep)
        }
        [what, file, seed, count] => pack_seeded(what, file, number(seed)?, number(count)?),
        _ => Err(USAGE.to_string()),
    }
}

/// Writes what a seed gives into one file.
fn pack_seeded(what: &str, file: &str, seed: u64, count: u64) -> Result<bool, String> {
    match what {
        "pack" => pack_with(file, count, |k| generate::input(seed, k), decimal_trials::inputs()),
        "pack-readings" => {
            pack_with(file, count, |k| generate::reading(seed, k), decimal_trials::readings())
        }
        "pack-scripts" => pack(file, count, |k| {
            let input = generate::input(seed, k);
            // Every fourth keeps the settings behind the script, which makes the length wrong.
            let whole = k % 4 == 0;
            if whole {
                input
            } else {
                benchmake::split(&input).0.to_vec()
            }
        }),
        "pack-damaged" => {
            let scripts = (0..).map(|k| benchmake::split(&generate::input(seed, k)).0.to_vec());
            pack_first(file, count, scripts.filter(|bytes| script::read(bytes).is_err()))
        }
        "pack-makes" => pack_all(file, &makes::calls(seed, count as usize)),
        "pack-runs" => pack_all(file, &runs::calls(seed, count as usize)),
        "pack-bands" => pack_all(file, &band_calls::calls(seed, count as usize)),
        _ => Err(USAGE.to_string()),
    }
}

/// Writes the first readable scripts of at most so many bytes.
fn pack_whole(file: &str, seed: u64, count: u64, most: usize) -> Result<bool, String> {
    let scripts = (0..).map(|k| benchmake::split(&generate::whole(seed, k)).0.to_vec());
    let small = scripts.filter(|bytes| bytes.len() <= most);
    pack_first(file, count, small.filter(|bytes| script::read(bytes).is_ok()))
}

/// Tells of each input of a packed file what a part gives.
fn packed(what: &str, file: &str) -> Result<bool, String> {
    match what {
        "read" => tell_packed(file, |input| place(script::read(input)) + "\n"),
        "check" => tell_packed(file, |input| {
            place(script::read(input).and_then(|script| checker::check(&script))) + "\n"
        }),
        "benchmake" => tell_packed(file, benchmake::benchmake),
        "make" => tell_packed(file, makes::told),
        "run" => tell_packed(file, runs::told),
        "benchrun" => tell_packed(file, benchrun::benchrun),
        "bands" => tell_packed(file, band_calls::told),
        _ => Err(USAGE.to_string()),
    }
}

/// Calls each entry on a script file, with stores and an output of these lengths.
fn call_entries(
    file: &str,
    fuel: u32,
    lengths: [usize; 3],
    words: &[&str],
) -> Result<bool, String> {
    let bytes = fs::read(file).map_err(|e| format!("{file}: {e}"))?;
    let numbers = signed_numbers(words.iter().copied())?;
    print(entries::entries(&bytes, fuel, lengths, &numbers).as_bytes())
}

/// Calls the entry for bands. A column is one word, with commas between its numbers.
fn call_bands(count: &str, out: &str, columns: [&str; 3]) -> Result<bool, String> {
    let count = count.parse().map_err(|_| format!("{count} is no count"))?;
    let column = |k: usize| match columns[k] {
        "" => Ok(vec![]),
        word => signed_numbers(word.split(',')),
    };
    let columns = [column(0)?, column(1)?, column(2)?];
    print(entries::bands(count, number(out)? as usize, columns).as_bytes())
}

fn signed_numbers<'w>(words: impl Iterator<Item = &'w str>) -> Result<Vec<i32>, String> {
    words.map(|word| word.parse().map_err(|_| format!("{word} is no number"))).collect()
}

/// Compares a built program with the own answers.
fn differ_from(
    name: &str,
    path: &str,
    seed: u64,
    count: u64,
    keep: Option<&Path>,
) -> Result<bool, String> {
    match name {
        "benchmake" => differ::differ(&differ::BENCHMAKE, path, seed, count, keep),
        "benchrun" => differ::differ(&differ::BENCHRUN, path, seed, count, keep),
        "bands" => band_differ::differ(path, seed, count, keep),
        _ => Err(USAGE.to_string()),
    }
}

fn number(word: &str) -> Result<u64, String> {
    word.parse().map_err(|_| format!("{word} is no number"))
}

fn standard_input() -> Result<Vec<u8>, String> {
    let mut bytes = Vec::new();
    io::stdin().read_to_end(&mut bytes).map_err(|e| e.to_string())?;
    Ok(bytes)
}

fn print(bytes: &[u8]) -> Result<bool, String> {
    io::stdout().write_all(bytes).map_err(|e| e.to_string())?;
    Ok(true)
}

/// Writes the first inputs of a seeded sequence.
fn corpus(dir: &str, seed: u64, count: u64) -> Result<bool, String> {
    fs::create_dir_all(dir).map_err(|e| format!("{dir}: {e}"))?;
    for index in 0..count {
        let path = Path::new(dir).join(format!("{index:04}.bin"));
        fs::write(&path, generate::input(seed, index))
            .map_err(|e| format!("{}: {e}", path.display()))?;
    }
    Ok(true)
}

/// Number, place and steps of the making of each file.
fn expect(dir: &str, fuel: usize) -> Result<bool, String> {
    tell(dir, |input| match benchmake::answer(input, fuel) {
        Ok(made) => format!("0 0 {}", made.steps),
        Err(Reply { number, place, steps }) => format!("{number} {place} {steps}"),
    })
}

/// The same for the bare run.
fn bare(dir: &str, fuel: usize) -> Result<bool, String> {
    tell(dir, |input| {
        let script = script::read(benchmake::split(input).0);
        match script.and_then(|script| benchmake::make(input, &script, fuel)) {
            Ok(made) => format!("0 0 {}", made.steps),
            Err(Reply { number, place, steps }) => format!("{number} {place} {steps}"),
        }
    })
}

fn place<T>(result: Result<T, Reply>) -> String {
    match result {
        Ok(_) => "0 0".to_string(),
        Err(Reply { number, place, .. }) => format!("{number} {place}"),
    }
}

/// Prints a line for each file of a corpus: its name, and what is told of it.
fn tell(dir: &str, about: impl Fn(&[u8]) -> String) -> Result<bool, String> {
    let entries = fs::read_dir(dir).map_err(|e| format!("{dir}: {e}"))?;
    let mut paths: Vec<PathBuf> = entries
        .filter_map(|entry| Some(entry.ok()?.path()))
        .filter(|path| path.extension().is_some_and(|ending| ending == "bin"))
        .collect();
    paths.sort();
    let mut lines = String::new();
    for path in paths {
        let input = fs::read(&path).map_err(|e| format!("{}: {e}", path.display()))?;
        let name = path.file_name().unwrap_or_default().to_string_lossy();
        lines.push_str(&format!("{name} {}\n", about(&input)));
    }
    print(lines.as_bytes())
}

/// Writes inputs into one file, each behind its length in four bytes.
fn pack(file: &str, count: u64, input: impl Fn(u64) -> Vec<u8>) -> Result<bool, String> {
    let mut bytes = Vec::new();
    for index in 0..count {
        let one = input(index);
        bytes.extend((one.len() as u32).to_le_bytes());
        bytes.extend(one);
    }
    fs::write(file, bytes).map_err(|e| format!("{file}: {e}"))?;
    Ok(true)
}

/// The same for all of some inputs.
fn pack_all(file: &str, inputs: &[Vec<u8>]) -> Result<bool, String> {
    pack(file, inputs.len() as u64, |k| inputs[k as usize].clone())
}

/// The same for seeded inputs, and those of the decimals behind them.
fn pack_with(
    file: &str,
    count: u64,
    input: impl Fn(u64) -> Vec<u8>,
    decimals: Vec<Printed>,
) -> Result<bool, String> {
    let fixed = decimals.into_iter().map(|printed| printed.input);
    let inputs: Vec<_> = (0..count).map(input).chain(fixed).collect();
    pack_all(file, &inputs)
}

/// The same for the first of some scripts.
fn pack_first(
    file: &str,
    count: u64,
    scripts: impl Iterator<Item = Vec<u8>>,
) -> Result<bool, String> {
    let first: Vec<_> = scripts.take(count as usize).collect();
    pack_all(file, &first)
}

/// Prints for each input of such a file its number and what is told of it.
fn tell_packed(file: &str, about: impl Fn(&[u8]) -> String) -> Result<bool, String> {
    let bytes = fs::read(file).map_err(|e| format!("{file}: {e}"))?;
    let mut lines = String::new();
    let mut rest = bytes.as_slice();
    let mut index = 0;
    while let Some((head, tail)) = rest.split_first_chunk::<4>() {
        let length = u32::from_le_bytes(*head) as usize;
        if tail.len() < length {
            return Err(format!("{file}: input {index} is cut short"));
        }
        lines.push_str(&format!("{index} {}", about(&tail[..length])));
        rest = &tail[length..];
        index += 1;
    }
    print(lines.as_bytes())
}
