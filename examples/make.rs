//! Makes a script for one model's settings: make SCRIPT MADE [SETTING..]. It prints the reply, in
//! words too where a result leaves the range, and the listing of the code, and writes the made file.
//! Exit status: 0 with code, 1 without, 2 where a word or a file is at fault.

use scriptmaker::{number, Refusal, Script, Stores, MAX_FILE, MAX_LISTING};
use std::ffi::{OsStr, OsString};
use std::fmt::Display;
use std::io::Write;
use std::path::Path;
use std::process::ExitCode;

const FUEL: u32 = 4000;

fn main() -> ExitCode {
    let words: Vec<OsString> = std::env::args_os().skip(1).collect();
    let mut said = String::new();
    let status = run(&words, &mut said).unwrap_or_else(complain);
    let mut out = std::io::stdout();
    let printed = out.write_all(said.as_bytes()).and_then(|()| out.flush());
    ExitCode::from(printed.map_or_else(|error| complain(format!("standard output: {error}")), |()| status))
}

fn complain(message: String) -> u8 {
    _ = writeln!(std::io::stderr(), "{message}");
    2
}

fn about(name: &OsStr, what: impl Display) -> String {
    format!("{}: {what}", Path::new(name).display())
}

/// A word as a setting.
fn setting(word: &OsString) -> Result<i32, String> {
    let number = word.to_str().and_then(|word| word.parse().ok());
    number.ok_or_else(|| about(word, "not a whole number of 32 bits"))
}

/// The exit status, or what to complain of.
fn run(words: &[OsString], said: &mut String) -> Result<u8, String> {
    let [script, made, settings @ ..] = words else {
        return Err("make SCRIPT MADE [SETTING..]".to_string());
    };
    let settings = settings.iter().map(setting).collect::<Result<Vec<i32>, String>>()?;
    let file = std::fs::read(script).map_err(|error| about(script, error))?;
    let Some(bytes) = make(&file, &settings, said) else {
        return Ok(1);
    };
    std::fs::write(made, &bytes).map_err(|error| about(made, error))?;
    *said += &format!("wrote {} bytes\n", bytes.len());
    let mut code = Script::new();
    code.read(&bytes).expect("a good file");
    let mut text = vec![0; MAX_LISTING];
    let length = code.list(&mut text).expect("room for any listing");
    *said += &String::from_utf8_lossy(&text[..length]);
    Ok(0)
}

/// The made file, if there is code.
fn make(file: &[u8], settings: &[i32], said: &mut String) -> Option<Vec<u8>> {
    let refused = |f: Refusal| format!("refused {} {}\n", f.number, f.place);
    let mut script = Script::new();
    script.read(file).map_err(|f| *said += &refused(f)).ok()?;
    let n = script.counts;
    *said += &format!("read: types {} inputs {} nodes {}\n", n.types, n.inputs, n.nodes);

    script.check().map_err(|f| *said += &refused(f)).ok()?;
    *said += "accepted\n";

    let mut out = vec![0; MAX_FILE];
    let reply = script.make(settings, FUEL, &mut Stores::new(FUEL), &mut out);
    let (number, place, steps, nodes) = match reply {
        Ok(made) => (0, 0, made.steps, made.nodes),
        Err(f) => (f.number, f.place, f.steps, 0),
    };
    *said += &format!("made: number {number} place {place} steps {steps} nodes {nodes}\n");
    match number {
        number::ABOVE_RANGE => *said += &format!("the result of node {place} is above 2147483647\n"),
        number::BELOW_RANGE => *said += &format!("the result of node {place} is below -2147483648\n"),
        _ => (),
    }
    out.truncate(reply.ok()?.length);
    Some(out)
}
