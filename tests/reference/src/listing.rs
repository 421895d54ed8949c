//! The listing of a script past refusals 1 to 8: no marks, no lifts.

use crate::script::*;

pub const MAX_LISTING: usize = 65_536;

pub fn listing(script: &Script) -> String {
    let mut text = String::new();
    list(script, script.root(), &mut text);
    text.push('\n');
    text
}

/// The listing written into an output with `room` bytes.
pub fn listing_lent(script: &Script, room: usize) -> Result<String, Reply> {
    let text = listing(script);
    if room < text.len() {
        return Err(Reply::new(21, 0));
    }
    Ok(text)
}

fn list(script: &Script, number: usize, text: &mut String) {
    let node = &script.nodes[number];
    let a = node.fields[0];
    let word = match node.kind {
        CONSTANT => return text.push_str(&node.value.to_string()),
        VARIABLE => {
            let letter = if (a as usize) < script.inputs.len() { 'i' } else { 'v' };
            return text.push_str(&format!("{letter}{a}"));
        }
        LIFT => return list(script, a as usize, text),
        FUNCTION | LATE_FUNCTION => format!("lam v{a}"),
        APPLICATION | LATE_APPLICATION => "app".to_string(),
        FIX | LATE_FIX => "fix".to_string(),
        IF | LATE_IF => "if".to_string(),
        _ => OPERATORS[node.fields[2] as usize].to_string(),
    };
    text.push('(');
    text.push_str(&word);
    for child in node.children() {
        text.push(' ');
        list(script, child, text);
    }
    text.push(')');
}
