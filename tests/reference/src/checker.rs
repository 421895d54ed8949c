//! The checker of marks (Figure 4): refusals 9, 10 and 11.

use crate::script::*;

/// The type of each node of an accepted script.
pub fn check(script: &Script) -> Result<Vec<u16>, Reply> {
    let parents = script.parents();
    let mut types: Vec<u16> = Vec::with_capacity(script.nodes.len());
    // Children lie below their parents, so the first node whose rule fails
    // has typed children and is the lowest of 9 and 10.
    for (number, node) in script.nodes.iter().enumerate() {
        match type_of(script, &parents, &types, number) {
            Some(found) => types.push(found),
            None if node.kind == FUNCTION => return Err(Reply::new(10, number)),
            None => return Err(Reply::new(9, number)),
        }
    }
    if types[script.root()] != D {
        return Err(Reply::new(11, script.root()));
    }
    Ok(types)
}

/// The pair of a function type; S and D are none.
fn function_type(script: &Script, number: u16) -> Option<(u16, u16)> {
    if number < FIRST_LISTED {
        return None;
    }
    Some(script.types[(number - FIRST_LISTED) as usize])
}

/// The type of one node, given those of its children in `types`.
fn type_of(
    script: &Script,
    parents: &[Option<usize>],
    types: &[u16],
    number: usize,
) -> Option<u16> {
    let node = &script.nodes[number];
    let [a, b, c] = node.fields;
    let child = |field: u16| types[field as usize];
    let when = |holds: bool, result: u16| if holds { Some(result) } else { None };
    match node.kind {
        CONSTANT => Some(S),
        VARIABLE if (a as usize) < script.inputs.len() => Some(script.inputs[a as usize]),
        VARIABLE => {
            let binder = &script.nodes[script.binder(parents, number, a)?];
            Some(if binder.kind == FUNCTION { binder.fields[1] } else { D })
        }
        LIFT => when(child(a) == S, D),
        FUNCTION => {
            let pair = (b, child(c));
            let listed = script.types.iter().position(|&other| other == pair)?;
            Some(FIRST_LISTED + listed as u16)
        }
        APPLICATION => {
            let (parameter, result) = function_type(script, child(a))?;
            when(child(b) == parameter, result)
        }
        FIX => {
            let (parameter, result) = function_type(script, child(a))?;
            when(parameter == result && function_type(script, result).is_some(), result)
        }
        IF => when(child(a) == S && child(b) == child(c), child(b)),
        OPERATION => when(child(a) == S && child(b) == S, S),
        // The late kinds: all children are D.
        _ => when(node.children().iter().all(|&below| types[below] == D), D),
    }
}
