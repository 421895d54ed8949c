//! Any marks and any lifts for a script, of which a plain run takes no notice.

use super::shifted;
use crate::random::Random;
use crate::script::*;

/// Makes some early kinds late and some late kinds early.
pub fn any_marks(script: &mut Script, random: &mut Random) {
    let types = 2 + script.types.len();
    // At times all of them alike.
    let late = random.pick(&[0, 50, 50, 50, 100]);
    for node in &mut script.nodes {
        let early = match node.kind {
            FUNCTION..=OPERATION => node.kind,
            LATE_FUNCTION..=LATE_OPERATION => node.kind - LATE_FUNCTION + FUNCTION,
            _ => continue,
        };
        node.kind = early;
        if early == FUNCTION {
            node.fields[1] = random.below(types) as u16;
        }
        if random.chance(late) {
            node.kind = early - FUNCTION + LATE_FUNCTION;
            if early == FUNCTION {
                node.fields[1] = 0;
            }
        }
    }
}

/// Puts lifts over some nodes, at times several over one, if the script stays within its limits.
pub fn any_lifts(script: &mut Script, random: &mut Random) {
    let often = random.pick(&[0, 5, 20, 60]);
    let mut number: Vec<usize> = vec![];
    let mut nodes: Vec<Node> = vec![];
    for old in 0..script.nodes.len() {
        nodes.push(shifted(script, old, |child| number[child]));
        let lifts = if random.chance(often) { random.pick(&[1, 1, 1, 2, 3]) } else { 0 };
        for _ in 0..lifts {
            nodes.push(Node { kind: LIFT, fields: [nodes.len() as u16 - 1, 0, 0], value: 0 });
        }
        number.push(nodes.len() - 1);
    }
    if nodes.len() <= MAX_NODES && height(&nodes) <= MAX_HEIGHT {
        script.nodes = nodes;
    }
}

fn height(nodes: &[Node]) -> usize {
    let mut heights: Vec<usize> = vec![];
    for node in nodes {
        let below = node.children().iter().map(|&child| heights[child]).max();
        heights.push(1 + below.unwrap_or(0));
    }
    heights.last().copied().unwrap_or(0)
}
