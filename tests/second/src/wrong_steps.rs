//! Wrong programs that read or build another tree of the same functions.

use crate::judge::{read, write};
use crate::tree::*;
use crate::wrong::Wrong::{self, *};

pub fn sort_inputs(tree: &mut Tree) {
    let mut start = 0;
    for gate in &tree.gates {
        let end = start + gate.n as usize;
        tree.inputs[start..end].sort();
        start = end;
    }
}

/// The same functions by other steps.
pub fn other_steps(wrong: Wrong, bytes: &[u8]) -> Option<Vec<u8>> {
    let mut tree = read(bytes).ok()?;
    match wrong {
        OrForAtLeastOne => {
            for gate in tree.gates.iter_mut().filter(|gate| gate.kind == AT_LEAST) {
                if gate.k == 1 {
                    gate.kind = OR;
                } else if gate.k == gate.n {
                    gate.kind = AND;
                }
            }
        }
        JoinsFromTheRight => {
            let mut start = 0;
            for gate in &tree.gates {
                let end = start + gate.n as usize;
                tree.inputs[start..end].reverse();
                start = end;
            }
        }
        _ => return None,
    }
    write(&tree).ok()
}
