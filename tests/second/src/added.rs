//! Request 6 in bytes: how many nodes each gate adds, worked out by hand from the steps.

use crate::judge::write;
use crate::tree::*;
use crate::twins::tree_bytes;

/// Gates in hexadecimal behind so many events of chance 0, and the nodes that each gate adds.
pub struct Case {
    pub what: &'static str,
    pub events: usize,
    pub gates: &'static str,
    pub added: &'static [u32],
}

impl Case {
    pub fn bytes(&self) -> Vec<u8> {
        tree_bytes(self.events, self.gates)
    }
}

const fn case(what: &'static str, events: usize, gates: &'static str, added: &'static [u32]) -> Case {
    Case { what, events, gates, added }
}

#[rustfmt::skip]
pub const CASES: &[Case] = &[
    case("case 1, gate by gate", 3, "0202 0500 0501 0202 0501 0502 0302 060000 060100 07", &[3, 2, 1]),
    case("case 4, gate by gate", 3, "0302 0500 0502 0302 0501 0502 0202 060000 060100 07", &[3, 2, 1]),
    // The root is event 0 itself.
    case("case 5, gate by gate", 2, "0202 0500 0501 0302 0500 060000 07", &[3, 0]),
    case("case 6, its gate", 3, "040203 0500 0501 0502 07", &[7]),
    case("one gate of one event", 1, "0201 0500 07", &[1]),
    case("gates of one input", 1, "0201 0500 0301 060000 040101 060100 07", &[1, 0, 0]),
    // Event 2, and two nodes of the and.
    case("an event that the root brings", 3, "0302 0500 0501 0202 060000 0502 07", &[3, 3]),
    // The first gate uses the last event, and the first event comes with the root.
    case("events from the last to the first", 3, "0301 0502 0301 0501 0203 0500 060000 060100 07", &[1, 1, 4]),
    case("a gate between that adds nothing", 3, "0202 0500 0501 0302 060000 060000 0302 060100 0502 07", &[3, 0, 3]),
    // b and c is a part of a and b and c; the or of the two is b and c.
    case("what an earlier gate left", 3, "0203 0500 0501 0502 0202 0501 0502 0302 060000 060100 07", &[6, 0, 0]),
    // The and of a and b stays, though no gate is it: each step counts.
    case("a step that no gate keeps", 3, "0203 0500 0501 0502 0202 0500 0501 0302 060000 060100 07", &[6, 0, 0]),
    // a and b as an at-least of distinct inputs; then c and the or with it.
    case("a gate with twins", 3, "040203 0500 0500 0501 0302 060000 0502 07", &[3, 3]),
    case("the same gate again", 2, "0202 0500 0501 0202 0500 0501 0202 060000 060100 07", &[3, 0, 0]),
];

/// The gate that fills a table: the first with which the gates need more than its capacity.
pub fn filled(added: &[u32], capacity: usize) -> Option<usize> {
    let needed = |gate: usize| added[..=gate].iter().map(|&nodes| nodes as usize).sum::<usize>();
    (0..added.len()).find(|&gate| needed(gate) > capacity)
}

/// As many gates as there may be: event 0 handed on from gate to gate, and event 1 with the root.
pub fn handed_on() -> (Vec<u8>, Vec<u32>) {
    let mut tree = Tree::of_chances(&[0, 0]);
    let mut last = or(&mut tree, &[Input::Event(0)]);
    for _ in 2..MOST_GATES {
        last = or(&mut tree, &[last]);
    }
    and(&mut tree, &[last, Input::Event(1)]);
    let mut added = vec![0; MOST_GATES];
    (added[0], added[MOST_GATES - 1]) = (1, 2);
    (write(&tree).expect("512 gates are accepted"), added)
}
