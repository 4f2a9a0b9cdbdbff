//! Cuts and families straight from the definitions. For small trees only.

use crate::brute::{fixings, Function};
use crate::sets::Set;
use std::collections::{BTreeSet, HashSet};

/// Sets of events as numbers, bit i for event i.
pub type Family = BTreeSet<usize>;

/// The failing sets of which no other subset fails (document 000, definition 4).
pub fn minimal_cuts(f: &Function) -> Family {
    let failing: Vec<usize> = (0..f.len()).filter(|&set| f[set]).collect();
    let minimal = |set: usize| !failing.iter().any(|&other| other != set && other & set == other);
    failing.iter().copied().filter(|&set| minimal(set)).collect()
}

/// The sets that agree with `chosen` on the first m events, less those events.
fn agreeing(family: &Family, m: usize, chosen: usize) -> Family {
    let first = (1usize << m) - 1;
    family.iter().filter(|&&set| set & first == chosen).map(|&set| set & !first).collect()
}

/// Distinct families, other than none and the empty set alone, that arise so from the minimal cuts of
/// every non-constant function in the root's diagram.
pub fn cut_nodes_needed(root: &Function, events: usize) -> usize {
    let mut counted: HashSet<Family> = HashSet::new();
    for f in fixings(root, events) {
        let cuts = minimal_cuts(&f);
        for m in 0..=events {
            for chosen in 0..1usize << m {
                counted.insert(agreeing(&cuts, m, chosen));
            }
        }
    }
    counted.remove(&Family::new());
    counted.remove(&Family::from([0]));
    counted.len()
}

pub fn as_set(set: usize) -> Set {
    Set::from_number(0, set)
}

/// The family's sets in the listing's order.
pub fn in_order(family: &Family) -> Vec<Set> {
    let mut sets: Vec<Set> = family.iter().map(|&set| as_set(set)).collect();
    sets.sort_by(Set::order);
    sets
}

/// What a listing call answers, by its definition over the ordered sets.
pub struct Listed {
    pub number: u32,
    pub bytes: Vec<u8>,
    pub written: usize,
    pub last: Set,
    pub finished: bool,
}

pub fn list(sets: &[Set], after: Option<Set>, room: usize) -> Listed {
    let follows = |set: &&Set| after.is_none_or(|start| start.order(set).is_lt());
    let following: Vec<Set> = sets.iter().filter(follows).copied().collect();
    let bytes_of_first = |count: usize| -> Vec<u8> { following[..count].iter().flat_map(Set::cut_bytes).collect() };
    let written = (0..=following.len()).rev().find(|&count| bytes_of_first(count).len() <= room).unwrap_or(0);
    if written == 0 && !following.is_empty() {
        return Listed { number: 14, bytes: Vec::new(), written: 0, last: Set::EMPTY, finished: false };
    }
    let last = match written {
        0 => after.unwrap_or(Set::EMPTY),
        _ => following[written - 1],
    };
    Listed { number: 0, bytes: bytes_of_first(written), written, last, finished: written == following.len() }
}
