//! Trees in memory that may break any rule, also such as no bytes can hold, and the bytes of trees without any judgement.

use crate::generator::{in_either_form, longest_shape, sites, small_shape, tree, wide_tree};
use crate::judge::{event_bytes, event_input_bytes};
use crate::random::Random;
use crate::tree::*;

/// The records of a tree as bytes without any judgement; fields are cut to their bytes.
pub fn raw_bytes(tree: &Tree) -> Vec<u8> {
    let mut bytes = Vec::new();
    for (event, &chance) in tree.chances.iter().enumerate() {
        bytes.extend(event_bytes(chance, tree.sited.then_some(tree.site(event as u64))));
    }
    for (gate, inputs) in tree.gates.iter().zip(tree.inputs_by_gate()) {
        bytes.push(gate.kind as u8);
        if gate.kind == AT_LEAST {
            bytes.push(gate.k as u8);
        }
        bytes.push(gate.n as u8);
        for input in inputs {
            match input {
                Input::Event(event) => bytes.extend(event_input_bytes(event)),
                Input::Gate(gate) => {
                    bytes.push(6);
                    bytes.extend((gate as u16).to_le_bytes());
                }
            }
        }
    }
    bytes.push(7);
    bytes
}

/// A tree in memory without a plan: small numbers that often mean something.
fn tree_without_plan(random: &mut Random) -> Tree {
    let (events, gates) = (random.between(1, 4), random.between(1, 4));
    let chances = (0..events).map(|_| random.of(&[0, 1, D, D + 1])).collect();
    let gate = |random: &mut Random| Gate {
        kind: random.between(1, 5) as u32,
        k: random.below(4) as u32,
        n: random.below(4) as u32,
    };
    let all: Vec<Gate> = (0..gates).map(|_| gate(random)).collect();
    let input = |random: &mut Random| match random.once_in(3) {
        true => FIRST_GATE_INPUT + random.below(gates) as u32,
        false => random.below(events + 1) as u32,
    };
    let inputs = (0..random.below(16)).map(|_| input(random)).collect();
    let count = |random: &mut Random, held: usize| if random.once_in(6) { random.below(6) as u64 } else { held as u64 };
    let (event_count, gate_count) = (count(random, events), count(random, gates));
    let (sites, sited) = (sites(random, events), random.once_in(2));
    Tree { event_count, gate_count, chances, sites, sited, gates: all, inputs }
}

/// A tree in memory that may break any rule, also such as no bytes can; its numbers are as wide as the records'.
pub fn tree_in_memory(random: &mut Random) -> Tree {
    if random.once_in(4) {
        return tree_without_plan(random);
    }
    let mut tree = match random.below(30) {
        0 => tree(random, longest_shape()),
        1 => wide_tree(random),
        _ => {
            let shape = small_shape(random);
            tree(random, shape)
        }
    };
    tree = in_either_form(random, tree);
    if random.once_in(6) {
        // Sites that the form's records have no bytes for.
        let sites = sites(random, tree.chances.len());
        tree = Tree { sited: false, ..tree.with_sites(&sites) };
    }
    if random.once_in(4) {
        return tree;
    }
    let event = random.below(tree.chances.len());
    let gate = random.below(tree.gates.len());
    let input = random.below(tree.inputs.len());
    let large = random.next() as u32;
    match random.below(17) {
        0 => tree.event_count += random.of(&[1, 2, 1_100, 1 << 32, u64::MAX >> 1]),
        1 => tree.gate_count += random.of(&[1, 2, 600, 1 << 32, u64::MAX >> 1]),
        2 => tree.event_count = random.below(tree.chances.len() + 1) as u64,
        3 => tree.gate_count = random.below(tree.gates.len() + 1) as u64,
        4 => tree.chances[event] = random.of(&[D + 1, u32::MAX, large]),
        5 => tree.gates[gate].kind = random.of(&[0, 1, 5, 6, 7, 255, large % 256]),
        6 => tree.gates[gate].n = random.of(&[0, 1, 2, 64, 65, 128, 255, large % 256]),
        7 => {
            let k = random.of(&[0, 1, 64, 65, 128, 255, large % 256]);
            tree.gates[gate].k = k;
            tree.gates[gate].kind = random.of(&[AND, OR, AT_LEAST]);
        }
        // At least some of its inputs, which are made twins; one of them is out of range as often as not.
        12..=14 => {
            let start: u32 = tree.gates[..gate].iter().map(|gate| gate.n).sum();
            let Gate { kind, k, n } = &mut tree.gates[gate];
            (*kind, *k) = (AT_LEAST, random.below(*n as usize + 2) as u32);
            let own = &mut tree.inputs[start as usize..(start + *n) as usize];
            for input in 0..own.len() {
                own[input] = own[random.below(own.len())];
            }
            if random.once_in(2) {
                own[random.below(own.len())] = random.of(&[255, 256, FIRST_GATE_INPUT + gate as u32, 0xFFFF]);
            }
        }
        8 => {
            let own = FIRST_GATE_INPUT + gate as u32;
            tree.inputs[input] = random.of(&[0, 255, 256, 1_023, 1_024, own, 1_535, 1_536, 0xFFFF, large % 65_536]);
        }
        9 => tree.inputs[input] = random.below(1_600) as u32,
        10 => tree.chances.truncate(event),
        15 => tree.sites.truncate(event),
        // Behind the events, where it counts for nothing.
        16 => tree.sites.push(1),
        _ => tree.inputs.truncate(input),
    }
    tree
}
