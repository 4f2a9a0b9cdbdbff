//! Request 6: the nodes that each gate adds, and the gate that fills the table, by the definition on truth tables and by the diagram.

use second::added::{filled, handed_on, CASES};
use second::analysis::{analyse, Lengths};
use second::brute::functions;
use second::generator::{small_shape, tree};
use second::judge::{read, write, Refusal};
use second::program::program;
use second::random::Random;
use second::tree::*;
use Input::Event;

/// What is written out is what the definition gives: nodes needed by the gates up to each, less those before it.
#[test]
fn the_cases() {
    for case in CASES {
        let needed = functions(&read(&case.bytes()).unwrap()).nodes_needed;
        let up_to = |gate: usize| case.added[..=gate].iter().sum::<u32>() as usize;
        assert_eq!(needed, (0..case.added.len()).map(up_to).collect::<Vec<_>>(), "{}", case.what);
    }
    let (bytes, added) = handed_on();
    assert_eq!(analyse(&bytes, Lengths::AMPLE).unwrap_or_else(|_| panic!("it is accepted")).added(), added);
}

/// At every capacity: 10 at the first gate with which more nodes are needed, or done with a sum that is the nodes needed.
#[test]
fn every_capacity_of_seeded_trees() {
    for seed in 0..2_000 {
        let random = &mut Random::new(seed);
        let shape = small_shape(random);
        let tree = tree(random, shape);
        let bytes = write(&tree).unwrap();
        let needed = functions(&tree).nodes_needed;
        for capacity in 0..=needed[needed.len() - 1] {
            let done = analyse(&bytes, Lengths::of_capacities(capacity, 10_000));
            match needed.iter().position(|&nodes| nodes > capacity) {
                Some(gate) => assert_eq!(done.err(), Some(Refusal { number: 10, place: gate as u64 }), "seed {seed}"),
                None => {
                    let added = done.unwrap_or_else(|_| panic!("it has room")).added();
                    let sums = added.iter().scan(0, |sum, &nodes| {
                        *sum += nodes as usize;
                        Some(*sum)
                    });
                    assert_eq!(sums.collect::<Vec<_>>(), needed, "seed {seed}");
                }
            }
        }
    }
}

/// A gate's number has nothing to do with where its record stands, and 11 has no place.
#[test]
fn places() {
    let (bytes, added) = handed_on();
    let refusal = |nodes, cuts| analyse(&bytes, Lengths::of_capacities(nodes, cuts)).err();
    assert_eq!(refusal(0, 2), Some(Refusal { number: 10, place: 0 }));
    assert_eq!(refusal(1, 2), Some(Refusal { number: 10, place: 511 }));
    assert_eq!(refusal(2, 0), Some(Refusal { number: 10, place: 511 }));
    assert_eq!(refusal(3, 1), Some(Refusal { number: 11, place: 0 }));
    assert_eq!(refusal(3, 2), None);
    assert_eq!((filled(&added, 2), filled(&added, 3)), (Some(511), None));
}

/// One gate that needs more than the program lends is told as gate 0.
#[test]
fn the_first_gate_fills_the_programs_table() {
    let mut tree = Tree::of_chances(&[1; 64]);
    let backwards: Vec<Input> = (0..64).rev().map(Event).collect();
    at_least(&mut tree, 32, &backwards);
    let mut text = Vec::new();
    program(&write(&tree).unwrap(), &mut text).unwrap();
    assert_eq!(text, b"refused 10 at 0\n");
}
