//! Reading and writing: damage with a known number and place, trees in memory, and the limits.

use second::damage::{damaged, NUMBERS};
use second::generator::{self, in_either_form, large_shape, middle_shape, small_shape, tree, wide_tree, Shape};
use second::judge::{read, refuse, write, write_into, Refusal};
use second::program::MOST_READ;
use second::random::Random;
use second::tree::*;
use second::unlawful::{raw_bytes, tree_in_memory};
use std::collections::BTreeSet;

#[test]
fn damage_is_named_and_placed() {
    for number in NUMBERS {
        let mut places = BTreeSet::new();
        for seed in 0..1_500 {
            let damaged = damaged(&mut Random::new(seed * 22 + number as u64), number);
            assert_eq!(damaged.expected.number, number);
            assert_eq!(read(&damaged.bytes).err(), Some(damaged.expected), "number {number}, seed {seed}");
            places.insert(damaged.expected.place);
        }
        assert!(places.len() > 50, "number {number} at {} places", places.len());
    }
}

fn generated(random: &mut Random, shape: fn(&mut Random) -> Shape) -> Tree {
    let shape = shape(random);
    tree(random, shape)
}

#[test]
fn generated_trees_are_accepted() {
    for seed in 0..3_000 {
        let random = &mut Random::new(seed);
        let tree = match seed % 4 {
            0 => generated(random, small_shape),
            1 => generated(random, middle_shape),
            2 => generated(random, large_shape),
            _ => wide_tree(random),
        };
        let tree = in_either_form(random, tree);
        let bytes = write(&tree).unwrap_or_else(|refusal| panic!("seed {seed}: {refusal:?}"));
        assert!(bytes.len() <= LONGEST_TREE);
        assert_eq!(read(&bytes).as_ref(), Ok(&tree));
        assert_eq!(raw_bytes(&tree), bytes);
    }
}

#[test]
fn random_bytes_are_answered() {
    let mut numbers = [0; 23];
    for seed in 0..50_000 {
        let bytes = generator::bytes(&mut Random::new(seed));
        match read(&bytes) {
            Ok(tree) => {
                numbers[0] += 1;
                assert_eq!(write(&tree), Ok(bytes));
            }
            Err(Refusal { number, place }) => {
                numbers[number as usize] += 1;
                assert!(place <= bytes.len() as u64);
            }
        }
    }
    assert!(numbers[1] > 0 && numbers[2] > 0 && numbers[3] > 0 && numbers[4] > 0);
}

/// A tree in memory whose fields all fit their bytes is refused as its bytes are, then with 22 where the old form has no bytes for a site.
#[test]
fn writing_refuses_as_reading_does() {
    let mut seen = BTreeSet::new();
    for seed in 0..20_000 {
        let tree = tree_in_memory(&mut Random::new(seed));
        let written = write(&tree);
        seen.insert(written.as_ref().err().map_or(0, |refusal| refusal.number));
        let fits = tree.event_count == tree.chances.len() as u64
            && tree.gate_count == tree.gates.len() as u64
            && tree.gates.iter().all(|gate| (2..=4).contains(&gate.kind) && gate.k < 256 && gate.n < 256)
            && tree.inputs.iter().all(|&input| input < FIRST_GATE_INPUT + 65_536);
        if fits {
            match read(&raw_bytes(&tree)) {
                Ok(_) => {
                    let lost = (0..tree.event_count).find(|&event| !tree.sited && tree.site(event) != 0);
                    let due = lost.map_or(Ok(raw_bytes(&tree)), |event| refuse(22, 5 * event));
                    assert_eq!(written, due, "seed {seed}");
                }
                Err(refusal) => assert_eq!(written, Err(refusal), "seed {seed}"),
            }
        }
    }
    assert_eq!(seen.into_iter().collect::<Vec<_>>(), [0, 2, 4, 5, 6, 7, 8, 22]);
}

#[test]
fn counts_beyond_the_arrays() {
    let mut tree = Tree::of_chances(&[7; 1_024]);
    or(&mut tree, &[Input::Event(0)]);
    tree.event_count = u64::MAX;
    assert_eq!(write(&tree), refuse(4, 5_120));
    tree.chances[200] = D + 1;
    assert_eq!(write(&tree), refuse(7, 1_000));
    let mut tree = Tree::of_chances(&[7]);
    for _ in 0..512 {
        or(&mut tree, &[Input::Event(0)]);
    }
    assert_eq!(write(&tree), refuse(8, 5));
    tree.gate_count = u64::MAX;
    assert_eq!(write(&tree), refuse(4, 5 + 4 * 512));
    tree.gates[3].kind = 9;
    tree.gates[3].n = 0;
    assert_eq!(write(&tree), refuse(2, 5 + 4 * 3));
    assert_eq!(write(&Tree::default()), refuse(4, 0));
}

#[test]
fn rooms_for_writing() {
    let mut tree = Tree::of_chances(&[7]);
    or(&mut tree, &[Input::Event(0)]);
    let bytes = write(&tree).unwrap();
    let mut room = vec![0xAA; bytes.len() + 3];
    for length in 0..bytes.len() {
        assert_eq!(write_into(&tree, &mut room[..length]), refuse(9, 0));
        assert!(room.iter().all(|&byte| byte == 0xAA));
    }
    assert_eq!(write_into(&tree, &mut room), Ok(bytes.len()));
    assert_eq!(room, [bytes, vec![0xAA; 3]].concat());
    tree.gates[0].n = 0;
    assert_eq!(write_into(&tree, &mut []), refuse(4, 5));
}

/// The first 24,576 bytes decide any input.
#[test]
fn first_bytes_decide() {
    for seed in 0..300 {
        let random = &mut Random::new(seed);
        let longest = tree(random, generator::longest_shape());
        let mut bytes = write(&in_either_form(random, longest)).unwrap();
        bytes.pop();
        while bytes.len() < 28_000 {
            bytes.extend([vec![6, 0, 0], vec![5, 0], vec![8, 0, 1], vec![2, 1]][random.below(4)].iter());
        }
        assert_eq!(read(&bytes).err(), read(&bytes[..MOST_READ]).err());
    }
}
