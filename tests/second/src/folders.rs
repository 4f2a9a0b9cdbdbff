//! Seeded folders: trees one behind the other, and the list of their lengths.

use crate::damage::{damaged, NUMBERS};
use crate::generator::{and_of_ors, in_either_form, middle_shape, ors_from_the_last, small_shape, tree};
use crate::judge::write;
use crate::random::Random;
use crate::sizes::MOST_TREES;

#[derive(Clone, Debug)]
pub struct Folder {
    pub bytes: Vec<u8>,
    pub lengths: Vec<u64>,
}

impl Folder {
    pub fn of(trees: &[Vec<u8>]) -> Folder {
        Folder { bytes: trees.concat(), lengths: trees.iter().map(|tree| tree.len() as u64).collect() }
    }
}

fn accepted(random: &mut Random, huge: bool) -> Vec<u8> {
    let made = match random.below(40) {
        0 => and_of_ors(random.between(62, 64)),
        1..=3 => {
            let shape = middle_shape(random);
            tree(random, shape)
        }
        _ if huge && random.once_in(2) => ors_from_the_last(random.between(62, 64)),
        _ => {
            let shape = small_shape(random);
            tree(random, shape)
        }
    };
    write(&in_either_form(random, made)).expect("a generated tree is accepted")
}

/// Trees: all accepted, or one or two refused, by any of reading's numbers, first, last, or anywhere.
fn trees(random: &mut Random) -> Vec<Vec<u8>> {
    let count = match random.below(30) {
        0 => 0,
        1 => MOST_TREES,
        2 => MOST_TREES + random.of(&[1, 1, 6]),
        3..=8 => 1,
        _ => random.between(2, 6),
    };
    let huge = random.once_in(4);
    let mut trees: Vec<Vec<u8>> = (0..count).map(|_| accepted(random, huge)).collect();
    for _ in 0..random.of(&[0, 0, 0, 1, 1, 2]) {
        if count > 0 {
            let anywhere = random.below(count);
            let number = random.of(&NUMBERS);
            trees[random.of(&[0, count - 1, anywhere])] = damaged(random, number).bytes;
        }
    }
    trees
}

/// Lengths that are mostly right; some cut the same bytes elsewhere, some have another sum, also one that is right only if it wraps.
pub fn seeded(random: &mut Random) -> Folder {
    let mut folder = Folder::of(&trees(random));
    let Folder { bytes, lengths } = &mut folder;
    let first = random.below(lengths.len().max(1));
    let second = random.below(lengths.len().max(1));
    match random.below(24) {
        0 if !lengths.is_empty() => {
            let moved = random.below(lengths[first] as usize + 1).min(random.of(&[1, 2, 40])) as u64;
            lengths[first] -= moved;
            lengths[second] += moved;
        }
        1 if !lengths.is_empty() => lengths[first] += random.of(&[1, 2, 5, 1 << 32]),
        2 => {
            lengths.pop();
        }
        3 => lengths.push(random.of(&[0, 0, 1, 9])),
        4 if !bytes.is_empty() => {
            bytes.pop();
        }
        5 => bytes.push(7),
        // Sums that wrap to the right one.
        6 if !lengths.is_empty() => {
            let far = random.of(&[1 << 63, u64::MAX, u64::MAX - bytes.len() as u64, 1]);
            lengths[first] = lengths[first].wrapping_sub(far);
            lengths.push(far);
        }
        7 if lengths.len() > 1 => {
            lengths[first] = lengths[first].wrapping_add(1 << 63);
            lengths[second] = lengths[second].wrapping_add(1 << 63);
        }
        _ => {}
    }
    folder
}
