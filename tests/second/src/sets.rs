//! Sets of events: 1,024 bits, bit i for event i; their order; the bytes of a cut.

use crate::tree::{FIRST_WIDE_EVENT, MOST_EVENTS};
use std::cmp::Ordering;

pub const WORDS: usize = MOST_EVENTS / 64;
/// The bytes of the cut that has all events.
pub const LONGEST_CUT: usize = 2_817;

#[derive(Clone, Copy, Debug, Default, PartialEq, Eq, Hash)]
pub struct Set(pub [u64; WORDS]);

impl Set {
    pub const EMPTY: Set = Set([0; WORDS]);

    pub fn of(members: &[u32]) -> Set {
        members.iter().fold(Set::EMPTY, |set, &event| set.with(event))
    }

    /// The set as a number, with bit 0 for the first event.
    pub fn from_number(first: u32, number: usize) -> Set {
        (0..usize::BITS).filter(|bit| number >> bit & 1 == 1).fold(Set::EMPTY, |set, bit| set.with(first + bit))
    }

    pub fn holds(&self, event: u32) -> bool {
        self.0[event as usize / 64] >> (event % 64) & 1 == 1
    }

    pub fn with(mut self, event: u32) -> Set {
        self.0[event as usize / 64] |= 1 << (event % 64);
        self
    }

    pub fn members(&self) -> Vec<u32> {
        let of_word = |word: usize| (64 * word as u32..).take(if self.0[word] == 0 { 0 } else { 64 });
        (0..WORDS).flat_map(of_word).filter(|&event| self.holds(event)).collect()
    }

    pub fn holds_any(&self, mut events: std::ops::Range<u32>) -> bool {
        events.any(|event| self.holds(event))
    }

    /// Of two different sets, the one that holds the lowest event in which they differ comes first.
    pub fn order(&self, other: &Set) -> Ordering {
        let Some(word) = (0..WORDS).find(|&word| self.0[word] != other.0[word]) else { return Ordering::Equal };
        let lowest = (self.0[word] ^ other.0[word]).trailing_zeros();
        match self.0[word] >> lowest & 1 {
            1 => Ordering::Less,
            _ => Ordering::Greater,
        }
    }

    /// The members in rising order, each with its kind; then 22.
    pub fn cut_bytes(&self) -> Vec<u8> {
        let mut bytes: Vec<u8> = self.members().into_iter().flat_map(member_bytes).collect();
        bytes.push(0x22);
        bytes
    }
}

/// Kind 21 with one byte for numbers below 256, kind 23 with two for those from 256 on, the low byte first.
pub fn member_bytes(event: u32) -> Vec<u8> {
    match event < FIRST_WIDE_EVENT {
        true => vec![0x21, event as u8],
        false => vec![0x23, event as u8, (event >> 8) as u8],
    }
}
