//! Request 8 in bytes: kind 11, mixtures, places with records of seven bytes; the two moves, and trees in memory whose sites have no place.

use crate::judge::Refusal;
use crate::tree::*;
use crate::twins::{
    case, tree_bytes, Case,
    Due::{Done, Refused},
};

// An event's record of the new form with chance 0 and site 5 is 11 00000000 0500.
#[rustfmt::skip]
pub const CASES: &[Case] = &[
    case("an event with a site", 0, "11000000000500 0201 0500 07", Done(1, &[&[0]])),
    case("an event with site 0", 0, "11000000000000 0201 0500 07", Done(1, &[&[0]])),
    case("sites 65,535 and 256, chances 1", 0, "1100CA9A3BFFFF 1100CA9A3B0001 0202 0500 0501 07", Done(3, &[&[0, 1]])),
    case("2 of 3 with sites", 0, "11000000000100 11000000000100 11000000000200 040203 0500 0501 0502 07", Done(7, &[&[0, 1], &[0, 2], &[1, 2]])),
    // Mixtures: 3 at the first record of the other kind.
    case("01 behind 11", 0, "11000000000500 0100000000 0202 0500 0501 07", Refused(3, 7)),
    case("11 behind 01", 1, "11000000000500 0202 0500 0501 07", Refused(3, 5)),
    case("11 with site 0 behind 01", 1, "11000000000000 0202 0500 0501 07", Refused(3, 5)),
    case("11 behind three of 01", 3, "11000000000500 11000000000500 0201 0500 07", Refused(3, 15)),
    case("01, 11, 01", 1, "11000000000500 0100000000 0203 0500 0501 0502 07", Refused(3, 5)),
    case("11, 11, 01, 11", 0, "11000000000500 11000000000500 0100000000 11000000000500 0201 0500 07", Refused(3, 14)),
    // After 1, before 4 and 7.
    case("11 behind 01, above one", 1, "11FFFFFFFF0500", Refused(3, 5)),
    case("01 behind 11, above one", 0, "11000000000500 01FFFFFFFF", Refused(3, 7)),
    case("11 behind 1,024 of 01", 1_024, "11000000000500", Refused(3, 5_120)),
    case("11 behind 01, cut short", 1, "110000000005", Refused(1, 5)),
    case("01 behind 11, cut short", 0, "11000000000500 01000000", Refused(1, 7)),
    // Out of place as 01 is.
    case("11 behind a gate", 0, "11000000000500 0201 0500 11000000000500 07", Refused(3, 11)),
    case("11 behind a gate of events 01", 1, "0201 0500 11000000000500 07", Refused(3, 9)),
    case("11 for an input", 0, "11000000000500 0202 0500 11000000000500 07", Refused(3, 11)),
    case("11 behind the end", 0, "11000000000500 0201 0500 07 11", Refused(3, 12)),
    // Cut short.
    case("11 and no byte", 0, "11", Refused(1, 0)),
    case("11 with a chance alone", 0, "1100000000", Refused(1, 0)),
    case("11 with one byte of site", 0, "110000000005", Refused(1, 0)),
    case("11 with one byte of site, the second", 0, "11000000000500 110000000005", Refused(1, 7)),
    case("11 and nothing behind", 0, "11000000000500", Refused(1, 7)),
    // Kinds are hexadecimal.
    case("kind 0B", 0, "0B000000000500 0201 0500 07", Refused(2, 0)),
    case("kind 12", 0, "11000000000500 12000000000500", Refused(2, 7)),
    // Places with records of seven bytes.
    case("11 above one", 0, "1101CA9A3B0000 0201 0500 07", Refused(7, 0)),
    case("the second above one", 0, "1100CA9A3B0500 1101CA9A3B0500", Refused(7, 7)),
    case("11 and no gate", 0, "11000000000500 11000000000500 07", Refused(4, 14)),
    case("11 and n of 0", 0, "11000000000500 0200", Refused(4, 7)),
    case("11 and a wrong k", 0, "11000000000500 040201 0500", Refused(5, 7)),
    case("11 and event 1 of 1", 0, "11000000000500 0201 0501", Refused(6, 9)),
    case("11 and 08 with 0", 0, "11000000000500 0201 080000", Refused(21, 9)),
    case("event 0 unused", 0, "11000000000500 11000000000500 0201 0501 07", Refused(8, 0)),
    case("event 1 unused", 0, "11000000000500 11000000000500 11000000000500 0202 0500 0502 07", Refused(8, 7)),
    case("the last event unused", 0, "11000000000500 11000000000500 11000000000500 0202 0500 0501 07", Refused(8, 14)),
    case("gate 0 unused", 0, "11000000000500 11000000000500 0202 0500 0501 0201 0500 07", Refused(8, 14)),
    case("gate 1 unused", 0, "11000000000500 0201 0500 0201 0500 0201 060000 07", Refused(8, 11)),
];

/// What a move is due to answer.
#[derive(Clone, Copy, Debug, PartialEq, Eq)]
pub enum Moved {
    /// These bytes, in hexadecimal.
    To(&'static str),
    Same,
    No(u32, u64),
}

use Moved::{No, Same, To};

/// Bytes in hexadecimal, and what the moves to the new form and back are due to answer.
pub struct Move {
    pub what: &'static str,
    pub bytes: &'static str,
    pub to: Moved,
    pub back: Moved,
}

const fn moves(what: &'static str, bytes: &'static str, to: Moved, back: Moved) -> Move {
    Move { what, bytes, to, back }
}

impl Move {
    pub fn bytes(&self) -> Vec<u8> {
        tree_bytes(0, self.bytes)
    }

    pub fn due(&self, moved: Moved) -> Result<Vec<u8>, Refusal> {
        match moved {
            To(bytes) => Ok(tree_bytes(0, bytes)),
            Same => Ok(self.bytes()),
            No(number, place) => Err(Refusal { number, place }),
        }
    }
}

#[rustfmt::skip]
pub const MOVES: &[Move] = &[
    moves("one event without a site", "0107000000 0201 0500 07", To("11070000000000 0201 0500 07"), Same),
    moves("one event with site 0", "11070000000000 0201 0500 07", Same, To("0107000000 0201 0500 07")),
    moves("one event with site 5", "11070000000500 0201 0500 07", Same, No(22, 0)),
    moves("one event with site 256", "11070000000001 0201 0500 07", Same, No(22, 0)),
    moves("two events without", "0107000000 0100CA9A3B 0302 0501 0500 07",
        To("11070000000000 1100CA9A3B0000 0302 0501 0500 07"), Same),
    moves("two events with site 0", "11070000000000 1100CA9A3B0000 0302 0501 0500 07",
        Same, To("0107000000 0100CA9A3B 0302 0501 0500 07")),
    moves("a site in the last event only", "11000000000000 11000000000000 110000000000FF 0203 0500 0501 0502 07", Same, No(22, 14)),
    moves("a site in the second and in the last", "11000000000000 11000000000100 110000000000FF 0203 0500 0501 0502 07", Same, No(22, 7)),
    moves("an event behind a gate", "0111010111 0201 0500 0101060000 07", No(3, 9), No(3, 9)),
    moves("chances and gates of bytes 01 and 11", "0111010101 0111111111 0202 0500 0501 0302 060000 060000 07",
        To("11110101010000 11111111110000 0202 0500 0501 0302 060000 060000 07"), Same),
    // 1 to 8 and 21 come before 22.
    moves("nothing", "", No(1, 0), No(1, 0)),
    moves("a site, and no end", "11000000000500 0201 0500", No(1, 11), No(1, 11)),
    moves("a site, and an unknown kind", "11000000000500 0201 FF", No(2, 9), No(2, 9)),
    moves("a mixture", "0100000000 11000000000500 0202 0500 0501 07", No(3, 5), No(3, 5)),
    moves("a mixture behind a site", "11000000000500 0100000000 0202 0500 0501 07", No(3, 7), No(3, 7)),
    moves("a site, and a byte behind the end", "11000000000500 0201 0500 07 07", No(3, 12), No(3, 12)),
    moves("a site, and no gate", "11000000000500 07", No(4, 7), No(4, 7)),
    moves("a site, and a wrong k", "11000000000500 040201 0500 07", No(5, 7), No(5, 7)),
    moves("a site, and event 1 of 1", "11000000000500 0201 0501 07", No(6, 9), No(6, 9)),
    moves("a site, above one", "11FFFFFFFF0500 0201 0500 07", No(7, 0), No(7, 0)),
    moves("a site, and its event unused", "11000000000000 11000000000500 0201 0500 07", No(8, 7), No(8, 7)),
    moves("a site, and a gate unused", "11000000000500 0201 0500 0201 0500 07", No(8, 7), No(8, 7)),
    moves("a site, and 08 with 0", "11000000000500 0201 080000 07", No(21, 9), No(21, 9)),
    moves("the old form, an event unused", "0100000000 0100000000 0201 0500 07", No(8, 5), No(8, 5)),
];

/// A tree in memory of the old form, its sites and what writing it is due to be refused with.
pub struct Lost {
    pub what: &'static str,
    pub tree: Tree,
    pub due: Option<Refusal>,
}

/// An or of so many events, in memory of the old form with these sites.
fn or_of(sites: &[u16]) -> Tree {
    let mut tree = Tree::of_chances(&vec![7; sites.len()]);
    let all: Vec<Input> = (0..sites.len() as u32).map(Input::Event).collect();
    or(&mut tree, &all);
    Tree { sited: false, ..tree.with_sites(sites) }
}

pub fn lost() -> Vec<Lost> {
    let lost =
        |what, tree, number: u32, place| Lost { what, tree, due: (number > 0).then_some(Refusal { number, place }) };
    let above_one = |mut tree: Tree, event: usize| {
        tree.chances[event] = D + 1;
        tree
    };
    let unused = |mut tree: Tree| {
        tree.inputs.fill(0);
        tree
    };
    let fewer = |mut tree: Tree| {
        tree.event_count -= 1;
        tree.gates[0].n -= 1;
        tree
    };
    vec![
        lost("no site", or_of(&[0, 0]), 0, 0),
        lost("the first of two", or_of(&[1, 0]), 22, 0),
        lost("the last of two", or_of(&[0, 1]), 22, 5),
        lost("the second and the third of three", or_of(&[0, 256, 2]), 22, 5),
        lost("the last of 64", or_of(&[&[0; 63][..], &[0xFFFF]].concat()), 22, 315),
        lost("a site behind the events", fewer(or_of(&[0, 0, 1])), 0, 0),
        lost("a site, and above one behind it", above_one(or_of(&[1, 0]), 1), 7, 5),
        lost("a site, and above one before it", above_one(or_of(&[0, 1]), 0), 7, 0),
        lost("a site, and an event unused", unused(or_of(&[1, 0])), 8, 5),
        lost("a site, and its own event unused", unused(or_of(&[0, 1])), 8, 5),
        lost("the new form", Tree { sited: true, ..or_of(&[0, 1]) }, 0, 0),
        lost("the new form, an event unused", Tree { sited: true, ..unused(or_of(&[0, 1])) }, 8, 7),
    ]
}
