//! Request 10 in bytes: stores that are refused, which record decides, and trees whose nodes and cuts under settings are worked out by hand.

use crate::judge::write;
use crate::tree::*;
use crate::twins::tree_bytes;

/// What a tree in a season is due to be answered.
#[derive(Clone, Copy, Debug, PartialEq, Eq)]
pub enum Due {
    Refused(u32, u64),
    /// The nodes that each gate adds, and the cuts in order.
    Done(&'static [u32], &'static [&'static [u32]]),
}

use Due::{Done, Refused};

/// Gates in hexadecimal behind so many events of chance 0, a store in hexadecimal, and the edition that is asked for.
pub struct Case {
    pub what: &'static str,
    pub events: usize,
    pub gates: &'static str,
    pub store: &'static str,
    pub edition: u16,
    pub due: Due,
}

impl Case {
    pub fn bytes(&self) -> Vec<u8> {
        tree_bytes(self.events, self.gates)
    }

    pub fn store(&self) -> Vec<u8> {
        tree_bytes(0, self.store)
    }
}

const fn case(
    what: &'static str,
    events: usize,
    gates: &'static str,
    store: &'static str,
    edition: u16,
    due: Due,
) -> Case {
    Case { what, events, gates, store, edition, due }
}

const ONE: &str = "0201 0500 07";
const AND_2: &str = "0202 0500 0501 07";
const OR_2: &str = "0302 0500 0501 07";
const TWO_OF_3: &str = "040203 0500 0501 0502 07";
const CASE_1: &str = "0202 0500 0501 0202 0501 0502 0302 060000 060100 07";

/// The cuts of a root that always fails: the empty set alone.
const SURE: &[&[u32]] = &[&[]];

#[rustfmt::skip]
pub const CASES: &[Case] = &[
    // A store's faults: 24.
    case("an empty store", 1, ONE, "", 7, Done(&[1], &[&[0]])),
    case("a kind alone", 1, ONE, "31", 7, Refused(24, 0)),
    case("a record without its state", 1, ONE, "31 0100 0000", 7, Refused(24, 0)),
    case("a second record cut short", 1, ONE, "31 0100 0000 01 31 0100 00", 7, Refused(24, 6)),
    case("one byte behind a record", 1, ONE, "31 0100 0000 01 31", 7, Refused(24, 6)),
    case("kind 30", 1, ONE, "30 0100 0000 01", 7, Refused(24, 0)),
    case("kind 1F, which is 31", 1, ONE, "1F 0100 0000 01", 7, Refused(24, 0)),
    case("the second of kind 32", 1, ONE, "31 0100 0000 01 32 0100 0000 01", 7, Refused(24, 6)),
    case("state 3", 1, ONE, "31 0100 0000 03", 7, Refused(24, 0)),
    case("state 255", 1, ONE, "31 0100 0000 FF", 7, Refused(24, 0)),
    case("editions 2, 1", 1, ONE, "31 0200 0000 01 31 0100 0000 01", 7, Refused(24, 6)),
    case("editions 256, 255", 1, ONE, "31 0001 0000 01 31 FF00 0000 01", 300, Refused(24, 6)),
    case("editions 255, 256", 1, ONE, "31 FF00 0000 02 31 0001 0000 01", 300, Done(&[0], SURE)),
    case("editions 1, 3, 2", 1, ONE, "31 0100 0000 01 31 0300 0000 01 31 0200 0000 01", 7, Refused(24, 12)),
    case("editions 2, 1 of two events", 2, AND_2, "31 0200 0000 01 31 0100 0100 01", 7, Refused(24, 6)),
    case("edition 2 twice", 1, ONE, "31 0200 0000 01 31 0200 0000 02", 7, Done(&[0], &[])),
    // 13.
    case("event 1 of 1", 1, ONE, "31 0100 0100 01", 7, Refused(13, 0)),
    case("event 256 of 1", 1, ONE, "31 0100 0001 01", 7, Refused(13, 0)),
    case("event 65,535 of 1", 1, ONE, "31 0100 FFFF 01", 7, Refused(13, 0)),
    case("the second of event 1 of 1", 1, ONE, "31 0100 0000 01 31 0100 0100 02", 7, Refused(13, 6)),
    case("event 1 of 1, free", 1, ONE, "31 0100 0100 00", 7, Refused(13, 0)),
    // 24 before 13, and the first faulty record decides.
    case("state 3 of event 1 of 1", 1, ONE, "31 0100 0100 03", 7, Refused(24, 0)),
    case("kind 30 of event 1 of 1", 1, ONE, "30 0100 0100 01", 7, Refused(24, 0)),
    case("an edition that falls, of event 1 of 1", 1, ONE, "31 0200 0000 01 31 0100 0100 01", 7, Refused(24, 6)),
    case("13, then 24", 1, ONE, "31 0100 0100 01 31 0100 0000 03", 7, Refused(13, 0)),
    case("24, then 13", 1, ONE, "31 0100 0000 03 31 0100 0100 01", 7, Refused(24, 0)),
    case("13, then the end inside a record", 1, ONE, "31 0100 0100 01 31", 7, Refused(13, 0)),
    case("13 twice", 1, ONE, "31 0100 0100 01 31 0100 0200 01", 7, Refused(13, 0)),
    // What is above the asked edition is judged too.
    case("state 3 above the edition", 1, ONE, "31 0100 0000 01 31 0900 0000 03", 1, Refused(24, 6)),
    case("kind 30 above the edition", 1, ONE, "31 0100 0000 01 30 0900 0000 01", 1, Refused(24, 6)),
    case("event 1 of 1 above the edition", 1, ONE, "31 0100 0000 01 31 0900 0100 01", 1, Refused(13, 6)),
    case("editions that fall above the edition", 1, ONE, "31 0900 0000 01 31 0800 0000 01", 1, Refused(24, 6)),
    case("the end inside a record above the edition", 1, ONE, "31 0900 0000 01 31 0900", 1, Refused(24, 6)),
    // The tree's faults come first.
    case("no tree and no store", 0, "", "31", 1, Refused(1, 0)),
    case("a gate unused, and state 3", 1, "0201 0500 0201 0500 07", "31 0100 0000 03", 1, Refused(8, 5)),
    case("an event unused, and an event beyond", 2, ONE, "31 0100 0200 01", 1, Refused(8, 5)),
    // Which record decides.
    case("before every edition", 1, ONE, "31 0100 0000 01 31 0200 0000 00 31 0400 0000 02", 0, Done(&[1], &[&[0]])),
    case("edition 1 of three", 1, ONE, "31 0100 0000 01 31 0200 0000 00 31 0400 0000 02", 1, Done(&[0], SURE)),
    case("edition 2 of three, free again", 1, ONE, "31 0100 0000 01 31 0200 0000 00 31 0400 0000 02", 2, Done(&[1], &[&[0]])),
    case("edition 3, which has no record", 1, ONE, "31 0100 0000 01 31 0200 0000 00 31 0400 0000 02", 3, Done(&[1], &[&[0]])),
    case("edition 4 of three", 1, ONE, "31 0100 0000 01 31 0200 0000 00 31 0400 0000 02", 4, Done(&[0], &[])),
    case("edition 65,535 of three", 1, ONE, "31 0100 0000 01 31 0200 0000 00 31 0400 0000 02", 65_535, Done(&[0], &[])),
    case("edition 0 has a record", 1, ONE, "31 0000 0000 01", 0, Done(&[0], SURE)),
    case("the last record of one edition", 1, ONE, "31 0100 0000 01 31 0100 0000 02 31 0100 0000 00", 1, Done(&[1], &[&[0]])),
    case("an event that a later edition leaves alone", 2, AND_2, "31 0100 0000 01 31 0200 0100 00", 2, Done(&[1], &[&[1]])),
    // Constants in joins: what stands behind them is joined all the same.
    case("a sound event of an and", 2, AND_2, "31 0100 0000 02", 1, Done(&[1], &[])),
    case("a failed event of an and", 2, AND_2, "31 0100 0000 01", 1, Done(&[1], &[&[1]])),
    case("a sound event of an or", 2, OR_2, "31 0100 0000 02", 1, Done(&[1], &[&[1]])),
    case("a failed event of an or", 2, OR_2, "31 0100 0000 01", 1, Done(&[1], SURE)),
    case("both events of an and failed", 2, AND_2, "31 0100 0000 01 31 0100 0100 01", 1, Done(&[0], SURE)),
    case("both events of an or sound", 2, OR_2, "31 0100 0000 02 31 0100 0100 02", 1, Done(&[0], &[])),
    // b and c, but not b and c together: the join is 0 before either.
    case("a sound event before two others", 3, "0203 0500 0501 0502 07", "31 0100 0000 02", 1, Done(&[2], &[])),
    case("a sound event behind two others", 3, "0203 0501 0502 0500 07", "31 0100 0000 02", 1, Done(&[3], &[])),
    case("a failed event before two others", 3, "0303 0500 0501 0502 07", "31 0100 0000 01", 1, Done(&[2], SURE)),
    // Event 2 is first used behind a gate that can't fail.
    case("an event behind a constant gate", 3, "0202 0500 0501 0202 060000 0502 07", "31 0100 0000 02", 1, Done(&[1, 1], &[])),
    // a, c, and a or c.
    case("case 1, b failed", 3, CASE_1, "31 0100 0100 01", 1, Done(&[1, 1, 1], &[&[0], &[2]])),
    case("case 1, b sound", 3, CASE_1, "31 0100 0100 02", 1, Done(&[1, 1, 0], &[])),
    case("case 1, a failed", 3, CASE_1, "31 0100 0000 01", 1, Done(&[1, 2, 0], &[&[1]])),
    case("case 1, all failed", 3, CASE_1, "31 0100 0000 01 31 0100 0100 01 31 0100 0200 01", 1, Done(&[0, 0, 0], SURE)),
    case("case 1, all sound", 3, CASE_1, "31 0100 0000 02 31 0100 0100 02 31 0100 0200 02", 1, Done(&[0, 0, 0], &[])),
    // b, c, b or c, b and c: every pair that the rule reaches is a step.
    case("2 of 3, one failed", 3, TWO_OF_3, "31 0100 0000 01", 1, Done(&[4], &[&[1], &[2]])),
    case("2 of 3, one sound", 3, TWO_OF_3, "31 0100 0000 02", 1, Done(&[4], &[&[1, 2]])),
    case("2 of 3, two failed", 3, TWO_OF_3, "31 0100 0000 01 31 0100 0100 01", 1, Done(&[1], SURE)),
    case("2 of 3, two sound", 3, TWO_OF_3, "31 0100 0000 02 31 0100 0100 02", 1, Done(&[1], &[])),
    case("2 of 3, one failed and one sound", 3, TWO_OF_3, "31 0100 0000 01 31 0100 0200 02", 1, Done(&[1], &[&[1]])),
    case("2 of 3, all failed", 3, TWO_OF_3, "31 0100 0000 01 31 0100 0100 01 31 0100 0200 01", 1, Done(&[0], SURE)),
    case("2 of 3, all sound", 3, TWO_OF_3, "31 0100 0000 02 31 0100 0100 02 31 0100 0200 02", 1, Done(&[0], &[])),
    // b, c, d, c or d, b or c or d, c and d, 2 of the three, and b and (c or d): the or of all three is reached by way of the sound one.
    case("2 of 4, the first sound", 4, "040204 0500 0501 0502 0503 07", "31 0100 0000 02", 1, Done(&[8], &[&[1, 2], &[1, 3], &[2, 3]])),
    // Twins are told by input: an event twice is one, two events are two, whatever they are forced to.
    case("2 of a, a, b, a failed", 2, "040203 0500 0500 0501 07", "31 0100 0000 01", 1, Done(&[1], &[&[1]])),
    case("2 of a, a, b, b failed", 2, "040203 0500 0500 0501 07", "31 0100 0100 01", 1, Done(&[1], &[&[0]])),
    case("3 of a, b, c, d, two failed", 4, "040304 0500 0501 0502 0503 07", "31 0100 0000 01 31 0100 0100 01", 1, Done(&[4], &[&[2], &[3]])),
    case("an event and its gate, failed", 2, "0301 0500 040203 0500 060000 0501 07", "31 0100 0000 01", 1, Done(&[0, 1], SURE)),
];

/// An at-least over an and and an or: four events.
pub fn four_events() -> Vec<u8> {
    tree_bytes(4, "0202 0500 0501 0302 0502 0503 040203 060000 060100 0500 07")
}

/// Records of editions 1, 2, 2 and 256.
pub fn four_records() -> Vec<u8> {
    tree_bytes(0, "31 0100 0000 01 31 0200 0300 02 31 0200 0000 00 31 0001 0100 01")
}

/// Trees of four events, of all kinds of gates.
pub fn four_event_trees() -> Vec<Vec<u8>> {
    let mut trees = vec![four_events()];
    for k in 1..=4 {
        let mut tree = Tree::of_chances(&[1, D / 2, D / 3, D]);
        let all: Vec<Input> = [2, 0, 3, 1].map(Input::Event).to_vec();
        let least = at_least(&mut tree, k, &all);
        let low = and(&mut tree, &all[..2]);
        let high = or(&mut tree, &[low, all[3], all[2]]);
        and(&mut tree, &[high, least, all[0]]);
        trees.push(write(&tree).expect("it is accepted"));
    }
    trees
}

/// As many events as there may be: an and of 16 ors of 64 events, from the last to the first.
pub fn all_events() -> Tree {
    let mut tree = Tree::of_chances(&vec![D / 7; MOST_EVENTS]);
    let ors: Vec<Input> = (0..16u32)
        .rev()
        .map(|part| {
            let own: Vec<Input> = (64 * part..64 * part + 64).rev().map(Input::Event).collect();
            or(&mut tree, &own)
        })
        .collect();
    and(&mut tree, &ors);
    tree
}
