//! Request 7 in bytes: kind 08 and number 21, and trees of more than 256 events whose listings are written out.

use crate::sets::Set;
use crate::tree::*;
use crate::twins::{case, Case, Due::Refused};
use std::ops::Range;

#[rustfmt::skip]
pub const CASES: &[Case] = &[
    case("08 with the number of an event below 256", 3, "0203 0500 0501 080200 07", Refused(21, 21)),
    case("08 with 255 of 300 events", 300, "0201 08FF00", Refused(21, 1_502)),
    case("08 with a number that no event has, below 256", 3, "0201 080500 07", Refused(21, 17)),
    case("a wrong k, then 08 with 0", 1, "040302 0500 080000 07", Refused(21, 10)),
    // 3 and 1 come first.
    case("08 with 0 before any gate", 1, "080000", Refused(3, 5)),
    case("08 with 0 beyond n", 1, "0201 0500 080000", Refused(3, 9)),
    case("08 with one byte", 1, "0201 0800", Refused(1, 7)),
    case("08 with no byte", 1, "0201 08", Refused(1, 7)),
    case("08 with no byte before any gate", 1, "08", Refused(1, 5)),
    // 6 comes behind.
    case("08 with 256 of 3 events", 3, "0201 080001 07", Refused(6, 17)),
    case("08 with 257 of 257 events", 257, "0202 080001 080101", Refused(6, 1_290)),
    case("08 with 1,024 of 1,024 events", 1_024, "0201 080004", Refused(6, 5_122)),
    case("08 with 65,535", 3, "0201 08FFFF", Refused(6, 17)),
    // Events 0 and 256 have one low byte, and are two; event 256 and gate 0 are two.
    case("2 of event 256 twice", 257, "040202 080001 080001 07", Refused(5, 1_285)),
    case("2 of events 0 and 256", 257, "040202 0500 080001 07", Refused(8, 5)),
    case("2 of event 256 and gate 0", 257, "0201 0500 040202 080001 060000 07", Refused(8, 5)),
    case("event 256 unused", 257, "0201 0500 07", Refused(8, 5)),
    case("1,024 events and no gate", 1_024, "07", Refused(4, 5_120)),
    case("1,025 events", 1_025, "0201 0500 07", Refused(4, 5_120)),
    case("the first unknown kind", 1, "0201 09", Refused(2, 7)),
];

/// A tree of more than 255 events, and its cuts in order.
pub struct Known {
    pub what: &'static str,
    pub tree: Tree,
    pub cuts: Vec<Set>,
}

fn from_the_last(events: Range<usize>) -> Vec<Input> {
    events.rev().map(|event| Input::Event(event as u32)).collect()
}

/// Events 255, 256 and 257 in one cut; the root does not depend on the others, which stand in an and with it.
pub fn across_256() -> Tree {
    let mut tree = Tree::of_chances(&[D / 10; 258]);
    let cut = and(&mut tree, &[Input::Event(255), Input::Event(256), Input::Event(257)]);
    let mut absorbed = vec![cut];
    for first in (0..255).step_by(MOST_INPUTS_OF_A_GATE) {
        absorbed.push(or(&mut tree, &from_the_last(first..255.min(first + MOST_INPUTS_OF_A_GATE))));
    }
    let absorbed = and(&mut tree, &absorbed);
    or(&mut tree, &[cut, absorbed]);
    tree
}

/// What the listing of that cut is.
pub const ACROSS_256: [u8; 9] = [0x21, 0xFF, 0x23, 0x00, 0x01, 0x23, 0x01, 0x01, 0x22];

/// One of the last events with all that come before these. The gates take events from the last to the first, so that the diagram is small.
pub fn one_of_the_last(events: usize, last: usize) -> Known {
    let mut tree = Tree::of_chances(&vec![D / 2; events]);
    let mut below = or(&mut tree, &from_the_last(events - last..events));
    let mut unused = events - last;
    while unused > 0 {
        let next = unused.saturating_sub(MOST_INPUTS_OF_A_GATE - 1);
        below = and(&mut tree, &[vec![below], from_the_last(next..unused)].concat());
        unused = next;
    }
    let all: Vec<u32> = (0..(events - last) as u32).collect();
    let cuts = (events - last..events).map(|event| Set::of(&all).with(event as u32)).collect();
    Known { what: "one of the last events with all before these", tree, cuts }
}

pub fn known() -> Vec<Known> {
    let across = Known { what: "events 255, 256, 257", tree: across_256(), cuts: vec![Set::of(&[255, 256, 257])] };
    let shapes = [(255, 1), (256, 1), (257, 1), (257, 2), (300, 60), (1_023, 1), (1_024, 1), (1_024, 5)];
    std::iter::once(across).chain(shapes.map(|(events, last)| one_of_the_last(events, last))).collect()
}
