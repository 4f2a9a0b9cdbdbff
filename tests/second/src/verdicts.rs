//! Request 13 in bytes: listings, sets, and what the one says of the other, written out.

use crate::sets::Set;

/// A listing, a number of events, the members of a set; the number that is due, and whether the root fails.
pub struct Decided {
    pub what: &'static str,
    pub listing: &'static [u8],
    pub events: u64,
    pub members: &'static [u32],
    pub due: (u32, bool),
}

impl Decided {
    pub fn set(&self) -> Set {
        Set::of(self.members)
    }
}

const fn row(
    what: &'static str,
    listing: &'static [u8],
    events: u64,
    members: &'static [u32],
    due: (u32, bool),
) -> Decided {
    Decided { what, listing, events, members, due }
}

/// Case 1: {0, 1} and {1, 2}; with its last byte lost; with its first cut again behind.
const CASE_1: &[u8] = &[0x21, 0, 0x21, 1, 0x22, 0x21, 1, 0x21, 2, 0x22];
const TORN: &[u8] = &[0x21, 0, 0x21, 1, 0x22, 0x21, 1, 0x21, 2];
const AGAIN: &[u8] = &[0x21, 0, 0x21, 1, 0x22, 0x21, 1, 0x21, 2, 0x22, 0x21, 0, 0x21, 1, 0x22];
/// {255} and {256}; {0, 256} and {257, 1023}.
const APART: &[u8] = &[0x21, 255, 0x22, 0x23, 0, 1, 0x22];
const ACROSS: &[u8] = &[0x21, 0, 0x23, 0, 1, 0x22, 0x23, 1, 1, 0x23, 255, 3, 0x22];
/// One inside another: {4, 5} and {5}. And the empty cut behind {7}.
const INSIDE: &[u8] = &[0x21, 4, 0x21, 5, 0x22, 0x21, 5, 0x22];
const WITH_EMPTY: &[u8] = &[0x21, 7, 0x22, 0x22];
const NONE: &[u8] = &[];
const EMPTY_CUT: &[u8] = &[0x22];
const FAILS: (u32, bool) = (0, true);
const STANDS: (u32, bool) = (0, false);
const BAD: (u32, bool) = (20, false);
const BEYOND: (u32, bool) = (13, false);

pub const WRITTEN_OUT: &[Decided] = &[
    row("case 1, nothing failed", CASE_1, 3, &[], STANDS),
    row("case 1, 0 failed", CASE_1, 3, &[0], STANDS),
    row("case 1, 1 failed", CASE_1, 3, &[1], STANDS),
    row("case 1, its first cut", CASE_1, 3, &[0, 1], FAILS),
    row("case 1, 2 failed", CASE_1, 3, &[2], STANDS),
    row("case 1, a member of each cut", CASE_1, 3, &[0, 2], STANDS),
    row("case 1, its last cut", CASE_1, 3, &[1, 2], FAILS),
    row("case 1, all failed", CASE_1, 3, &[0, 1, 2], FAILS),
    row("case 1, a set beyond its events", CASE_1, 3, &[0, 3], BEYOND),
    row("case 1 of more events, no cut", CASE_1, 4, &[0, 3], STANDS),
    row("case 1 of more events, a cut and one more", CASE_1, 4, &[0, 1, 3], FAILS),
    row("case 1 of fewer events than it lists", CASE_1, 2, &[0, 1], FAILS),
    row("case 1 of no event, nothing failed", CASE_1, 0, &[], STANDS),
    row("case 1 of no event, a cut", CASE_1, 0, &[0, 1], BEYOND),
    row("a fault behind a cut that the set contains", TORN, 3, &[0, 1], BAD),
    row("a fault, and no cut before it in the set", TORN, 3, &[2], BAD),
    row("a cut twice", AGAIN, 3, &[0, 1], BAD),
    row("a fault, and a set beyond the events", TORN, 3, &[0, 1, 3], BAD),
    row("no cut, nothing failed", NONE, 3, &[], STANDS),
    row("no cut, all failed", NONE, 3, &[0, 1, 2], STANDS),
    row("no cut, a set beyond the events", NONE, 3, &[3], BEYOND),
    row("no cut and no event", NONE, 0, &[], STANDS),
    row("the empty cut, nothing failed", EMPTY_CUT, 3, &[], FAILS),
    row("the empty cut, all failed", EMPTY_CUT, 3, &[0, 1, 2], FAILS),
    row("the empty cut, a set beyond the events", EMPTY_CUT, 3, &[3], BEYOND),
    row("the empty cut of no event", EMPTY_CUT, 0, &[], FAILS),
    row("the empty cut behind another, nothing failed", WITH_EMPTY, 8, &[], FAILS),
    row("one inside another, the larger", INSIDE, 6, &[4, 5], FAILS),
    row("one inside another, the smaller", INSIDE, 6, &[5], FAILS),
    row("one inside another, neither", INSIDE, 6, &[4], STANDS),
    row("256 failed", APART, 257, &[256], FAILS),
    row("0 is not 256", APART, 257, &[0], STANDS),
    row("255 failed", APART, 257, &[255], FAILS),
    row("256 beyond 256 events", APART, 256, &[256], BEYOND),
    row("255 of 256 events", APART, 256, &[255], FAILS),
    row("members on both sides of 256", ACROSS, 1_024, &[0, 256], FAILS),
    row("the low one alone", ACROSS, 1_024, &[0], STANDS),
    row("the high one alone", ACROSS, 1_024, &[256], STANDS),
    row("the last event", ACROSS, 1_024, &[257, 1_023], FAILS),
    row("without the last event", ACROSS, 1_024, &[257, 767], STANDS),
    row("the last event beyond the events", ACROSS, 1_023, &[257, 1_023], BEYOND),
    row("more events than a tree may have", ACROSS, 1_025, &[257, 1_023], FAILS),
    row("as many as a word can say", ACROSS, u64::MAX, &[257, 1_023], FAILS),
    row("a low byte of 0 in the number of events", ACROSS, 1 << 32, &[0, 256], FAILS),
];
