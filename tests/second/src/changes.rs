//! Request 5: two listings compared. Each is judged whole; what stands in one of them only is found by looking for
//! each cut in the other, and the first of it by 01's order of sets.

use crate::sets::Set;
use crate::tree::{FIRST_WIDE_EVENT, MOST_EVENTS};
use std::collections::HashSet;

#[derive(Clone, Copy, Debug, Default, PartialEq, Eq)]
pub enum Side {
    #[default]
    Neither,
    Yesterday,
    Today,
}

/// A cut of a listing: its bytes are those from `start` up to `end`.
#[derive(Clone, Copy, Debug, PartialEq, Eq)]
pub struct Cut {
    pub set: Set,
    pub start: usize,
    pub end: usize,
}

/// Number 0 with the side of the first cut that stands in one listing only, neither where the listings are equal; or number 20
/// with the side at fault. The place is 0 always.
#[derive(Clone, Copy, Debug, Default, PartialEq, Eq)]
pub struct Verdict {
    pub number: u32,
    pub place: u64,
    pub side: Side,
}

/// That cut as a stretch of its side's bytes; where there is none, no bytes at the front of yesterday's.
#[derive(Clone, Copy, Debug, Default, PartialEq, Eq)]
pub struct Difference {
    pub verdict: Verdict,
    pub start: usize,
    pub length: usize,
}

/// The numbers of cuts gone, new and kept, with neither side; or number 20 with the side at fault, and no cuts counted.
#[derive(Clone, Copy, Debug, Default, PartialEq, Eq)]
pub struct Comparison {
    pub verdict: Verdict,
    pub gone: usize,
    pub new: usize,
    pub kept: usize,
}

impl Verdict {
    pub fn done(side: Side) -> Verdict {
        Verdict { number: 0, place: 0, side }
    }

    pub fn refused(side: Side) -> Verdict {
        Verdict { number: 20, place: 0, side }
    }
}

/// The member at the front of the bytes, and how many it has: kind 21 and a byte, or kind 23 and two, the low one first. With kind 23 a
/// number below 256 is bad, and so is one that no event has.
fn member_at_front(bytes: &[u8]) -> Option<(u32, usize)> {
    match bytes {
        [0x21, event, ..] => Some((u32::from(*event), 2)),
        [0x23, low, high, ..] => {
            let event = u32::from(u16::from_le_bytes([*low, *high]));
            (FIRST_WIDE_EVENT..MOST_EVENTS as u32).contains(&event).then_some((event, 3))
        }
        _ => None,
    }
}

/// The cut at the front of the bytes, and how many it has: members in rising order; then kind 22.
pub fn cut_at_front(bytes: &[u8]) -> Option<(Set, usize)> {
    let mut set = Set::EMPTY;
    let mut least = 0;
    let mut at = 0;
    while *bytes.get(at)? != 0x22 {
        let (event, length) = member_at_front(&bytes[at..])?;
        if event < least {
            return None;
        }
        set = set.with(event);
        least = event + 1;
        at += length;
    }
    Some((set, at + 1))
}

/// The cuts of a listing, unless it is out of order or has a bad record.
pub fn cuts_of(listing: &[u8]) -> Option<Vec<Cut>> {
    let mut cuts: Vec<Cut> = Vec::new();
    let mut start = 0;
    while start < listing.len() {
        let (set, length) = cut_at_front(&listing[start..])?;
        if cuts.last().is_some_and(|last| !last.set.order(&set).is_lt()) {
            return None;
        }
        cuts.push(Cut { set, start, end: start + length });
        start += length;
    }
    Some(cuts)
}

/// The cuts of both listings, or the side of the bad one; yesterday's fault first.
fn judged(yesterday: &[u8], today: &[u8]) -> Result<[Vec<Cut>; 2], Side> {
    let before = cuts_of(yesterday).ok_or(Side::Yesterday)?;
    let now = cuts_of(today).ok_or(Side::Today)?;
    Ok([before, now])
}

fn sets(cuts: &[Cut]) -> HashSet<Set> {
    cuts.iter().map(|cut| cut.set).collect()
}

pub fn side(yesterday: &[u8], today: &[u8]) -> Verdict {
    first_difference(yesterday, today).verdict
}

pub fn first_difference(yesterday: &[u8], today: &[u8]) -> Difference {
    match judged(yesterday, today) {
        Ok([before, now]) => difference_of(&before, &now),
        Err(side) => Difference { verdict: Verdict::refused(side), ..Difference::default() },
    }
}

pub fn compare(yesterday: &[u8], today: &[u8]) -> Comparison {
    match judged(yesterday, today) {
        Ok([before, now]) => comparison_of(&before, &now),
        Err(side) => Comparison { verdict: Verdict::refused(side), ..Comparison::default() },
    }
}

pub fn difference_of(before: &[Cut], now: &[Cut]) -> Difference {
    let (in_before, in_now) = (sets(before), sets(now));
    let gone = before.iter().filter(|cut| !in_now.contains(&cut.set)).map(|cut| (Side::Yesterday, cut));
    let new = now.iter().filter(|cut| !in_before.contains(&cut.set)).map(|cut| (Side::Today, cut));
    match gone.chain(new).min_by(|(_, one), (_, other)| one.set.order(&other.set)) {
        Some((side, cut)) => Difference { verdict: Verdict::done(side), start: cut.start, length: cut.end - cut.start },
        None => Difference::default(),
    }
}

pub fn comparison_of(before: &[Cut], now: &[Cut]) -> Comparison {
    let (before, now) = (sets(before), sets(now));
    Comparison {
        verdict: Verdict::done(Side::Neither),
        gone: before.difference(&now).count(),
        new: now.difference(&before).count(),
        kept: before.intersection(&now).count(),
    }
}
