//! Wrong programs, continued: two listings compared. Most take other bytes for a listing, or change what the mirror answers.

use crate::changes::*;
use crate::library::*;
use crate::mirror::Mirror;
use crate::sets::Set;
use crate::tree::{FIRST_WIDE_EVENT, MOST_EVENTS};
use crate::wrong::Wrong::{self, *};
use std::cmp::Ordering;

/// The cut at the front as the wrong program reads it.
fn cut_at(wrong: Wrong, bytes: &[u8]) -> Option<(Set, usize)> {
    let mut set = Set::EMPTY;
    let mut last = None;
    let mut at = 0;
    loop {
        let Some(&kind) = bytes.get(at) else { return (wrong == EndOfCutLacks).then_some((set, at)) };
        let length = match (wrong, kind) {
            (_, 0x22) => return Some((set, at + 1)),
            (_, 0x21) => 2,
            (WideMembersRefused, 0x23) => return None,
            (_, 0x23) | (Kind24Passed, 0x24) => 3,
            (UnknownKindsPassed, 0x25..) => 1,
            _ => return None,
        };
        let body = bytes.get(at + 1..at + length)?;
        if kind == 0x21 || kind == 0x23 {
            let event = body.iter().rev().fold(0, |number, &byte| 256 * number + u32::from(byte));
            let known = match kind {
                0x23 if event < FIRST_WIDE_EVENT => wrong == NarrowMembersTaken,
                0x23 if event >= MOST_EVENTS as u32 => wrong == MembersBeyondTaken,
                _ => true,
            };
            let rises = match last {
                Some(last) if event == last => wrong == MembersMayRepeat,
                Some(last) if event < last => wrong == MembersMayFall,
                _ => true,
            };
            if !(known && rises) {
                return None;
            }
            if wrong != HighMembersNotCompared || event < FIRST_WIDE_EVENT {
                // A number that no event has stands for the last event.
                set = set.with(event.min(MOST_EVENTS as u32 - 1));
            }
            last = Some(event);
        }
        at += length;
    }
}

/// The lowest member in which they differ decides, and a set inside another comes first.
fn subsets_first(one: &Set, other: &Set) -> Ordering {
    one.members().cmp(&other.members())
}

fn follows(wrong: Wrong, last: &Set, set: &Set) -> bool {
    match wrong {
        CutsMayRepeat => last.order(set).is_le(),
        BehindTheEmptyCut => *last == Set::EMPTY || last.order(set).is_lt(),
        OrderNotJudged => true,
        SubsetsComeFirst => subsets_first(last, set).is_lt(),
        _ => last.order(set).is_lt(),
    }
}

/// The cuts that the wrong program takes from the front of a listing, and whether that is all of it.
pub fn cuts_in(wrong: Wrong, listing: &[u8]) -> (Vec<Cut>, bool) {
    let mut cuts: Vec<Cut> = Vec::new();
    let mut start = 0;
    while start < listing.len() {
        match cut_at(wrong, &listing[start..]) {
            Some((set, length)) if cuts.last().is_none_or(|last| follows(wrong, &last.set, &set)) => {
                cuts.push(Cut { set, start, end: start + length });
                start += length;
            }
            _ => return (cuts, false),
        }
    }
    let refused = match wrong {
        EmptyListingRefused => listing.is_empty(),
        OneInsideAnotherRefused => {
            let inside = |one: &Cut, other: &Cut| one.set.members().iter().all(|&event| other.set.holds(event));
            cuts.iter().any(|one| cuts.iter().any(|other| one != other && inside(one, other)))
        }
        _ => false,
    };
    (cuts, !refused)
}

fn judged(wrong: Wrong, yesterday: &[u8], today: &[u8]) -> Result<[Vec<Cut>; 2], Side> {
    let ((before, before_good), (now, now_good)) = (cuts_in(wrong, yesterday), cuts_in(wrong, today));
    let stops_early = || before.iter().zip(&now).any(|(one, other)| one.set != other.set);
    match (before_good, now_good) {
        (true, true) => Ok([before, now]),
        _ if wrong == FaultBehindTheDifference && stops_early() => Ok([before, now]),
        (false, false) if wrong == TodaysFaultFirst => Err(Side::Today),
        (false, _) => Err(Side::Yesterday),
        _ => Err(Side::Today),
    }
}

/// The first place where the two differ, yesterday's cut there, or today's where yesterday has no more.
fn by_position(before: &[Cut], now: &[Cut]) -> Difference {
    let same = before.iter().zip(now).take_while(|(one, other)| one.set == other.set).count();
    let part =
        |side, cut: &Cut| Difference { verdict: Verdict::done(side), start: cut.start, length: cut.end - cut.start };
    match (before.get(same), now.get(same)) {
        (Some(cut), _) => part(Side::Yesterday, cut),
        (None, Some(cut)) => part(Side::Today, cut),
        (None, None) => Difference::default(),
    }
}

pub fn wrong_difference(wrong: Wrong, yesterday: &[u8], today: &[u8]) -> Difference {
    let mut answer = match judged(wrong, yesterday, today) {
        Err(side) => Difference { verdict: Verdict::refused(side), ..Difference::default() },
        Ok([before, now]) if wrong == DifferenceByPosition => by_position(&before, &now),
        Ok([before, now]) => difference_of(&before, &now),
    };
    match (wrong, answer.verdict.side) {
        (PartWithoutItsEnd, Side::Yesterday | Side::Today) if answer.length > 0 => answer.length -= 1,
        (PartToTheEnd, Side::Yesterday) if answer.length > 0 => answer.length = yesterday.len() - answer.start,
        (PartFromTheDifference, Side::Yesterday | Side::Today) if answer.length > 0 => {
            let end = answer.start + answer.length;
            let same = yesterday.iter().zip(today).take_while(|(one, other)| one == other).count();
            answer.start = same.min(end - 1);
            answer.length = end - answer.start;
        }
        (PartIsTheWholeWhereEqual, Side::Neither) => answer.length = yesterday.len(),
        (FaultAtItsPlace, _) if answer.verdict.number == 20 => {
            let listing = if answer.verdict.side == Side::Yesterday { yesterday } else { today };
            answer.verdict.place = cuts_in(wrong, listing).0.last().map_or(0, |cut| cut.end as u64);
        }
        _ => {}
    }
    answer
}

pub fn wrong_side(wrong: Wrong, yesterday: &[u8], today: &[u8]) -> Verdict {
    let verdict = wrong_difference(wrong, yesterday, today).verdict;
    match (wrong, verdict.number) {
        (SideOfTheLonger, 0) if yesterday.len() < today.len() => Verdict::done(Side::Today),
        (SideOfTheLonger, 0) if today.len() < yesterday.len() => Verdict::done(Side::Yesterday),
        _ => verdict,
    }
}

pub fn wrong_compare(wrong: Wrong, yesterday: &[u8], today: &[u8]) -> Comparison {
    let right = Mirror.compare(yesterday, today);
    match (wrong, judged(wrong, yesterday, today)) {
        (GoneTakenForNew, Ok(_)) => Comparison { gone: right.new, new: right.gone, ..right },
        (KeptByPosition, Ok([before, now])) => {
            let kept = before.iter().zip(&now).filter(|(one, other)| one.set == other.set).count();
            Comparison { kept, gone: before.len() - kept, new: now.len() - kept, ..right }
        }
        (CountsInARefusal, Err(Side::Today)) => Comparison { gone: cuts_in(wrong, yesterday).0.len(), ..right },
        (_, Ok([before, now])) => comparison_of(&before, &now),
        (_, Err(side)) => Comparison { verdict: Verdict::refused(side), ..Comparison::default() },
    }
}
