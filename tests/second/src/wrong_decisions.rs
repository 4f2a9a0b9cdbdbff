//! Wrong programs, continued: decisions by the list alone.

use crate::changes::Cut;
use crate::decision::{is_beyond, is_part};
use crate::library::*;
use crate::sets::{Set, WORDS};
use crate::tree::{FIRST_WIDE_EVENT, MOST_EVENTS};
use crate::wrong::Wrong::{self, *};
use crate::wrong_changes::cuts_in;

pub fn is_of_decisions(wrong: Wrong) -> bool {
    (TouchesForContains..=DecidedIfNotEmpty).contains(&wrong)
}

/// The wrong program of request 5 that judges a listing as this one does.
fn judging(wrong: Wrong) -> Wrong {
    match wrong {
        DecidedWithoutItsEnd => EndOfCutLacks,
        DecidedOutOfOrder => OrderNotJudged,
        DecidedTwice => CutsMayRepeat,
        DecidedBehindTheEmptyCut => BehindTheEmptyCut,
        DecidedWithFallingMembers => MembersMayFall,
        DecidedWithNarrowMembers => NarrowMembersTaken,
        DecidedWithMembersBeyond => MembersBeyondTaken,
        DecidedWithKind24 => Kind24Passed,
        DecidedIfNoneIsInside => OneInsideAnotherRefused,
        DecidedIfNotEmpty => EmptyListingRefused,
        _ => wrong,
    }
}

/// The members of a cut that the wrong program looks at, as it takes them.
fn members_seen(wrong: Wrong, cut: &Set) -> Vec<u32> {
    let mut members = cut.members();
    match wrong {
        LastMemberUnseen => drop(members.pop()),
        FirstMemberUnseen => members = members.split_off(members.len().min(1)),
        WideMembersUnseen => members.retain(|&event| event < FIRST_WIDE_EVENT),
        WideMembersByTheLowByte => members.iter_mut().for_each(|event| *event %= FIRST_WIDE_EVENT),
        _ => {}
    }
    members
}

/// The set as the wrong program takes it.
fn set_seen(wrong: Wrong, events: u64, set: &Set) -> Set {
    let mut seen = *set;
    match wrong {
        LastWordUnseen => seen.0[WORDS - 1] = 0,
        ComplementTaken => {
            let all = 0..events.min(MOST_EVENTS as u64) as u32;
            seen = all.filter(|&event| !set.holds(event)).fold(Set::EMPTY, Set::with);
        }
        _ => {}
    }
    seen
}

/// Whether the wrong program finds this cut in the set.
fn is_found(wrong: Wrong, cut: &Set, set: &Set) -> bool {
    let members = members_seen(wrong, cut);
    match wrong {
        TouchesForContains => members.iter().any(|&event| set.holds(event)),
        PartOfACut => is_part(set, cut),
        EqualToACut => cut == set,
        EmptyCutNeverFails if members.is_empty() => false,
        _ => members.iter().all(|&event| set.holds(event)),
    }
}

/// Whether the root fails, by these cuts.
fn fails(wrong: Wrong, cuts: &[Cut], set: &Set) -> bool {
    let seen = match wrong {
        LastCutUnseen => &cuts[..cuts.len().saturating_sub(1)],
        FirstCutUnseen => &cuts[cuts.len().min(1)..],
        LastCutDecides => &cuts[cuts.len().saturating_sub(1)..],
        CutsBehindTheHundredthUnseen => &cuts[..cuts.len().min(100)],
        _ => cuts,
    };
    let found = |cut: &Cut| is_found(wrong, &cut.set, set);
    match wrong {
        EveryCutContained => !seen.is_empty() && seen.iter().all(found),
        NoCutAlwaysFails if seen.is_empty() => true,
        SetThatFailsNothing if *set == Set::EMPTY => false,
        _ => seen.iter().any(found),
    }
}

fn beyond(wrong: Wrong, cuts: &[Cut], events: u64, set: &Set) -> bool {
    let listed = || cuts.iter().any(|cut| is_beyond(&cut.set, events));
    match wrong {
        BeyondPasses => false,
        BeyondByOnePasses => is_beyond(set, events.saturating_add(1)),
        BeyondOfLowWords => set.holds_any(events.min(256) as u32..256),
        EventsByTheLowBits => is_beyond(set, events % 65_536),
        NoEventsRefused => events == 0 || is_beyond(set, events),
        ManyEventsRefused => events > MOST_EVENTS as u64 || is_beyond(set, events),
        ListedBeyondIsThirteen => listed() || is_beyond(set, events),
        _ => is_beyond(set, events),
    }
}

pub fn wrong_decision(wrong: Wrong, listing: &[u8], events: u64, set: &Set) -> DecidedAnswer {
    let (cuts, mut good) = cuts_in(judging(wrong), listing);
    let seen = set_seen(wrong, events, set);
    let fails = fails(wrong, &cuts, &seen);
    let beyond = beyond(wrong, &cuts, events, set);
    match wrong {
        DecidedBeforeALaterFault => good |= fails,
        ListedBeyondRefused => good &= !cuts.iter().any(|cut| is_beyond(&cut.set, events)),
        _ => {}
    }
    let number = match (good, beyond) {
        (false, true) if wrong == ThirteenBeforeTwenty => 13,
        (false, _) => 20,
        (true, true) => 13,
        (true, false) => 0,
    };
    let place = match (wrong, number) {
        (PlaceToldWithTwenty, 20) => cuts.last().map_or(0, |cut| cut.end as u64),
        (PlaceToldWithThirteen, 13) => {
            set.members().into_iter().map(u64::from).find(|&event| event >= events).unwrap_or(0)
        }
        (PlaceOfTheCutTold, 0) => cuts.iter().find(|cut| is_part(&cut.set, set)).map_or(0, |cut| cut.start as u64),
        _ => 0,
    };
    let told = matches!((wrong, number), (_, 0) | (FailsToldWithTwenty, 20) | (FailsToldWithThirteen, 13));
    DecidedAnswer { number, place, fails: told && fails }
}
