//! Wrong programs, continued: the planner.

use crate::lent::Lent;
use crate::library::*;
use crate::listing::Walk;
use crate::mirror::{told_cut, told_judgement, told_plan, Mirror};
use crate::planner::*;
use crate::sets::{Set, WORDS};
use crate::tree::MOST_EVENTS;
use crate::wrong::Wrong::{self, *};

/// Families of more cuts than this are answered as they should be, where a fault needs them all.
const MOST_CUTS: usize = 400;

pub fn is_of_plans(wrong: Wrong) -> bool {
    (NineBeforeTwelveOfPlans..=SetToldWithNineteen).contains(&wrong)
}

/// Every rule for itself, in the wrong program's order.
fn refusal_seen(wrong: Wrong, diagram: &Lent, suffice: bool, set: &Set) -> Option<u32> {
    let events = diagram.event_count.min(MOST_EVENTS as u64) as u32;
    let broken = |number: &u32| match (number, wrong) {
        (12, _) => !diagram.is_diagram(),
        (9, _) => !suffice,
        (_, MembersBeyondPass) => false,
        (_, MembersBeyondOfLowWords) => set.holds_any(events.min(256)..256),
        _ => set.holds_any(events..MOST_EVENTS as u32),
    };
    let order = match wrong {
        NineBeforeTwelveOfPlans => [9, 12, 13],
        ThirteenBeforeNineOfPlans => [12, 13, 9],
        _ => [12, 9, 13],
    };
    order.into_iter().find(broken)
}

fn missing_suffices(wrong: Wrong, diagram: &Lent, some: &[u32]) -> bool {
    match wrong {
        MissingAreaByTheCount => some.len() as u64 >= diagram.node_count + 2,
        MissingAreaWithoutLeaves => some.len() >= diagram.table.len() / 3,
        _ => Mirror.missing_suffices(diagram.table.len(), some),
    }
}

fn holding_suffices(wrong: Wrong, diagram: &Lent, work: &[&mut [u64]; HOLDING_AREAS]) -> bool {
    let least = match wrong {
        HoldingAreasByTheCount => 2 * (diagram.node_count as usize + 2),
        HoldingAreasOfOneNumber => diagram.table.len() / 3 + 2,
        _ => return Mirror.holding_suffices(diagram.table.len(), work),
    };
    work.iter().all(|area| area.len() >= least)
}

fn all_cuts(diagram: &Lent) -> Option<Vec<Set>> {
    let cuts: Vec<Set> = Walk::new(diagram, None).take(MOST_CUTS + 1).collect();
    (cuts.len() <= MOST_CUTS).then_some(cuts)
}

/// Those that hold no other.
fn minimal(cuts: &[Set]) -> Vec<Set> {
    let within =
        |one: &Set, other: &Set| one != other && one.0.iter().zip(other.0).all(|(one, other)| one & !other == 0);
    cuts.iter().filter(|cut| !cuts.iter().any(|other| within(other, cut))).copied().collect()
}

/// The cut that the wrong program takes for the first that misses the set.
fn cut_seen(wrong: Wrong, diagram: &Lent, set: Set) -> Option<Set> {
    let mut set = set;
    if wrong == HighMembersNotKept {
        set.0[4..].fill(0);
    }
    let right = first_missing(diagram, set);
    let of_all = |cuts: Vec<Set>| {
        let mut missing = cuts.into_iter().filter(|cut| misses(cut, &set));
        match wrong {
            LastCutThatMisses => missing.last(),
            ShortestCutThatMisses => missing.min_by_key(|cut| cut.members().len()),
            _ => missing.next(),
        }
    };
    match wrong {
        EmptyCutMissesNothing => right.filter(|cut| *cut != Set::EMPTY),
        LastCutThatMisses | ShortestCutThatMisses => all_cuts(diagram).map_or(right, of_all),
        MinimalCutsAlone => all_cuts(diagram).map_or(right, |cuts| of_all(minimal(&cuts))),
        FirstCutOfAll if right.is_some() => Walk::new(diagram, None).next(),
        _ => right,
    }
}

pub fn wrong_missing(wrong: Wrong, diagram: &Lent, set: Set, some: &mut [u32]) -> MissedAnswer {
    let refused = refusal_seen(wrong, diagram, missing_suffices(wrong, diagram, some), &set);
    let found = refused.map_or_else(|| Ok(cut_seen(wrong, diagram, set)), Err);
    leave(wrong, found.err().unwrap_or(0), &mut [some]);
    let mut answer = told_cut(found);
    match (wrong, found) {
        (ThirteenSaysTheMember, Err(13)) => answer.place = diagram.event_count,
        (EmptyCutNotFound, Ok(Some(Set::EMPTY))) => answer.found = false,
        (SetToldForNoCut, Ok(None)) => answer.cut = set,
        _ => {}
    }
    answer
}

/// What the wrong program says of a set.
fn judgement_seen(wrong: Wrong, diagram: &Lent, set: Set) -> Judgement {
    let missing = |set: Set| cut_seen(wrong, diagram, set);
    let left = |set: &Set| missing_below(diagram, set)[diagram.root as usize];
    let members = set.members();
    if wrong == MemberToldFirst {
        let all = left(&set);
        if let Some(&member) = members.iter().find(|&&member| left(&without(set, member)) == all) {
            return Judgement::Droppable(member);
        }
    }
    if let Some(cut) = missing(set) {
        return Judgement::Missed(cut);
    }
    let all = held(diagram, &Set::EMPTY);
    let droppable = |member: &&u32| match wrong {
        OnlyMembersOfNoCut => all[**member as usize] == 0,
        NoMemberIsJudged => false,
        LastMemberNotJudged if Some(*member) == members.last() => false,
        _ => missing(without(set, **member)).is_none(),
    };
    let told = match wrong {
        HighestMemberTold => members.iter().rev().find(droppable),
        _ => members.iter().find(droppable),
    };
    match told {
        Some(&member) => Judgement::Droppable(member),
        None if wrong == EmptySetNeverAccepted && members.is_empty() => Judgement::Missed(Set::EMPTY),
        None => Judgement::Accepted,
    }
}

pub fn wrong_check(wrong: Wrong, diagram: &Lent, set: Set, some: &mut [u32]) -> CheckAnswer {
    let refused = refusal_seen(wrong, diagram, missing_suffices(wrong, diagram, some), &set);
    let judged = refused.map_or_else(|| Ok(judgement_seen(wrong, diagram, set)), Err);
    leave(wrong, judged.err().unwrap_or(0), &mut [some]);
    let mut answer = told_judgement(judged);
    match (wrong, judged) {
        (ThirteenSaysTheMember, Err(13)) => answer.place = diagram.event_count,
        (PlaceSaysTheMember, Ok(Judgement::Droppable(member))) => answer.place = member as u64,
        (AcceptedInARefusal, Err(_)) => answer.said = ACCEPTED,
        (CutToldWithTheMember, Ok(Judgement::Droppable(member))) => {
            answer.cut = first_missing(diagram, Set::EMPTY).unwrap_or(Set::of(&[member]));
        }
        (MemberToldWithTheCut, Ok(Judgement::Missed(_))) => {
            answer.member = set.members().last().map_or(0, |&member| member as u64);
        }
        (AreaLeftWithAMember, Ok(Judgement::Droppable(_))) => some[1] = 1,
        _ => {}
    }
    answer
}

/// How often each event is in these cuts.
fn count(cuts: &[Set], events: u64) -> Vec<u128> {
    (0..events as u32).map(|event| cuts.iter().filter(|cut| cut.holds(event)).count() as u128).collect()
}

/// The counts that the wrong program makes, too large ones and all.
fn counts_seen(wrong: Wrong, diagram: &Lent, set: &Set) -> Vec<u128> {
    let right = held(diagram, set);
    let events = diagram.event_count;
    match wrong {
        CountsOfAllCuts => held(diagram, &Set::EMPTY),
        CountsOfCutsThatMeet => {
            let all = held(diagram, &Set::EMPTY);
            all.into_iter().zip(right).map(|(all, right)| all.saturating_sub(right)).collect()
        }
        MembersStillCounted => {
            let all = held(diagram, &Set::EMPTY);
            let of = |(event, right)| if set.holds(event as u32) { all[event] } else { right };
            right.into_iter().enumerate().map(of).collect()
        }
        MinimalCutsCounted => all_cuts(diagram).map_or(right, |cuts| {
            let left: Vec<Set> = minimal(&cuts).into_iter().filter(|cut| misses(cut, set)).collect();
            count(&left, events)
        }),
        NodesCountedForCuts => {
            let below = missing_below(diagram, set);
            let mut counts = vec![0; events as usize];
            for node in diagram.reached().into_iter().filter(|&node| !set.holds(diagram.event(node))) {
                counts[diagram.event(node) as usize] += below[diagram.failed(node) as usize].min(1 << 100);
            }
            counts
        }
        _ => right,
    }
}

/// The counts as they are answered, or 19.
fn answered(wrong: Wrong, diagram: &Lent, set: &Set, counts: Vec<u128>) -> Result<Vec<u64>, u32> {
    let largest = u64::MAX as u128;
    let total = || missing_below(diagram, set)[diagram.root as usize] > largest;
    let unreached = || {
        let tops = (2..diagram.node_count + 2).rev().take(300);
        tops.into_iter().any(|root| holding(&Lent { root, ..diagram.clone() }, set).is_err())
    };
    let refused = match wrong {
        CountsHeldAtTheLargest => false,
        LargestCountIsNineteen => counts.iter().any(|&count| count >= largest),
        NineteenByTheNumberOfCuts => total(),
        NineteenByAnUnreachedNode => unreached(),
        _ => counts.iter().any(|&count| count > largest),
    };
    let low = |count: u128| match wrong {
        CountsHeldAtTheLargest => count.min(largest) as u64,
        _ => count as u64,
    };
    if refused {
        return Err(19);
    }
    Ok(counts.into_iter().map(low).collect())
}

pub fn wrong_holding(wrong: Wrong, diagram: &Lent, set: Set, areas: HoldingAreas) -> HeldAnswer {
    let HoldingAreas { counts, work } = areas;
    let reaches = match wrong {
        CountsOneShortPass => counts.len() as u64 + 1 >= diagram.event_count,
        _ => counts.len() as u64 >= diagram.event_count,
    };
    let suffice = reaches && holding_suffices(wrong, diagram, &work);
    let mut refused = refusal_seen(wrong, diagram, suffice, &set);
    if wrong == NineteenBeforeThirteen && refused == Some(13) && holding(diagram, &Set::EMPTY).is_err() {
        refused = Some(19);
    }
    let own = refused.map_or_else(|| answered(wrong, diagram, &set, counts_seen(wrong, diagram, &set)), Err);
    let number = *own.as_ref().err().unwrap_or(&0);
    leave_both(wrong, number, work);
    match own {
        Ok(own) => {
            let length = own.len().min(counts.len());
            counts[..length].copy_from_slice(&own[..length]);
            if wrong == ZerosBehindTheHeld {
                counts[length..].fill(0);
            }
        }
        Err(19) if wrong == HeldWrittenBeforeNineteen => {
            if let Some(first) = counts.first_mut() {
                *first = 0;
            }
        }
        Err(_) => {}
    }
    let place = if wrong == ThirteenSaysTheMember && number == 13 { diagram.event_count } else { 0 };
    HeldAnswer { number, place }
}

/// The event that the wrong program takes next. Some count of what is left is not 0; `first` are the counts of all cuts.
fn event_seen(wrong: Wrong, diagram: &Lent, set: Set, first: &[u64], left: &[u64]) -> Option<u32> {
    let last_with = |count: Option<&u64>| left.iter().rposition(|own| Some(own) == count).map(|event| event as u32);
    let first_with = |count: Option<&u64>| left.iter().position(|own| Some(own) == count).map(|event| event as u32);
    match wrong {
        TiesToTheHigherNumber => last_with(left.iter().max()),
        TakesTheFewest => first_with(left.iter().filter(|&&count| count > 0).min()),
        TakesTheFirstCutsEvent => first_missing(diagram, set)?.members().first().copied(),
        CountsOfAllCuts => {
            let old = |(event, &count)| if set.holds(event as u32) { 0 } else { count };
            most(&first.iter().enumerate().map(old).collect::<Vec<u64>>())
        }
        _ => most(left),
    }
}

/// The set that the wrong program proposes.
fn plan_seen(wrong: Wrong, diagram: &Lent) -> Result<Set, u32> {
    let seen = |set: &Set| answered(wrong, diagram, set, counts_seen(wrong, diagram, set));
    let first = seen(&Set::EMPTY)?;
    let all = Set([u64::MAX; WORDS]);
    if wrong == EmptyCutEndsThePlan && first_missing(diagram, all).is_some() {
        return Ok(Set::EMPTY);
    }
    let mut set = Set::EMPTY;
    // A wrong program too comes to an end: each event is taken once.
    for _ in 0..if wrong == OneEventAlone { 1 } else { diagram.event_count } {
        let left = match wrong {
            CountsOfAllCuts | CountsOfCutsThatMeet | MembersStillCounted => holding(diagram, &set)?,
            _ => seen(&set)?,
        };
        match event_seen(wrong, diagram, set, &first, &left) {
            Some(event) if left.iter().any(|&count| count > 0) => set = set.with(event),
            _ => break,
        }
    }
    match wrong {
        PlanIsPruned if is_safe(diagram, &set) => {
            let spared =
                |set: Set, member| if is_safe(diagram, &without(set, member)) { without(set, member) } else { set };
            set = set.members().into_iter().fold(set, spared);
        }
        PlanCutToAByte => set.0[4..].fill(0),
        _ => {}
    }
    Ok(set)
}

pub fn wrong_plan(wrong: Wrong, diagram: &Lent, work: [&mut [u64]; HOLDING_AREAS]) -> PlanAnswer {
    let suffice = holding_suffices(wrong, diagram, &work);
    let refused = refusal_seen(wrong, diagram, suffice, &Set::EMPTY);
    let planned = refused.map_or_else(|| plan_seen(wrong, diagram), Err);
    leave_both(wrong, planned.err().unwrap_or(0), work);
    let mut answer = told_plan(planned);
    if wrong == SetToldWithNineteen && planned == Err(19) {
        answer.set = Set::of(&[0]);
    }
    answer
}

fn leave(wrong: Wrong, number: u32, areas: &mut [&mut [u32]]) {
    let clears = number == 0 || wrong == PlannerClearsOnThirteen && number == 13;
    for area in areas.iter_mut().filter(|_| clears) {
        area.fill(0);
        if wrong == MissingAreaLeftDirty && number == 0 {
            *area.last_mut().expect("an area has numbers") = 1;
        }
    }
}

fn leave_both(wrong: Wrong, number: u32, mut work: [&mut [u64]; HOLDING_AREAS]) {
    let clears = match wrong {
        HoldingAreasStayOnNineteen => number == 0,
        PlannerClearsOnThirteen => [0, 13, 19].contains(&number),
        _ => [0, 19].contains(&number),
    };
    if clears {
        work.iter_mut().for_each(|area| area.fill(0));
    }
    if wrong == HoldingAreaLeftDirty && number == 0 {
        *work[0].last_mut().expect("an area has numbers") = 1;
    }
}
