//! Request 11: the maintenance day planner. A set of events to be kept sound is checked, and one is proposed.

use crate::lent::Lent;
use crate::listing::{names_beyond, Walk};
use crate::sets::Set;

/// The areas that the counting works in, and so the planner.
pub const HOLDING_AREAS: usize = 2;

/// The four things that the checker may say; 0 goes with a refusal.
pub const ACCEPTED: u64 = 1;
pub const CUT_MISSES: u64 = 2;
pub const DROPPABLE: u64 = 3;

/// A cut misses a set that has none of its events.
pub fn misses(cut: &Set, set: &Set) -> bool {
    cut.0.iter().zip(set.0).all(|(cut, set)| cut & set == 0)
}

/// 12, then 9, then 13. `suffice`: what is lent is long enough.
pub fn refusal(diagram: &Lent, suffice: bool, set: Set) -> Option<u32> {
    if !diagram.is_diagram() {
        return Some(12);
    }
    if !suffice {
        return Some(9);
    }
    names_beyond(diagram, Some(set)).then_some(13)
}

/// Of the leaves and of each node that the root reaches: how many sets below it miss this one. Numbers of 2^128 and more stand as 2^128 − 1.
pub fn missing_below(diagram: &Lent, set: &Set) -> Vec<u128> {
    let mut below = vec![0u128; diagram.node_count as usize + 2];
    below[1] = 1;
    for node in diagram.reached() {
        let failed = if set.holds(diagram.event(node)) { 0 } else { below[diagram.failed(node) as usize] };
        below[node as usize] = failed.saturating_add(below[diagram.sound(node) as usize]);
    }
    below
}

/// The first cut in listing order that misses the set.
pub fn first_missing(diagram: &Lent, set: Set) -> Option<Set> {
    let below = missing_below(diagram, &set);
    let enter = move |node: u32, members: &Set| below[node as usize] > 0 && misses(members, &set);
    Walk::where_worth(diagram, None, Box::new(enter)).next()
}

/// Whether the root can't fail while these events are sound: every cut has one of them.
pub fn is_safe(diagram: &Lent, set: &Set) -> bool {
    missing_below(diagram, set)[diagram.root as usize] == 0
}

/// What the checker says of a set that is not refused.
#[derive(Clone, Copy, Debug, PartialEq, Eq)]
pub enum Judgement {
    Accepted,
    /// This cut misses it, and none before.
    Missed(Set),
    /// This member could be dropped, and no lower one.
    Droppable(u32),
}

/// The missing cut in preference.
pub fn judge(diagram: &Lent, set: Set) -> Judgement {
    if let Some(cut) = first_missing(diagram, set) {
        return Judgement::Missed(cut);
    }
    match set.members().into_iter().find(|&member| is_safe(diagram, &without(set, member))) {
        Some(member) => Judgement::Droppable(member),
        None => Judgement::Accepted,
    }
}

pub fn without(mut set: Set, event: u32) -> Set {
    set.0[event as usize / 64] &= !(1 << (event % 64));
    set
}

/// For each event the number of cuts that miss the set and hold the event; too large ones as above.
pub fn held(diagram: &Lent, set: &Set) -> Vec<u128> {
    let below = missing_below(diagram, set);
    // How many ways lead to each node from the root that hold no event of the set.
    let mut ways = vec![0u128; below.len()];
    ways[diagram.root as usize] = 1;
    let mut counts = vec![0u128; diagram.event_count as usize];
    for node in diagram.reached().into_iter().rev() {
        let (own, event) = (ways[node as usize], diagram.event(node));
        let (failed, sound) = (diagram.failed(node) as usize, diagram.sound(node) as usize);
        ways[sound] = ways[sound].saturating_add(own);
        if !set.holds(event) {
            ways[failed] = ways[failed].saturating_add(own);
            let count = &mut counts[event as usize];
            *count = count.saturating_add(own.saturating_mul(below[failed]));
        }
    }
    counts
}

/// The counts; 19 if one of them is above 2^64 − 1.
pub fn holding(diagram: &Lent, set: &Set) -> Result<Vec<u64>, u32> {
    held(diagram, set).into_iter().map(|count| u64::try_from(count).or(Err(19))).collect()
}

/// The event in the most cuts that are left, ties to the lower number, until no cut left holds an event.
pub fn plan(diagram: &Lent) -> Result<Set, u32> {
    let mut set = Set::EMPTY;
    while let Some(event) = most(&holding(diagram, &set)?) {
        set = set.with(event);
    }
    Ok(set)
}

/// The lowest event of those with the greatest count, which is not 0.
pub fn most(counts: &[u64]) -> Option<u32> {
    let greatest = counts.iter().copied().max().filter(|&count| count > 0)?;
    counts.iter().position(|&count| count == greatest).map(|event| event as u32)
}
