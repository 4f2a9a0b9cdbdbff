//! Request 11 in figures: families whose plans and judgements are written out, and seeded sets to be checked.

use crate::families::{all_but_one, every_set, of_sets, one_set, pairs_and_one};
use crate::lent::{Lent, Sort};
use crate::planner::{is_safe, plan, without, Judgement};
use crate::random::Random;
use crate::sets::Set;
use crate::tree::MOST_EVENTS;

/// A family, the set that is proposed of it or 19, and what is said of some sets.
pub struct Known {
    pub what: &'static str,
    pub family: Lent,
    pub plan: Result<Set, u32>,
    pub judged: Vec<(Set, Judgement)>,
}

fn set(members: &[u32]) -> Set {
    Set::of(members)
}

fn sets(lists: &[&[u32]]) -> Vec<Set> {
    let mut sets: Vec<Set> = lists.iter().map(|list| set(list)).collect();
    sets.sort_by(Set::order);
    sets
}

fn family(events: u32, lists: &[&[u32]]) -> Lent {
    of_sets(events, &sets(lists))
}

/// No node at all: the root is a leaf.
fn leaf(events: u64, root: u64) -> Lent {
    Lent { sort: Sort::Cuts, event_count: events, table: Vec::new(), node_count: 0, root }
}

fn accepted(members: &[u32]) -> (Set, Judgement) {
    (set(members), Judgement::Accepted)
}

fn missed(members: &[u32], cut: &[u32]) -> (Set, Judgement) {
    (set(members), Judgement::Missed(set(cut)))
}

fn droppable(members: &[u32], member: u32) -> (Set, Judgement) {
    (set(members), Judgement::Droppable(member))
}

/// The family with one event more, number 0, in each of its sets; the other events' numbers are one higher.
pub fn all_with_one_more(lent: &Lent) -> Lent {
    let nodes = lent.table.chunks_exact(3).take(lent.node_count as usize);
    let mut table: Vec<u32> = nodes.flat_map(|node| [node[0] + 1, node[1], node[2]]).collect();
    table.extend([0, lent.root as u32, 0]);
    let node_count = lent.node_count + 1;
    Lent { table, event_count: lent.event_count + 1, node_count, root: node_count + 1, ..*lent }
}

pub fn all_known() -> Vec<Known> {
    small().into_iter().chain(no_antichains()).chain(huge()).collect()
}

/// As a tree's cuts may be.
fn small() -> Vec<Known> {
    vec![
        Known {
            what: "the plan has a member too many",
            family: family(7, &[&[0, 1], &[0, 2], &[0, 3], &[1, 4], &[2, 5], &[3, 6]]),
            plan: Ok(set(&[0, 1, 2, 3])),
            judged: vec![
                droppable(&[0, 1, 2, 3], 0),
                accepted(&[1, 2, 3]),
                accepted(&[0, 4, 5, 6]),
                missed(&[0, 1, 2], &[3, 6]),
                missed(&[], &[0, 1]),
                missed(&[4, 5, 6], &[0, 1]),
                missed(&[0, 4], &[2, 5]),
                droppable(&[0, 1, 2, 3, 4, 5, 6], 0),
                droppable(&[1, 2, 3, 5, 6], 5),
                droppable(&[0, 1, 4, 5, 6], 1),
            ],
        },
        Known {
            what: "a root that always fails",
            family: leaf(3, 1),
            plan: Ok(Set::EMPTY),
            judged: vec![missed(&[], &[]), missed(&[0], &[]), missed(&[0, 1, 2], &[])],
        },
        Known {
            what: "a root that can't fail",
            family: leaf(3, 0),
            plan: Ok(Set::EMPTY),
            judged: vec![accepted(&[]), droppable(&[2], 2), droppable(&[1, 2], 1)],
        },
        Known {
            what: "one cut",
            family: family(3, &[&[0, 2]]),
            plan: Ok(set(&[0])),
            judged: vec![
                accepted(&[0]),
                accepted(&[2]),
                droppable(&[0, 2], 0),
                droppable(&[0, 1], 1),
                missed(&[1], &[0, 2]),
            ],
        },
        Known {
            what: "the greatest count goes first",
            family: family(3, &[&[0, 2], &[1, 2]]),
            plan: Ok(set(&[2])),
            judged: vec![accepted(&[2]), accepted(&[0, 1]), droppable(&[0, 1, 2], 0), droppable(&[1, 2], 1)],
        },
        Known {
            what: "ties go to the lower number",
            family: family(3, &[&[0, 1], &[2]]),
            plan: Ok(set(&[0, 2])),
            judged: vec![accepted(&[0, 2]), accepted(&[1, 2]), missed(&[2], &[0, 1]), missed(&[1], &[2])],
        },
        Known {
            what: "cuts that no longer remain do not count",
            family: family(6, &[&[0, 1, 2], &[0, 1, 3], &[0, 1, 4], &[5]]),
            plan: Ok(set(&[0, 5])),
            judged: vec![accepted(&[0, 5]), droppable(&[0, 1, 5], 0), droppable(&[1, 2, 5], 2)],
        },
        Known {
            what: "the first cut in the order of listings, not the shortest",
            family: family(5, &[&[0, 1, 2], &[3], &[1, 4]]),
            plan: Ok(set(&[1, 3])),
            judged: vec![missed(&[], &[0, 1, 2]), missed(&[2], &[1, 4]), missed(&[1], &[3]), accepted(&[1, 3])],
        },
        Known {
            what: "events on both sides of 256",
            family: family(1_024, &[&[0, 256], &[255, 257], &[1, 1_023], &[2, 1_023], &[257, 1_023]]),
            plan: Ok(set(&[0, 255, 1_023])),
            judged: vec![
                accepted(&[0, 255, 1_023]),
                accepted(&[256, 257, 1_023]),
                missed(&[0, 1, 2, 255], &[257, 1_023]),
                droppable(&[0, 1, 257, 1_023], 1),
            ],
        },
    ]
}

/// Lent families with sets inside others: the sets stand for themselves, and the root fails with any of them.
fn no_antichains() -> Vec<Known> {
    vec![
        Known {
            what: "the empty set among others",
            family: family(2, &[&[0, 1], &[0], &[]]),
            plan: Ok(set(&[0])),
            judged: vec![missed(&[], &[0, 1]), missed(&[0], &[]), missed(&[1], &[0]), missed(&[0, 1], &[])],
        },
        Known {
            what: "a set inside another",
            family: family(3, &[&[0, 1, 2], &[1]]),
            plan: Ok(set(&[1])),
            judged: vec![missed(&[], &[0, 1, 2]), missed(&[0], &[1]), accepted(&[1]), droppable(&[0, 1], 0)],
        },
        Known {
            what: "sets that hold others count",
            // The minimal ones are {1} and {2, 3}, each event in one of them.
            family: family(5, &[&[0, 1], &[1], &[1, 4], &[2, 3], &[2, 3, 4], &[0, 2, 3, 4]]),
            plan: Ok(set(&[1, 2])),
            judged: vec![accepted(&[1, 2]), accepted(&[1, 3]), missed(&[0, 4], &[1]), droppable(&[1, 2, 4], 4)],
        },
        Known {
            what: "every set of four events",
            family: every_set(4),
            plan: Ok(set(&[0, 1, 2, 3])),
            judged: vec![missed(&[0, 1, 2, 3], &[]), missed(&[0], &[1, 2, 3])],
        },
    ]
}

/// Counts around 2^64.
fn huge() -> Vec<Known> {
    let all: Vec<u32> = (0..1_024).collect();
    // A root of one set in a table that has 2^64 of another.
    let whole = pairs_and_one(65, None);
    let small = {
        let mut table = whole.table.clone();
        table.extend([3, 1, 0]);
        let node_count = whole.node_count + 1;
        Lent { table, node_count, root: node_count + 1, ..whole }
    };
    vec![
        Known {
            what: "2^64 cuts, of which each event is in half",
            family: pairs_and_one(64, None),
            plan: Ok(set(&[0, 1])),
            judged: vec![accepted(&[0, 1]), accepted(&[126, 127]), droppable(&[0, 1, 2], 2), droppable(&[0, 2, 3], 0)],
        },
        Known {
            what: "2^65 cuts, of which each event is in 2^64",
            family: pairs_and_one(65, None),
            plan: Err(19),
            judged: vec![accepted(&[0, 1]), accepted(&[128, 129])],
        },
        Known {
            what: "an event in 2^64 - 1 cuts, and 2^64 that are not reached",
            family: all_with_one_more(&all_but_one(64)),
            plan: Ok(set(&[0])),
            judged: vec![accepted(&[0]), accepted(&[1, 2]), droppable(&[0, 7], 7)],
        },
        Known {
            what: "an event in 2^64 cuts",
            family: all_with_one_more(&pairs_and_one(64, None)),
            plan: Err(19),
            judged: vec![accepted(&[0]), accepted(&[1, 2])],
        },
        Known {
            what: "one cut, and a node that is not reached with 2^65",
            family: small,
            plan: Ok(set(&[3])),
            judged: vec![accepted(&[3]), droppable(&[0, 3], 0), missed(&[0, 1], &[3])],
        },
        Known {
            what: "the cut of all events",
            family: one_set(1_024),
            plan: Ok(set(&[0])),
            judged: vec![accepted(&[1_023]), droppable(&[0, 1_023], 0), missed(&[], &all)],
        },
        Known {
            what: "every set of 1,024 events",
            family: every_set(1_024),
            plan: Err(19),
            judged: vec![missed(&all, &[]), missed(&all[1..], &[0])],
        },
    ]
}

/// A set to be checked: mostly one near to a set that is accepted.
pub fn seeded(random: &mut Random, family: &Lent) -> Set {
    let events = family.event_count.clamp(1, MOST_EVENTS as u64) as usize;
    let any = |random: &mut Random, times: usize| {
        (0..events as u32).filter(|_| random.once_in(times)).fold(Set::EMPTY, |set, event| set.with(event))
    };
    if !family.is_diagram() {
        return any(random, 2);
    }
    match random.below(10) {
        0 => Set::EMPTY,
        1 => any(random, 1),
        2 => any(random, 2),
        3 => {
            let set = any(random, 2);
            beyond(random, set, events)
        }
        _ => {
            let set = plan(family).unwrap_or_else(|_| any(random, 1));
            near(random, set, family, events)
        }
    }
}

/// A set that leaves some cuts: a part of the plan, or a few events, or none.
pub fn seeded_few(random: &mut Random, family: &Lent) -> Set {
    let events = family.event_count.clamp(1, MOST_EVENTS as u64) as usize;
    let few = match random.below(4) {
        0 if family.is_diagram() => plan(family).unwrap_or(Set::EMPTY).members(),
        0 | 1 => Vec::new(),
        _ => (0..3).map(|_| random.below(events) as u32).collect(),
    };
    let set = few.into_iter().filter(|_| random.once_in(2)).fold(Set::EMPTY, |set, event| set.with(event));
    match random.below(12) {
        0 => beyond(random, set, events),
        _ => set,
    }
}

/// With an event that there is not, where there is room for one.
fn beyond(random: &mut Random, set: Set, events: usize) -> Set {
    if events == MOST_EVENTS {
        return set;
    }
    let any = random.between(events, MOST_EVENTS - 1);
    set.with(random.of(&[events, MOST_EVENTS - 1, any]) as u32)
}

/// The set less all that could be dropped, in any order; then often one more or one less.
fn near(random: &mut Random, set: Set, family: &Lent, events: usize) -> Set {
    let mut own = set;
    let mut members = set.members();
    if random.once_in(2) {
        members.reverse();
    }
    if members.len() < 40 && is_safe(family, &own) && !random.once_in(4) {
        for member in members {
            if is_safe(family, &without(own, member)) {
                own = without(own, member);
            }
        }
    }
    let members = own.members();
    match random.below(4) {
        0 => own.with(random.below(events) as u32),
        1 if !members.is_empty() => without(own, random.of(&members)),
        _ => own,
    }
}
