//! Seeded pairs of listings: families of any sets, what changes from one day to the next, and damage to the bytes.

use crate::diagrams;
use crate::lent::Sort;
use crate::listing::Walk;
use crate::random::Random;
use crate::sets::{member_bytes, Set};
use crate::tree::MOST_EVENTS;

/// Events whose bytes look like kinds, and the ends of the ranges.
const TELLING: [u32; 16] = [0, 1, 0x20, 0x21, 0x22, 0x23, 0x24, 254, 255, 256, 257, 0x121, 0x122, 0x223, 0x322, 1_023];

pub fn bytes_of(sets: &[Set]) -> Vec<u8> {
    sets.iter().flat_map(Set::cut_bytes).collect()
}

/// Any sets, in order, none twice: most families have sets inside one another, some have the empty set.
pub fn family(random: &mut Random) -> Vec<Set> {
    let mut sets: Vec<Set> = match random.below(5) {
        0 => {
            let events = random.between(1, 4) as u32;
            let part = random.between(1, 4);
            let first = random.of(&[0, 254, 1_020]);
            (0..1usize << events).filter(|_| random.below(4) < part).map(|set| Set::from_number(first, set)).collect()
        }
        1 => (0..random.below(30)).map(|_| members(random, any_event, 6)).collect(),
        2 => {
            let diagram = diagrams::good(random, Sort::Cuts, 20);
            Walk::new(&diagram, None).take(40).collect()
        }
        3 => (0..random.below(4)).map(|_| members(random, any_event, 2_000)).collect(),
        _ => (0..random.below(20)).map(|_| members(random, |random| random.of(&TELLING), 5)).collect(),
    };
    sets.sort_by(Set::order);
    sets.dedup();
    sets
}

fn any_event(random: &mut Random) -> u32 {
    random.below(MOST_EVENTS) as u32
}

fn members(random: &mut Random, event: impl Fn(&mut Random) -> u32, most: usize) -> Set {
    let size = random.below(most + 1);
    (0..size).fold(Set::EMPTY, |set, _| set.with(event(random)))
}

/// The family on another day.
fn changed(random: &mut Random, mut sets: Vec<Set>) -> Vec<Set> {
    match random.below(8) {
        0 => {}
        1 => sets.truncate(random.below(sets.len() + 1)),
        2 => drop(sets.drain(..random.below(sets.len() + 1))),
        3 | 4 => one_less(random, &mut sets),
        5 => one_more(random, &mut sets),
        6 => {
            for _ in 0..random.between(1, 4) {
                one_less(random, &mut sets);
                one_more(random, &mut sets);
            }
        }
        _ => sets = family(random),
    }
    sets
}

fn one_less(random: &mut Random, sets: &mut Vec<Set>) {
    if !sets.is_empty() {
        sets.remove(random.below(sets.len()));
    }
}

/// A set more: often one that differs little from its neighbours, or the empty one.
fn one_more(random: &mut Random, sets: &mut Vec<Set>) {
    let near = match sets.is_empty() {
        false if random.once_in(2) => sets[random.below(sets.len())],
        _ => Set::EMPTY,
    };
    let more = if random.once_in(4) { near } else { near.with(random.of(&TELLING)) };
    sets.push(more);
    sets.sort_by(Set::order);
    sets.dedup();
}

/// Bytes that are mostly no listing any more; some changes give another one.
pub fn damaged(random: &mut Random, listing: &[u8]) -> Vec<u8> {
    let mut bytes = listing.to_vec();
    let at = random.below(bytes.len() + 1);
    let kind = random.of(&[0x20, 0x21, 0x22, 0x23, 0x24, 0, 1, 0xFF]);
    match random.below(5) {
        0 if at < bytes.len() => bytes[at] = random.of(&[kind, bytes[at] ^ 1, bytes[at].wrapping_add(1)]),
        1 if at < bytes.len() => drop(bytes.remove(at)),
        2 => bytes.insert(at, kind),
        3 => bytes.truncate(at),
        _ => return damaged_cuts(random, listing),
    }
    bytes
}

/// A cut's members, each with its kind, and its end.
fn records(set: &Set) -> Vec<Vec<u8>> {
    set.members().into_iter().map(member_bytes).chain([vec![0x22]]).collect()
}

/// Damage by cuts: one twice, two changed over, members that fall or repeat, an end lost, something behind the empty cut,
/// a member miswritten.
fn damaged_cuts(random: &mut Random, listing: &[u8]) -> Vec<u8> {
    let Some(all) = crate::changes::cuts_of(listing).filter(|cuts| !cuts.is_empty()) else {
        return vec![random.of(&[0x21, 0x23, 0x24, 0])];
    };
    let mut cuts: Vec<Vec<Vec<u8>>> = all.iter().map(|cut| records(&cut.set)).collect();
    let own = random.below(cuts.len());
    let size = cuts[own].len() - 1;
    let member = random.below(size.max(1));
    match random.below(9) {
        0 => cuts.insert(own, cuts[own].clone()),
        1 => cuts.swap(own, random.below(all.len())),
        2 if size > 1 => cuts[own][..size].rotate_right(1),
        3 if size > 0 => {
            let twice = cuts[own][member].clone();
            cuts[own].insert(member, twice);
        }
        4 => drop(cuts[own].pop()),
        5 => cuts.extend([vec![vec![0x22]], records(&all[own].set)]),
        6 | 7 if size > 0 => cuts[own][member] = miswritten(random, &cuts[own][member]),
        _ => cuts[own].insert(size, vec![random.of(&[0x23, 0x24, 0x20])]),
    }
    cuts.concat().concat()
}

/// A member with kind 23 and a number below 256 or beyond all events, with its high byte lost or first, or with kind 24.
fn miswritten(random: &mut Random, member: &[u8]) -> Vec<u8> {
    let (low, high) = (member[1], member.get(2).copied().unwrap_or(0));
    match random.below(5) {
        0 => vec![0x23, low, 0],
        1 => vec![0x23, low, random.of(&[4, 5, 255])],
        2 => vec![0x21, low],
        3 => vec![0x23, high, low],
        _ => vec![0x24, low, high],
    }
}

/// Yesterday and today: good, or with a fault on one side or on both.
pub fn seeded(random: &mut Random) -> [Vec<u8>; 2] {
    let before = family(random);
    let now = changed(random, before.clone());
    let mut pair = [bytes_of(&before), bytes_of(&now)];
    let faults = random.below(8);
    for (side, listing) in pair.iter_mut().enumerate() {
        if faults == side || faults == 2 {
            *listing = damaged(random, listing);
        }
    }
    pair
}
