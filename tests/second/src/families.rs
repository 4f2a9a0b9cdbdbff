//! Lent families of large counts: no antichains, equal nodes, and huge families that the root does not reach.

use crate::lent::{Lent, Sort};
use crate::random::Random;
use crate::sets::Set;

/// A table that grows node by node.
#[derive(Default)]
struct Table(Vec<u32>);

impl Table {
    fn put(&mut self, event: u32, failed: u32, sound: u32) -> u32 {
        self.0.extend([event, failed, sound]);
        self.0.len() as u32 / 3 + 1
    }

    fn lent(self, event_count: u32, root: u32) -> Lent {
        let node_count = self.0.len() as u64 / 3;
        Lent { sort: Sort::Cuts, event_count: event_count as u64, table: self.0, node_count, root: root as u64 }
    }
}

/// What a layer does to the sets below it.
#[derive(Clone, Copy, PartialEq, Eq)]
enum Layer {
    /// Each gets one of two events.
    Pair,
    /// Each stands with the event and without it.
    Free,
    /// Each gets the event.
    Must,
    /// Each gets the event, and the empty set comes in.
    OrEmpty,
    /// Each gets the event, and the sets of another node come in.
    OrOther,
}

use Layer::*;

/// Towers of layers from the last event to the first, each on a leaf or on some node of those before; the root is mostly the top of the
/// last one, which may be small where another is huge.
pub fn towers(random: &mut Random) -> Lent {
    let event_count = random.of(&[20, 64, 70, 128, 130, 200, 256, 257, 300, 1_024]);
    let mut table = Table::default();
    // Each node with its event; the leaf 1 lies behind all events.
    let mut tops = vec![(event_count, 1)];
    for _ in 0..random.between(1, 3) {
        let (mut event, mut top) = random.of(&tops);
        let habit = random.of(&[Pair, Pair, Free, Must]);
        let stray = random.between(4, 40);
        let end = if random.once_in(2) { 0 } else { random.below(event as usize + 1) as u32 };
        while event > end {
            let layer = if random.once_in(stray) { random.of(&[Pair, Free, Must, OrEmpty, OrOther]) } else { habit };
            event -= 1;
            top = match layer {
                Pair if event > end => {
                    let second = table.put(event, top, 0);
                    event -= 1;
                    table.put(event, top, second)
                }
                Free => table.put(event, top, top),
                OrEmpty => table.put(event, top, 1),
                OrOther => {
                    let (below, other) = random.of(&tops);
                    table.put(event, top, if below > event { other } else { 0 })
                }
                Pair | Must => table.put(event, top, 0),
            };
            if random.once_in(20) {
                let equal = table.0[3 * (top as usize - 2)..].to_vec();
                top = table.put(equal[0], equal[1], equal[2]);
            }
            tops.push((event, top));
        }
    }
    let last = tops[tops.len() - 1].1;
    let root = if random.once_in(4) { random.of(&tops).1 } else { last };
    table.lent(event_count, root)
}

/// One of each of so many pairs of events, and the same family less one set; the table has both, and its root is the second.
/// With 64 pairs these are 2^64 sets, which the root does not reach, and 2^64 − 1, which fit.
pub fn all_but_one(pairs: u32) -> Lent {
    let mut table = Table::default();
    let last = 2 * pairs - 1;
    let mut less = table.put(last, 1, 0);
    let mut whole = table.put(last - 1, 1, less);
    for pair in (0..pairs - 1).rev() {
        let second = table.put(2 * pair + 1, whole, 0);
        less = table.put(2 * pair, less, second);
        whole = table.put(2 * pair, whole, second);
    }
    table.lent(2 * pairs, less)
}

/// One of each of so many pairs of events, which are 2^pairs sets; and behind them all, where wanted, the set of so many events more.
pub fn pairs_and_one(pairs: u32, more: Option<u32>) -> Lent {
    let mut table = Table::default();
    let events = 2 * pairs + more.unwrap_or(0);
    let last = more.map_or(0, |_| (2 * pairs..events).rev().fold(1, |below, event| table.put(event, below, 0)));
    let mut whole = 1;
    for pair in (0..pairs).rev() {
        let second = table.put(2 * pair + 1, whole, if pair == 0 { last } else { 0 });
        whole = table.put(2 * pair, whole, second);
    }
    table.lent(events, whole)
}

/// These sets, in order, of so many events; one set at least.
pub fn of_sets(events: u32, sets: &[Set]) -> Lent {
    let mut table = Table::default();
    let root = below(&mut table, events, 0, sets);
    table.lent(events, root)
}

/// The node of the sets, which agree on the events before this one.
fn below(table: &mut Table, events: u32, event: u32, sets: &[Set]) -> u32 {
    if event == events || sets.is_empty() {
        return u32::from(!sets.is_empty());
    }
    let (with, without): (Vec<Set>, Vec<Set>) = sets.iter().partition(|set| set.holds(event));
    let sound = below(table, events, event + 1, &without);
    match below(table, events, event + 1, &with) {
        0 => sound,
        failed => table.put(event, failed, sound),
    }
}

/// Every set of so many events: of size k as many as k can be chosen.
pub fn every_set(events: u32) -> Lent {
    let mut table = Table::default();
    let root = (0..events).rev().fold(1, |below, event| table.put(event, below, below));
    table.lent(events, root)
}

/// The set of so many events, and no other.
pub fn one_set(events: u32) -> Lent {
    let mut table = Table::default();
    let root = (0..events).rev().fold(1, |below, event| table.put(event, below, 0));
    table.lent(events, root)
}

pub fn seeded(random: &mut Random) -> Lent {
    match random.below(13) {
        12 => pairs_and_one(random.between(1, 66) as u32, random.of(&[None, Some(0), Some(2), Some(3)])),
        0 => all_but_one(random.between(1, 66) as u32),
        1 => all_but_one(64),
        2 => every_set(random.of(&[1, 12, 67, 68, 256, 1_024])),
        3 => one_set(random.of(&[1, 255, 256, 257, 1_023, 1_024])),
        _ => towers(random),
    }
}
