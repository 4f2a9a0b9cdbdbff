//! Seeded lent diagrams of both kinds, good and damaged. Good ones are not built from trees: they hold
//! equal nodes, unreached nodes, functions that aren't monotone, families with nested sets, leaf roots.

use crate::lent::{Lent, Sort};
use crate::random::Random;
use crate::tree::MOST_EVENTS;

pub fn good(random: &mut Random, sort: Sort, most_nodes: usize) -> Lent {
    let event_count = match random.below(12) {
        0 | 1 => 1,
        2 => random.between(250, 300),
        3 => random.of(&[255, 256, 257, 512, MOST_EVENTS - 1, MOST_EVENTS]),
        4 => random.between(1, MOST_EVENTS),
        5 => random.between(1, 256),
        _ => random.between(1, 8),
    };
    let node_count = if random.once_in(10) { 0 } else { random.below(most_nodes + 1) };
    let mut table: Vec<u32> = Vec::new();
    for number in 2..node_count as u32 + 2 {
        table.extend(node(random, sort, event_count as u32, number, &table));
    }
    let behind = 3 * random.below(4);
    // What lies behind the stated count isn't judged.
    table.extend((0..behind).map(|_| random.next() as u32));
    let root = match random.below(8) {
        0 => random.below(2) as u64,
        1 => random.below(node_count + 2) as u64,
        _ => node_count as u64 + 1,
    };
    Lent { sort, event_count: event_count as u64, table, node_count: node_count as u64, root }
}

/// A node of that number that keeps the rules.
fn node(random: &mut Random, sort: Sort, events: u32, number: u32, table: &[u32]) -> [u32; 3] {
    let event_of = |branch: u32| if branch < 2 { events } else { table[3 * (branch as usize - 2)] };
    for _ in 0..100 {
        // Later branches are likelier, so that the diagrams grow deep.
        let mut branch = || {
            let from = if random.once_in(3) { 0 } else { number.saturating_sub(6) };
            random.between(from as usize, number as usize - 1) as u32
        };
        let (failed, sound) = (branch(), branch());
        let limit = event_of(failed).min(event_of(sound));
        let fits = match sort {
            Sort::Function => failed != sound,
            Sort::Cuts => failed != 0,
        };
        if fits && limit > 0 {
            let most = if random.once_in(8) { limit } else { limit.min(3) };
            let back = random.between(1, most as usize) as u32;
            return [limit - back, failed, sound];
        }
    }
    [random.below(events as usize) as u32, 1, 0]
}

/// One of the rules of number 12 broken; mostly, for some changes give another diagram.
pub fn damaged(random: &mut Random, sort: Sort, most_nodes: usize) -> Lent {
    let mut lent = good(random, sort, most_nodes.max(1));
    let nodes = lent.node_count as usize;
    let some_node = if nodes > 0 { 3 * random.below(nodes) } else { 0 };
    match random.below(if nodes > 0 { 14 } else { 6 }) {
        0 => lent.event_count = random.of(&[0, 1_025, 1_100, u32::MAX as u64, (1 << 32) + lent.event_count, u64::MAX]),
        1 => lent.table.push(0),
        2 => lent.table.extend([0, 0]),
        3 => lent.node_count = lent.table.len() as u64 / 3 + random.between(1, 3) as u64,
        4 => lent.node_count = random.of(&[u64::MAX, u64::MAX / 3 + 2, (1 << 32) + lent.node_count, u32::MAX as u64]),
        5 => lent.root = lent.node_count + 2 + random.below(3) as u64,
        // Numbers that a narrower type would take for a node.
        6 => lent.root = random.of(&[u32::MAX as u64, 1 << 32, (1 << 32) + lent.root, u64::MAX]),
        7 => lent.table[some_node] = lent.event_count as u32 + random.below(2) as u32,
        8 => lent.table[some_node] = u32::MAX,
        9 => {
            // A branch not below its node.
            let own = some_node as u32 / 3 + 2;
            lent.table[some_node + random.between(1, 2)] = own + random.below(3) as u32;
        }
        10 => {
            // Events that don't rise.
            if let Some(place) = (0..nodes).find(|&i| lent.table[3 * i + 1] >= 2) {
                let below = lent.table[3 * place + 1];
                lent.table[3 * place] = lent.event(below) + random.below(2) as u32;
            }
        }
        11 => match sort {
            Sort::Function => lent.table[some_node + 1] = lent.table[some_node + 2],
            Sort::Cuts => lent.table[some_node + 1] = 0,
        },
        12 => lent.event_count = lent.table[some_node] as u64,
        _ => {
            let place = random.below(3 * nodes);
            lent.table[place] = random.below(nodes + 4) as u32;
        }
    }
    lent
}
