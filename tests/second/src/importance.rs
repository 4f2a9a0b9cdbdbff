//! Request 12: how much each event matters to the root's chance, and the events ranked by that.

use crate::big::Big;
use crate::bracket::{events_reached, exact_chance};
use crate::judge::{refuse, Refusal};
use crate::lent::Lent;
use crate::tree::D;
use std::cmp::Reverse;
use std::collections::BTreeSet;

/// The areas that weighing works in.
pub const WEIGH_AREAS: usize = 3;

#[derive(Clone, Debug, PartialEq, Eq)]
pub struct Weights {
    pub lows: Vec<u32>,
    pub highs: Vec<u32>,
    pub rank: Vec<u32>,
}

/// The bracket of what is left of the function when the event is failed, or sound: a node of that event is its branch.
fn restricted(diagram: &Lent, chances: &[u32], event: u32, failed: bool) -> (u64, u64) {
    let d = D as u64;
    let mut numbers = vec![(0, 0); diagram.node_count as usize + 2];
    numbers[1] = (d, d);
    for node in diagram.reached() {
        let (with, without) = (numbers[diagram.failed(node) as usize], numbers[diagram.sound(node) as usize]);
        let a = chances[diagram.event(node) as usize] as u64;
        numbers[node as usize] = match (diagram.event(node) == event, failed) {
            (true, true) => with,
            (true, false) => without,
            _ => ((a * with.0 + (d - a) * without.0) / d, (a * with.1 + (d - a) * without.1).div_ceil(d)),
        };
    }
    numbers[diagram.root as usize]
}

/// 12, then 9, then 7, place 0. `suffice`: the results and the areas are long enough.
pub fn importance(diagram: &Lent, chances: &[u32], suffice: bool) -> Result<Weights, Refusal> {
    if !diagram.is_diagram() {
        return refuse(12, 0);
    }
    let events = diagram.event_count as usize;
    if chances.len() < events || !suffice {
        return refuse(9, 0);
    }
    if chances[..events].iter().any(|&a| a > D) {
        return refuse(7, 0);
    }
    let standing: BTreeSet<u32> = diagram.reached().into_iter().map(|node| diagram.event(node)).collect();
    let weigh = |event: u32| {
        if !standing.contains(&event) {
            return (0, 0);
        }
        let (failed, sound) = (restricted(diagram, chances, event, true), restricted(diagram, chances, event, false));
        (failed.0.saturating_sub(sound.1) as u32, failed.1.saturating_sub(sound.0) as u32)
    };
    let (lows, highs): (Vec<u32>, Vec<u32>) = (0..events as u32).map(weigh).unzip();
    let mut rank: Vec<u32> = (0..events as u32).collect();
    rank.sort_by_key(|&event| Reverse(lows[event as usize]));
    Ok(Weights { lows, highs, rank })
}

/// Whether an event's two numbers enclose the exact difference that it makes, each less than 2L billionths from it; of a
/// function that no failed event mends.
pub fn keeps_promise(diagram: &Lent, chances: &[u32], weights: &Weights, event: u32) -> bool {
    let exact = |chance: u32| {
        let mut chances = chances.to_vec();
        chances[event as usize] = chance;
        exact_chance(diagram, &chances)
    };
    let scaled = |number: u32| Big::from(number as u64).times_power(D, diagram.event_count as u32 - 1);
    let Some(difference) = exact(D).less(&exact(0)) else { return false };
    let (low, high) = (scaled(weights.lows[event as usize]), scaled(weights.highs[event as usize]));
    let (Some(below), Some(above)) = (difference.less(&low), high.less(&difference)) else { return false };
    let distance = scaled(2 * events_reached(diagram) as u32);
    let exactly = below == Big::from(0) && above == Big::from(0);
    exactly || (below < distance && above < distance)
}
