//! The bracket of a lent function diagram, and the exact chance that it must enclose.

use crate::big::Big;
use crate::lent::Lent;
use crate::tree::D;
use std::collections::BTreeSet;

#[derive(Clone, Copy, Debug, PartialEq, Eq)]
pub struct Bracket {
    pub number: u32,
    pub place: u64,
    pub low: u32,
    pub high: u32,
}

/// `areas_suffice` says whether the work areas have their smallest lengths. Order 12, 9, 7, place 0.
pub fn bracket(diagram: &Lent, chances: &[u32], areas_suffice: bool) -> Bracket {
    let refused = |number| Bracket { number, place: 0, low: 0, high: 0 };
    if !diagram.is_diagram() {
        return refused(12);
    }
    let events = diagram.event_count as usize;
    if chances.len() < events || !areas_suffice {
        return refused(9);
    }
    if chances[..events].iter().any(|&a| a > D) {
        return refused(7);
    }
    let d = D as u64;
    let mut low: Vec<u64> = vec![0, d];
    let mut high: Vec<u64> = vec![0, d];
    for node in 2..diagram.node_count as u32 + 2 {
        let a = chances[diagram.event(node) as usize] as u64;
        let (failed, sound) = (diagram.failed(node) as usize, diagram.sound(node) as usize);
        low.push((a * low[failed] + (d - a) * low[sound]) / d);
        high.push((a * high[failed] + (d - a) * high[sound]).div_ceil(d));
    }
    let root = diagram.root as usize;
    Bracket { number: 0, place: 0, low: low[root] as u32, high: high[root] as u32 }
}

/// L: the events in nodes reached from the root.
pub fn events_reached(diagram: &Lent) -> usize {
    diagram.reached().into_iter().map(|node| diagram.event(node)).collect::<BTreeSet<u32>>().len()
}

/// S over all events: the sum over failing sets of the products. A node's own sum runs over the events
/// from its own on; events passed over multiply by D, since a and D − a make up D.
pub fn exact_chance(diagram: &Lent, chances: &[u32]) -> Big {
    let events = diagram.event_count as u32;
    let event_of = |node: u32| if node < 2 { events } else { diagram.event(node) };
    let mut sums = vec![Big::default(); diagram.node_count as usize + 2];
    sums[1] = Big::from(1);
    for node in diagram.reached() {
        let event = diagram.event(node);
        let a = chances[event as usize];
        let part = |branch: u32, factor: u32| {
            let passed_over = event_of(branch) - event - 1;
            sums[branch as usize].times_power(D, passed_over).times(factor)
        };
        sums[node as usize] = part(diagram.failed(node), a).plus(&part(diagram.sound(node), D - a));
    }
    sums[diagram.root as usize].times_power(D, event_of(diagram.root_node()))
}

/// Whether the two numbers enclose S and each lies less than L billionths from it; with L = 0 both
/// must be exact.
pub fn keeps_promise(low: u32, high: u32, exact: &Big, l: usize, events: u32) -> bool {
    let scaled = |number: u32| Big::from(number as u64).times_power(D, events - 1);
    let (Some(below), Some(above)) = (exact.less(&scaled(low)), scaled(high).less(exact)) else {
        return false;
    };
    if l == 0 {
        return below == Big::from(0) && above == Big::from(0);
    }
    let distance = scaled(l as u32);
    below < distance && above < distance
}
