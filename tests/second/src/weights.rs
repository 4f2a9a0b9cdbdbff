//! Request 12 in figures: diagrams and chances whose importances and rankings are written out.

use crate::importance::Weights;
use crate::lent::{Lent, Sort};
use crate::tree::D;

/// A diagram, the chances of its events, and what is due.
pub struct Weighed {
    pub what: &'static str,
    pub diagram: Lent,
    pub chances: Vec<u32>,
    pub due: Weights,
}

pub fn lent(event_count: u64, table: &[u32], root: u64) -> Lent {
    Lent { sort: Sort::Function, event_count, table: table.to_vec(), node_count: table.len() as u64 / 3, root }
}

/// Case 1, (0 and 1) or (1 and 2), its first event at this number.
pub fn case_1(first: u32, event_count: u64) -> Lent {
    let [a, b, c] = [first, first + 1, first + 2];
    lent(event_count, &[c, 1, 0, b, 1, 0, b, 2, 0, a, 3, 4], 5)
}

/// Chances that do not divide.
pub const SHARP: [u32; 3] = [333_333_333, 1, 999_999_999];

fn weighed(what: &'static str, diagram: Lent, chances: &[u32], lows: &[u32], highs: &[u32], rank: &[u32]) -> Weighed {
    let due = Weights { lows: lows.to_vec(), highs: highs.to_vec(), rank: rank.to_vec() };
    Weighed { what, diagram, chances: chances.to_vec(), due }
}

pub fn written_out() -> Vec<Weighed> {
    let tenth = D / 10;
    let third = 333_333_333;
    let [a, b, c] = SHARP;
    let many: Vec<u32> =
        (0..300).rev().flat_map(|event| [event, 1, if event == 299 { 0 } else { 300 - event }]).collect();
    let beside = Lent { node_count: 5, table: [&case_1(0, 4).table[..], &[3, 1, 0]].concat(), ..case_1(0, 4) };
    // Event 0 between two equal diagrams, at other numbers.
    let not_reduced = lent(3, &[2, 1, 0, 1, 2, 0, 2, 1, 0, 1, 4, 0, 0, 3, 5], 6);
    vec![
        weighed(
            "case 1",
            case_1(0, 3),
            &[tenth; 3],
            &[90_000_000, 190_000_000, 90_000_000],
            &[90_000_000, 190_000_000, 90_000_000],
            &[1, 0, 2],
        ),
        weighed("case 1, chances that do not divide", case_1(0, 3), &SHARP, &[0, D - 1, 0], &[1, D, 1], &[1, 0, 2]),
        weighed("one event", lent(1, &[0, 1, 0], 2), &[5], &[D], &[D], &[0]),
        weighed("one event in no node", case_1(0, 4), &[a, b, c, 7], &[0, D - 1, 0, 0], &[1, D, 1, 0], &[1, 0, 2, 3]),
        weighed("the first in no node", case_1(1, 4), &[7, a, b, c], &[0, 0, D - 1, 0], &[0, 1, D, 1], &[2, 0, 1, 3]),
        weighed("one event beside", beside, &[a, b, c, 7], &[0, D - 1, 0, 0], &[1, D, 1, 0], &[1, 0, 2, 3]),
        weighed("not reduced", not_reduced, &[third; 3], &[0, third, third], &[1, third, third], &[1, 2, 0]),
        weighed("a failed event mends", lent(1, &[0, 0, 1], 2), &[tenth], &[0], &[0], &[0]),
        weighed("a leaf", lent(2, &[], 1), &[tenth; 2], &[0, 0], &[0, 0], &[0, 1]),
        weighed(
            "300 events, one of which is enough",
            lent(300, &many, 301),
            &[0; 300],
            &[D; 300],
            &[D; 300],
            &(0..300).collect::<Vec<u32>>(),
        ),
    ]
}
