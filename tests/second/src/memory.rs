//! What is lent to an analysis: lengths around what a tree needs, contents of any kind, guards on both sides.

use crate::analysis::{Analysis, Lengths};
use crate::library::*;
use crate::random::Random;
use crate::settings::{analyse_when, Season};

/// Larger diagrams are cut off here: their inputs then ask for number 10.
pub const MOST_NODES: usize = 6_000;

/// What a tree needs, or several together.
pub struct Need {
    pub nodes: usize,
    pub cuts: usize,
    pub gates: usize,
    /// Nodes needed by the gates up to each, of one of the trees.
    pub by_gate: Vec<usize>,
}

impl Need {
    /// None where the tree is refused, or too large to be built.
    pub fn of(bytes: &[u8]) -> Option<Need> {
        Need::when(None, bytes)
    }

    /// The same in a season.
    pub fn when(season: Option<Season>, bytes: &[u8]) -> Option<Need> {
        let done = analyse_when(season, bytes, Lengths::of_capacities(MOST_NODES, MOST_NODES)).ok()?;
        let Analysis { tree, robdd, cuts } = done;
        let (nodes, cuts, gates) = (robdd.nodes.count(), cuts.nodes.count(), tree.gates.len());
        Some(Need { nodes, cuts, gates, by_gate: robdd.nodes_by_gate })
    }
}

/// The lengths to be lent, near what the tree needs: mostly right, each wrong in some of the inputs.
pub fn lengths(library: &dyn Library, need: Need, random: &mut Random) -> (Lengths, [usize; 4]) {
    let Need { nodes, cuts, gates, by_gate } = need;
    let mut around = |needed: usize| match random.below(8) {
        0 => needed.saturating_sub(1),
        1 => random.below(needed + 1),
        2 => needed + random.below(60),
        3 => needed + 1,
        _ => needed,
    };
    let (mut node_capacity, cut_capacity) = (around(nodes), around(cuts));
    if !by_gate.is_empty() && random.once_in(8) {
        // Just enough for the gates up to one, or a node less.
        node_capacity = by_gate[random.below(by_gate.len())].saturating_sub(random.below(2));
    }
    let mut bad = |length: usize| match random.below(60) {
        0 => length + 1,
        1 => length + 2,
        _ => length,
    };
    let (mut node_table, mut cut_table) = (bad(3 * node_capacity), bad(3 * cut_capacity));
    if random.once_in(5_000) {
        node_table = 3_000_003;
    }
    if random.once_in(5_000) {
        cut_table = 3_000_003;
    }
    let memo = match random.below(20) {
        0 => 4 * random.below(10) + random.between(1, 3),
        1..=6 if nodes < 60 => 0,
        7..=9 if nodes < 300 => 4,
        // A memo that is far too small makes a large diagram slow.
        10..=12 => 4 * (nodes / 10 + random.between(1, 100)),
        13 if random.once_in(40) => 4 * random.between(10_000, 100_000),
        _ => 4 * random.between(1_000, 2_000),
    };
    let mut list = || match random.below(20) {
        0 => gates.saturating_sub(1),
        1..=4 => gates + random.below(20),
        _ => gates,
    };
    let (gate_list, added_list) = (list(), list());
    let smallest = library.smallest_areas(node_table / 3, cut_table / 3);
    let mut work = smallest.map(|least| match random.below(300) {
        0 => least + random.below(50_000),
        1..=99 => least + random.below(50),
        _ => least,
    });
    let mut areas_suffice = true;
    let place = random.below(4);
    if random.once_in(20) && smallest[place] > 0 {
        work[place] = random.below(smallest[place]).max(smallest[place] - smallest[place].min(2));
        areas_suffice = false;
    }
    (Lengths { node_table, cut_table, gate_list, added_list, memo, areas_suffice }, work)
}

/// What lent memory holds at entry: anything, small numbers among it that could pass for nodes.
pub fn dirty(random: &mut Random, length: usize) -> Guarded<u32> {
    let small = random.below(3);
    let contents = (0..length).map(|_| match small {
        0 => random.below(8) as u32,
        1 => random.next() as u32,
        _ => u32::from(random.once_in(2)),
    });
    Guarded::new(contents.collect(), 0xDEAD_BEEF)
}

/// What an analysis and a folder are lent, dirty.
pub struct Memory {
    pub nodes: Guarded<u32>,
    pub cuts: Guarded<u32>,
    pub gates: Guarded<u32>,
    pub memo: Guarded<u32>,
    pub work: [Guarded<u32>; 4],
}

impl Memory {
    pub fn dirty(lengths: Lengths, work_lengths: [usize; 4], random: &mut Random) -> Memory {
        Memory {
            nodes: dirty(random, lengths.node_table),
            cuts: dirty(random, lengths.cut_table),
            gates: dirty(random, lengths.gate_list),
            memo: dirty(random, lengths.memo),
            work: work_lengths.map(|length| dirty(random, length)),
        }
    }

    pub fn lend(&mut self) -> Areas<'_> {
        Areas {
            nodes: self.nodes.lend(),
            cuts: self.cuts.lend(),
            gates: self.gates.lend(),
            memo: self.memo.lend(),
            work: self.work.each_mut().map(Guarded::lend),
        }
    }

    pub fn all(&self) -> [&Guarded<u32>; 8] {
        let [heads, next, marks, own] = &self.work;
        [&self.nodes, &self.cuts, &self.gates, &self.memo, heads, next, marks, own]
    }
}
