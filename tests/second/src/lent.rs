//! Lent diagrams and number 12.

use crate::tree::MOST_EVENTS;

pub const MOST_NUMBERS: usize = 3_000_000;

#[derive(Clone, Copy, Debug, PartialEq, Eq)]
pub enum Sort {
    /// A function diagram: the branches of a node differ.
    Function,
    /// A cut diagram: the failed branch of a node isn't 0.
    Cuts,
}

/// A diagram as a caller lends it; nothing is known of it.
#[derive(Clone, Debug, PartialEq, Eq)]
pub struct Lent {
    pub sort: Sort,
    pub event_count: u64,
    pub table: Vec<u32>,
    pub node_count: u64,
    pub root: u64,
}

impl Lent {
    pub fn event(&self, node: u32) -> u32 {
        self.table[3 * (node as usize - 2)]
    }

    pub fn failed(&self, node: u32) -> u32 {
        self.table[3 * (node as usize - 2) + 1]
    }

    pub fn sound(&self, node: u32) -> u32 {
        self.table[3 * (node as usize - 2) + 2]
    }

    /// The root as a node's number. Only for diagrams.
    pub fn root_node(&self) -> u32 {
        self.root as u32
    }

    /// Whether it is a diagram; 12 otherwise.
    pub fn is_diagram(&self) -> bool {
        (1..=MOST_EVENTS as u64).contains(&self.event_count)
            && self.table.len() % 3 == 0
            && self.table.len() <= MOST_NUMBERS
            && self.node_count <= self.table.len() as u64 / 3
            && (0..self.node_count).all(|index| self.is_node(index as u32 + 2))
            && self.root < self.node_count + 2
    }

    fn is_node(&self, node: u32) -> bool {
        let (event, failed, sound) = (self.event(node), self.failed(node), self.sound(node));
        let keeps_order = |branch: u32| branch < node && (branch < 2 || self.event(branch) > event);
        let branches_fit = match self.sort {
            Sort::Function => failed != sound,
            Sort::Cuts => failed != 0,
        };
        (event as u64) < self.event_count && keeps_order(failed) && keeps_order(sound) && branches_fit
    }

    /// The nodes reached from the root, rising, leaves not included. Only for diagrams.
    pub fn reached(&self) -> Vec<u32> {
        let mut marked = vec![false; self.node_count as usize + 2];
        marked[self.root as usize] = true;
        for node in (2..marked.len()).rev() {
            if marked[node] {
                marked[self.failed(node as u32) as usize] = true;
                marked[self.sound(node as u32) as usize] = true;
            }
        }
        (2..marked.len()).filter(|&node| marked[node]).map(|node| node as u32).collect()
    }
}
