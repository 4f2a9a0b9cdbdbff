//! Request 2: how many sets of each size a lent family has, and the totals over a folder of trees.

use crate::analysis::{analyse, Lengths};
use crate::hash::Map;
use crate::judge::{refuse, Refusal};
use crate::lent::Lent;
use crate::tree::{MOST_EVENTS, MOST_GATES};

/// One count for each size, from 0 to 1,024.
pub const SIZES: usize = MOST_EVENTS + 1;
pub const MOST_TREES: usize = 64;
/// The areas that counting works in.
pub const COUNT_AREAS: usize = 3;

/// The number of sets of each size, from 0 to the largest that occurs. Numbers of 2^128 and more stand as 2^128 − 1.
pub fn by_size(diagram: &Lent) -> Vec<u128> {
    let mut counts: Map<u32, Vec<u128>> = Map::default();
    counts.insert(0, Vec::new());
    counts.insert(1, vec![1]);
    for node in diagram.reached() {
        // A set of the node is one of its sound branch, or has the event beside a set of its failed branch.
        let (with_event, mut own) = (&counts[&diagram.failed(node)], counts[&diagram.sound(node)].clone());
        own.resize(own.len().max(with_event.len() + 1), 0);
        for (size, &sets) in with_event.iter().enumerate() {
            own[size + 1] = own[size + 1].saturating_add(sets);
        }
        counts.insert(node, own);
    }
    counts.remove(&diagram.root_node()).expect("the root is a leaf or reaches itself")
}

/// All 1,025 counts; 19 if one of them is above 2^64 − 1.
fn answered(mut counts: Vec<u128>) -> Result<Vec<u64>, Refusal> {
    counts.resize(SIZES, 0);
    counts.into_iter().map(|count| u64::try_from(count).or(refuse(19, 0))).collect()
}

/// 12, then 9, then 19. `suffice`: the lent counts and areas are long enough.
pub fn sizes(diagram: &Lent, suffice: bool) -> Result<Vec<u64>, Refusal> {
    if !diagram.is_diagram() {
        return refuse(12, 0);
    }
    if !suffice {
        return refuse(9, 0);
    }
    answered(by_size(diagram))
}

/// A folder that is refused: by the number and place of its first refused tree, which has this index, or as a whole.
#[derive(Clone, Copy, Debug, PartialEq, Eq)]
pub struct RefusedFolder {
    pub number: u32,
    pub place: u64,
    pub tree: u64,
}

impl RefusedFolder {
    pub fn whole(number: u32) -> RefusedFolder {
        RefusedFolder { number, place: 0, tree: 0 }
    }

    /// Whether what was lent to the analyses and to the counting stays as it was; otherwise it ends zero.
    pub fn leaves_memory(&self) -> bool {
        self.tree == 0 && ![10, 11, 19].contains(&self.number)
    }
}

/// The trees as their bytes, if the lengths say how to cut them.
pub fn trees_of<'a>(bytes: &'a [u8], lengths: &[u64]) -> Option<Vec<&'a [u8]>> {
    let sum: u128 = lengths.iter().map(|&length| length as u128).sum();
    if lengths.len() > MOST_TREES || sum != bytes.len() as u128 {
        return None;
    }
    let mut rest = bytes;
    let mut next = |&length: &u64| {
        let (tree, others) = rest.split_at(length as usize);
        rest = others;
        tree
    };
    Some(lengths.iter().map(&mut next).collect())
}

/// The totals of each size: 9 for the folder, then tree by tree, then 19.
pub fn folder(bytes: &[u8], lengths: &[u64], lent: Lengths, suffice: bool) -> Result<Vec<u64>, RefusedFolder> {
    let trees = trees_of(bytes, lengths).filter(|_| suffice).ok_or(RefusedFolder::whole(9))?;
    // Nobody lends a folder a list of added nodes.
    let lent = Lengths { added_list: MOST_GATES, ..lent };
    let mut totals = vec![0u128; SIZES];
    for (index, tree) in trees.into_iter().enumerate() {
        let refused = |Refusal { number, place }| RefusedFolder { number, place, tree: index as u64 };
        let done = analyse(tree, lent).map_err(refused)?;
        for (total, count) in totals.iter_mut().zip(by_size(&done.lent_cuts())) {
            *total = total.saturating_add(count);
        }
    }
    answered(totals).map_err(|Refusal { number, .. }| RefusedFolder::whole(number))
}
