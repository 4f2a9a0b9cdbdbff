//! The whole analysis: 1 to 8 and 21, then 9, then 10, then 11.

use crate::cut_diagram::CutDiagram;
use crate::judge::{read, refuse, Refusal};
use crate::lent::{Lent, Sort, MOST_NUMBERS};
use crate::robdd::{Full, Robdd, Steps};
use crate::tree::{Tree, MOST_GATES};

/// The lengths of what is lent to an analysis, in numbers.
#[derive(Clone, Copy, Debug)]
pub struct Lengths {
    pub node_table: usize,
    pub cut_table: usize,
    pub gate_list: usize,
    /// The list of the nodes that each gate added.
    pub added_list: usize,
    pub memo: usize,
    /// Whether each work area has its documented smallest length.
    pub areas_suffice: bool,
}

impl Lengths {
    /// Room for any tree of the documents' size.
    pub const AMPLE: Lengths = Lengths {
        node_table: MOST_NUMBERS,
        cut_table: MOST_NUMBERS,
        gate_list: MOST_GATES,
        added_list: MOST_GATES,
        memo: 0,
        areas_suffice: true,
    };

    pub fn of_capacities(nodes: usize, cuts: usize) -> Lengths {
        Lengths { node_table: 3 * nodes, cut_table: 3 * cuts, ..Lengths::AMPLE }
    }

    pub fn keep_rules(&self, tree: &Tree) -> bool {
        let table_fits = |length: usize| length % 3 == 0 && length <= MOST_NUMBERS;
        table_fits(self.node_table)
            && table_fits(self.cut_table)
            && self.memo % 4 == 0
            && self.gate_list as u64 >= tree.gate_count
            && self.added_list as u64 >= tree.gate_count
            && self.areas_suffice
    }
}

/// A done analysis.
pub struct Analysis {
    pub tree: Tree,
    pub robdd: Robdd,
    pub cuts: CutDiagram,
}

pub fn analyse(bytes: &[u8], lengths: Lengths) -> Result<Analysis, Refusal> {
    analyse_tree(read(bytes)?, lengths, &Steps::default())
}

/// A tree that was read: 9, 10, 11, or done.
pub fn analyse_tree(tree: Tree, lengths: Lengths, steps: &Steps) -> Result<Analysis, Refusal> {
    if !lengths.keep_rules(&tree) {
        return refuse(9, 0);
    }
    let robdd = match Robdd::build_by(&tree, lengths.node_table / 3, steps) {
        Ok(robdd) => robdd,
        Err(gate) => return refuse(10, gate as u64),
    };
    match CutDiagram::build(&robdd, lengths.cut_table / 3) {
        Ok(cuts) => Ok(Analysis { tree, robdd, cuts }),
        Err(Full) => refuse(11, 0),
    }
}

/// Request 6: for each gate the nodes needed by the gates up to it, less those needed by the gates before it.
pub fn added(needed: &[usize]) -> Vec<u32> {
    let before = [&[0], needed].concat();
    needed.iter().zip(before).map(|(&needed, before)| (needed - before) as u32).collect()
}

impl Analysis {
    /// The nodes that each gate added.
    pub fn added(&self) -> Vec<u32> {
        added(&self.robdd.nodes_by_gate)
    }

    /// The root's function diagram as it would be lent to the bracket.
    pub fn lent_function(&self) -> Lent {
        Lent {
            sort: Sort::Function,
            event_count: self.tree.event_count,
            table: self.robdd.nodes.table(),
            node_count: self.robdd.nodes.count() as u64,
            root: self.robdd.root() as u64,
        }
    }

    /// The cut diagram as it would be lent to a listing.
    pub fn lent_cuts(&self) -> Lent {
        Lent {
            sort: Sort::Cuts,
            event_count: self.tree.event_count,
            table: self.cuts.nodes.table(),
            node_count: self.cuts.nodes.count() as u64,
            root: self.cuts.root as u64,
        }
    }
}
