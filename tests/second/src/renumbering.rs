//! The one freedom of an analysis: the numbering of nodes. Says whether a table holds exactly the nodes
//! of another diagram under some renumbering that fixes the leaves.

use crate::robdd::{Node, Nodes};

/// For each number of the table's nodes (leaves first) the number in `nodes`; `None` if the table isn't
/// a renumbering of them followed by zeros.
pub fn renumbering(table: &[u32], count: usize, nodes: &Nodes) -> Option<Vec<u32>> {
    if count != nodes.count() || table.len() < 3 * count || table[3 * count..].iter().any(|&number| number != 0) {
        return None;
    }
    let mut theirs_to_ours = vec![0, 1];
    let mut met = vec![false; count + 2];
    for triple in table[..3 * count].chunks(3) {
        let failed = *theirs_to_ours.get(triple[1] as usize)?;
        let sound = *theirs_to_ours.get(triple[2] as usize)?;
        let ours = nodes.find(Node { event: triple[0], failed, sound })?;
        if met[ours as usize] {
            return None;
        }
        met[ours as usize] = true;
        theirs_to_ours.push(ours);
    }
    Some(theirs_to_ours)
}
