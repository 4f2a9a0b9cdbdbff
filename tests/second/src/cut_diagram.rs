//! The cut diagram of a built root, by document 000, 4.2 to 4.4, with hash maps.

use crate::big::Big;
use crate::hash::Map;
use crate::robdd::{Full, Node, Nodes, Robdd, FALSE, TRUE};

pub struct CutDiagram {
    pub nodes: Nodes,
    pub root: u32,
}

struct Builder<'a> {
    functions: &'a Nodes,
    cuts: Nodes,
    removed: Map<(u32, u32), u32>,
}

impl CutDiagram {
    /// The cuts of every node that the root reaches; the count runs over all of them.
    pub fn build(robdd: &Robdd, capacity: usize) -> Result<CutDiagram, Full> {
        let functions = &robdd.nodes;
        let mut builder = Builder { functions, cuts: Nodes::new(capacity), removed: Map::default() };
        let mut cuts_of: Map<u32, u32> = Map::default();
        cuts_of.insert(FALSE, FALSE);
        cuts_of.insert(TRUE, TRUE);
        // Branches have lower numbers, so their cuts are there first.
        for number in functions.reached(robdd.root()) {
            let node = functions.node(number);
            let with_event = builder.without(cuts_of[&node.failed], node.sound)?;
            let cuts = builder.make(node.event, with_event, cuts_of[&node.sound])?;
            cuts_of.insert(number, cuts);
        }
        Ok(CutDiagram { root: cuts_of[&robdd.root()], nodes: builder.cuts })
    }

    /// The number of cuts of the root.
    pub fn cut_count(&self) -> Big {
        let mut counts = vec![Big::from(0), Big::from(1)];
        for number in 2..self.nodes.count() as u32 + 2 {
            let node = self.nodes.node(number);
            let count = counts[node.failed as usize].plus(&counts[node.sound as usize]);
            counts.push(count);
        }
        counts[self.root as usize].clone()
    }
}

impl Builder<'_> {
    /// A node with failed branch 0 is dropped.
    fn make(&mut self, event: u32, failed: u32, sound: u32) -> Result<u32, Full> {
        if failed == FALSE {
            return Ok(sound);
        }
        self.cuts.find_or_add(Node { event, failed, sound })
    }

    /// The sets of the family f (a cut node) that don't fail the monotone function g (a function node).
    fn without(&mut self, f: u32, g: u32) -> Result<u32, Full> {
        if f == FALSE || g == TRUE {
            return Ok(FALSE);
        }
        if g == FALSE || f == TRUE {
            return Ok(f);
        }
        if let Some(&result) = self.removed.get(&(f, g)) {
            return Ok(result);
        }
        let family = self.cuts.node(f);
        let function = self.functions.node(g);
        let result = if family.event > function.event {
            self.without(f, function.sound)?
        } else {
            let (covered, covered_sound) =
                if family.event < function.event { (g, g) } else { (function.failed, function.sound) };
            let failed = self.without(family.failed, covered)?;
            let sound = self.without(family.sound, covered_sound)?;
            self.make(family.event, failed, sound)?
        };
        self.removed.insert((f, g), result);
        Ok(result)
    }
}
