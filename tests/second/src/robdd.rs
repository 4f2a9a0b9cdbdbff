//! The diagram over all gates, by document 01's literal steps, with hash maps.
//!
//! Every node made here is a function got from some step's result by fixing first events, and no node
//! is made twice; so the number of nodes is the number of nodes needed.

use crate::hash::Map;
use crate::settings::State;
use crate::tree::*;

pub const FALSE: u32 = 0;
pub const TRUE: u32 = 1;

#[derive(Clone, Copy, Debug, PartialEq, Eq, Hash)]
pub struct Node {
    pub event: u32,
    pub failed: u32,
    pub sound: u32,
}

/// More nodes are needed than the capacity allows.
#[derive(Clone, Copy, Debug, PartialEq, Eq)]
pub struct Full;

/// Nodes numbered from 2 in order of making, no two equal.
pub struct Nodes {
    stored: Vec<Node>,
    known: Map<Node, u32>,
    capacity: usize,
}

impl Nodes {
    pub fn new(capacity: usize) -> Nodes {
        Nodes { stored: Vec::new(), known: Map::default(), capacity }
    }

    pub fn count(&self) -> usize {
        self.stored.len()
    }

    pub fn node(&self, number: u32) -> Node {
        self.stored[number as usize - 2]
    }

    pub fn find(&self, node: Node) -> Option<u32> {
        self.known.get(&node).copied()
    }

    pub fn find_or_add(&mut self, node: Node) -> Result<u32, Full> {
        if let Some(number) = self.find(node) {
            return Ok(number);
        }
        if self.stored.len() == self.capacity {
            return Err(Full);
        }
        self.stored.push(node);
        let number = self.stored.len() as u32 + 1;
        self.known.insert(node, number);
        Ok(number)
    }

    /// As a table of triples.
    pub fn table(&self) -> Vec<u32> {
        self.stored.iter().flat_map(|node| [node.event, node.failed, node.sound]).collect()
    }

    /// The nodes reached from the root, rising; the root itself included, leaves not.
    pub fn reached(&self, root: u32) -> Vec<u32> {
        let mut marked = vec![false; self.stored.len() + 2];
        marked[root as usize] = true;
        for number in (2..marked.len()).rev() {
            if marked[number] {
                let node = self.node(number as u32);
                marked[node.failed as usize] = true;
                marked[node.sound as usize] = true;
            }
        }
        (2..marked.len()).filter(|&number| marked[number]).map(|number| number as u32).collect()
    }
}

#[derive(Clone, Copy, Debug, PartialEq, Eq, Hash)]
pub enum Join {
    And,
    Or,
}

/// The function diagram of a tree.
pub struct Robdd {
    pub nodes: Nodes,
    joined: Map<(u32, u32, u32), u32>,
    pub gate_nodes: Vec<u32>,
    /// Nodes needed by the gates up to each.
    pub nodes_by_gate: Vec<usize>,
}

/// The inputs that a gate's steps run over.
pub type Taken<'a> = dyn Fn(&Robdd, &Gate, &[Input]) -> Vec<Input> + 'a;

/// How a tree is built. Wrong programs do something of it otherwise.
pub struct Steps<'a> {
    /// Of the events; those behind are free.
    pub states: &'a [State],
    pub taken: &'a Taken<'a>,
    /// Whether a forced event gets a node all the same.
    pub forced_nodes: bool,
}

impl Default for Steps<'_> {
    /// Every event is free. An at-least gate counts each distinct input once.
    fn default() -> Self {
        let taken = &|_: &Robdd, gate: &Gate, inputs: &[Input]| match gate.kind {
            AT_LEAST => distinct(inputs),
            _ => inputs.to_vec(),
        };
        Steps { states: &[], taken, forced_nodes: false }
    }
}

impl Robdd {
    /// Refused with the number of the gate that needs more than the capacity.
    pub fn build(tree: &Tree, capacity: usize) -> Result<Robdd, u32> {
        Robdd::build_by(tree, capacity, &Steps::default())
    }

    pub fn build_by(tree: &Tree, capacity: usize, steps: &Steps) -> Result<Robdd, u32> {
        let mut robdd = Robdd {
            nodes: Nodes::new(capacity),
            joined: Map::default(),
            gate_nodes: Vec::new(),
            nodes_by_gate: Vec::new(),
        };
        for (number, (gate, inputs)) in tree.gates.iter().zip(tree.inputs_by_gate()).enumerate() {
            let inputs = (steps.taken)(&robdd, gate, &inputs);
            let node = robdd.gate(gate, &inputs, steps).map_err(|Full| number as u32)?;
            robdd.gate_nodes.push(node);
            robdd.nodes_by_gate.push(robdd.nodes.count());
        }
        Ok(robdd)
    }

    pub fn root(&self) -> u32 {
        *self.gate_nodes.last().expect("a tree has a gate")
    }

    fn gate(&mut self, gate: &Gate, inputs: &[Input], steps: &Steps) -> Result<u32, Full> {
        let mut operands = Vec::new();
        for input in inputs {
            operands.push(match *input {
                Input::Event(event) => self.event(event, steps)?,
                Input::Gate(gate) => self.gate_nodes[gate as usize],
            });
        }
        match gate.kind {
            AND => self.fold(Join::And, &operands),
            OR => self.fold(Join::Or, &operands),
            _ => self.at_least(gate.k as usize, 0, &operands, &mut Map::default()),
        }
    }

    /// A free event is a node, a forced one a constant.
    fn event(&mut self, event: u32, steps: &Steps) -> Result<u32, Full> {
        let state = steps.states.get(event as usize).copied().unwrap_or(State::Free);
        let own = Node { event, failed: TRUE, sound: FALSE };
        if steps.forced_nodes {
            self.nodes.find_or_add(own)?;
        }
        match state {
            State::Free => self.nodes.find_or_add(own),
            State::Failed => Ok(TRUE),
            State::Sound => Ok(FALSE),
        }
    }

    fn fold(&mut self, join: Join, operands: &[u32]) -> Result<u32, Full> {
        let mut result = operands[0];
        for &operand in &operands[1..] {
            result = self.join(join, result, operand)?;
        }
        Ok(result)
    }

    /// At least k of the operands from `from` on; only the pairs that the rule reaches.
    fn at_least(
        &mut self,
        k: usize,
        from: usize,
        operands: &[u32],
        done: &mut Map<(usize, usize), u32>,
    ) -> Result<u32, Full> {
        if k == 0 {
            return Ok(TRUE);
        }
        if operands.len() - from < k {
            return Ok(FALSE);
        }
        if let Some(&result) = done.get(&(k, from)) {
            return Ok(result);
        }
        let fewer = self.at_least(k - 1, from + 1, operands, done)?;
        let with_first = self.join(Join::And, operands[from], fewer)?;
        let without_first = self.at_least(k, from + 1, operands, done)?;
        let result = self.join(Join::Or, with_first, without_first)?;
        done.insert((k, from), result);
        Ok(result)
    }

    pub fn join(&mut self, join: Join, f: u32, g: u32) -> Result<u32, Full> {
        let (decides, passes) = match join {
            Join::And => (FALSE, TRUE),
            Join::Or => (TRUE, FALSE),
        };
        if f == decides || g == decides {
            return Ok(decides);
        }
        if f == passes {
            return Ok(g);
        }
        if g == passes {
            return Ok(f);
        }
        let key = (join as u32, f, g);
        if let Some(&result) = self.joined.get(&key) {
            return Ok(result);
        }
        let event = self.nodes.node(f).event.min(self.nodes.node(g).event);
        let (f_failed, f_sound) = self.branches(f, event);
        let (g_failed, g_sound) = self.branches(g, event);
        let failed = self.join(join, f_failed, g_failed)?;
        let sound = self.join(join, f_sound, g_sound)?;
        let result = if failed == sound { failed } else { self.nodes.find_or_add(Node { event, failed, sound })? };
        self.joined.insert(key, result);
        Ok(result)
    }

    /// The function with the event failed, and with it sound.
    fn branches(&self, number: u32, event: u32) -> (u32, u32) {
        let node = self.nodes.node(number);
        if node.event == event {
            (node.failed, node.sound)
        } else {
            (number, number)
        }
    }
}
