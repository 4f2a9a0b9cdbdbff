//! A tree in memory, and the limits of document 01.

/// The billionths in one: chances are whole numbers of them.
pub const D: u32 = 1_000_000_000;

pub const MOST_EVENTS: usize = 1_024;
pub const MOST_GATES: usize = 512;
pub const MOST_INPUTS_OF_A_GATE: usize = 64;
pub const MOST_INPUTS: usize = 4_096;
pub const LONGEST_TREE: usize = 20_737;

/// Events from this number on have two bytes in a record, those below it one.
pub const FIRST_WIDE_EVENT: u32 = 256;

pub const AND: u32 = 2;
pub const OR: u32 = 3;
pub const AT_LEAST: u32 = 4;

/// In the flat list of inputs event e stands as e and gate g as 1,024 + g.
pub const FIRST_GATE_INPUT: u32 = MOST_EVENTS as u32;

#[derive(Clone, Copy, Debug, PartialEq, Eq)]
pub struct Gate {
    pub kind: u32,
    /// Only at-least gates look at it; reading leaves 0 in the others.
    pub k: u32,
    pub n: u32,
}

#[derive(Clone, Copy, Debug, PartialEq, Eq, Hash)]
pub enum Input {
    Event(u32),
    Gate(u32),
}

/// What stands more than once is left at its first place only.
pub fn distinct<T: Clone + PartialEq>(items: &[T]) -> Vec<T> {
    let first = |&place: &usize| !items[..place].contains(&items[place]);
    (0..items.len()).filter(first).map(|place| items[place].clone()).collect()
}

/// The counts stand beside the arrays and may exceed them. What lies behind an array counts as an
/// event of chance 0 and site 0, as an and of no inputs, or as the input event 0.
#[derive(Clone, Debug, Default, PartialEq, Eq)]
pub struct Tree {
    pub event_count: u64,
    pub gate_count: u64,
    pub chances: Vec<u32>,
    pub sites: Vec<u16>,
    /// The form: whether events have records with a site, of kind 11, or without, of kind 01. It does not follow from the sites.
    pub sited: bool,
    pub gates: Vec<Gate>,
    pub inputs: Vec<u32>,
}

impl Tree {
    pub fn chance(&self, event: u64) -> u32 {
        let held = usize::try_from(event).ok().filter(|&e| e < MOST_EVENTS);
        held.and_then(|e| self.chances.get(e).copied()).unwrap_or(0)
    }

    pub fn site(&self, event: u64) -> u16 {
        let held = usize::try_from(event).ok().filter(|&e| e < MOST_EVENTS);
        held.and_then(|e| self.sites.get(e).copied()).unwrap_or(0)
    }

    pub fn gate(&self, gate: u64) -> Gate {
        let held = usize::try_from(gate).ok().filter(|&g| g < MOST_GATES);
        held.and_then(|g| self.gates.get(g).copied()).unwrap_or(Gate { kind: AND, k: 0, n: 0 })
    }

    pub fn input(&self, place: u64) -> Input {
        let held = usize::try_from(place).ok().filter(|&i| i < MOST_INPUTS);
        let number = held.and_then(|i| self.inputs.get(i).copied()).unwrap_or(0);
        if number < FIRST_GATE_INPUT {
            Input::Event(number)
        } else {
            Input::Gate(number - FIRST_GATE_INPUT)
        }
    }

    /// The inputs of each gate in order. Only for trees that keep the rules.
    pub fn inputs_by_gate(&self) -> Vec<Vec<Input>> {
        let mut start = 0;
        let mut all = Vec::new();
        for gate in &self.gates {
            let end = start + gate.n as u64;
            all.push((start..end).map(|i| self.input(i)).collect());
            start = end;
        }
        all
    }

    // The calls below build trees by hand, for examples, vectors and the generator.

    /// Of the old form.
    pub fn of_chances(chances: &[u32]) -> Tree {
        let (event_count, sites) = (chances.len() as u64, vec![0; chances.len()]);
        Tree { event_count, chances: chances.to_vec(), sites, ..Tree::default() }
    }

    /// Of the new form, the events behind these sites at site 0.
    pub fn with_sites(mut self, sites: &[u16]) -> Tree {
        self.sited = true;
        self.sites = sites.to_vec();
        self.sites.resize(self.chances.len().max(sites.len()), 0);
        self
    }

    /// Adds a gate and answers its number.
    pub fn add_gate(&mut self, kind: u32, k: u32, inputs: &[Input]) -> u32 {
        for input in inputs {
            self.inputs.push(match *input {
                Input::Event(e) => e,
                Input::Gate(g) => FIRST_GATE_INPUT + g,
            });
        }
        self.gates.push(Gate { kind, k, n: inputs.len() as u32 });
        self.gate_count = self.gates.len() as u64;
        self.gate_count as u32 - 1
    }

    pub fn events(&self) -> usize {
        self.event_count as usize
    }
}

pub fn and(tree: &mut Tree, inputs: &[Input]) -> Input {
    Input::Gate(tree.add_gate(AND, 0, inputs))
}

pub fn or(tree: &mut Tree, inputs: &[Input]) -> Input {
    Input::Gate(tree.add_gate(OR, 0, inputs))
}

pub fn at_least(tree: &mut Tree, k: u32, inputs: &[Input]) -> Input {
    Input::Gate(tree.add_gate(AT_LEAST, k, inputs))
}
