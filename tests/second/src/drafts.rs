//! The equations of a text before its lines are put in order, of a seeded tree and with faults of the whole: rings, roots, limits.

use crate::equations::{LONGEST_NAME, WORDS};
use crate::random::Random;
use crate::tree::*;
use std::collections::HashSet;

/// An equation over names by their numbers; its k as typed.
#[derive(Clone, Debug)]
pub struct Equation {
    pub left: usize,
    pub kind: u32,
    pub k: String,
    pub inputs: Vec<usize>,
}

/// A text before its lines are put in order.
#[derive(Clone, Debug, Default)]
pub struct Draft {
    pub names: Vec<Vec<u8>>,
    taken: HashSet<Vec<u8>>,
    pub equations: Vec<Equation>,
    /// Names with their chances as typed.
    pub chances: Vec<(usize, String)>,
    pub events: usize,
}

/// What can be wrong with a text. Of two faults of different ranks the one of the lower rank is answered.
#[derive(Clone, Copy, Debug, PartialEq, Eq)]
pub enum Fault {
    Line,
    LeftTwice,
    Ring,
    Roots,
    Chance,
    Events,
    Gates,
    Threshold,
}

pub const FAULTS: [Fault; 8] = [
    Fault::Line,
    Fault::LeftTwice,
    Fault::Ring,
    Fault::Roots,
    Fault::Chance,
    Fault::Events,
    Fault::Gates,
    Fault::Threshold,
];

impl Fault {
    pub fn number(self) -> u32 {
        match self {
            Fault::Line => 15,
            Fault::LeftTwice => 16,
            Fault::Ring => 17,
            Fault::Roots => 18,
            Fault::Chance => 7,
            Fault::Events | Fault::Gates => 4,
            Fault::Threshold => 5,
        }
    }

    pub fn rank(self) -> u32 {
        match self {
            Fault::Line => 0,
            Fault::LeftTwice => 1,
            Fault::Ring => 2,
            Fault::Roots => 3,
            // An event of the tree itself comes before those that are too many.
            Fault::Chance => 4,
            Fault::Events => 5,
            Fault::Gates | Fault::Threshold => 6,
        }
    }
}

/// A name: short, as an export has it, near a word that is none, or as long as may be.
fn name(random: &mut Random) -> Vec<u8> {
    let letters = b"abcdefghijklmnopqrstuvwxyzABCDEFGHIJKLMNOPQRSTUVWXYZ0123456789";
    match random.below(8) {
        0 => vec![letters[random.below(52)]],
        1 => format!("{}{}", random.of(&["e", "g", "p", "P"]), random.below(600)).into_bytes(),
        2 => random.of(&["P", "And", "AND", "OR", "or1", "ands", "at1", "AT", "inn", "In", "i", "pp", "nor"]).into(),
        style => {
            let length = if style < 5 { LONGEST_NAME } else { random.between(2, LONGEST_NAME) };
            let mut name: Vec<u8> = (0..length).map(|_| letters[random.below(62)]).collect();
            name[0] = letters[random.below(52)];
            name
        }
    }
}

impl Draft {
    pub fn fresh(&mut self, random: &mut Random) -> usize {
        loop {
            let name = name(random);
            if !WORDS.contains(&&name[..]) && self.taken.insert(name.clone()) {
                self.names.push(name);
                return self.names.len() - 1;
            }
        }
    }

    /// The tree's equations; some chances are left out where they are 0.
    pub fn of(random: &mut Random, tree: &Tree) -> Draft {
        let mut draft = Draft { events: tree.events(), ..Draft::default() };
        for _ in 0..tree.events() + tree.gates.len() {
            draft.fresh(random);
        }
        for (gate, (Gate { kind, k, .. }, inputs)) in tree.gates.iter().zip(tree.inputs_by_gate()).enumerate() {
            let number = |input: Input| match input {
                Input::Event(event) => event as usize,
                Input::Gate(gate) => tree.events() + gate as usize,
            };
            let inputs = inputs.into_iter().map(number).collect();
            draft.equations.push(Equation { left: tree.events() + gate, kind: *kind, k: k.to_string(), inputs });
        }
        for (event, chance) in tree.chances.iter().enumerate() {
            if *chance > 0 || random.once_in(2) {
                draft.chances.push((event, chance.to_string()));
            }
        }
        draft
    }

    pub fn equation(&self, equation: &Equation) -> Vec<u8> {
        let names: Vec<&[u8]> = equation.inputs.iter().map(|&input| &self.names[input][..]).collect();
        let right = match equation.kind {
            AT_LEAST => [format!("at-least {} in ", equation.k).as_bytes(), &names.join(&b", "[..])].concat(),
            AND => names.join(&b" and "[..]),
            _ => names.join(&b" or "[..]),
        };
        [&self.names[equation.left], &b" = "[..], &right].concat()
    }

    pub fn chance(&self, name: usize, chance: &str) -> Vec<u8> {
        [b"p ", &self.names[name][..], b" ", chance.as_bytes()].concat()
    }

    fn root(&self) -> usize {
        let is_input = |left: usize| self.equations.iter().any(|equation| equation.inputs.contains(&left));
        self.equations.iter().map(|equation| equation.left).find(|&left| !is_input(left)).expect("there is a root")
    }

    /// An equation for a fresh name, over these and some other events.
    fn over(&mut self, random: &mut Random, mut inputs: Vec<usize>) -> usize {
        for _ in 0..random.below(3) {
            inputs.push(random.below(self.events));
        }
        let left = self.fresh(random);
        let kind = random.of(&[AND, OR, AT_LEAST]);
        let k = random.between(1, distinct(&inputs).len()).to_string();
        self.equations.push(Equation { left, kind, k, inputs });
        left
    }

    pub fn spoil(&mut self, random: &mut Random, fault: Fault) {
        let some = random.below(self.equations.len());
        match fault {
            Fault::Line | Fault::LeftTwice => unreachable!("these are faults of the lines"),
            Fault::Ring if random.once_in(2) => self.ring_inside(random, some),
            Fault::Ring => self.ring_beside(random),
            Fault::Roots => {
                let root = self.root();
                let others: Vec<usize> = (0..self.names.len()).filter(|&name| name != root).collect();
                let other = random.of(&others);
                self.over(random, vec![other]);
            }
            Fault::Chance => {
                let event = random.below(self.events);
                let above = (D as usize + 1 + random.below(1 << 34)).to_string();
                let choices = ["1000000001", "4294967295", "4294967296", "4294967301", "18446744073709551616", &above];
                let long = format!("{}{}", random.between(1, 9), "0".repeat(random.between(10, 50)));
                let chance = if random.once_in(3) { long } else { random.of(&choices).to_string() };
                self.chances.retain(|(name, _)| *name != event);
                self.chances.push((event, chance));
            }
            Fault::Events => {
                // A new root over gates of new events; the last of these may have any chance.
                let mut inputs = vec![self.root()];
                let mut last = 0;
                for _ in 0..random.of(&[20, 20, 20, 30]) {
                    let events: Vec<usize> = (0..random.between(52, 62)).map(|_| self.fresh(random)).collect();
                    last = events[events.len() - 1];
                    inputs.push(self.over(random, events));
                }
                self.over(random, inputs);
                self.chances.push((last, random.of(&["0", "1000000001", "18446744073709551616"]).to_string()));
            }
            Fault::Gates => self.too_many(random, some),
            Fault::Threshold => {
                let all: usize = self.equations.iter().map(|equation| equation.inputs.len()).sum();
                let Equation { kind, k, inputs, .. } = &mut self.equations[some];
                // One of its names once more, where that keeps the limits.
                if inputs.len() < MOST_INPUTS_OF_A_GATE && all < MOST_INPUTS && random.once_in(2) {
                    inputs.insert(random.below(inputs.len() + 1), random.of(inputs));
                }
                let above = (distinct(inputs).len() + 1).to_string();
                *kind = AT_LEAST;
                let choices = ["0", "256", "257", "4294967297", "18446744073709551617", "99999999999999999999"];
                *k = if random.once_in(2) { above } else { random.of(&choices).to_string() };
            }
        }
    }

    /// A gate gets itself, or one that it leads up to, as a further input.
    fn ring_inside(&mut self, random: &mut Random, equation: usize) {
        let mut above = self.equations[equation].left;
        for _ in 0..random.below(6) {
            let user = |e: &&Equation| e.inputs.contains(&above);
            let users: Vec<usize> = self.equations.iter().filter(user).map(|e| e.left).collect();
            if !users.is_empty() {
                above = random.of(&users);
            }
        }
        let inputs = &mut self.equations[equation].inputs;
        inputs.insert(random.below(inputs.len() + 1), above);
    }

    /// Fresh names in a ring; some have inputs in the tree, and a root of its own may stand over it.
    fn ring_beside(&mut self, random: &mut Random) {
        let first = self.fresh(random);
        let mut last = first;
        for _ in 0..random.below(7) {
            last = self.over(random, vec![last]);
        }
        self.equations.push(Equation { left: first, kind: OR, k: String::new(), inputs: vec![last] });
        if random.once_in(3) {
            self.over(random, vec![first]);
        }
    }

    fn too_many(&mut self, random: &mut Random, equation: usize) {
        match random.below(8) {
            0 => {
                // The 513th gate, in a chain above the root.
                let mut root = self.root();
                while self.equations.len() <= MOST_GATES {
                    root = self.over(random, vec![root]);
                }
            }
            1 => {
                // More than 4,096 inputs in all, and 64 at most to a gate.
                let mut inputs = vec![self.root()];
                for gate in 1..MOST_INPUTS_OF_A_GATE {
                    inputs.push(self.over(random, vec![gate % self.events]));
                    let own = &mut self.equations.last_mut().expect("it was added").inputs;
                    own.resize(MOST_INPUTS_OF_A_GATE, gate % self.events);
                }
                let left = self.fresh(random);
                self.equations.push(Equation { left, kind: OR, k: String::new(), inputs });
            }
            _ => {
                let inputs = &mut self.equations[equation].inputs;
                let own = inputs.clone();
                inputs.resize_with(random.of(&[65, 66, 128, 256, 257, 300]), || random.of(&own));
            }
        }
    }
}
