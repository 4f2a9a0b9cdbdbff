//! A tree as the library takes it: six arrays, with anything behind what the tree tells.

use crate::driver::{Area, Request};
use crate::tree::*;

#[derive(Clone, PartialEq, Eq)]
pub struct Arrays {
    chances: Vec<u32>,
    sites: Vec<u16>,
    kinds: Vec<u8>,
    leasts: Vec<u8>,
    sizes: Vec<u8>,
    inputs: Vec<u16>,
}

impl Arrays {
    /// Anything at all.
    pub fn dirty(seed: u64) -> Arrays {
        let dirt = |place: usize| seed.wrapping_add(place as u64).wrapping_mul(0x9E37_79B9_7F4A_7C15) >> 32;
        let bytes = |more: usize| -> Vec<u8> { (0..MOST_GATES).map(|gate| dirt(gate + more) as u8).collect() };
        Arrays {
            chances: (0..MOST_EVENTS).map(|event| dirt(event) as u32).collect(),
            sites: (0..MOST_EVENTS).map(|event| dirt(event + 3_000) as u16).collect(),
            kinds: bytes(0),
            leasts: bytes(1_000),
            sizes: bytes(2_000),
            inputs: (0..MOST_INPUTS).map(|input| dirt(input) as u16).collect(),
        }
    }

    /// A tree with dirt behind what it tells: its counts may exceed its lists, as everywhere here, and then stand for
    /// events of chance 0 and site 0, gates of no input, and inputs of event 0.
    pub fn of(tree: &Tree, seed: u64) -> Arrays {
        let mut arrays = Arrays::dirty(seed);
        let told = |count: u64, most: usize| count.min(most as u64) as usize;
        for event in 0..told(tree.event_count, MOST_EVENTS) {
            arrays.chances[event] = tree.chance(event as u64);
            arrays.sites[event] = tree.site(event as u64);
        }
        let byte = |number: u32| u8::try_from(number).expect("a gate's numbers are bytes");
        let mut inputs = 0;
        for place in 0..told(tree.gate_count, MOST_GATES) {
            let gate = tree.gate(place as u64);
            arrays.kinds[place] = byte(gate.kind);
            arrays.leasts[place] = byte(gate.k);
            arrays.sizes[place] = byte(gate.n);
            inputs += gate.n as u64;
        }
        for place in 0..told(inputs, MOST_INPUTS) {
            let number = tree.inputs.get(place).copied().unwrap_or(0);
            arrays.inputs[place] = u16::try_from(number).expect("an input has two bytes");
        }
        arrays
    }

    pub fn lend(&self, request: Request) -> Request {
        let request = request.numbers(&self.chances).halves(&self.sites).bytes(&self.kinds).bytes(&self.leasts);
        request.bytes(&self.sizes).halves(&self.inputs)
    }

    pub fn areas(&mut self) -> [Area<'_>; 6] {
        [
            Area::Numbers(&mut self.chances),
            Area::Halves(&mut self.sites),
            Area::Bytes(&mut self.kinds),
            Area::Bytes(&mut self.leasts),
            Area::Bytes(&mut self.sizes),
            Area::Halves(&mut self.inputs),
        ]
    }

    /// The tree of these counts and this form, unless they or what stands behind them cannot be a reading's.
    pub fn tree(&self, events: u64, gates: u64, sited: u64) -> Option<Tree> {
        let (events, gates) = (events as usize, gates as usize);
        let (chances, behind) = self.chances.split_at_checked(events)?;
        let (sites, behind_sites) = self.sites.split_at_checked(events)?;
        let clean = |array: &[u8]| array.get(gates..).is_some_and(|behind| behind.iter().all(|&number| number == 0));
        if sited > 1
            || behind.iter().any(|&chance| chance != 0)
            || behind_sites.iter().any(|&site| site != 0)
            || ![&self.kinds, &self.leasts, &self.sizes].into_iter().all(|a| clean(a))
        {
            return None;
        }
        let gate = |place: usize| Gate {
            kind: self.kinds[place] as u32,
            k: self.leasts[place] as u32,
            n: self.sizes[place] as u32,
        };
        let all: Vec<Gate> = (0..gates).map(gate).collect();
        let total: usize = all.iter().map(|gate| gate.n as usize).sum();
        let (inputs, behind) = self.inputs.split_at_checked(total)?;
        behind.iter().all(|&input| input == 0).then(|| Tree {
            event_count: events as u64,
            gate_count: gates as u64,
            chances: chances.to_vec(),
            sites: sites.to_vec(),
            sited: sited == 1,
            gates: all,
            inputs: inputs.iter().map(|&input| input as u32).collect(),
        })
    }
}
