//! Wrong programs, continued: inputs that stand twice in an at-least gate, and when, where and of what number 5 is judged.

use crate::judge::{event_length, input_length, read, Record, Refusal, READER};
use crate::library::*;
use crate::robdd::{Node, Robdd, FALSE, TRUE};
use crate::tree::*;
use crate::unlawful::raw_bytes;
use crate::wrong::Wrong::{self, *};

/// An at-least gate of some bytes, with as many of its inputs as follow it, each with its place, and where they end.
struct AtLeast {
    place: u64,
    k: u64,
    n: u64,
    inputs: Vec<(u64, Input)>,
    end: u64,
}

impl AtLeast {
    /// Its inputs before this place.
    fn until(&self, place: u64) -> Vec<Input> {
        self.inputs.iter().take_while(|input| input.0 < place).map(|input| input.1).collect()
    }
}

fn at_least_gates(bytes: &[u8]) -> Vec<AtLeast> {
    let mut all: Vec<AtLeast> = Vec::new();
    let mut place = 0;
    let mut missing = 0;
    while place < bytes.len() {
        let Ok((record, length)) = READER.decode(bytes, place) else { break };
        let input = match record {
            Record::Gate { kind, k, n } => {
                missing = if kind == AT_LEAST { n } else { 0 };
                if kind == AT_LEAST {
                    all.push(AtLeast { place: place as u64, k, n, inputs: Vec::new(), end: 0 });
                }
                None
            }
            Record::EventInput(event) | Record::WideInput(event) => Some(Input::Event(event as u32)),
            Record::GateInput(gate) => Some(Input::Gate(gate as u32)),
            _ => None,
        };
        if let (Some(input), Some(gate), 1..) = (input, all.last_mut(), missing) {
            gate.inputs.push((place as u64, input));
            gate.end = (place + length) as u64;
            missing -= 1;
        }
        place += length;
    }
    all
}

/// The gate among whose inputs the fault stands, which its own k is refused before.
fn five_first(bytes: &[u8], place: u64, is_wrong: impl Fn(&AtLeast) -> bool) -> Option<u64> {
    let all = at_least_gates(bytes);
    let gate = all.iter().rfind(|gate| gate.place < place)?;
    ((gate.until(place).len() as u64) < gate.n && is_wrong(gate)).then_some(gate.place)
}

/// The number of an input, whatever it is.
fn bare(input: &Input) -> u32 {
    match *input {
        Input::Event(number) | Input::Gate(number) => number,
    }
}

/// What is read where k is judged against all n inputs, whatever stands twice: with a k that passes, and then the true one.
fn doubles_pass(bytes: &[u8]) -> Result<Tree, Refusal> {
    let mut passing = bytes.to_vec();
    let mut changed = Vec::new();
    loop {
        let Err(Refusal { number: 5, place }) = read(&passing) else { break };
        let gates = at_least_gates(&passing);
        let gate = gates.iter().find(|gate| gate.place == place).expect("5 is at an at-least gate");
        if gate.k == 0 || gate.k > gate.n {
            break;
        }
        passing[place as usize + 1] = 1;
        changed.push((place, gate.k as u32));
    }
    let mut tree = read(&passing)?;
    let mut place = event_length(tree.sited) * tree.event_count;
    let inputs = tree.inputs_by_gate();
    for (gate, inputs) in tree.gates.iter_mut().zip(inputs) {
        if let Some(&(_, k)) = changed.iter().find(|changed| changed.0 == place) {
            gate.k = k;
        }
        place += if gate.kind == AT_LEAST { 3 } else { 2 } + inputs.iter().map(input_length).sum::<u64>();
    }
    Ok(tree)
}

/// The tree with no input twice in an and or an or.
fn joins_without_twins(tree: &Tree) -> Tree {
    let mut other = Tree { gates: Vec::new(), inputs: Vec::new(), ..tree.clone() };
    for (gate, inputs) in tree.gates.iter().zip(tree.inputs_by_gate()) {
        let inputs = if gate.kind == AT_LEAST { inputs } else { distinct(&inputs) };
        other.add_gate(gate.kind, gate.k, &inputs);
    }
    other
}

pub fn answered(reading: Result<Tree, Refusal>) -> ReadAnswer {
    match reading {
        Ok(tree) => ReadAnswer { number: 0, place: 0, tree },
        Err(Refusal { number, place }) => ReadAnswer { number, place, tree: Tree::default() },
    }
}

pub fn wrong_read(wrong: Wrong, bytes: &[u8], right: ReadAnswer) -> ReadAnswer {
    let refused = |place| answered(Err(Refusal { number: 5, place }));
    let at_fault = || at_least_gates(bytes).into_iter().find(|gate| gate.place == right.place);
    let other = match (wrong, right.number) {
        (ZeroAtOnce, 1 | 2 | 3 | 6) => five_first(bytes, right.place, |gate| gate.k == 0).map(refused),
        (FiveAtOnce, 1 | 2 | 3 | 6) => five_first(bytes, right.place, |gate| gate.k > gate.n).map(refused),
        (FiveAtTheLastInput, 5) => at_fault().and_then(|gate| gate.inputs.last().map(|input| refused(input.0))),
        (FiveAfterTheNextRecord, 5) => at_fault().and_then(|gate| {
            let mut passing = bytes.to_vec();
            passing[gate.place as usize + 1] = 1;
            read(&passing).err().filter(|refusal| refusal.place == gate.end).map(|refusal| answered(Err(refusal)))
        }),
        (FiveOfAllInputs, 5) => Some(answered(doubles_pass(bytes))),
        (FiveByNumbersAlone, number) => {
            let stop = if [0, 8].contains(&number) { bytes.len() as u64 } else { right.place };
            let starved = |gate: &AtLeast| {
                let inputs = gate.until(stop);
                let numbers: Vec<u32> = inputs.iter().map(bare).collect();
                inputs.len() as u64 == gate.n && gate.k > distinct(&numbers).len() as u64
            };
            at_least_gates(bytes).iter().find(|gate| starved(gate)).map(|gate| refused(gate.place))
        }
        (TwinsDroppedFromJoins, 0) => Some(answered(Ok(joins_without_twins(&right.tree)))),
        _ => None,
    };
    other.unwrap_or(right)
}

pub fn wrong_write(wrong: Wrong, tree: &Tree, right: WriteAnswer) -> WriteAnswer {
    // The bytes of trees that bytes can hold; the others are written as they should be.
    let bytes = raw_bytes(tree);
    let other = match (wrong, right.number) {
        (WritesFiveAtOnce, 6) => five_first(&bytes, right.place, |gate| gate.k == 0 || gate.k > gate.n)
            .map(|place| WriteAnswer { number: 5, place, used: 0 }),
        (WritesFiveOfAllInputs, 5) => at_least_gates(&bytes)
            .iter()
            .find(|gate| gate.place == right.place && (1..=gate.n).contains(&gate.k))
            .map(|_| WriteAnswer { number: 0, place: 0, used: bytes.len() as u64 }),
        _ => None,
    };
    other.unwrap_or(right)
}

/// The inputs that a wrong program counts; `None` where it counts the distinct ones.
pub fn counted(wrong: Wrong) -> Option<fn(&Robdd, &[Input]) -> Vec<Input>> {
    match wrong {
        DoublesCountedTwice => Some(|_, inputs| inputs.to_vec()),
        DistinctByNode => Some(|robdd, inputs| distinct_by(inputs, |input| node(robdd, input))),
        DistinctByNumbersAlone => Some(|_, inputs| distinct_by(inputs, bare)),
        DistinctAtTheLastPlaces => Some(|_, inputs| {
            let mut backwards = inputs.to_vec();
            backwards.reverse();
            let mut last = distinct(&backwards);
            last.reverse();
            last
        }),
        _ => None,
    }
}

fn distinct_by(inputs: &[Input], key: impl Fn(&Input) -> u32) -> Vec<Input> {
    let keys: Vec<u32> = inputs.iter().map(key).collect();
    let first = |&place: &usize| !keys[..place].contains(&keys[place]);
    (0..inputs.len()).filter(first).map(|place| inputs[place]).collect()
}

/// The node of an input; an event without one yet is told from all nodes.
fn node(robdd: &Robdd, input: &Input) -> u32 {
    match *input {
        Input::Gate(gate) => robdd.gate_nodes[gate as usize],
        Input::Event(event) => robdd.nodes.find(Node { event, failed: TRUE, sound: FALSE }).unwrap_or(u32::MAX - event),
    }
}
