//! Functions by truth tables, straight from the definitions. For small trees only.

use crate::big::Big;
use crate::settings::State;
use crate::tree::*;
use std::collections::HashSet;

/// The value for every set of failed events; a set is a number with bit i for event i.
pub type Function = Vec<bool>;

/// Everything that document 01 defines on a tree's functions.
pub struct Functions {
    pub of_gates: Vec<Function>,
    /// Nodes needed by the gates up to each; the last is the tree's.
    pub nodes_needed: Vec<usize>,
}

pub fn is_constant(f: &Function) -> bool {
    f.iter().all(|&value| value == f[0])
}

/// A forced event is a constant.
fn event_function(event: u32, events: usize, state: State) -> Function {
    let fails = |set: usize| match state {
        State::Free => set >> event & 1 == 1,
        State::Failed => true,
        State::Sound => false,
    };
    (0..1usize << events).map(fails).collect()
}

fn both(f: &Function, g: &Function) -> Function {
    f.iter().zip(g).map(|(&a, &b)| a && b).collect()
}

fn either(f: &Function, g: &Function) -> Function {
    f.iter().zip(g).map(|(&a, &b)| a || b).collect()
}

/// f with the first m events fixed as they are in `fixed`: a function of all events still.
pub fn fix(f: &Function, m: usize, fixed: usize) -> Function {
    let first = (1usize << m) - 1;
    (0..f.len()).map(|set| f[(set & !first) | fixed]).collect()
}

/// All non-constant functions got from f by fixing the first m events in some way, m from 0 up.
pub fn fixings(f: &Function, events: usize) -> HashSet<Function> {
    let mut all = HashSet::new();
    for m in 0..=events {
        for fixed in 0..1usize << m {
            let g = fix(f, m, fixed);
            if !is_constant(&g) {
                all.insert(g);
            }
        }
    }
    all
}

pub fn functions(tree: &Tree) -> Functions {
    functions_in(tree, &vec![State::Free; tree.events()])
}

/// The same with some events forced.
pub fn functions_in(tree: &Tree, states: &[State]) -> Functions {
    let events = tree.events();
    let mut of_gates: Vec<Function> = Vec::new();
    let mut counted: HashSet<Function> = HashSet::new();
    let mut looked_at: HashSet<Function> = HashSet::new();
    let mut nodes_needed = Vec::new();
    for (gate, inputs) in tree.gates.iter().zip(tree.inputs_by_gate()) {
        let mut steps: Vec<Function> = Vec::new();
        let mut operands = Vec::new();
        // Request 3: the steps of an at-least gate run over its distinct inputs.
        for input in if gate.kind == AT_LEAST { distinct(&inputs) } else { inputs } {
            operands.push(match input {
                Input::Event(event) => {
                    let function = event_function(event, events, states[event as usize]);
                    steps.push(function.clone());
                    function
                }
                Input::Gate(number) => of_gates[number as usize].clone(),
            });
        }
        of_gates.push(match gate.kind {
            AND => fold(both, &operands, &mut steps),
            OR => fold(either, &operands, &mut steps),
            _ => at_least(gate.k as usize, &operands, events, &mut steps),
        });
        for step in steps {
            if looked_at.insert(step.clone()) {
                counted.extend(fixings(&step, events));
            }
        }
        nodes_needed.push(counted.len());
    }
    Functions { of_gates, nodes_needed }
}

/// Inputs joined from left to right, two at a time; each result is a step.
fn fold(join: fn(&Function, &Function) -> Function, operands: &[Function], steps: &mut Vec<Function>) -> Function {
    let mut result = operands[0].clone();
    for operand in &operands[1..] {
        result = join(&result, operand);
        steps.push(result.clone());
    }
    result
}

/// The rule as it stands: every pair it reaches is a step, and each conjunction in it.
fn at_least(k: usize, operands: &[Function], events: usize, steps: &mut Vec<Function>) -> Function {
    if k == 0 {
        return vec![true; 1 << events];
    }
    if operands.len() < k {
        return vec![false; 1 << events];
    }
    let conjunction = both(&operands[0], &at_least(k - 1, &operands[1..], events, steps));
    let result = either(&conjunction, &at_least(k, &operands[1..], events, steps));
    steps.push(conjunction);
    steps.push(result.clone());
    result
}

/// Whether f depends on the event at all.
pub fn depends(f: &Function, event: usize) -> bool {
    (0..f.len()).any(|set| f[set | 1 << event] != f[set & !(1 << event)])
}

/// S: over the failing sets, the product of a for members and D − a for the others.
pub fn exact_chance(f: &Function, chances: &[u32]) -> Big {
    let mut sum = Big::from(0);
    for set in (0..f.len()).filter(|&set| f[set]) {
        let mut product = Big::from(1);
        for (event, &a) in chances.iter().enumerate() {
            product = product.times(if set >> event & 1 == 1 { a } else { D - a });
        }
        sum = sum.plus(&product);
    }
    sum
}

/// The value of the tree for one set of failures, read off its gates; no tables at all.
pub fn fails(tree: &Tree, failed: &dyn Fn(u32) -> bool) -> bool {
    let mut values: Vec<bool> = Vec::new();
    for (gate, inputs) in tree.gates.iter().zip(tree.inputs_by_gate()) {
        let fails = |input: &Input| match *input {
            Input::Event(event) => failed(event),
            Input::Gate(number) => values[number as usize],
        };
        // As a set: one that stands twice is one. Two gates are two, whatever they say.
        let failing: HashSet<Input> = inputs.iter().copied().filter(fails).collect();
        values.push(match gate.kind {
            AND => inputs.iter().all(fails),
            OR => inputs.iter().any(fails),
            _ => failing.len() >= gate.k as usize,
        });
    }
    *values.last().expect("a tree has a gate")
}
