//! Seeded inputs: bytes, accepted trees of every size, chances, starts and rooms.

use crate::judge::event_bytes;
use crate::random::Random;
use crate::sets::Set;
use crate::tree::*;

/// What a tree to be made should look like.
#[derive(Clone, Copy, Debug)]
pub struct Shape {
    pub events: usize,
    pub gates: usize,
    /// The most inputs to a gate.
    pub widest: usize,
    /// The sum of all inputs where the tree allows it; 0 leaves it to chance.
    pub inputs: usize,
    pub kinds: Kinds,
    /// Inputs beyond those that bring an item to its first use come from this many latest items;
    /// small numbers keep diagrams narrow.
    pub reach: usize,
    /// Whether those further inputs are gates only.
    pub only_gates_again: bool,
}

#[derive(Clone, Copy, Debug, PartialEq, Eq)]
pub enum Kinds {
    All,
    OnlyAtLeast,
}

pub fn shape(events: usize, gates: usize, widest: usize) -> Shape {
    Shape { events, gates, widest, inputs: 0, kinds: Kinds::All, reach: usize::MAX, only_gates_again: false }
}

/// Small enough for the brute force.
pub fn small_shape(random: &mut Random) -> Shape {
    shape(random.between(1, 6), random.between(1, 8), random.between(2, 6))
}

/// From a few events to some dozens; these have diagrams of up to some thousands of nodes.
pub fn middle_shape(random: &mut Random) -> Shape {
    let reach = random.between(2, 12);
    // Half of them use each item once only; otherwise inputs that come again absorb much of the tree.
    let inputs = random.below(2);
    Shape { reach, inputs, ..shape(random.between(4, 40), random.between(3, 50), random.between(3, 9)) }
}

/// Up to the limits; mostly too large for any table.
pub fn large_shape(random: &mut Random) -> Shape {
    let (events, gates) = (random.between(64, MOST_EVENTS), random.between(64, MOST_GATES));
    let reach = random.between(2, 40);
    let inputs = if random.once_in(2) { random.between(gates, MOST_INPUTS) } else { 0 };
    // Every event and every gate but the root has its place in some gate.
    let least = (events + gates - 1).div_ceil(gates);
    let widest = random.between(least.max(8), MOST_INPUTS_OF_A_GATE);
    Shape { reach, inputs, ..shape(events, gates, widest) }
}

/// All counts at their maximum: 1,024 events, 512 gates, 4,096 inputs, and with sites 20,737 bytes, since every gate
/// is an at-least and every event is an input once only.
pub fn longest_shape() -> Shape {
    Shape {
        inputs: MOST_INPUTS,
        kinds: Kinds::OnlyAtLeast,
        reach: 24,
        only_gates_again: true,
        ..shape(MOST_EVENTS, MOST_GATES, MOST_INPUTS_OF_A_GATE)
    }
}

/// Every count at its maximum, and yet a diagram of a few thousand nodes: each gate takes two events and the gate before it, some of
/// its inputs often, and the events come in from the last to the first.
pub fn narrow_tree(random: &mut Random) -> Tree {
    let mut tree = Tree::of_chances(&chances(random, MOST_EVENTS));
    let widest = random.between(1, MOST_GATES - 1);
    let shared = MOST_INPUTS - MOST_INPUTS_OF_A_GATE;
    let others = MOST_GATES - 1;
    let mut unused = (0..MOST_EVENTS as u32).rev().map(Input::Event);
    for gate in 0..MOST_GATES {
        let width = match gate == widest {
            true => MOST_INPUTS_OF_A_GATE,
            false => shared / others + usize::from(gate - usize::from(gate > widest) < shared % others),
        };
        let mut own: Vec<Input> = unused.by_ref().take(MOST_EVENTS / MOST_GATES).collect();
        own.extend(gate.checked_sub(1).map(|below| Input::Gate(below as u32)));
        let mut inputs = own.clone();
        inputs.extend((own.len()..width).map(|_| random.of(&own)));
        shuffle(random, &mut inputs);
        let kind = random.of(&[AND, OR, AT_LEAST]);
        let k = threshold(random, kind, &inputs);
        tree.add_gate(kind, k, &inputs);
    }
    tree
}

/// 255 to 1,024 events, and a small diagram: each gate takes some events and the gate before it, and the events come in from the last
/// to the first. Most cuts have members on both sides of 256.
pub fn wide_tree(random: &mut Random) -> Tree {
    let events = match random.below(3) {
        0 => random.between(255, MOST_EVENTS),
        1 => random.between(255, 260),
        _ => random.of(&[255, 256, 257, 512, 513, 900, MOST_EVENTS - 1, MOST_EVENTS]),
    };
    let mut tree = Tree::of_chances(&chances(random, events));
    let habits = random.of(&[&[AND][..], &[AND, AND, OR], &[AND, OR], &[OR, OR, AND]]);
    let most = random.of(&[8, 20, MOST_INPUTS_OF_A_GATE - 1]);
    let mut unused = events;
    while unused > 0 {
        let own = random.between(3, most).min(unused);
        let mut inputs: Vec<Input> = (unused - own..unused).rev().map(|event| Input::Event(event as u32)).collect();
        if let Some(below) = tree.gates.len().checked_sub(1) {
            let place = if random.once_in(4) { random.below(own + 1) } else { 0 };
            inputs.insert(place, Input::Gate(below as u32));
        }
        unused -= own;
        // An at-least of many inputs has many nodes.
        let kind = if own <= 6 && random.once_in(3) { AT_LEAST } else { random.of(habits) };
        let k = threshold(random, kind, &inputs);
        tree.add_gate(kind, k, &inputs);
    }
    tree
}

fn shuffle<T>(random: &mut Random, items: &mut [T]) {
    for place in (1..items.len()).rev() {
        items.swap(place, random.below(place + 1));
    }
}

/// A k that these inputs allow, often the most that they do: as many as are distinct.
fn threshold(random: &mut Random, kind: u32, inputs: &[Input]) -> u32 {
    let most = distinct(inputs).len();
    match kind {
        AT_LEAST if random.once_in(4) => most as u32,
        AT_LEAST => random.between(1, most) as u32,
        _ => 0,
    }
}

/// The ors of so many pairs of events, and those that are joined by an and.
fn pairs(pairs: usize) -> (Tree, Vec<Input>) {
    let mut tree = Tree::of_chances(&vec![1; 2 * pairs]);
    let pair = |pair: u32| [Input::Event(2 * pair), Input::Event(2 * pair + 1)];
    let ors = (0..pairs as u32).map(|number| or(&mut tree, &pair(number))).collect();
    (tree, ors)
}

/// An and of so many ors of two events: 2 to that power cuts, all of one size.
pub fn and_of_ors(count: usize) -> Tree {
    let (mut tree, ors) = pairs(count);
    and(&mut tree, &ors);
    tree
}

/// The same cuts with a tenth of the nodes: the and begins at the last or.
pub fn ors_from_the_last(count: usize) -> Tree {
    let (mut tree, mut ors) = pairs(count);
    ors.reverse();
    and(&mut tree, &ors);
    tree
}

pub fn chance(random: &mut Random) -> u32 {
    match random.below(8) {
        0 => random.of(&[0, 1, 2, D - 2, D - 1, D, D / 2, D / 3]),
        1 => random.below(100) as u32,
        2 | 3 => random.below(50_000_000) as u32,
        _ => random.below(D as usize + 1) as u32,
    }
}

pub fn chances(random: &mut Random, events: usize) -> Vec<u32> {
    (0..events).map(|_| chance(random)).collect()
}

fn site(random: &mut Random) -> u16 {
    let any = random.between(1, 0xFFFF) as u16;
    random.of(&[1, 0xFF, 0x100, 0xFF00, 0xFFFF, any])
}

/// All 0, the last event's alone another, one event's alone, or any.
pub fn sites(random: &mut Random, events: usize) -> Vec<u16> {
    let mut sites = vec![0; events];
    match random.below(6) {
        _ if events == 0 => {}
        0 | 1 => {}
        2 => sites[events - 1] = site(random),
        3 => sites[random.below(events)] = site(random),
        _ => {
            let often = random.between(1, 4);
            for own in &mut sites {
                *own = if random.once_in(often) { site(random) } else { 0 };
            }
        }
    }
    sites
}

/// The tree as it is, or of the new form with sites.
pub fn in_either_form(random: &mut Random, tree: Tree) -> Tree {
    if !random.once_in(3) {
        return tree;
    }
    let sites = sites(random, tree.chances.len());
    tree.with_sites(&sites)
}

/// An accepted tree. At most 64 items may wait for their first use at the root, so the number of events
/// must be below 64 for a single gate; the shapes above are, or have gates enough.
pub fn tree(random: &mut Random, shape: Shape) -> Tree {
    let widest = shape.widest.clamp(2, MOST_INPUTS_OF_A_GATE);
    let firsts = first_uses(random, shape.events, shape.gates, widest);
    let widths = widths(random, &shape, &firsts);
    let mut tree = Tree::of_chances(&chances(random, shape.events));
    let mut unused: Vec<Input> = (0..shape.events as u32).map(Input::Event).collect();
    // Events come into use roughly in order, so that neighbours in the tree are neighbours in the order.
    unused.reverse();
    for gate in 0..shape.gates {
        let mut inputs = Vec::new();
        for _ in 0..firsts[gate] {
            let from_end = random.below(unused.len().min(shape.reach.clamp(2, 1 << 20)));
            let place = unused.len() - 1 - from_end;
            inputs.push(unused.remove(place));
        }
        while inputs.len() < widths[gate] {
            let beside = twin(random, &shape, gate, &inputs).filter(|_| random.once_in(2));
            inputs.push(beside.unwrap_or_else(|| again(random, &shape, gate)));
        }
        shuffle(random, &mut inputs);
        let kind = match shape.kinds {
            Kinds::All => random.of(&[AND, OR, AT_LEAST]),
            Kinds::OnlyAtLeast => AT_LEAST,
        };
        let k = threshold(random, kind, &inputs);
        unused.push(Input::Gate(tree.add_gate(kind, k, &inputs)));
    }
    tree
}

/// How many items each gate is the first to use: all events and all gates but the root in the end.
fn first_uses(random: &mut Random, events: usize, gates: usize, widest: usize) -> Vec<usize> {
    let mut waiting = events;
    let mut firsts = Vec::new();
    for gate in 0..gates {
        let later = gates - gate - 1;
        let most = waiting.min(widest).max(1);
        let most = if later == 0 { waiting } else { most };
        // The later gates must be able to take the rest, and each but the root adds one to it.
        let must = if later == 0 { waiting } else { (waiting + later).saturating_sub(later * widest) };
        // The first gate has only events, so it takes one for the first time.
        let least = if gate == 0 { must.max(1) } else { must };
        let fair = (waiting + later).div_ceil(later + 1);
        let wish = random.between(0, 2 * fair);
        let taken = wish.clamp(least.min(most), most);
        firsts.push(taken);
        waiting = waiting - taken + 1;
    }
    firsts
}

/// The number of inputs of each gate: its first uses, and some more.
fn widths(random: &mut Random, shape: &Shape, firsts: &[usize]) -> Vec<usize> {
    let mut widths: Vec<usize> = firsts.iter().map(|&taken| taken.max(1)).collect();
    let mut total: usize = widths.iter().sum();
    let aim = if shape.inputs > 0 { shape.inputs } else { total + random.below(shape.gates + 1) };
    let mut tries = 0;
    while total < aim.min(MOST_INPUTS) && tries < 20 * MOST_INPUTS {
        tries += 1;
        let gate = random.below(shape.gates);
        let can_grow = widths[gate] < shape.widest.clamp(2, MOST_INPUTS_OF_A_GATE);
        if can_grow && !(gate == 0 && shape.only_gates_again) {
            widths[gate] += 1;
            total += 1;
        }
    }
    widths
}

/// One of the gate's inputs once more, or the event beside the gate of its number and the gate beside the event, where there is one.
fn twin(random: &mut Random, shape: &Shape, gate: usize, inputs: &[Input]) -> Option<Input> {
    if inputs.is_empty() {
        return None;
    }
    let again = random.of(inputs);
    let other = match again {
        Input::Event(event) if (event as usize) < gate => Input::Gate(event),
        Input::Gate(gate) if (gate as usize) < shape.events => Input::Event(gate),
        _ => again,
    };
    let beside = if random.once_in(3) { other } else { again };
    (!shape.only_gates_again || matches!(beside, Input::Gate(_))).then_some(beside)
}

/// A further use of an event or of an earlier gate.
fn again(random: &mut Random, shape: &Shape, gate: usize) -> Input {
    if gate > 0 && (shape.only_gates_again || random.once_in(2)) {
        let back = random.below(gate.min(shape.reach));
        return Input::Gate((gate - 1 - back) as u32);
    }
    // The events that come into use around this gate.
    let about = gate * shape.events / shape.gates;
    let near = about + random.below(shape.reach.min(shape.events));
    Input::Event(near.min(shape.events - 1) as u32)
}

/// Bytes without a plan, most of them among the known kinds so that some get past the first record.
pub fn bytes(random: &mut Random) -> Vec<u8> {
    let length = match random.below(4) {
        0 => random.below(4),
        1 => random.below(16),
        2 => random.below(64),
        _ => random.below(300),
    };
    let small = random.once_in(2);
    let known = |random: &mut Random| match random.below(11) {
        10 => 0x11,
        kind => kind as u8,
    };
    (0..length).map(|_| if small { known(random) } else { random.byte() }).collect()
}

/// A start: from the beginning, after a set of the events, after a cut or near one, or after a set that
/// names an event beyond them.
pub fn start(random: &mut Random, events: usize, cuts: &[Set]) -> Option<Set> {
    match random.below(8) {
        0 | 1 => None,
        2 => Some(Set::EMPTY),
        3 | 4 if !cuts.is_empty() => Some(random.of(cuts)),
        5 if !cuts.is_empty() => {
            let mut near = random.of(cuts);
            let event = random.below(events);
            near.0[event / 64] ^= 1 << (event % 64);
            Some(near)
        }
        6 if events < MOST_EVENTS => Some(Set::EMPTY.with(random.between(events, MOST_EVENTS - 1) as u32)),
        _ => {
            let often = random.between(1, 4);
            let members = (0..events as u32).filter(|_| random.once_in(often));
            Some(members.fold(Set::EMPTY, Set::with))
        }
    }
}

/// A room in bytes, mostly near the length of a few cuts.
pub fn room(random: &mut Random, whole: usize) -> usize {
    match random.below(6) {
        0 => random.below(4),
        1 => random.below(16),
        2 => whole,
        3 => whole.saturating_sub(1),
        4 => random.below(whole + 2),
        _ => whole + random.below(600),
    }
}

/// 20,992 bytes with sites and 18,944 without, the longest runs of records without a fault before the end: every input has three bytes, those of
/// gate 0 as event 256.
pub fn longest_run(site: Option<u16>) -> Vec<u8> {
    let mut run = event_bytes(0, site).repeat(MOST_EVENTS);
    let n = MOST_INPUTS / MOST_GATES;
    for gate in 0..MOST_GATES {
        run.extend([4, 1, n as u8]);
        run.extend(if gate == 0 { [8, 0, 1] } else { [6, 0, 0] }.repeat(n));
    }
    run
}
