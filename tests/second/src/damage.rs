//! Damaged trees: for each number 1 to 8, and 21, bytes whose number and place follow from the damage itself.

use crate::generator::{in_either_form, longest_shape, shape, small_shape, tree};
use crate::judge::{event_bytes, event_input_bytes, event_length, write, Refusal};
use crate::random::Random;
use crate::tree::*;
use crate::unlawful::raw_bytes;

pub struct Damaged {
    pub bytes: Vec<u8>,
    pub expected: Refusal,
}

/// A tree as its records, each with its bytes.
type Records = Vec<Vec<u8>>;

fn records(tree: &Tree) -> Records {
    let bytes = write(tree).expect("a generated tree is accepted");
    let mut records = Vec::new();
    let mut place = 0;
    while place < bytes.len() {
        let length = record_length(bytes[place]);
        records.push(bytes[place..place + length].to_vec());
        place += length;
    }
    records
}

fn offset(records: &Records, index: usize) -> u64 {
    records[..index].iter().map(|record| record.len() as u64).sum()
}

fn of_kinds(records: &Records, kinds: &[u8]) -> Vec<usize> {
    (0..records.len()).filter(|&index| kinds.contains(&records[index][0])).collect()
}

/// The bytes of a record by its kind, where there is such a kind.
fn record_length(kind: u8) -> usize {
    match kind {
        1 => 5,
        0x11 => 7,
        4 | 6 | 8 => 3,
        2 | 3 | 5 => 2,
        _ => 1,
    }
}

const EVENTS: [u8; 2] = [1, 0x11];
const GATES: [u8; 3] = [2, 3, 4];
const INPUTS: [u8; 3] = [5, 6, 8];
/// The numbers that reading refuses with.
pub const NUMBERS: [u32; 9] = [1, 2, 3, 4, 5, 6, 7, 8, 21];

fn place_of_n(record: &[u8]) -> usize {
    record.len() - 1
}

/// Bytes that are refused with the number. A wrong k of the gate at hand often stands before one of 1, 2, 3, 6 and 21, and is not yet judged.
pub fn damaged(random: &mut Random, number: u32) -> Damaged {
    let damaged = damaged_once(random, number);
    if [1, 2, 3, 6, 21].contains(&number) && random.once_in(3) {
        return with_wrong_k(random, damaged);
    }
    damaged
}

fn damaged_once(random: &mut Random, number: u32) -> Damaged {
    let size = match random.below(40) {
        0 => longest_shape(),
        1 => shape(random.between(100, MOST_EVENTS), random.between(50, MOST_GATES), 64),
        2..=9 => shape(random.between(5, 40), random.between(5, 40), 10),
        _ => small_shape(random),
    };
    let whole = tree(random, size);
    let whole = in_either_form(random, whole);
    let mut all = records(&whole);
    // From the record at fault on, anything may follow where that record decides.
    let faulty = match number {
        1 => return cut_short(random, &whole, all),
        2 => unknown_kind(random, &mut all),
        3 => return out_of_place(random, &whole, all),
        4 => return count(random, &whole, all),
        5 => return wrong_k(random, all),
        6 => wrong_input(random, &whole, &mut all),
        7 => wrong_chance(random, &mut all),
        8 => return unused(random, &whole),
        21 => narrow_input(random, &mut all),
        _ => panic!("no damage gives {number}"),
    };
    finish(random, number, all, faulty)
}

fn finish(random: &mut Random, number: u32, all: Records, faulty: usize) -> Damaged {
    let place = offset(&all, faulty);
    decided(random, Refusal { number, place }, all, faulty)
}

/// Anything behind the record that decides.
fn decided(random: &mut Random, expected: Refusal, all: Records, deciding: usize) -> Damaged {
    let mut bytes = all[..=deciding].concat();
    if random.once_in(2) {
        bytes.extend(all[deciding + 1..].concat());
    } else {
        bytes.extend((0..random.below(20)).map(|_| random.byte()));
    }
    Damaged { bytes, expected }
}

fn cut_short(random: &mut Random, whole: &Tree, mut all: Records) -> Damaged {
    let mut index = random.below(all.len());
    if random.once_in(6) {
        // Inside an event of the other kind: 1 comes before 3.
        index = random.between(1, whole.events());
        all[index] = random_event(random, !whole.sited);
    }
    let place = offset(&all, index);
    let kept = random.below(all[index].len());
    let mut bytes = all[..index].concat();
    bytes.extend(&all[index][..kept]);
    Damaged { bytes, expected: Refusal { number: 1, place } }
}

fn unknown_kind(random: &mut Random, all: &mut Records) -> usize {
    let index = random.below(all.len());
    let kind = if random.once_in(4) { random.of(&[0, 9, 0x0A, 0x0B, 0x10, 0x12, 0x21, 0xFF]) } else { random.byte() };
    all[index][0] = if (1..=8).contains(&kind) || kind == 0x11 { kind + 8 } else { kind };
    index
}

fn out_of_place(random: &mut Random, whole: &Tree, mut all: Records) -> Damaged {
    let gates = of_kinds(&all, &GATES);
    let end = all.len() - 1;
    let faulty = match random.below(7) {
        0 => {
            // An event after a gate, wherever, of either kind; its chance no longer matters.
            let index = random.between(gates[0] + 1, end);
            let sited = random.once_in(2);
            all.insert(index, random_event(random, sited));
            index
        }
        1 | 2 => {
            // An event of the other kind, also one more than there may be; its chance no longer matters.
            let mut events = whole.events();
            if random.once_in(6) {
                let more = vec![event_bytes(0, whole.sited.then_some(0)); MOST_EVENTS - events];
                all.splice(events..events, more);
                events = MOST_EVENTS;
            }
            let any = random.between(1, events);
            let index = random.of(&[1, any, events]);
            if index < events && random.once_in(2) {
                all.remove(index);
            }
            all.insert(index, random_event(random, !whole.sited));
            index
        }
        3 => {
            // One input too many, in front of a gate or the end; its number no longer matters.
            let mut fronts = gates[1..].to_vec();
            fronts.push(end);
            let index = random.of(&fronts);
            all.insert(index, random_input(random));
            index
        }
        4 => {
            // An input before any gate.
            let index = random.between(0, gates[0]);
            all.insert(index, random_input(random));
            index
        }
        5 => {
            // An input is missing where the next gate or the end comes.
            let mut fronts = gates[1..].to_vec();
            fronts.push(end);
            let front = random.of(&fronts);
            all.remove(front - 1);
            if random.once_in(2) && all[front - 1][0] != 7 {
                // Whatever else is wrong with that gate, 3 comes first.
                let place = place_of_n(&all[front - 1]);
                all[front - 1][place] = random.of(&[0, 65, 255]);
            }
            front - 1
        }
        _ => {
            let mut bytes = all.concat();
            let place = bytes.len() as u64;
            bytes.extend((0..random.between(1, 9)).map(|_| random.byte()));
            return Damaged { bytes, expected: Refusal { number: 3, place } };
        }
    };
    if all[faulty][0] == 7 {
        // Bytes behind an early end change nothing: missing inputs come first.
        let place = offset(&all, faulty);
        let mut bytes = all.concat();
        bytes.extend((0..random.below(3)).map(|_| random.byte()));
        return Damaged { bytes, expected: Refusal { number: 3, place } };
    }
    finish(random, 3, all, faulty)
}

fn random_event(random: &mut Random, sited: bool) -> Vec<u8> {
    let (any, site) = (random.next() as u32, random.below(0x10000) as u16);
    event_bytes(random.of(&[0, D, D + 1, any]), sited.then_some(random.of(&[0, site])))
}

fn random_input(random: &mut Random) -> Vec<u8> {
    match random.below(3) {
        0 => vec![5, random.byte()],
        1 => vec![6, random.byte(), random.byte()],
        // Also a number below 256: 3 comes before 21.
        _ => vec![8, random.byte(), random.of(&[0, 1, 3, 4])],
    }
}

fn count(random: &mut Random, whole: &Tree, mut all: Records) -> Damaged {
    let gates = of_kinds(&all, &GATES);
    match random.below(6) {
        0 | 1 => {
            let index = random.of(&gates);
            let place = place_of_n(&all[index]);
            all[index][place] = random.of(&[0, 65, 66, 128, 255]);
            finish(random, 4, all, index)
        }
        2 => {
            // The 1,025th event; its chance no longer matters.
            let more = MOST_EVENTS + 1 - whole.events();
            for _ in 0..more {
                all.insert(whole.events(), event_bytes(0, whole.sited.then_some(0)));
            }
            all[MOST_EVENTS][1..].fill(random.of(&[0, 0xFF]));
            finish(random, 4, all, MOST_EVENTS)
        }
        3 => {
            let events = random.below(MOST_EVENTS + 1);
            let mut bytes = event_bytes(0, whole.sited.then_some(0)).repeat(events);
            let place = bytes.len() as u64;
            bytes.push(7);
            Damaged { bytes, expected: Refusal { number: 4, place } }
        }
        4 => {
            // The 513th gate.
            all.pop();
            for _ in gates.len()..MOST_GATES {
                all.extend([vec![2, 1], vec![5, 0]]);
            }
            // That alone may pass the inputs' total, which is the same number, but earlier.
            let index = over_total(&all).unwrap_or(all.len());
            all.push(vec![random.of(&GATES[..2]), random.below(256) as u8]);
            finish(random, 4, all, index)
        }
        _ => {
            // More than 4,096 inputs in all.
            all.truncate(gates[0]);
            for _ in 0..MOST_INPUTS / 64 {
                all.push(vec![3, 64]);
                all.extend(vec![vec![5, 0]; 64]);
            }
            let index = all.len();
            all.push(vec![2, random.between(1, 64) as u8]);
            finish(random, 4, all, index)
        }
    }
}

fn over_total(all: &Records) -> Option<usize> {
    let mut total = 0;
    of_kinds(all, &GATES).into_iter().find(|&index| {
        total += *all[index].last().expect("a record has bytes") as usize;
        total > MOST_INPUTS
    })
}

/// A k of 0 or above the number of the gate's distinct inputs, of which some are made twins: decided by the last of them, at the gate's place.
fn wrong_k(random: &mut Random, mut all: Records) -> Damaged {
    let index = random.of(&of_kinds(&all, &GATES));
    let n = all[index][place_of_n(&all[index])] as usize;
    let (first, last) = (index + 1, index + n);
    if random.once_in(2) {
        for input in first..=last {
            all[input] = all[random.between(first, last)].clone();
        }
    }
    let most = distinct(&all[first..=last]).len();
    let k = random.of(&[0, most + 1, most + 1, n.max(most + 1), n + 1, 255]);
    all[index] = vec![4, k as u8, n as u8];
    let expected = Refusal { number: 5, place: offset(&all, index) };
    decided(random, expected, all, last)
}

/// The same refusal where the fault stands among the inputs of a gate: that gate's k is wrong too, and would be judged after them.
fn with_wrong_k(random: &mut Random, Damaged { mut bytes, mut expected }: Damaged) -> Damaged {
    let mut place = 0;
    let mut open = None;
    while place < expected.place as usize {
        let length = record_length(bytes[place]);
        open = match bytes[place] {
            2..=4 => Some((place, bytes[place + length - 1])),
            5 | 6 | 8 => open.map(|(gate, missing)| (gate, missing - 1)),
            _ => open,
        };
        place += length;
    }
    if let Some((gate, 1..)) = open {
        if bytes[gate] != 4 {
            bytes[gate] = 4;
            bytes.insert(gate + 1, 0);
            expected.place += 1;
        }
        bytes[gate + 1] = random.of(&[0, bytes[gate + 2] + 1, 255]);
    }
    Damaged { bytes, expected }
}

fn wrong_input(random: &mut Random, whole: &Tree, all: &mut Records) -> usize {
    let index = random.of(&of_kinds(all, &INPUTS));
    let own = of_kinds(&all[..index].to_vec(), &GATES).len() - 1;
    if random.once_in(2) {
        let events = whole.events();
        let any = random.below(MOST_EVENTS);
        let beyond = random.of(&[events, 255, 256, MOST_EVENTS, 0xFFFF, any]).max(events);
        all[index] = event_input_bytes(beyond as u32);
    } else {
        let gate = random.of(&[own as u16, own as u16 + 1, 0xFFFF, 512, own as u16 | 0x100]);
        all[index] = [vec![6], gate.to_le_bytes().to_vec()].concat();
        if (gate as usize) < own {
            all[index] = vec![6, 0xFF, 0xFF];
        }
    }
    index
}

/// Kind 08 with a number below 256, which may be no event's.
fn narrow_input(random: &mut Random, all: &mut Records) -> usize {
    let index = random.of(&of_kinds(all, &INPUTS));
    let any = random.byte();
    all[index] = vec![8, random.of(&[0, 1, 255, any]), 0];
    index
}

fn wrong_chance(random: &mut Random, all: &mut Records) -> usize {
    let index = random.of(&of_kinds(all, &EVENTS));
    let over = D as usize + 1 + random.below(u32::MAX as usize - D as usize);
    let chance = random.of(&[D + 1, D + 2, u32::MAX, over as u32]);
    all[index][1..5].copy_from_slice(&chance.to_le_bytes());
    index
}

/// Every use of one item is turned into a use of another.
fn unused(random: &mut Random, whole: &Tree) -> Damaged {
    let mut tree = whole.clone();
    let gates = tree.gates.len();
    let lost = if gates > 1 && random.once_in(2) {
        FIRST_GATE_INPUT + random.below(gates - 1) as u32
    } else if tree.events() > 1 {
        random.below(tree.events()) as u32
    } else {
        // A further event that nothing uses.
        tree.chances.push(0);
        tree.sites.push(0);
        tree.event_count += 1;
        1
    };
    let other = if lost == 0 { 1 } else { 0 };
    for input in &mut tree.inputs {
        if *input == lost {
            *input = other;
        }
    }
    let inputs = tree.inputs_by_gate();
    for (gate, inputs) in tree.gates.iter_mut().zip(inputs) {
        // Fewer may be distinct now.
        gate.k = gate.k.min(distinct(&inputs).len() as u32);
    }
    let bytes = raw_bytes(&tree);
    let place = if lost < FIRST_GATE_INPUT {
        event_length(tree.sited) * lost as u64
    } else {
        let gate = (lost - FIRST_GATE_INPUT) as usize;
        let shorter = Tree { gates: tree.gates[..gate].to_vec(), gate_count: gate as u64, ..tree };
        raw_bytes(&shorter).len() as u64 - 1
    };
    Damaged { bytes, expected: Refusal { number: 8, place } }
}
