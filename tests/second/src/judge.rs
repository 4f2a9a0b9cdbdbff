//! Tree records: decoding, numbers 1 to 8, 21 and 22 with their places, reading and writing.
//!
//! The judge takes records with plain numbers as fields, one after another, so that bytes and trees
//! in memory (some of which no bytes can hold) are refused by the same rules.

use crate::tree::*;

#[derive(Clone, Copy, Debug, PartialEq, Eq, PartialOrd, Ord, Hash)]
pub struct Refusal {
    pub number: u32,
    pub place: u64,
}

impl Refusal {
    /// Numbers 10 and 11 leave zero in all that an analysis was lent; the others write nothing at all.
    pub fn leaves_zero(&self) -> bool {
        [10, 11].contains(&self.number)
    }
}

pub fn refuse<T>(number: u32, place: u64) -> Result<T, Refusal> {
    Err(Refusal { number, place })
}

#[derive(Clone, Copy, Debug, PartialEq, Eq)]
pub enum Record {
    /// Kind 11 has a site, kind 01 none.
    Event {
        chance: u64,
        site: Option<u16>,
    },
    Gate {
        kind: u32,
        k: u64,
        n: u64,
    },
    EventInput(u64),
    /// Kind 08: an event input with a body of two bytes.
    WideInput(u64),
    GateInput(u64),
    End,
}

impl Record {
    /// An event as an input: the kind goes by the number.
    pub fn of_event(event: u64) -> Record {
        match event < FIRST_WIDE_EVENT as u64 {
            true => Record::EventInput(event),
            false => Record::WideInput(event),
        }
    }
}

/// What requests 7 and 8 changed about reading: how many events there may be, and whether kinds 08 and 11 are known.
#[derive(Clone, Copy, Debug)]
pub struct Reader {
    pub most_events: usize,
    pub wide: bool,
    pub sites: bool,
}

pub const READER: Reader = Reader { most_events: MOST_EVENTS, wide: true, sites: true };
/// The reader before request 8.
pub const READER_WITHOUT_SITES: Reader = Reader { sites: false, ..READER };
/// The reader before request 7.
pub const OLD_READER: Reader = Reader { most_events: 256, wide: false, sites: false };

impl Default for Reader {
    fn default() -> Reader {
        READER
    }
}

impl Reader {
    /// Bytes of the body, by kind; `None` for an unknown kind.
    fn body_length(self, kind: u32) -> Option<usize> {
        match kind {
            1 => Some(4),
            2 | 3 | 5 => Some(1),
            4 | 6 => Some(2),
            7 => Some(0),
            8 if self.wide => Some(2),
            SITED_EVENT if self.sites => Some(6),
            _ => None,
        }
    }

    /// The record at `place` and its length: 2 before 1.
    pub fn decode(self, bytes: &[u8], place: usize) -> Result<(Record, usize), Refusal> {
        let kind = bytes[place] as u32;
        let Some(length) = self.body_length(kind) else { return refuse(2, place as u64) };
        let Some(body) = bytes.get(place + 1..place + 1 + length) else { return refuse(1, place as u64) };
        let low_first = |part: &[u8]| part.iter().rev().fold(0u64, |n, &b| n * 256 + b as u64);
        let record = match kind {
            1 => Record::Event { chance: low_first(body), site: None },
            SITED_EVENT => Record::Event { chance: low_first(&body[..4]), site: Some(low_first(&body[4..]) as u16) },
            2 | 3 => Record::Gate { kind, k: 0, n: body[0] as u64 },
            4 => Record::Gate { kind, k: body[0] as u64, n: body[1] as u64 },
            5 => Record::EventInput(body[0] as u64),
            6 => Record::GateInput(low_first(body)),
            8 => Record::WideInput(low_first(body)),
            _ => Record::End,
        };
        Ok((record, 1 + length))
    }

    /// Bytes to a tree.
    pub fn read(self, bytes: &[u8]) -> Result<Tree, Refusal> {
        let mut judge = Judge { reader: self, ..Judge::default() };
        let mut place = 0;
        while place < bytes.len() {
            let (record, length) = self.decode(bytes, place)?;
            if record == Record::End {
                return judge.end(place as u64, place + 1 < bytes.len());
            }
            judge.take(record, place as u64)?;
            place += length;
        }
        refuse(1, bytes.len() as u64)
    }
}

/// What the records so far have declared, and where.
#[derive(Default)]
pub struct Judge {
    reader: Reader,
    tree: Tree,
    event_places: Vec<u64>,
    gate_places: Vec<u64>,
    missing_inputs: u64,
    total_inputs: u64,
}

impl Judge {
    /// Every record but the end: 3, then 4, then 21, then 6 or 7; after a gate's last input 5, for the gate.
    pub fn take(&mut self, record: Record, place: u64) -> Result<(), Refusal> {
        match record {
            Record::Event { chance, site } => {
                // Of the first event's kind throughout.
                let mixed = !self.tree.chances.is_empty() && self.tree.sited != site.is_some();
                if !self.tree.gates.is_empty() || mixed {
                    return refuse(3, place);
                }
                if self.tree.chances.len() == self.reader.most_events {
                    return refuse(4, place);
                }
                if chance > D as u64 {
                    return refuse(7, place);
                }
                self.tree.sited = site.is_some();
                self.tree.chances.push(chance as u32);
                self.tree.sites.push(site.unwrap_or(0));
                self.event_places.push(place);
            }
            Record::Gate { kind, k, n } => {
                if self.missing_inputs > 0 {
                    return refuse(3, place);
                }
                let total = self.total_inputs.saturating_add(n);
                if self.tree.gates.len() == MOST_GATES
                    || n == 0
                    || n > MOST_INPUTS_OF_A_GATE as u64
                    || total > MOST_INPUTS as u64
                {
                    return refuse(4, place);
                }
                self.missing_inputs = n;
                self.total_inputs = total;
                // A larger k than 32 bits hold is above any count of inputs all the same.
                let k = if kind == AT_LEAST { u32::try_from(k).unwrap_or(u32::MAX) } else { 0 };
                self.tree.gates.push(Gate { kind, k, n: n as u32 });
                self.gate_places.push(place);
            }
            Record::EventInput(event) | Record::WideInput(event) => {
                if self.missing_inputs == 0 {
                    return refuse(3, place);
                }
                if record != Record::of_event(event) {
                    return refuse(21, place);
                }
                if event >= self.tree.chances.len() as u64 {
                    return refuse(6, place);
                }
                self.add_input(event as u32)?;
            }
            Record::GateInput(gate) => {
                if self.missing_inputs == 0 {
                    return refuse(3, place);
                }
                let own = self.tree.gates.len() as u64 - 1;
                if gate >= own {
                    return refuse(6, place);
                }
                self.add_input(FIRST_GATE_INPUT + gate as u32)?;
            }
            Record::End => unreachable!("the end record has its own judgement"),
        }
        Ok(())
    }

    /// Request 3: after the last input of an at-least gate, and before the next record is looked at, 5 at the place of the gate's record
    /// where k is 0 or above the count of its distinct inputs.
    fn add_input(&mut self, input: u32) -> Result<(), Refusal> {
        self.tree.inputs.push(input);
        self.missing_inputs -= 1;
        let (Some(gate), Some(&place)) = (self.tree.gates.last(), self.gate_places.last()) else {
            unreachable!("an input follows a gate")
        };
        if self.missing_inputs > 0 || gate.kind != AT_LEAST {
            return Ok(());
        }
        let own = &self.tree.inputs[self.tree.inputs.len() - gate.n as usize..];
        if gate.k == 0 || gate.k as usize > distinct(own).len() {
            return refuse(5, place);
        }
        Ok(())
    }

    /// The end record: missing inputs, then bytes after it, then 4, then 8.
    pub fn end(mut self, place: u64, bytes_follow: bool) -> Result<Tree, Refusal> {
        if self.missing_inputs > 0 {
            return refuse(3, place);
        }
        if bytes_follow {
            return refuse(3, place + 1);
        }
        if self.tree.chances.is_empty() || self.tree.gates.is_empty() {
            return refuse(4, place);
        }
        if let Some(unused) = self.place_of_unused() {
            return refuse(8, unused);
        }
        self.tree.event_count = self.tree.chances.len() as u64;
        self.tree.gate_count = self.tree.gates.len() as u64;
        Ok(self.tree)
    }

    /// The declaring record of the lowest unused event, else of the lowest unused gate but the root.
    fn place_of_unused(&self) -> Option<u64> {
        let used = |number: u32| self.tree.inputs.contains(&number);
        for (event, &place) in self.event_places.iter().enumerate() {
            if !used(event as u32) {
                return Some(place);
            }
        }
        let root = self.gate_places.len() - 1;
        for (gate, &place) in self.gate_places[..root].iter().enumerate() {
            if !used(FIRST_GATE_INPUT + gate as u32) {
                return Some(place);
            }
        }
        None
    }
}

/// Bytes to a tree.
pub fn read(bytes: &[u8]) -> Result<Tree, Refusal> {
    READER.read(bytes)
}

/// A tree to its bytes: refused as those bytes would be, then with 22 where they have no place for a site, at the first such event's record.
pub fn write(tree: &Tree) -> Result<Vec<u8>, Refusal> {
    let bytes = judged_bytes(tree)?;
    let lost = (0..tree.event_count).find(|&event| !tree.sited && tree.site(event) != 0);
    match lost {
        // Each event before it has five bytes.
        Some(event) => refuse(22, 5 * event),
        None => Ok(bytes),
    }
}

/// The bytes that have the tree's form, whatever sites there are: refused with 1 to 8 or 21.
pub fn judged_bytes(tree: &Tree) -> Result<Vec<u8>, Refusal> {
    let mut judge = Judge::default();
    let mut bytes: Vec<u8> = Vec::new();
    for event in 0..tree.event_count {
        let (chance, site) = (tree.chance(event), tree.sited.then_some(tree.site(event)));
        judge.take(Record::Event { chance: chance as u64, site }, bytes.len() as u64)?;
        bytes.extend(event_bytes(chance, site));
    }
    let mut next_input = 0;
    for number in 0..tree.gate_count {
        let gate = tree.gate(number);
        let place = bytes.len() as u64;
        if ![AND, OR, AT_LEAST].contains(&gate.kind) {
            return refuse(2, place);
        }
        judge.take(Record::Gate { kind: gate.kind, k: gate.k as u64, n: gate.n as u64 }, place)?;
        bytes.push(gate.kind as u8);
        if gate.kind == AT_LEAST {
            bytes.push(gate.k as u8);
        }
        bytes.push(gate.n as u8);
        for _ in 0..gate.n {
            write_input(tree.input(next_input), &mut judge, &mut bytes)?;
            next_input += 1;
        }
    }
    let place = bytes.len() as u64;
    bytes.push(7);
    judge.end(place, false)?;
    Ok(bytes)
}

fn write_input(input: Input, judge: &mut Judge, bytes: &mut Vec<u8>) -> Result<(), Refusal> {
    let place = bytes.len() as u64;
    match input {
        Input::Event(event) => {
            judge.take(Record::of_event(event as u64), place)?;
            bytes.extend(event_input_bytes(event));
        }
        Input::Gate(gate) => {
            judge.take(Record::GateInput(gate as u64), place)?;
            bytes.push(6);
            bytes.extend((gate as u16).to_le_bytes());
        }
    }
    Ok(())
}

/// The kind of an event with a site, hexadecimal as all kinds are.
pub const SITED_EVENT: u32 = 0x11;

/// Kind 01, or kind 11 with a site behind the chance.
pub fn event_bytes(chance: u32, site: Option<u16>) -> Vec<u8> {
    match site {
        None => [&[1], &chance.to_le_bytes()[..]].concat(),
        Some(site) => [&[SITED_EVENT as u8], &chance.to_le_bytes()[..], &site.to_le_bytes()].concat(),
    }
}

/// The bytes of an event's record, of either form.
pub fn event_length(sited: bool) -> u64 {
    event_bytes(0, sited.then_some(0)).len() as u64
}

/// Kind 05 with one byte for numbers below 256, kind 08 with two for those from 256 on.
pub fn event_input_bytes(event: u32) -> Vec<u8> {
    match event < FIRST_WIDE_EVENT {
        true => vec![5, event as u8],
        false => [&[8], &(event as u16).to_le_bytes()[..]].concat(),
    }
}

/// The bytes of an input's record.
pub fn input_length(input: &Input) -> u64 {
    match *input {
        Input::Event(event) => event_input_bytes(event).len() as u64,
        Input::Gate(_) => 3,
    }
}

/// Writing into a lent room: the tree's own fault first, then 9 for a short room, which then stays as
/// it was; behind the bytes it stays in any case. Answers the number of bytes written.
pub fn write_into(tree: &Tree, room: &mut [u8]) -> Result<usize, Refusal> {
    lay(write(tree), room)
}

/// The same for any bytes.
pub fn lay(written: Result<Vec<u8>, Refusal>, room: &mut [u8]) -> Result<usize, Refusal> {
    let bytes = written?;
    if room.len() < bytes.len() {
        return refuse(9, 0);
    }
    room[..bytes.len()].copy_from_slice(&bytes);
    Ok(bytes.len())
}
