//! Wrong programs, continued: events from 256 on, in records, in sets and in listings.

use crate::judge::{read, write, Record, OLD_READER, READER};
use crate::lent::Lent;
use crate::library::*;
use crate::listing::Walk;
use crate::mirror::Mirror;
use crate::sets::{member_bytes, Set};
use crate::sizes::SIZES;
use crate::tree::*;
use crate::wrong::Wrong::{self, *};
use crate::wrong_twins::answered;

/// The first words of a set, as many as sets had before request 7.
const OLD_WORDS: usize = 4;
/// The counts by size before request 7.
const OLD_SIZES: usize = 257;

/// The records of some bytes as far as they can be told apart, each with its bytes; then the rest.
pub fn records(bytes: &[u8]) -> (Vec<(Record, &[u8])>, &[u8]) {
    let mut all = Vec::new();
    let mut place = 0;
    while place < bytes.len() {
        let Ok((record, length)) = READER.decode(bytes, place) else { break };
        all.push((record, &bytes[place..place + length]));
        place += length;
    }
    (all, &bytes[place..])
}

/// The bytes with every record as `change` makes it.
pub fn rewritten(bytes: &[u8], change: impl Fn(Record, &[u8]) -> Vec<u8>) -> Vec<u8> {
    let (records, rest) = records(bytes);
    let records = records.into_iter().flat_map(|(record, own)| change(record, own));
    records.chain(rest.iter().copied()).collect()
}

/// What is read where kind 08 may have any number, with the place as it is in these bytes.
fn narrow_passes(bytes: &[u8]) -> ReadAnswer {
    let mut passing = bytes.to_vec();
    let mut mended = Vec::new();
    let mut answer = answered(read(&passing));
    while answer.number == 21 {
        let place = answer.place as usize;
        let event = passing[place + 1];
        passing.splice(place..place + 3, [5, event]);
        mended.push(answer.place);
        answer = answered(read(&passing));
    }
    answer.place += mended.iter().filter(|&&place| place < answer.place).count() as u64;
    answer
}

pub fn wide_read(wrong: Wrong, bytes: &[u8], mut right: ReadAnswer) -> ReadAnswer {
    let at_fault = bytes.get(right.place as usize..).unwrap_or(&[]);
    match (wrong, right.number) {
        (NarrowPasses, 21) => return narrow_passes(bytes),
        (TwentyOneAfterSix, 21) => {
            let events = records(bytes).0.iter().filter(|(record, _)| matches!(record, Record::Event { .. })).count();
            if at_fault[1] as usize >= events {
                right.number = 6;
            }
        }
        (TwentyOneBeforeThree, 3) if matches!(at_fault, [8, _, 0, ..]) => right.number = 21,
        (WideInputsHighByteFirst, _) => {
            let swapped = rewritten(bytes, |record, own| match record {
                Record::WideInput(_) => vec![8, own[2], own[1]],
                _ => own.to_vec(),
            });
            return answered(read(&swapped));
        }
        (FourAtTheOldLimit, _) => return answered(OLD_READER.read(bytes)),
        (GatesFrom256, _) => {
            let gates = right.tree.inputs.iter_mut().filter(|input| **input >= FIRST_GATE_INPUT);
            gates.for_each(|input| *input = *input - FIRST_GATE_INPUT + 256);
        }
        _ => {}
    }
    right
}

/// Kind 08 for every event, or kind 05 with the low byte alone.
pub fn wide_write(wrong: Wrong, tree: &Tree, room: &mut [u8]) -> WriteAnswer {
    let Ok(bytes) = write(tree) else { return Mirror.write(tree, room) };
    let other = rewritten(&bytes, |record, own| match record {
        Record::EventInput(event) if wrong == WideInputsThroughout => vec![8, event as u8, 0],
        Record::WideInput(event) if wrong == InputsCutToAByte => vec![5, event as u8],
        _ => own.to_vec(),
    });
    if room.len() < other.len() {
        return WriteAnswer { number: 9, place: 0, used: 0 };
    }
    room[..other.len()].copy_from_slice(&other);
    WriteAnswer { number: 0, place: 0, used: other.len() as u64 }
}

fn low_words(set: Set) -> Set {
    let mut low = set;
    low.0[OLD_WORDS..].fill(0);
    low
}

/// A member's bytes as a wrong program writes them.
fn spelled(wrong: Wrong, event: u32) -> Vec<u8> {
    match wrong {
        WideMembersThroughout => vec![0x23, event as u8, (event >> 8) as u8],
        MembersCutToAByte => vec![0x21, event as u8],
        MembersHighByteFirst if event >= FIRST_WIDE_EVENT => vec![0x23, (event >> 8) as u8, event as u8],
        _ => member_bytes(event),
    }
}

/// The bytes that a wrong program takes a cut to need.
fn needed(wrong: Wrong, cut: &Set, bytes: usize) -> usize {
    match wrong {
        LongCutsOverrun => 2 * cut.members().len() + 1,
        ThreeBytesForEach => 3 * cut.members().len() + 1,
        _ => bytes,
    }
}

/// Each cut as it is spelled, where what it is taken to need is there; what has no room is lost.
fn listed(wrong: Wrong, diagram: &Lent, after: Option<Set>, room: &mut [u8]) -> ListAnswer {
    let refused = ListAnswer { number: 14, place: 0, written: 0, used: 0, last: Set::EMPTY, finished: false };
    let mut answer = ListAnswer { number: 0, last: after.unwrap_or(Set::EMPTY), finished: true, ..refused };
    for cut in Walk::new(diagram, after) {
        let mut bytes: Vec<u8> = cut.members().into_iter().flat_map(|event| spelled(wrong, event)).collect();
        bytes.push(0x22);
        let used = answer.used as usize;
        let rest = room.len().saturating_sub(used);
        if needed(wrong, &cut, bytes.len()) > rest {
            answer.finished = false;
            return if answer.written == 0 { refused } else { answer };
        }
        let fits = bytes.len().min(rest);
        room[used..used + fits].copy_from_slice(&bytes[..fits]);
        answer.used += bytes.len() as u64;
        answer.written += 1;
        answer.last = cut;
    }
    answer
}

/// `None` where the wrong program lists as it should.
pub fn wide_list(wrong: Wrong, diagram: &Lent, after: Option<Set>, room: &mut [u8]) -> Option<ListAnswer> {
    let judged = crate::listing::list(diagram, after, 0).number;
    match wrong {
        ThirteenOfLowWords if judged == 13 => {
            let within = |event: &u32| u64::from(*event) < diagram.event_count;
            let start = after.expect("13 needs a set");
            let low = low_words(start).members().iter().all(within);
            let seen = start.members().into_iter().filter(within).fold(Set::EMPTY, Set::with);
            low.then(|| Mirror.list(diagram, Some(seen), room))
        }
        HighWordsNotCompared if judged != 13 => {
            let low = after.map(low_words);
            let mut answer = Mirror.list(diagram, low, room);
            if answer.number == 0 && answer.written == 0 {
                answer.last = after.unwrap_or(Set::EMPTY);
            }
            Some(answer)
        }
        LastWithoutHighWords => {
            let mut answer = Mirror.list(diagram, after, room);
            answer.last = low_words(answer.last);
            Some(answer)
        }
        WideMembersThroughout | MembersCutToAByte | MembersHighByteFirst | LongCutsOverrun | ThreeBytesForEach
            if [0, 14].contains(&judged) =>
        {
            Some(listed(wrong, diagram, after, room))
        }
        _ => None,
    }
}

/// Whether the wrong program refuses the diagram for the number of its events.
pub fn refuses_count(wrong: Wrong, diagram: &Lent) -> bool {
    wrong == TwelveAbove256 && diagram.event_count > 64 * OLD_WORDS as u64
}

/// The counts that were not written, where a wrong program stops before the last.
pub fn wide_counts(wrong: Wrong, before: &[u64], counts: &mut [u64]) {
    if wrong == CountsStopAt256 {
        counts[OLD_SIZES..SIZES].copy_from_slice(&before[OLD_SIZES..SIZES]);
    }
}
