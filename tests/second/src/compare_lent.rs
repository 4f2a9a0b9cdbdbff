//! Listing and bracket of any lent diagram, against the second program.

use crate::bracket::{bracket, Bracket};
use crate::compare::no_fault;
use crate::generator;
use crate::lent::Lent;
use crate::library::*;
use crate::listing::{list, Walk};
use crate::random::Random;
use crate::sets::Set;
use crate::tally::Tally;
use crate::tree::{D, FIRST_WIDE_EVENT, MOST_EVENTS};

/// A few listing calls from random starts into random rooms; then a handing on from the beginning.
pub fn compare_list(library: &dyn Library, diagram: &Lent, random: &mut Random, tally: &mut Tally) {
    let before = std::mem::take(&mut tally.input);
    let good = diagram.is_diagram();
    let cuts: Vec<Set> = if good { Walk::new(diagram, None).take(64).collect() } else { Vec::new() };
    let whole: usize = cuts.iter().map(|cut| cut.cut_bytes().len()).sum();
    let events = if good { diagram.event_count as usize } else { 8 };
    for _ in 0..3 {
        let after = generator::start(random, events, &cuts);
        let room = generator::room(random, whole);
        one_listing(library, diagram, after, room, random, tally, &before);
    }
    let mut after = None;
    for _ in 0..4 {
        let room = random.between(0, 2 * whole / 3 + 1).min(6_000);
        let Some(last) = one_listing(library, diagram, after, room, random, tally, &before) else { break };
        after = Some(last);
    }
    tally.input = before;
}

/// Answers the last set if the call is done and something follows.
pub fn one_listing(
    library: &dyn Library,
    diagram: &Lent,
    after: Option<Set>,
    room_length: usize,
    random: &mut Random,
    tally: &mut Tally,
    from: &str,
) -> Option<Set> {
    tally.note(|| match from {
        "" => format!("{diagram:?} after {after:?} room {room_length}"),
        bytes => format!("{bytes} after {after:?} room {room_length}"),
    });
    let expected = list(diagram, after, room_length);
    let mut room = Guarded::new((0..room_length).map(|_| random.byte()).collect(), 0x5A);
    let got = library.list(diagram, after, room.lend());
    no_fault(library, tally);
    let used = expected.bytes.len();
    let answer = ListAnswer {
        number: expected.number,
        place: expected.place,
        written: expected.written as u64,
        used: used as u64,
        last: expected.last,
        finished: expected.finished,
    };
    tally.due("list", answer.number);
    if answer.number == 0 {
        tally.meet("listings from the beginning", after.is_none());
        tally.meet("after a set", after.is_some());
        tally.meet("of no cut", answer.written == 0);
        tally.meet("unfinished", !answer.finished);
        tally.meet("into a room that is just full", used == room_length && used > 0);
        tally.meet("of 20 cuts or more", answer.written >= 20);
        let (low, high) = (0..FIRST_WIDE_EVENT, FIRST_WIDE_EVENT..MOST_EVENTS as u32);
        let last = expected.last;
        tally.meet("with a cut across 256", answer.written > 0 && last.holds_any(low) && last.holds_any(high));
        tally.large("members of a cut listed", last.members().len() as u64);
    }
    tally.same("listing", answer, got);
    tally.holds("guards of a listing", room.guards_stand());
    let whole = [&expected.bytes[..], &room.before()[used..]].concat();
    tally.holds("bytes of a listing", room.now() == whole);
    (answer.number == 0 && !answer.finished).then_some(answer.last)
}

/// A bracket with the given chances or random ones; some are above D, too few, or too many.
pub fn compare_bracket(
    library: &dyn Library,
    diagram: &Lent,
    chances: Option<&[u32]>,
    random: &mut Random,
    tally: &mut Tally,
) {
    let before = std::mem::take(&mut tally.input);
    let events = diagram.event_count.min(1_100) as usize;
    for round in 0..2 {
        let mut chances = match chances {
            Some(chances) if round == 0 => chances.to_vec(),
            _ => generator::chances(random, events),
        };
        match random.below(16) {
            0 if !chances.is_empty() => {
                let place = random.below(chances.len());
                chances[place] = random.of(&[D + 1, u32::MAX]);
            }
            1 => {
                chances.pop();
            }
            2 | 3 => chances.push(random.of(&[0, u32::MAX])),
            _ => {}
        }
        let smallest = library.smallest_bracket_areas(diagram.table.len() / 3);
        let mut lengths = smallest.map(|least| least + if random.once_in(2) { random.below(20) } else { 0 });
        let mut suffice = true;
        let place = random.below(2);
        if random.once_in(12) && smallest[place] > 0 {
            lengths[place] = smallest[place] - 1;
            suffice = false;
        }
        tally.note(|| match before.as_str() {
            "" => format!("{diagram:?} chances {chances:?} areas {lengths:?}"),
            bytes => format!("{bytes} chances {chances:?} areas {lengths:?}"),
        });
        let mut areas =
            lengths.map(|length| Guarded::new((0..length).map(|_| random.next() as u32).collect(), 0xDEAD_BEEF));
        let expected = bracket(diagram, &chances, suffice);
        let got = library.bracket(diagram, &chances, areas.each_mut().map(Guarded::lend));
        no_fault(library, tally);
        let Bracket { number, place, low, high } = expected;
        let answer = BracketAnswer { number, place, low, high };
        tally.due("bracket", answer.number);
        tally.same("bracket", answer, got);
        tally.holds("guards of a bracket", areas.iter().all(Guarded::guards_stand));
        if answer.number == 0 {
            tally.holds("work areas of a bracket end zero", areas.iter().all(|area| area.all(0)));
        } else {
            tally.holds("a refused bracket changes nothing", areas.iter().all(Guarded::unchanged));
        }
    }
    tally.input = before;
}
