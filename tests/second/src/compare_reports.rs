//! Reports of any lent family under any edition, against the second program.

use crate::changes::cuts_of;
use crate::compare::no_fault;
use crate::families;
use crate::generator;
use crate::lent::Lent;
use crate::library::*;
use crate::listing::Walk;
use crate::pairs::bytes_of;
use crate::random::Random;
use crate::report::*;
use crate::reviews::{self, all_known, fourteen, longest, Known};
use crate::sets::Set;
use crate::tally::Tally;
use crate::tree::D;

/// A library may take time for the square of a node's members. Families beyond the first of these are seldom reported, beyond the second only if they
/// have a name, beyond the third never.
const MOST_TOIL: [u64; 3] = [200_000, 3_000_000, 20_000_000];

fn toil(diagram: &Lent) -> u64 {
    let mut largest: Vec<u64> = vec![0, 0];
    for node in 2..diagram.node_count as u32 + 2 {
        let branch = |branch: u32| largest[branch as usize];
        largest.push(branch(diagram.sound(node)).max(branch(diagram.failed(node)) + 1));
    }
    largest.iter().map(|members| (members + 8).pow(2)).sum()
}

/// A few report calls of every kind; a handing on from the beginning; and one edition beside the other.
pub fn compare_report(
    library: &dyn Library,
    diagram: &Lent,
    own: Option<&[u32]>,
    random: &mut Random,
    tally: &mut Tally,
) {
    let good = diagram.is_diagram();
    if good && toil(diagram) > MOST_TOIL[usize::from(random.once_in(16))] {
        return;
    }
    let before = std::mem::take(&mut tally.input);
    let cuts: Vec<Set> = if good { Walk::new(diagram, None).take(64).collect() } else { Vec::new() };
    let events = diagram.event_count.min(1_100) as usize;
    let chances = |random: &mut Random| match own {
        Some(own) if random.once_in(3) => own.to_vec(),
        _ => reviews::chances(random, events, &cuts),
    };
    for _ in 0..3 {
        let mut chances = chances(random);
        match random.below(12) {
            0 if !chances.is_empty() => {
                let place = random.below(chances.len());
                chances[place] = random.of(&[D + 1, u32::MAX]);
            }
            1 => {
                chances.pop();
            }
            2 | 3 => chances.push(random.of(&[0, u32::MAX])),
            _ => {}
        }
        let after = generator::start(random, if good { events } else { 8 }, &cuts);
        let asked = Asked { edition: reviews::edition(random), chances: &chances, after };
        let room = room(random, diagram, asked, &cuts);
        one_report(library, diagram, asked, room, true, random, tally, &before);
    }
    if good {
        let chances = chances(random);
        compare_editions(library, diagram, &chances, random, tally, &before);
    }
    tally.input = before;
}

/// A room around what is reportable; often around the next reportable cut alone.
fn room(random: &mut Random, diagram: &Lent, asked: Asked, cuts: &[Set]) -> usize {
    let Asked { edition, chances, after } = asked;
    let fits = refusal(edition, diagram, chances, true, after).is_none();
    let next = fits.then(|| reportable_cuts(edition, diagram, chances, after).next()).flatten();
    match next {
        Some(cut) if random.once_in(3) => cut.cut_bytes().len() - random.below(2),
        _ if fits => {
            let told = cuts.iter().filter(|cut| reportable(edition, cut, chances));
            generator::room(random, told.map(|cut| cut.cut_bytes().len()).sum())
        }
        _ => generator::room(random, 40),
    }
}

/// What a call is lent to work in, dirty: of the smallest lengths or longer; in some of the inputs one is short.
struct Work {
    areas: [Guarded<u32>; REPORT_AREAS],
    suffice: bool,
}

impl Work {
    fn around(library: &dyn Library, diagram: &Lent, may_lack: bool, random: &mut Random) -> Work {
        let smallest = library.smallest_report_areas(diagram.table.len() / 3);
        let mut lengths = smallest.map(|least| least + if random.once_in(2) { random.below(20) } else { 0 });
        let place = random.below(REPORT_AREAS);
        let lack = may_lack && random.once_in(10) && smallest[place] > 0;
        if lack {
            lengths[place] = random.of(&[0, smallest[place] / 2, smallest[place] - 1, smallest[place] - 1]);
        }
        let small = random.once_in(2);
        let number = |random: &mut Random| if small { random.below(3) as u32 } else { random.next() as u32 };
        let areas = lengths.map(|length| Guarded::new((0..length).map(|_| number(random)).collect(), 0xDEAD_BEEF));
        Work { areas, suffice: !lack }
    }

    fn told(&self) -> [usize; REPORT_AREAS] {
        self.areas.each_ref().map(|area| area.now().len())
    }

    fn compare(&self, number: u32, tally: &mut Tally) {
        tally.holds("guards of the areas of a report", self.areas.iter().all(Guarded::guards_stand));
        if [0, 14].contains(&number) {
            tally.holds("work areas of a report end zero", self.areas.iter().all(|area| area.all(0)));
        } else {
            tally.holds("a refused report leaves the areas", self.areas.iter().all(Guarded::unchanged));
        }
    }
}

/// Answers what the second program says, and what the library left in the room.
#[allow(clippy::too_many_arguments)]
fn one_report(
    library: &dyn Library,
    diagram: &Lent,
    asked: Asked,
    room_length: usize,
    may_lack: bool,
    random: &mut Random,
    tally: &mut Tally,
    from: &str,
) -> (Report, Vec<u8>) {
    let mut work = Work::around(library, diagram, may_lack, random);
    tally.note(|| {
        let told = work.told();
        match from {
            "" => format!("{diagram:?} {asked:?} room {room_length} areas {told:?}"),
            bytes => format!("{bytes} {asked:?} room {room_length} areas {told:?}"),
        }
    });
    let Asked { edition, chances, after } = asked;
    let expected = report(edition, diagram, chances, work.suffice, after, room_length);
    let mut room = Guarded::new((0..room_length).map(|_| random.byte()).collect(), 0x5A);
    let got = library.report(diagram, asked, room.lend(), work.areas.each_mut().map(Guarded::lend));
    no_fault(library, tally);
    let listing = &expected.listing;
    let used = listing.bytes.len();
    let due = ReportAnswer {
        edition: expected.edition as u64,
        listing: ListAnswer {
            number: listing.number,
            place: listing.place,
            written: listing.written as u64,
            used: used as u64,
            last: listing.last,
            finished: listing.finished,
        },
    };
    tally.due("report", listing.number);
    meet_report(diagram, asked, room_length, &expected, tally);
    tally.same("a report", due, got);
    tally.holds("guards of a report", room.guards_stand());
    let whole = [&listing.bytes[..], &room.before()[used..]].concat();
    tally.holds("bytes of a report", room.now() == whole);
    work.compare(listing.number, tally);
    (expected, room.now()[..used].to_vec())
}

/// What a report brought that is worth meeting.
fn meet_report(diagram: &Lent, asked: Asked, room: usize, report: &Report, tally: &mut Tally) {
    let Asked { edition, chances, after } = asked;
    let Report { listing, .. } = report;
    if ![0, 14].contains(&listing.number) {
        return;
    }
    let told = |cut: &Set| reportable(edition, cut, chances);
    let next = Walk::new(diagram, after).next();
    let passed_over = next.filter(|cut| !told(cut));
    if listing.number == 14 {
        let fits = passed_over.is_some_and(|cut| cut.cut_bytes().len() <= room);
        return tally.meet("14 in a room that the next cut, not reportable, would fit into", fits);
    }
    let likely = listing.last.members().len() > 2;
    let edge = Product::one().times(EDGE as u32);
    let product = || Product::of(&listing.last.members(), chances);
    tally.meet("reports that pass over the first cut", passed_over.is_some());
    tally.meet("after a set that is not reportable", after.is_some_and(|start| !told(&start)));
    tally.meet("with a likely cut last", listing.written > 0 && likely);
    tally.meet("with a cut exactly at the edge", listing.written > 0 && likely && edge.at_least(&product()));
    tally.meet("unfinished reports", !listing.finished);
    let follows = listing.finished && listing.written > 0 && Walk::new(diagram, Some(listing.last)).next().is_some();
    tally.meet("finished while cuts follow that are not reportable", follows);
    tally.large("members of a cut reported", listing.last.members().len() as u64);
}

/// Rooms of any sizes join to the whole report, under either edition; and what edition 1 tells is told in that order by edition 2.
fn compare_editions(
    library: &dyn Library,
    diagram: &Lent,
    chances: &[u32],
    random: &mut Random,
    tally: &mut Tally,
    from: &str,
) {
    if refusal(1, diagram, chances, true, None).is_some() {
        return;
    }
    let told = [1, 2].map(|edition| {
        let mut joined = Vec::new();
        let mut after = None;
        for _ in 0..4 {
            let asked = Asked { edition, chances, after };
            let room = random.between(0, 200);
            let (report, bytes) = one_report(library, diagram, asked, room, false, random, tally, from);
            joined.extend(bytes);
            match report.listing {
                listing if listing.finished => {
                    let whole: Vec<Set> = reportable_cuts(edition, diagram, chances, None).collect();
                    tally.holds("rooms join to the whole report", joined == bytes_of(&whole));
                    return Some(joined);
                }
                listing if listing.number == 0 => after = Some(listing.last),
                _ => return None,
            }
        }
        None
    });
    if let [Some(one), Some(two)] = &told {
        tally.meet("both reports of a family", true);
        tally.meet("that are not the same", one != two);
        tally.holds("what is reportable under 1 is so under 2", is_part(one, two));
    }
}

/// Whether the cuts of one listing stand in the other, in the same order.
fn is_part(one: &[u8], other: &[u8]) -> bool {
    let (Some(cuts), Some(others)) = (cuts_of(one), cuts_of(other)) else { return false };
    let mut others = others.into_iter().map(|cut| cut.set);
    cuts.into_iter().all(|cut| others.any(|other| other == cut.set))
}

/// Request 9 case by case.
pub fn compare_reviews(library: &dyn Library, random: &mut Random, tally: &mut Tally) {
    for own in all_known() {
        tally.name = Some(own.what);
        compare_known(library, &own, random, tally);
    }
    tally.name = Some("a room that the next cut would fit into, were it reportable");
    let (family, chances) = fourteen();
    for room in 0..12 {
        for (edition, number) in [(1, 0), (2, if room < 9 { 14 } else { 0 })] {
            let asked = Asked { edition, chances: &chances, after: None };
            let (report, _) = one_report(library, &family, asked, room, false, random, tally, "");
            tally.same("as it is written out", number, report.listing.number);
        }
    }
    compare_every_start(library, random, tally);
    compare_order(library, random, tally);
    compare_many(library, random, tally);
}

/// The whole report under both editions, and under others; a byte less of room; from every cut on.
fn compare_known(library: &dyn Library, own: &Known, random: &mut Random, tally: &mut Tally) {
    let Known { family, chances, reports, .. } = own;
    let mut ask = |edition, after, room, tally: &mut Tally| {
        let asked = Asked { edition, chances, after };
        one_report(library, family, asked, room, false, random, tally, own.what).0
    };
    for (edition, cuts) in (1..).zip(reports) {
        let whole = bytes_of(cuts);
        let report = ask(edition, None, whole.len(), tally);
        tally.holds("as it is written out", report.listing.bytes == whole && report.listing.finished);
        if let Some(less) = whole.len().checked_sub(1) {
            let report = ask(edition, None, less, tally);
            tally.same("as it is written out", cuts.len() - 1, report.listing.written);
        }
        for (place, &cut) in cuts.iter().enumerate() {
            let report = ask(edition, Some(cut), whole.len(), tally);
            tally.same("as it is written out", cuts.len() - 1 - place, report.listing.written);
        }
    }
    for edition in [0, 3, 257] {
        let report = ask(edition, None, 100, tally);
        tally.same("as it is written out", 23, report.listing.number);
    }
}

/// The reports of a large tree from room to room, under both editions.
pub fn compare_named_reports(
    library: &dyn Library,
    family: &Lent,
    chances: &[u32],
    random: &mut Random,
    tally: &mut Tally,
    name: &str,
) {
    if toil(family) > MOST_TOIL[2] {
        return;
    }
    for edition in [1, 2] {
        let mut after = None;
        for _ in 0..4 {
            let asked = Asked { edition, chances, after };
            let room = random.between(3_000, 12_000);
            let (Report { listing, .. }, _) = one_report(library, family, asked, room, false, random, tally, name);
            if listing.finished {
                break;
            }
            after = Some(listing.last);
        }
    }
}

/// Cuts of all 1,024 events, once each: such a call takes long.
pub fn compare_longest_cuts(library: &dyn Library, random: &mut Random, tally: &mut Tally) {
    for own in longest() {
        tally.name = Some(own.what);
        let asked = Asked { edition: 2, chances: &own.chances, after: None };
        let (report, _) = one_report(library, &own.family, asked, 2_817, false, random, tally, own.what);
        tally.same("as it is written out", own.reports[1].len(), report.listing.written);
    }
}

/// Every set of four events as a start, rooms up to the whole, both editions: of a family with all sets.
fn compare_every_start(library: &dyn Library, random: &mut Random, tally: &mut Tally) {
    tally.name = Some("every start, every room");
    let family = families::every_set(4);
    let chances = [D, 1_000, D, D / 2];
    for edition in [1, 2] {
        for start in 0..17 {
            let after = (start < 16).then(|| Set::from_number(0, start));
            for room in 0..64 {
                let asked = Asked { edition, chances: &chances, after };
                one_report(library, &family, asked, room, false, random, tally, "");
            }
        }
    }
}

/// Each two faults at once: the one that comes first is told.
fn compare_order(library: &dyn Library, random: &mut Random, tally: &mut Tally) {
    tally.name = Some("the order of a report's refusals");
    // No node has the third event.
    let good = Lent { event_count: 3, ..families::every_set(2) };
    let bad = Lent { root: 9, ..good.clone() };
    let beyond = Set::of(&[3]);
    for faults in 0..32usize {
        let has = |fault: usize| faults >> fault & 1 == 1;
        for edition in if has(0) { [0, 3] } else { [1, 2] } {
            let high = if has(3) { D + 1 } else { D };
            // What lies behind the events' chances is not judged.
            let chances = if has(2) { vec![high; 2] } else { vec![D, D, high, u32::MAX] };
            let asked = Asked { edition, chances: &chances, after: Some(if has(4) { beyond } else { Set::of(&[0]) }) };
            let family = if has(1) { &bad } else { &good };
            let (report, _) = one_report(library, family, asked, 0, false, random, tally, "");
            let due = [23, 12, 9, 7, 13].into_iter().enumerate().find(|&(fault, _)| has(fault));
            tally.same("as it is written out", due.map_or(14, |(_, number)| number), report.listing.number);
        }
    }
}

/// 2^60 reportable cuts just above the edge: three rooms of them; and chances of events from 256 on, which are not those of the low byte.
fn compare_many(library: &dyn Library, random: &mut Random, tally: &mut Tally) {
    tally.name = Some("2^60 cuts just above the edge");
    let family = families::pairs_and_one(60, None);
    let mut chances: Vec<u32> = reviews::JUST_ABOVE.iter().flat_map(|&chance| [chance; 2]).collect();
    chances.resize(120, D);
    let mut after = None;
    for room in [1_000, 121, 3_000] {
        let asked = Asked { edition: 2, chances: &chances, after };
        let (report, _) = one_report(library, &family, asked, room, false, random, tally, "");
        tally.same("as it is written out", room / 121, report.listing.written);
        after = Some(report.listing.last);
    }
    tally.name = Some("a report of events from 256 on");
    let low: Vec<u32> = (0..300).map(|event| if event < 256 { D } else { 10 + event % 2 * 10_000_000 }).collect();
    let sets: Vec<Set> = (256..300).map(|event| Set::of(&[0, event - 256, event])).collect();
    let family = families::of_sets(300, &sets);
    for (edition, written) in [(1, 1), (2, 23)] {
        let asked = Asked { edition, chances: &low, after: None };
        let (report, _) = one_report(library, &family, asked, 1_000, false, random, tally, "");
        tally.same("as it is written out", written, report.listing.written);
    }
}
