//! Sets decided by the bytes of a listing alone: of the library's own listings against the tree they are of, event by event; of any bytes against
//! the second program.

use crate::analysis::{Analysis, Lengths};
use crate::brute::fails;
use crate::changes::cuts_of;
use crate::compare::no_fault;
use crate::decision::{decides, is_beyond, is_part, TELLING_EVENTS};
use crate::generator::{and_of_ors, wide_tree};
use crate::judge::{read, write, Refusal};
use crate::lent::{Lent, Sort};
use crate::library::*;
use crate::listing::Walk;
use crate::memory::{dirty, Memory, Need};
use crate::pairs::{self, bytes_of};
use crate::planner::without;
use crate::random::Random;
use crate::seasons::four_event_trees;
use crate::sets::Set;
use crate::settings::{analyse_when, Season, Setting, State, STATES};
use crate::stores::store_of;
use crate::tally::{hex, Tally};
use crate::tree::*;
use crate::verdicts::WRITTEN_OUT;

/// Families of more cuts than this are not listed to their end.
const MOST_CUTS: usize = 300;

/// One call.
fn one_decision(library: &dyn Library, listing: &[u8], events: u64, set: &Set, tally: &mut Tally) -> DecidedAnswer {
    tally.note(|| format!("{} of {events} events, failed {:?}", hex(listing), set.members()));
    let expected = decides(listing, events, set);
    let (number, place) = expected.as_ref().map_or_else(|&Refusal { number, place }| (number, place), |_| (0, 0));
    let answer = DecidedAnswer { number, place, fails: expected == Ok(true) };
    let got = library.decides(listing, events, set);
    no_fault(library, tally);
    tally.due("decides", number);
    tally.same("a decision", answer, got);
    tally.meet("decisions that the root fails", answer.fails);
    tally.meet("decisions that it does not", number == 0 && !answer.fails);
    tally.meet("decisions of a bad listing and a set beyond", number == 20 && is_beyond(set, events));
    tally.large("bytes of a listing decided", listing.len() as u64);
    got
}

/// Of a done analysis: its listing in rooms of changing sizes, joined, and again in other rooms; then sets decided by these bytes, against the tree
/// itself, with its forced events as they are forced.
pub fn compare_decisions(
    library: &dyn Library,
    done: &Analysis,
    family: &Lent,
    season: Option<Season>,
    random: &mut Random,
    tally: &mut Tally,
) {
    if !family.is_diagram() {
        return;
    }
    let cuts: Vec<Set> = Walk::new(family, None).take(MOST_CUTS + 1).collect();
    if cuts.len() > MOST_CUTS {
        return;
    }
    let before = std::mem::take(&mut tally.input);
    if let Some(listing) = joined(library, family, &cuts, random, tally) {
        let sets = sets_of(random, &cuts, done.tree.events());
        compare_sets(library, done, &listing, season, &sets, tally);
        let bad = pairs::damaged(random, &listing);
        compare_bytes(library, &bad, random, tally);
    }
    tally.input = before;
}

/// The library's listing of all these cuts; none where a call goes wrong.
fn joined(
    library: &dyn Library,
    family: &Lent,
    cuts: &[Set],
    random: &mut Random,
    tally: &mut Tally,
) -> Option<Vec<u8>> {
    let expected = bytes_of(cuts);
    let longest = cuts.iter().map(|cut| cut.cut_bytes().len()).max().unwrap_or(0);
    let mut last = None;
    // In rooms of one size, and in rooms that change from call to call; each holds any cut.
    for changing in [false, true] {
        let size = longest + random.below(expected.len() + 1);
        let mut rooms = |calls: usize| match changing {
            true if calls < 12 => longest + random.below(2 * longest + 1),
            _ => size + calls,
        };
        let bytes = listed(library, family, &mut rooms, cuts.len() + 1);
        no_fault(library, tally);
        tally.holds("rooms of any sizes join to the same bytes", bytes.as_ref() == Some(&expected));
        last = bytes;
    }
    last.filter(|bytes| *bytes == expected)
}

/// Room after room, up to the one that says finished.
fn listed(library: &dyn Library, family: &Lent, rooms: &mut dyn FnMut(usize) -> usize, most: usize) -> Option<Vec<u8>> {
    let (mut bytes, mut after) = (Vec::new(), None);
    for call in 0..most {
        let mut room = vec![0xEE; rooms(call)];
        let answer = library.list(family, after, &mut room);
        if answer.number != 0 || answer.used as usize > room.len() {
            return None;
        }
        bytes.extend(&room[..answer.used as usize]);
        if answer.finished {
            return Some(bytes);
        }
        after = Some(answer.last);
    }
    None
}

/// The empty set and the full one, some sets of the events; cuts, each alone, with one more, less a member; all but that member.
fn sets_of(random: &mut Random, cuts: &[Set], events: usize) -> Vec<Set> {
    let full = (0..events as u32).fold(Set::EMPTY, Set::with);
    let mut sets = vec![Set::EMPTY, full];
    for _ in 0..3 {
        let often = random.between(1, 5);
        sets.push((0..events as u32).filter(|_| !random.once_in(often)).fold(Set::EMPTY, Set::with));
    }
    for _ in 0..if cuts.is_empty() { 0 } else { 4 } {
        let cut = random.of(cuts);
        let members = cut.members();
        sets.push(cut);
        sets.push(cut.with(random.below(events) as u32));
        if !members.is_empty() {
            let member = random.of(&members);
            sets.extend([without(cut, member), without(full, member)]);
        }
    }
    sets
}

/// The listing decides as the tree does, whose gates are gone through for each set; with one cut left off it does not.
fn compare_sets(
    library: &dyn Library,
    done: &Analysis,
    listing: &[u8],
    season: Option<Season>,
    sets: &[Set],
    tally: &mut Tally,
) {
    let tree = &done.tree;
    let free = vec![State::Free; tree.events()];
    let states = season.map_or(free, |season| season.states(tree.events()).expect("the store was accepted"));
    for set in sets {
        let failed = |event: u32| match states[event as usize] {
            State::Free => set.holds(event),
            State::Failed => true,
            State::Sound => false,
        };
        let got = one_decision(library, listing, tree.event_count, set, tally);
        tally.same("the list decides as the tree does", (0, fails(tree, &failed)), (got.number, got.fails));
    }
    tally.meet("seasons decided by their listings", season.is_some());
    let cuts = cuts_of(listing).expect("a listing is good");
    for cut in cuts.iter().step_by(cuts.len() / 3 + 1) {
        let shorter = [&listing[..cut.start], &listing[cut.end..]].concat();
        let got = one_decision(library, &shorter, tree.event_count, &cut.set, tally);
        tally.same("with a cut left off it does not", (0, false), (got.number, got.fails));
    }
}

/// Any bytes, with numbers of events and sets that go with them.
fn compare_bytes(library: &dyn Library, listing: &[u8], random: &mut Random, tally: &mut Tally) {
    let cuts: Vec<Set> = cuts_of(listing).unwrap_or_default().iter().map(|cut| cut.set).collect();
    let events = match random.below(3) {
        0 => random.of(&TELLING_EVENTS),
        1 => random.between(1, MOST_EVENTS) as u64,
        _ => MOST_EVENTS as u64,
    };
    let mut sets = sets_of(random, &cuts, events.clamp(1, MOST_EVENTS as u64) as usize);
    let beyond = Set::of(&[random.below(MOST_EVENTS) as u32]);
    sets.extend([beyond, (0..MOST_EVENTS as u32).fold(Set::EMPTY, Set::with)]);
    for _ in 0..3 {
        let set = random.of(&sets);
        one_decision(library, listing, events, &set, tally);
    }
}

/// Seeded listings of any sets, good and damaged.
pub fn compare_any_listings(library: &dyn Library, random: &mut Random, tally: &mut Tally) {
    for _ in 0..2 {
        for listing in pairs::seeded(random) {
            compare_bytes(library, &listing, random, tally);
        }
    }
}

/// Request 13 case by case.
pub fn compare_decided(library: &dyn Library, random: &mut Random, tally: &mut Tally) {
    for own in WRITTEN_OUT {
        tally.name = Some(own.what);
        let (number, fails) = own.due;
        let got = one_decision(library, own.listing, own.events, &own.set(), tally);
        tally.same("as it is written out", DecidedAnswer { number, place: 0, fails }, got);
    }
    compare_every_byte(library, tally);
    compare_every_number(library, tally);
    compare_every_set(library, random, tally);
    compare_long(library, random, tally);
}

/// A listing damaged in every byte, and cut everywhere: a bad one says nothing, whatever stands before its fault.
fn compare_every_byte(library: &dyn Library, tally: &mut Tally) {
    tally.name = Some("a listing damaged in every byte");
    let sets = [&[1, 2, 34][..], &[1, 256, 290], &[34, 1_023], &[255], &[256, 257], &[]].map(Set::of);
    let whole = bytes_of(&sets);
    let asked = [sets[0], sets[4], Set::of(&[1, 34, 255]), Set::of(&[1_023]), Set::EMPTY];
    let mut each = |listing: &[u8]| {
        for (place, set) in asked.iter().enumerate() {
            one_decision(library, listing, [1_024, 300][place % 2], set, tally);
        }
    };
    for place in 0..whole.len() {
        each(&whole[..place]);
        for byte in [0, 1, 3, 4, 0x20, 0x21, 0x22, 0x23, 0x24, 0xFF, whole[place] ^ 1, whole[place].wrapping_add(1)] {
            let mut other = whole.clone();
            other[place] = byte;
            each(&other);
        }
        each(&[&whole[..place], &[0x22], &whole[place..]].concat());
        each(&[&whole[..place], &whole[place + 1..]].concat());
    }
}

/// Sets of one event, and numbers of events around it.
fn compare_every_number(library: &dyn Library, tally: &mut Tally) {
    tally.name = Some("numbers of events");
    for event in [0, 1, 63, 64, 127, 128, 255, 256, 257, 319, 320, 511, 512, 959, 960, 1_022, 1_023] {
        let set = Set::of(&[event]);
        let listing = set.cut_bytes();
        let around = [u64::from(event), u64::from(event) + 1];
        for events in TELLING_EVENTS.into_iter().chain(around) {
            for listing in [&listing[..], &[], &[0x22], &[0x24]] {
                one_decision(library, listing, events, &set, tally);
            }
        }
    }
}

/// A tree analysed by the library in tables that just suffice, and its family as a lent one.
fn analysed(library: &dyn Library, season: Option<Season>, tree: &Tree, tally: &mut Tally) -> Option<(Analysis, Lent)> {
    let bytes = write(tree).expect("it is accepted");
    let need = Need::when(season, &bytes).expect("it is small");
    let lengths = Lengths { memo: 4_000, ..Lengths::of_capacities(need.nodes, need.cuts) };
    let done = analyse_when(season, &bytes, lengths).unwrap_or_else(|refusal| panic!("{refusal:?}"));
    let random = &mut Random::new(7);
    let mut memory = Memory::dirty(lengths, library.smallest_areas(need.nodes, need.cuts), random);
    let mut added = dirty(random, lengths.added_list);
    let got = match season {
        Some(season) => library.analyse_season(&bytes, season, memory.lend(), added.lend()),
        None => library.analyse(&bytes, memory.lend(), added.lend()),
    };
    tally.same("an analysis to be decided", 0, got.number);
    let (table, root) = (memory.cuts.now().to_vec(), got.cut_root as u64);
    let family = Lent { sort: Sort::Cuts, event_count: tree.event_count, table, node_count: got.cut_nodes, root };
    (got.number == 0 && family.is_diagram()).then_some((done, family))
}

/// Every set of four events, of some trees, free and under each of some settings.
fn compare_every_set(library: &dyn Library, random: &mut Random, tally: &mut Tally) {
    tally.name = Some("every set of four events");
    let sets: Vec<Set> = (0..16).map(|set| Set::from_number(0, set)).collect();
    for bytes in four_event_trees() {
        let tree = read(&bytes).expect("it is accepted");
        for number in (0..81usize).step_by(5) {
            let state = |event: u32| STATES[number / 3usize.pow(event) % 3];
            let settings: Vec<Setting> =
                (0..4).map(|event| Setting { edition: 5, event: event as u16, state: state(event) }).collect();
            let store = store_of(&settings);
            let season = (number > 0).then_some(Season { store: &store, edition: 5 });
            let Some((done, family)) = analysed(library, season, &tree, tally) else { continue };
            let cuts: Vec<Set> = Walk::new(&family, None).collect();
            if let Some(listing) = joined(library, &family, &cuts, random, tally) {
                compare_sets(library, &done, &listing, season, &sets, tally);
            }
        }
    }
}

/// 128 cuts, of which each decides some set; and trees of more than 256 events.
fn compare_long(library: &dyn Library, random: &mut Random, tally: &mut Tally) {
    tally.name = Some("128 cuts");
    let tree = and_of_ors(7);
    if let Some((done, family)) = analysed(library, None, &tree, tally) {
        let cuts: Vec<Set> = Walk::new(&family, None).collect();
        tally.holds(
            "no cut is in another",
            cuts.iter().all(|one| cuts.iter().filter(|cut| is_part(cut, one)).count() == 1),
        );
        if let Some(listing) = joined(library, &family, &cuts, random, tally) {
            let less = |cut: &Set| without(*cut, cut.members()[0]);
            let sets: Vec<Set> = cuts.iter().flat_map(|cut| [*cut, less(cut)]).collect();
            compare_sets(library, &done, &listing, None, &sets, tally);
        }
    }
    tally.name = Some("trees of more than 256 events decided");
    for _ in 0..6 {
        let tree = wide_tree(random);
        if Need::of(&write(&tree).expect("it is accepted")).is_none() {
            continue;
        }
        if let Some((done, family)) = analysed(library, None, &tree, tally) {
            compare_decisions(library, &done, &family, None, random, tally);
        }
    }
}
