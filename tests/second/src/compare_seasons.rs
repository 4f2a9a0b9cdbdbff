//! Analyses and chances under the settings of an edition, against the second program; and request 10 case by case.

use crate::analysis::{Analysis, Lengths};
use crate::compare::{compare_analysis_when, no_fault};
use crate::generator::chances;
use crate::judge::{read, write, Refusal};
use crate::library::*;
use crate::listing::Walk;
use crate::memory::{dirty, lengths, Memory, Need, MOST_NODES};
use crate::random::Random;
use crate::robdd::TRUE;
use crate::seasons::*;
use crate::sets::Set;
use crate::settings::*;
use crate::stores::{self, store_of};
use crate::tally::{hex, Tally};
use crate::tree::{Tree, D, MOST_EVENTS, MOST_GATES};
use crate::twins::tree_bytes;

/// A tree, or bytes that are none, in a seeded season.
pub fn compare_season(library: &dyn Library, bytes: &[u8], random: &mut Random, tally: &mut Tally) {
    let events = read(bytes).map_or(3, |tree| tree.events());
    let store = stores::store(random, events);
    let season = Season { store: &store, edition: stores::edition(random, &store) };
    let (nodes, cuts) = (random.below(MOST_NODES), random.below(200));
    let need = Need::when(Some(season), bytes);
    let need = need.unwrap_or(Need { nodes, cuts, gates: MOST_GATES, by_gate: Vec::new() });
    let (lengths, work_lengths) = lengths(library, need, random);
    compare_analysis_when(library, Some(season), bytes, lengths, work_lengths, random, tally);
    compare_chances(library, season, events, random, tally);
    if let (true, Ok(settings)) = (random.once_in(4), judge_store(&store, events)) {
        compare_above(library, bytes, &settings, season.edition, events, random, tally);
    }
}

/// What an analysis in a season brought that is worth meeting.
pub fn meet_season(expected: &Result<Analysis, Refusal>, bytes: &[u8], season: Season, tally: &mut Tally) {
    tally.due("season", expected.as_ref().map_or_else(|refusal| refusal.number, |_| 0));
    let Ok(done) = expected else { return };
    let Ok(states) = season.states(done.tree.events()) else { return };
    let forced = states.iter().filter(|&&state| state != State::Free).count();
    let root = done.robdd.root();
    tally.meet("seasons that force no event", forced == 0);
    tally.meet("seasons that force some events", 0 < forced && forced < states.len());
    tally.meet("seasons that force every event", forced == states.len());
    tally.meet("seasons whose root can't fail", root < TRUE);
    tally.meet("seasons whose root always fails", root == TRUE);
    let constant = done.robdd.gate_nodes.iter().any(|&node| node <= TRUE);
    tally.meet("seasons with a constant gate below the root", root > TRUE && constant);
    tally.meet("seasons that need no node", done.robdd.nodes.count() == 0);
    let free = read(bytes).map_or(0, |tree| tree.events() - forced);
    tally.large("events free in a season", free as u64);
    tally.large("events forced", forced as u64);
    tally.large("bytes of a store", season.store.len() as u64);
}

/// One call on some chances; none is judged.
fn one_of_chances(library: &dyn Library, season: Season, own: Vec<u32>, tally: &mut Tally) {
    tally.note(|| format!("store {} edition {} chances {own:?}", hex(season.store), season.edition));
    let expected = chances_under(season, &own);
    let mut lent = Guarded::new(own, 0xDEAD_BEEF);
    let got = library.chances_under(season, lent.lend());
    no_fault(library, tally);
    let (number, place) = expected.as_ref().map_or_else(|&Refusal { number, place }| (number, place), |_| (0, 0));
    tally.due("chances", number);
    tally.same("chances in a season", SettingsAnswer { number, place }, got);
    tally.holds("guards of the chances", lent.guards_stand());
    match expected {
        Ok(changed) => tally.same("the chances", &changed[..], lent.now()),
        Err(_) => tally.holds("a refusal leaves the chances", lent.unchanged()),
    }
}

/// As many chances as the tree has events, and other lists of them.
fn compare_chances(library: &dyn Library, season: Season, events: usize, random: &mut Random, tally: &mut Tally) {
    let count = match random.below(16) {
        0 => events - 1,
        1 => events + random.between(1, 300),
        2 => random.of(&[MOST_EVENTS - 1, MOST_EVENTS, MOST_EVENTS + 1, MOST_EVENTS + 400]),
        _ => events,
    };
    let mut own = chances(random, count);
    if random.once_in(4) {
        own.iter_mut().for_each(|chance| *chance = random.of(&[*chance, D + 1, u32::MAX]));
    }
    one_of_chances(library, season, own, tally);
}

/// All that an analysis answers and leaves.
type Outcome = (AnalyseAnswer, [Vec<u32>; 8], Vec<u32>);

/// An analysis in a season or in none, in memory that the seed `dirt` fills.
fn outcome(
    library: &dyn Library,
    season: Option<Season>,
    bytes: &[u8],
    (lengths, work_lengths): (Lengths, [usize; 4]),
    dirt: u64,
) -> Outcome {
    let random = &mut Random::new(dirt);
    let mut memory = Memory::dirty(lengths, work_lengths, random);
    let mut added = dirty(random, lengths.added_list);
    let answer = match season {
        Some(season) => library.analyse_season(bytes, season, memory.lend(), added.lend()),
        None => library.analyse(bytes, memory.lend(), added.lend()),
    };
    (answer, memory.all().map(|area| area.now().to_vec()), added.now().to_vec())
}

/// Records of editions above the asked one change nothing, to the last number; and a store without a record is no season at all.
fn compare_above(
    library: &dyn Library,
    bytes: &[u8],
    settings: &[Setting],
    asked: u16,
    events: usize,
    random: &mut Random,
    tally: &mut Tally,
) {
    let more = stores::with_above(random, settings, events, asked);
    let (store, more) = (store_of(settings), store_of(&more));
    let [own, later] = [&store, &more].map(|store| Season { store, edition: asked });
    tally.holds("records above leave a store valid", judge_store(&more, events).is_ok());
    tally.note(|| format!("{} stores {} and {} edition {asked}", hex(bytes), hex(&store), hex(&more)));
    let dirt = random.next();
    if let Some(need) = Need::when(Some(own), bytes) {
        let lent = lengths(library, need, random);
        let [before, after] = [own, later].map(|season| outcome(library, Some(season), bytes, lent, dirt));
        tally.meet("seasons with records above the edition", more.len() > store.len() && before.0.number == 0);
        tally.holds("records above change nothing", before == after);
    }
    if let Some(need) = Need::of(bytes) {
        let lent = lengths(library, need, random);
        let empty = Season { store: &[], edition: asked };
        let [none, season] = [None, Some(empty)].map(|season| outcome(library, season, bytes, lent, dirt));
        tally.meet("seasons without a record", none.0.number == 0);
        tally.holds("an empty store is no season", none == season);
    }
}

/// Request 10 case by case: the second program's answers are held to those that are written out, the library's to the second program's.
pub fn compare_seasons(library: &dyn Library, random: &mut Random, tally: &mut Tally) {
    for case in CASES {
        tally.name = Some(case.what);
        compare_case(library, case, random, tally);
    }
    compare_orders(library, random, tally);
    compare_every_byte(library, random, tally);
    compare_every_setting(library, random, tally);
    compare_wide_season(library, random, tally);
    compare_lists_of_chances(library, random, tally);
}

/// With exactly the nodes that are needed, with one less in either table, and with a list of gates that is one short.
fn compare_case(library: &dyn Library, case: &Case, random: &mut Random, tally: &mut Tally) {
    let (bytes, store) = (case.bytes(), case.store());
    let season = Season { store: &store, edition: case.edition };
    let done = analyse_season(&bytes, season, Lengths::AMPLE);
    let refused = done.as_ref().err().map(|refusal| (refusal.number, refusal.place));
    let (nodes, cuts) = done.as_ref().map_or((0, 0), |done| (done.robdd.nodes.count(), done.cuts.nodes.count()));
    let gates = read(&bytes).map_or(1, |tree| tree.gates.len());
    match (case.due, &done) {
        (Due::Done(added, listed), Ok(done)) => {
            tally.same("as it is written out", added, &done.added()[..]);
            let listed: Vec<Set> = listed.iter().map(|members| Set::of(members)).collect();
            tally.same("as it is written out", listed, Walk::new(&done.lent_cuts(), None).collect());
        }
        (due, _) => {
            tally.same("as it is written out", Some(due), refused.map(|(number, place)| Due::Refused(number, place)))
        }
    }
    let mut try_out = |nodes: usize, cuts: usize, gate_list| {
        let lengths = Lengths { memo: 4, gate_list, added_list: gates, ..Lengths::of_capacities(nodes, cuts) };
        let work = library.smallest_areas(nodes, cuts);
        compare_analysis_when(library, Some(season), &bytes, lengths, work, random, tally);
    };
    try_out(nodes, cuts, gates);
    try_out(nodes + 1, cuts + 1, gates + 2);
    try_out(nodes, cuts, gates - 1);
    if let (Some(less), Some(less_cuts)) = (nodes.checked_sub(1), cuts.checked_sub(1)) {
        try_out(less, cuts, gates);
        try_out(nodes, less_cuts, gates);
    }
    if let Ok(tree) = read(&bytes) {
        one_of_chances(library, season, chances(random, tree.events()), tally);
    }
}

/// Every two of these faults at once: the tree's, the store's, a length's.
fn compare_orders(library: &dyn Library, random: &mut Random, tally: &mut Tally) {
    tally.name = Some("the order of a season's refusals");
    for (gates, tree_number) in [("0201 0500 0201 0500 07", 8), ("0202 0500 0501 07", 6), ("0201 0500 07", 0)] {
        let bytes = tree_bytes(1, gates);
        for (store, store_number) in [(&[SETTING][..], 24), (&[SETTING, 0, 0, 1, 0, 1], 13), (&[], 0)] {
            for (gate_list, length_number) in [(0, 9), (2, 0)] {
                let lengths = Lengths { gate_list, memo: 4, ..Lengths::of_capacities(3, 3) };
                let season = Season { store, edition: 0 };
                let due = [tree_number, store_number, length_number].into_iter().find(|&number| number != 0);
                let done = analyse_season(&bytes, season, lengths);
                tally.same("as it is written out", due, done.err().map(|refusal| refusal.number));
                let work = library.smallest_areas(3, 3);
                compare_analysis_when(library, Some(season), &bytes, lengths, work, random, tally);
            }
        }
    }
}

/// A store of four records with every byte changed, and cut everywhere.
fn compare_every_byte(library: &dyn Library, random: &mut Random, tally: &mut Tally) {
    tally.name = Some("a store damaged in every byte");
    let (bytes, whole) = (four_events(), four_records());
    let mut each = |store: &[u8]| {
        for edition in [1, 2, 256, 65_535] {
            let season = Season { store, edition };
            let lengths = Lengths { memo: 4, ..Lengths::of_capacities(24, 12) };
            compare_analysis_when(
                library,
                Some(season),
                &bytes,
                lengths,
                library.smallest_areas(24, 12),
                random,
                tally,
            );
            one_of_chances(library, season, vec![7, D, 0, u32::MAX], tally);
        }
    };
    for place in 0..=whole.len() {
        each(&whole[..place]);
    }
    for place in 0..whole.len() {
        for byte in [0, 1, 2, 3, 4, 5, 0x30, SETTING, 0x32, 0xFF, whole[place] ^ 0x80] {
            let mut store = whole.clone();
            store[place] = byte;
            each(&store);
        }
    }
}

/// Every setting of four events, 81 in all, of some trees.
fn compare_every_setting(library: &dyn Library, random: &mut Random, tally: &mut Tally) {
    tally.name = Some("every setting of four events");
    for bytes in four_event_trees() {
        for number in 0..81usize {
            let state = |event: u32| STATES[number / 3usize.pow(event) % 3];
            let settings: Vec<Setting> =
                (0..4).map(|event| Setting { edition: 5, event: event as u16, state: state(event) }).collect();
            let store = store_of(&settings);
            let season = Season { store: &store, edition: 5 };
            let need = Need::when(Some(season), &bytes).expect("it is small");
            let lengths = Lengths { memo: 4, ..Lengths::of_capacities(need.nodes, need.cuts) };
            let work = library.smallest_areas(need.nodes, need.cuts);
            compare_analysis_when(library, Some(season), &bytes, lengths, work, random, tally);
        }
    }
}

/// 1,024 events, the last of them forced, or all, or those from 256 on.
fn compare_wide_season(library: &dyn Library, random: &mut Random, tally: &mut Tally) {
    tally.name = Some("a season of 1,024 events");
    let tree = all_events();
    let bytes = write(&tree).expect("it is accepted");
    let force = |events: std::ops::Range<u16>, state| -> Vec<u8> {
        store_of(&events.map(|event| Setting { edition: 1, event, state }).collect::<Vec<_>>())
    };
    for store in [
        force(1_023..1_024, State::Failed),
        force(256..1_024, State::Failed),
        force(256..512, State::Sound),
        force(0..1_024, State::Failed),
        force(0..1_024, State::Sound),
        force(0..1_025, State::Sound),
    ] {
        let season = Season { store: &store, edition: 1 };
        let need = Need::when(Some(season), &bytes);
        let (nodes, cuts) = need.map_or((0, 0), |need| (need.nodes, need.cuts));
        let lengths = Lengths { memo: 4_096, ..Lengths::of_capacities(nodes, cuts) };
        compare_analysis_when(
            library,
            Some(season),
            &bytes,
            lengths,
            library.smallest_areas(nodes, cuts),
            random,
            tally,
        );
        one_of_chances(library, season, tree.chances.clone(), tally);
    }
}

/// A large tree with every seventh event forced to this state: done with exactly the nodes that are needed, 10 and 11 with one less.
pub fn compare_named_season(
    library: &dyn Library,
    name: &'static str,
    tree: &Tree,
    state: State,
    random: &mut Random,
    tally: &mut Tally,
) {
    tally.name = Some(name);
    let bytes = write(tree).expect("a named tree is accepted");
    let forced = (3..tree.events()).step_by(7).map(|event| Setting { edition: 1, event: event as u16, state });
    let store = store_of(&forced.collect::<Vec<_>>());
    let season = Season { store: &store, edition: 1 };
    let need = Need::when(Some(season), &bytes).expect("it has room");
    for (less, less_cuts) in [(0, 0), (1, 0), (0, 1)] {
        let (nodes, cuts) = (need.nodes - less, need.cuts.saturating_sub(less_cuts));
        let lengths = Lengths { memo: 1 << 16, ..Lengths::of_capacities(nodes, cuts) };
        let work = library.smallest_areas(nodes, cuts);
        compare_analysis_when(library, Some(season), &bytes, lengths, work, random, tally);
    }
}

/// No chance at all, one for each event that a tree can have, and more.
fn compare_lists_of_chances(library: &dyn Library, random: &mut Random, tally: &mut Tally) {
    tally.name = Some("lists of chances of any length");
    let forced = |event| store_of(&[Setting { edition: 1, event, state: State::Failed }]);
    for (count, store) in [
        (0, Vec::new()),
        (0, forced(0)),
        (1, forced(0)),
        (1, forced(1)),
        (1, forced(256)),
        (256, forced(255)),
        (257, forced(256)),
        (1_023, forced(1_022)),
        (1_024, forced(1_023)),
        (1_024, forced(1_024)),
        (1_025, forced(1_024)),
        (1_025, forced(1_025)),
        (1_025, Vec::new()),
        (1_025, vec![SETTING]),
        (70_000, forced(65_535)),
    ] {
        for edition in [0, 1] {
            one_of_chances(library, Season { store: &store, edition }, chances(random, count), tally);
        }
    }
}
