//! Request 10: stores judged, which record decides, forced trees by truth tables and by the diagram, chances, later editions.

use second::analysis::{analyse, Analysis, Lengths};
use second::bracket::{bracket, events_reached, keeps_promise};
use second::brute::{exact_chance, fails, functions, functions_in};
use second::brute_cuts::{cut_nodes_needed, in_order, minimal_cuts};
use second::generator::{chances, small_shape, tree};
use second::judge::{read, refuse, write};
use second::listing::{list, Walk};
use second::random::Random;
use second::seasons::*;
use second::sets::Set;
use second::settings::*;
use second::stores::{all_forced, good, store_of, with_above};
use second::tree::*;

fn done(bytes: &[u8], season: Season, lengths: Lengths) -> Analysis {
    analyse_season(bytes, season, lengths).unwrap_or_else(|refusal| panic!("{refusal:?}"))
}

/// What is written out is what the definitions give, by truth tables.
#[test]
fn the_cases() {
    for case in CASES {
        let (bytes, store) = (case.bytes(), case.store());
        let season = Season { store: &store, edition: case.edition };
        let (added, listed) = match case.due {
            Due::Refused(number, place) => {
                let refused = analyse_season(&bytes, season, Lengths::AMPLE).err();
                assert_eq!(refused, refuse::<()>(number, place).err(), "{}", case.what);
                continue;
            }
            Due::Done(added, listed) => (added, listed),
        };
        let tree = read(&bytes).unwrap();
        let by_tables = functions_in(&tree, &season.states(tree.events()).unwrap());
        let needed: Vec<usize> = (0..added.len()).map(|gate| added[..=gate].iter().sum::<u32>() as usize).collect();
        assert_eq!(by_tables.nodes_needed, needed, "{}", case.what);
        let cuts: Vec<Set> = listed.iter().map(|members| Set::of(members)).collect();
        assert_eq!(in_order(&minimal_cuts(by_tables.of_gates.last().unwrap())), cuts, "{}", case.what);
        assert_eq!(done(&bytes, season, Lengths::AMPLE).added(), added, "{}", case.what);
    }
}

fn seeded(seed: u64) -> (Random, Tree, Vec<u8>) {
    let mut random = Random::new(seed);
    let shape = small_shape(&mut random);
    let tree = tree(&mut random, shape);
    let bytes = write(&tree).unwrap();
    (random, tree, bytes)
}

fn states_of(random: &mut Random, events: usize) -> Vec<State> {
    (0..events).map(|_| random.of(&STATES)).collect()
}

fn store_for(states: &[State]) -> Vec<u8> {
    let setting = |(event, &state): (usize, &State)| Setting { edition: 1, event: event as u16, state };
    store_of(&states.iter().enumerate().map(setting).collect::<Vec<_>>())
}

/// The functions are the tree's with the forced events fixed; nodes and cuts are of these.
#[test]
fn forced_functions() {
    let mut constant = 0;
    for seed in 0..3_000 {
        let (mut random, tree, bytes) = seeded(seed);
        let events = tree.events();
        let states = states_of(&mut random, events);
        let by_tables = functions_in(&tree, &states);
        let settled = |set: usize| {
            (0..events).fold(set, |set, event| match states[event] {
                State::Free => set,
                State::Failed => set | 1 << event,
                State::Sound => set & !(1 << event),
            })
        };
        for (forced, free) in by_tables.of_gates.iter().zip(functions(&tree).of_gates) {
            assert!((0..forced.len()).all(|set| forced[set] == free[settled(set)]), "seed {seed}");
        }
        let root = by_tables.of_gates.last().unwrap();
        for (set, &value) in root.iter().enumerate() {
            assert_eq!(value, fails(&tree, &|event| settled(set) >> event & 1 == 1), "seed {seed}");
        }
        let store = store_for(&states);
        let own = done(&bytes, Season { store: &store, edition: 1 }, Lengths::AMPLE);
        assert_eq!(own.robdd.nodes_by_gate, by_tables.nodes_needed, "seed {seed}");
        assert_eq!(own.cuts.nodes.count(), cut_nodes_needed(root, events), "seed {seed}");
        let cuts: Vec<Set> = Walk::new(&own.lent_cuts(), None).collect();
        assert_eq!(cuts, in_order(&minimal_cuts(root)), "seed {seed}");
        constant += usize::from(own.robdd.root() <= 1);
    }
    assert!(constant > 500, "{constant}");
}

/// At every capacity: 10 at the first gate with which the forced functions need more, 11 as soon as their cuts do, or done.
#[test]
fn every_capacity() {
    for seed in 0..500 {
        let (mut random, tree, bytes) = seeded(seed);
        let states = states_of(&mut random, tree.events());
        let by_tables = functions_in(&tree, &states);
        let store = store_for(&states);
        let season = Season { store: &store, edition: 1 };
        let needed = &by_tables.nodes_needed;
        let refusal = |nodes, cuts| analyse_season(&bytes, season, Lengths::of_capacities(nodes, cuts)).err();
        let cuts = cut_nodes_needed(by_tables.of_gates.last().unwrap(), tree.events());
        let all = *needed.last().unwrap();
        for capacity in 0..all {
            let gate = needed.iter().position(|&nodes| nodes > capacity).unwrap();
            assert_eq!(refusal(capacity, cuts), refuse::<()>(10, gate as u64).err(), "seed {seed}");
        }
        for capacity in 0..cuts {
            assert_eq!(refusal(all, capacity), refuse::<()>(11, 0).err(), "seed {seed}");
        }
        assert_eq!(refusal(all, cuts), None, "seed {seed}");
    }
}

/// All events forced: no node, no cut node, tables of length 0; root 0 lists nothing, root 1 lists `22`.
#[test]
fn all_events_forced() {
    let mut roots = [0, 0];
    for seed in 0..1_000 {
        let (mut random, tree, bytes) = seeded(seed);
        let store = store_of(&all_forced(&mut random, tree.events()));
        let season = Season { store: &store, edition: u16::MAX };
        let own = done(&bytes, season, Lengths::of_capacities(0, 0));
        let root = own.robdd.root();
        assert_eq!((own.cuts.root, root <= 1), (root, true));
        let listed = list(&own.lent_cuts(), None, 100);
        assert_eq!((listed.number, listed.finished), (0, true));
        assert_eq!(listed.bytes, if root == 1 { vec![0x22] } else { Vec::new() });
        let top = bracket(&own.lent_function(), &chances_under(season, &tree.chances).unwrap(), true);
        assert_eq!((top.number, top.low, top.high), (0, root * D, root * D));
        roots[root as usize] += 1;
    }
    assert!(roots.iter().all(|&times| times > 50), "{roots:?}");
}

/// With the chances under the settings the free function and the forced one have the same exact chance, and the bracket encloses it.
#[test]
fn chances_of_forced_functions() {
    for seed in 0..1_500 {
        let (mut random, tree, bytes) = seeded(seed);
        let events = tree.events();
        let states = states_of(&mut random, events);
        let store = store_for(&states);
        let season = Season { store: &store, edition: 1 };
        let under = chances_under(season, &chances(&mut random, events)).unwrap();
        let own = done(&bytes, season, Lengths::AMPLE);
        let function = own.lent_function();
        let forced = exact_chance(functions_in(&tree, &states).of_gates.last().unwrap(), &under);
        assert_eq!(forced, exact_chance(functions(&tree).of_gates.last().unwrap(), &under), "seed {seed}");
        let top = bracket(&function, &under, true);
        assert!(keeps_promise(top.low, top.high, &forced, events_reached(&function), events as u32), "seed {seed}");
    }
}

/// Records of later editions, added wherever the store stays valid, change no state; nor does an empty store force an event.
#[test]
fn later_editions() {
    let mut added = 0;
    for seed in 0..5_000 {
        let random = &mut Random::new(seed);
        let events = random.between(1, 9);
        let settings = good(random, events);
        assert_eq!(judge_store(&store_of(&settings), events).as_ref(), Ok(&settings));
        let asked = settings.get(random.below(settings.len() + 1)).map_or(3, |setting| setting.edition);
        let more = with_above(random, &settings, events, asked);
        assert_eq!(judge_store(&store_of(&more), events).as_ref(), Ok(&more), "seed {seed}");
        assert_eq!(states(&settings, events, asked), states(&more, events, asked), "seed {seed}");
        added += more.len() - settings.len();
    }
    assert!(added > 5_000, "{added}");
    assert_eq!(states(&[], 3, 65_535), [State::Free; 3]);
}

/// The empty store is no season, at any capacities.
#[test]
fn an_empty_store() {
    for seed in 0..500 {
        let (_, _, bytes) = seeded(seed);
        for capacity in [0, 3, 10, 1_000] {
            let lengths = Lengths::of_capacities(capacity, capacity);
            let [none, empty] = [
                analyse(&bytes, lengths),
                analyse_season(&bytes, Season { store: &[], edition: seed as u16 }, lengths),
            ]
            .map(|done| done.map(|done| (done.robdd.nodes.table(), done.robdd.gate_nodes, done.cuts.nodes.table())));
            assert_eq!(none, empty, "seed {seed}");
        }
    }
}

/// No chance is judged; refusals in their order.
#[test]
fn lists_of_chances() {
    let store = store_of(&[
        Setting { edition: 1, event: 0, state: State::Failed },
        Setting { edition: 2, event: 1, state: State::Sound },
        Setting { edition: 3, event: 0, state: State::Free },
    ]);
    let of = |edition, chances: &[u32]| chances_under(Season { store: &store, edition }, chances);
    assert_eq!(of(0, &[5, 6, u32::MAX]), Ok(vec![5, 6, u32::MAX]));
    assert_eq!(of(1, &[5, 6, u32::MAX]), Ok(vec![D, 6, u32::MAX]));
    assert_eq!(of(2, &[u32::MAX, u32::MAX, 1]), Ok(vec![D, 0, 1]));
    assert_eq!(of(9, &[5, 6, 7]), Ok(vec![5, 0, 7]));
    assert_eq!(of(9, &[5]), refuse(13, 6));
    assert_eq!(of(9, &[]), refuse(13, 0));
    assert_eq!(of(9, &[1; 1_025]), refuse(9, 0));
    let torn = Season { store: &store[..17], edition: 0 };
    assert_eq!(chances_under(torn, &[1; 1_025]), refuse(24, 12));
}
