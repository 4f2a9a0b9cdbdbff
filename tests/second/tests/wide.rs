//! Request 7: events from 256 on in records, sets, listings and texts; what stays of old files; limits and lengths.

use second::analysis::{analyse, Analysis, Lengths};
use second::changes::cut_at_front;
use second::damage::{damaged, NUMBERS};
use second::equations::{export, typed};
use second::families;
use second::generator::{self, large_shape, middle_shape, small_shape, tree, wide_tree};
use second::judge::{read, refuse, write, OLD_READER, READER_WITHOUT_SITES};
use second::lent::{Lent, Sort};
use second::listing::{list, Walk};
use second::metropolis::metropolis;
use second::program::program;
use second::random::Random;
use second::sets::{Set, LONGEST_CUT};
use second::sizes::sizes;
use second::tree::*;
use second::twins::Due;
use second::wide::{across_256, known, one_of_the_last, ACROSS_256, CASES};
use second::{brute_cuts, diagrams};
use std::cmp::Ordering;
use std::collections::BTreeSet;

fn analysed(tree: &Tree) -> Analysis {
    analyse(&write(tree).unwrap(), Lengths::AMPLE).unwrap_or_else(|refusal| panic!("{refusal:?}"))
}

#[test]
fn the_cases() {
    for case in CASES {
        let Due::Refused(number, place) = case.due else { panic!("{} is refused", case.what) };
        assert_eq!(read(&case.bytes()), refuse(number, place), "{}", case.what);
    }
}

#[test]
fn across() {
    let tree = across_256();
    let bytes = write(&tree).unwrap();
    // The and of the three stands first behind the 258 events.
    assert_eq!(bytes[1_290..1_300], [2, 3, 5, 255, 8, 0, 1, 8, 1, 1]);
    let listing = list(&analysed(&tree).lent_cuts(), None, 9);
    assert_eq!((listing.number, listing.bytes, listing.finished), (0, ACROSS_256.to_vec(), true));
    assert_eq!(list(&analysed(&tree).lent_cuts(), None, 8).number, 14);
    assert_eq!(OLD_READER.read(&bytes), refuse(4, 1_280));
}

#[test]
fn known_listings() {
    for known in known() {
        let done = analysed(&known.tree);
        assert_eq!(Walk::new(&done.lent_cuts(), None).collect::<Vec<_>>(), known.cuts, "{}", known.what);
        let mut counts = vec![0; MOST_EVENTS + 1];
        known.cuts.iter().for_each(|cut| counts[cut.members().len()] += 1);
        assert_eq!(sizes(&done.lent_cuts(), true), Ok(counts), "{}", known.what);
    }
}

/// 511, 513, 516, 2,814 and 2,817 bytes: two for each member below 256 and three for each from 256 on.
#[test]
fn lengths_of_cuts() {
    for (events, length) in [(255, 511), (256, 513), (257, 516), (1_023, 2_814), (1_024, LONGEST_CUT)] {
        let family = families::one_set(events);
        let listing = list(&family, None, length);
        assert_eq!((listing.number, listing.written, listing.bytes.len()), (0, 1, length));
        assert_eq!(list(&family, None, length - 1).number, 14);
        assert_eq!(analysed(&one_of_the_last(events as usize, 1).tree).cuts.nodes.count(), events as usize);
    }
}

/// Diagrams of a few events, these spread over all 1,024, against the definition of a listing on their sets.
#[test]
fn listings_over_the_width() {
    let mut compared = 0;
    for seed in 0..3_000 {
        let random = &mut Random::new(seed);
        let small = diagrams::good(random, Sort::Cuts, 12);
        if small.event_count > 8 {
            continue;
        }
        let places = spread(random, small.event_count as usize);
        let moved = |set: &Set| set.members().iter().fold(Set::EMPTY, |of, &event| of.with(places[event as usize]));
        let sets: Vec<Set> = Walk::new(&small, None).map(|set| moved(&set)).collect();
        let mut wide = Lent { event_count: MOST_EVENTS as u64, ..small };
        for node in 0..wide.node_count as usize {
            wide.table[3 * node] = places[wide.table[3 * node] as usize];
        }
        assert!(wide.is_diagram(), "seed {seed}");
        let whole: usize = sets.iter().map(|set| set.cut_bytes().len()).sum();
        for _ in 0..4 {
            let (start, room) = (generator::start(random, MOST_EVENTS, &sets), generator::room(random, whole));
            let (answer, due) = (list(&wide, start, room), brute_cuts::list(&sets, start, room));
            assert_eq!(
                (answer.number, answer.written, answer.bytes, answer.last, answer.finished),
                (due.number, due.written, due.bytes, due.last, due.finished),
                "seed {seed}"
            );
            compared += 1;
        }
    }
    assert!(compared > 4_000, "{compared}");
}

/// So many events in rising order, most often around 256.
fn spread(random: &mut Random, count: usize) -> Vec<u32> {
    let mut places = BTreeSet::new();
    while places.len() < count {
        let near = random.between(250, 262) as u32;
        let any = random.below(MOST_EVENTS) as u32;
        places.insert(random.of(&[near, near, any]));
    }
    places.into_iter().collect()
}

/// By its words: the one that holds the lowest event in which they differ comes first.
fn by_words(one: &Set, other: &Set) -> Ordering {
    match (0..MOST_EVENTS as u32).find(|&event| one.holds(event) != other.holds(event)) {
        None => Ordering::Equal,
        Some(event) if one.holds(event) => Ordering::Less,
        Some(_) => Ordering::Greater,
    }
}

#[test]
fn sets_over_the_width() {
    let random = &mut Random::new(7);
    let mut last = Set::EMPTY;
    for _ in 0..5_000 {
        let often = random.of(&[2, 30, 400, 2_000]);
        let members: Vec<u32> = (0..MOST_EVENTS as u32).filter(|_| random.once_in(often)).collect();
        let mut set = Set::of(&members);
        assert_eq!(set.members(), members);
        assert_eq!(set.order(&last), by_words(&set, &last));
        let (low, high) = members.iter().partition::<Vec<u32>, _>(|&&event| event < 256);
        let bytes = set.cut_bytes();
        assert_eq!(bytes.len(), 2 * low.len() + 3 * high.len() + 1);
        assert_eq!(cut_at_front(&bytes), Some((set, bytes.len())));
        last = set;
        // A neighbour, which differs in one event.
        let event = random.below(MOST_EVENTS);
        set.0[event / 64] ^= 1 << (event % 64);
        assert_eq!((set.order(&last), last.order(&set)), (by_words(&set, &last), by_words(&last, &set)));
        assert_ne!(set, last);
    }
}

/// 13 for the first event beyond and for the last bit, whatever the number of events.
#[test]
fn beyond_the_events() {
    for events in [1, 63, 64, 65, 255, 256, 257, 300, 320, 1_000, 1_023, 1_024] {
        let family = Lent { root: 1, ..families::one_set(events) };
        let number = |event| list(&family, Some(Set::of(&[event])), 1).number;
        assert_eq!(number(events - 1), 0);
        for beyond in [events, events + 1, 1_023].into_iter().filter(|event| (events..1_024).contains(event)) {
            assert_eq!(number(beyond), 13);
        }
    }
    for (event_count, number) in [(0, 12), (1_024, 0), (1_025, 12), (1_088, 12)] {
        assert_eq!(list(&Lent { event_count, root: 1, ..families::one_set(1) }, None, 1).number, number);
    }
}

/// What an old reader accepted is read as it was and written as it was; where it refused, a tree of more than 256 events or kind 08 may be why, and
/// nothing else. Kind 11 is request 8's.
#[test]
fn old_files() {
    let mut accepted = 0;
    for seed in 0..4_000 {
        let random = &mut Random::new(seed);
        let bytes = match seed % 5 {
            0 => generator::bytes(random),
            1 => {
                let number = random.of(&NUMBERS);
                damaged(random, number).bytes
            }
            2 => write(&wide_tree(random)).unwrap(),
            _ => {
                let shape = random.of(&[small_shape, middle_shape, large_shape])(random);
                write(&tree(random, shape)).unwrap()
            }
        };
        match (OLD_READER.read(&bytes), READER_WITHOUT_SITES.read(&bytes)) {
            (Ok(old), new) => {
                assert_eq!(write(&old), Ok(bytes), "seed {seed}");
                assert_eq!(Ok(old), new, "seed {seed}");
                accepted += 1;
            }
            (Err(refusal), Ok(tree)) => {
                assert_eq!((refusal.number, refusal.place), (4, 1_280), "seed {seed}");
                assert!(tree.events() > 256, "seed {seed}");
            }
            (Err(old), Err(new)) if old != new => {
                assert!(old.place <= new.place || new.number == 8, "seed {seed}");
                let at_fault = bytes[old.place as usize];
                assert!((old.number, at_fault) == (2, 8) || (old.number, old.place) == (4, 1_280), "seed {seed}");
            }
            _ => {}
        }
    }
    assert!(accepted > 1_000, "{accepted}");
}

#[test]
fn typed_and_typed_out() {
    for known in known() {
        let text = export(&known.tree).unwrap();
        let back = typed(&text);
        assert_eq!((back.number, back.tree.event_count), (0, known.tree.event_count));
        assert_eq!(analysed(&back.tree).cuts.cut_count(), analysed(&known.tree).cuts.cut_count());
    }
}

/// The program has room for the whole answer.
#[test]
fn the_metropolis() {
    let tree = metropolis();
    assert_eq!((tree.events(), tree.gates.len()), (900, 478));
    let bytes = write(&tree).unwrap();
    assert_eq!(bytes, include_bytes!("../../../examples/metropolis.tree"));
    assert_eq!(OLD_READER.read(&bytes), refuse(4, 1_280));
    let done = analysed(&tree);
    assert_eq!((done.robdd.nodes.count(), done.cuts.nodes.count()), (3_704, 2_118));
    assert_eq!(done.cuts.cut_count().decimal(), "585");
    let mut text = Vec::new();
    program(&bytes, &mut text).unwrap();
    assert_eq!(text, include_bytes!("../../../examples/metropolis.out"));
}
