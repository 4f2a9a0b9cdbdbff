//! Request 13: the list alone decides as the tree does, every cut is needed, and rooms join to the same bytes.

use second::analysis::{Analysis, Lengths};
use second::brute::{functions_in, Function};
use second::changes::cuts_of;
use second::decision::{decides, is_part};
use second::generator::{small_shape, tree};
use second::judge::{refuse, write};
use second::lent::Lent;
use second::listing::list;
use second::random::Random;
use second::sets::Set;
use second::settings::*;
use second::stores::{edition, store};
use second::verdicts::WRITTEN_OUT;

#[test]
fn the_cases() {
    for own in WRITTEN_OUT {
        let (number, fails) = own.due;
        let due = if number == 0 { Ok(fails) } else { refuse(number, 0) };
        assert_eq!(decides(own.listing, own.events, &own.set()), due, "{}", own.what);
    }
}

/// The cuts in rooms of these sizes, joined.
fn joined(family: &Lent, mut room: impl FnMut() -> usize) -> Vec<u8> {
    let (mut bytes, mut after) = (Vec::new(), None);
    loop {
        let listing = list(family, after, room());
        assert_eq!(listing.number, 0);
        bytes.extend(listing.bytes);
        after = Some(listing.last);
        if listing.finished {
            return bytes;
        }
    }
}

/// Every second tree under settings.
fn seeded(seed: u64) -> (Random, Analysis, Function) {
    let mut random = Random::new(seed);
    let shape = small_shape(&mut random);
    let tree = tree(&mut random, shape);
    let bytes = write(&tree).unwrap();
    let mut own = if seed % 2 == 0 { Vec::new() } else { store(&mut random, tree.events()) };
    if judge_store(&own, tree.events()).is_err() {
        own.clear();
    }
    let season = Season { store: &own, edition: edition(&mut random, &own) };
    let done = analyse_season(&bytes, season, Lengths::AMPLE).unwrap_or_else(|refusal| panic!("{refusal:?}"));
    let functions = functions_in(&tree, &season.states(tree.events()).unwrap());
    let root = functions.of_gates.last().unwrap().clone();
    (random, done, root)
}

/// By truth tables: every set of the events.
#[test]
fn decides_as_the_tree() {
    let (mut constant, mut forced) = (0, 0);
    for seed in 0..3_000 {
        let (mut random, done, root) = seeded(seed);
        let family = done.lent_cuts();
        let listing = joined(&family, || 2_817);
        let longest = cuts_of(&listing).unwrap().iter().map(|cut| cut.end - cut.start).max().unwrap_or(0);
        assert_eq!(joined(&family, || longest), listing, "seed {seed}");
        assert_eq!(joined(&family, || longest + random.below(20)), listing, "seed {seed}");
        for (set, &fails) in root.iter().enumerate() {
            let decided = decides(&listing, done.tree.event_count, &Set::from_number(0, set));
            assert_eq!(decided, Ok(fails), "seed {seed} set {set}");
        }
        constant += u32::from(root.iter().all(|&fails| fails == root[0]));
        forced += u32::from(seed % 2 == 1);
    }
    assert!(constant > 100 && forced > 1_000);
}

/// With any cut left off the list, that cut itself is decided wrongly.
#[test]
fn every_cut_is_needed() {
    let mut left_off = 0;
    for seed in 0..1_000 {
        let (_, done, root) = seeded(seed);
        let listing = joined(&done.lent_cuts(), || 2_817);
        for cut in cuts_of(&listing).unwrap() {
            let shorter = [&listing[..cut.start], &listing[cut.end..]].concat();
            let own: usize = cut.set.members().iter().map(|event| 1 << event).sum();
            assert!(root[own], "seed {seed}");
            assert_eq!(decides(&shorter, done.tree.event_count, &cut.set), Ok(false), "seed {seed}");
            left_off += 1;
        }
    }
    assert!(left_off > 1_000, "{left_off}");
}

/// A fault anywhere refuses, whatever the set contains before it; and a set beyond the events comes behind that.
#[test]
fn twenty_before_thirteen() {
    let sets = [&[0, 1][..], &[1, 255], &[256, 257]].map(Set::of);
    let listing: Vec<u8> = sets.iter().flat_map(Set::cut_bytes).collect();
    for place in 0..listing.len() {
        let torn = &listing[..place];
        let whole = cuts_of(torn).is_some();
        for events in [2, 258, 1_024, u64::MAX] {
            for set in sets.iter().chain([&Set::EMPTY, &Set::of(&[1_023])]) {
                let beyond = set.members().iter().any(|&event| u64::from(event) >= events);
                let due = match (whole, beyond) {
                    (false, _) => refuse(20, 0),
                    (true, true) => refuse(13, 0),
                    (true, false) => Ok(cuts_of(torn).unwrap().iter().any(|cut| is_part(&cut.set, set))),
                };
                assert_eq!(decides(torn, events, set), due);
            }
        }
    }
}
