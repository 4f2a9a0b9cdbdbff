//! Request 9: the edge of edition 2 in whole numbers, reports against truth tables and whole listings, what is passed over, starts and rooms.

use second::analysis::{analyse, Lengths};
use second::big::Big;
use second::european::european_1;
use second::families::{every_set, of_sets, one_set, pairs_and_one};
use second::generator::{self, small_shape, tree};
use second::judge::write;
use second::lent::{Lent, Sort};
use second::listing::{list, Listing, Walk};
use second::metropolis::metropolis;
use second::pairs::bytes_of;
use second::random::Random;
use second::report::*;
use second::reviews::{self, *};
use second::sets::Set;
use second::tree::{Tree, D};
use second::{brute, brute_cuts, diagrams, families};

/// At most four members: product ≥ 1,000 · D^(size − 1) without any big number.
fn by_hand(edition: u32, members: &[u32], chances: &[u32]) -> bool {
    let product: u128 = members.iter().map(|&event| chances[event as usize] as u128).product();
    members.len() <= 2 || edition == 2 && product >= 1_000 * (D as u128).pow(members.len() as u32 - 1)
}

fn set(members: &[u32]) -> Set {
    Set::of(members)
}

fn all_of(edition: u32, family: &Lent, chances: &[u32]) -> Vec<Set> {
    assert_eq!(refusal(edition, family, chances, true, None), None);
    reportable_cuts(edition, family, chances, None).collect()
}

fn asked(edition: u32, family: &Lent, chances: &[u32], after: Option<Set>, room: usize) -> Report {
    report(edition, family, chances, true, after, room)
}

fn cuts_of(tree: &Tree) -> Lent {
    analyse(&write(tree).unwrap(), Lengths::AMPLE).unwrap_or_else(|refusal| panic!("{refusal:?}")).lent_cuts()
}

#[test]
fn the_edge() {
    let three = |chances: [u32; 3]| reportable(2, &set(&[0, 1, 2]), &chances);
    assert!(three([10_000_000; 3]));
    assert!(!three([9_999_999, 10_000_000, 10_000_000]));
    assert!(!three([10_000_000, 10_000_000, 9_999_999]));
    assert!(three([1_000, D, D]) && !three([999, D, D]));
    assert!(three([1_000_900, 1_000_000, 999_500_000]) && !three([999_600, 1_000_000, D]));
    let four = |chances: [u32; 4]| reportable(2, &set(&[0, 1, 2, 3]), &chances);
    let product = |chances: [u32; 4]| chances.iter().map(|&chance| chance as u128).product::<u128>();
    let edge = 10u128.pow(30);
    assert_eq!((product(JUST_BELOW), product(JUST_ABOVE)), (edge - 1, edge + 1));
    assert!(!four(JUST_BELOW) && four(JUST_ABOVE));
    // Under edition 1 no chance helps; under either two members need none.
    for edition in [1, 2] {
        assert!(reportable(edition, &set(&[0, 1]), &[0; 3]) && reportable(edition, &set(&[2]), &[0; 3]));
        assert!(reportable(edition, &Set::EMPTY, &[0; 3]));
        assert_eq!(reportable(edition, &set(&[0, 1, 2]), &[D; 3]), edition == 2);
        assert!(!reportable(edition, &set(&[0, 1, 2]), &[0, D, D]));
    }
}

#[test]
fn the_edge_of_any_number_of_members() {
    for seed in 0..2_000 {
        let random = &mut Random::new(seed);
        let count = random.of(&[3, 4, 5, 6, 7, 20, 100, 1_024]);
        let mut chances = at_the_edge(random, count);
        let members: Vec<u32> = (0..count as u32).collect();
        let product = Product::of(&members, &chances);
        assert_eq!(product.number, Big::from(EDGE).times_power(D, count as u32 - 1), "seed {seed}");
        assert!(reportable(2, &set(&members), &chances));
        let place = random.below(count);
        chances[place] -= 1;
        assert!(!reportable(2, &set(&members), &chances), "seed {seed}");
    }
}

#[test]
fn a_thousand_members() {
    let all: Vec<u32> = (0..1_024).collect();
    for one_less in 0..=1_024 {
        let mut chances = [LEAST_OF_1024; 1_024];
        chances[..one_less].fill(LEAST_OF_1024 - 1);
        if one_less % 100 == 0 || one_less.abs_diff(ONE_LESS_OF_1024) < 3 {
            assert_eq!(reportable(2, &set(&all), &chances), one_less <= ONE_LESS_OF_1024);
        }
    }
}

/// What is written out, and no part of the diagram that has no reportable cut is entered.
#[test]
fn what_is_known() {
    for own in all_known().into_iter().chain(longest()) {
        for (edition, due) in (1..).zip(&own.reports) {
            assert_eq!(&all_of(edition, &own.family, &own.chances), due, "{}", own.what);
            let Report { edition: told, listing } = asked(edition, &own.family, &own.chances, None, usize::MAX);
            assert_eq!((told, listing.number, listing.finished), (edition, 0, true), "{}", own.what);
            assert_eq!(listing.bytes, bytes_of(due), "{}", own.what);
        }
    }
}

/// By truth tables and numbers of 128 bits, without any diagram.
#[test]
fn reports_of_trees_are_those_of_their_minimal_cuts() {
    let (mut likely, mut unlikely) = (0, 0);
    for seed in 0..2_000 {
        let random = &mut Random::new(seed);
        let shape = small_shape(random);
        let tree = tree(random, shape);
        let functions = brute::functions(&tree);
        let cuts = brute_cuts::in_order(&brute_cuts::minimal_cuts(functions.of_gates.last().unwrap()));
        let chances = reviews::chances(random, tree.events(), &cuts);
        if cuts.iter().any(|cut| cut.members().len() > 4) {
            continue;
        }
        let family = cuts_of(&tree);
        for edition in [1, 2] {
            let told = |cut: &&Set| by_hand(edition, &cut.members(), &chances);
            let due: Vec<Set> = cuts.iter().filter(told).copied().collect();
            assert_eq!(all_of(edition, &family, &chances), due, "seed {seed}");
            if edition == 2 {
                likely += due.iter().filter(|cut| cut.members().len() > 2).count();
                unlikely += cuts.len() - due.len();
            }
        }
    }
    assert!(likely > 300 && unlikely > 300, "{likely} {unlikely}");
}

/// Of any family: the listing's cuts that are reportable, in its order; under 1 a part of those under 2.
#[test]
fn reports_are_parts_of_listings() {
    let mut compared = 0;
    for seed in 0..3_000 {
        let random = &mut Random::new(seed);
        let family = match seed % 3 {
            0 => families::towers(random),
            _ => diagrams::good(random, Sort::Cuts, 40),
        };
        let all: Vec<Set> = Walk::new(&family, None).take(501).collect();
        if all.len() > 500 || all.iter().any(|cut| cut.members().len() > 130) {
            continue;
        }
        compared += 1;
        let events = family.event_count as usize;
        let chances = reviews::chances(random, events, &all);
        let kept = |edition, all: &[Set]| -> Vec<Set> {
            all.iter().filter(|cut| reportable(edition, cut, &chances)).copied().collect()
        };
        for edition in [1, 2] {
            assert_eq!(all_of(edition, &family, &chances), kept(edition, &all), "seed {seed}");
            let after = generator::start(random, events, &all).filter(|start| !start.holds_any(events as u32..1_024));
            let behind: Vec<Set> = Walk::new(&family, after).collect();
            let told: Vec<Set> = reportable_cuts(edition, &family, &chances, after).collect();
            assert_eq!(told, kept(edition, &behind), "seed {seed}");
        }
        assert_eq!(kept(1, &kept(2, &all)), kept(1, &all), "seed {seed}");
    }
    assert!(compared > 1_500, "{compared}");
}

#[test]
fn the_order() {
    let good = every_set(3);
    let bad = Lent { root: 9, ..good.clone() };
    let (start, beyond) = (Some(set(&[0])), Some(set(&[1_023])));
    let number = |edition, family, chances: &[u32], suffice, after| {
        let answer = report(edition, family, chances, suffice, after, 0);
        assert_eq!(answer.edition, 0);
        let Listing { number, place, written, bytes, last, finished } = answer.listing;
        assert_eq!((place, written, bytes, last, finished), (0, 0, vec![], Set::EMPTY, false));
        number
    };
    for edition in [0, 3, 4, 256, 257, 258, u32::MAX] {
        assert_eq!(number(edition, &bad, &[], false, beyond), 23);
        assert_eq!(number(edition, &good, &[D; 3], true, start), 23);
    }
    for edition in [1, 2] {
        assert_eq!(number(edition, &bad, &[D + 1], false, beyond), 12);
        assert_eq!(number(edition, &good, &[D + 1; 2], true, beyond), 9);
        assert_eq!(number(edition, &good, &[D + 1; 3], false, beyond), 9);
        assert_eq!(number(edition, &good, &[0, 0, D + 1], true, beyond), 7);
        assert_eq!(number(edition, &good, &[D, D, D, D + 1], true, beyond), 13);
        assert_eq!(number(edition, &good, &[D, D, D, D + 1], true, start), 14);
    }
}

#[test]
fn rooms_and_starts() {
    let (family, chances) = fourteen();
    let (first, second) = (set(&[0, 1, 2]), set(&[1, 2, 3, 4]));
    assert!(!reportable(2, &first, &chances) && reportable(2, &second, &chances));
    for room in 0..12 {
        // The listing writes the first cut from seven bytes on; a report waits for the second.
        assert_eq!(list(&family, None, room).number, if room < 7 { 14 } else { 0 });
        for after in [None, Some(first), Some(set(&[0])), Some(set(&[0, 1, 2, 3, 4]))] {
            let Report { edition, listing } = asked(2, &family, &chances, after, room);
            let due = if room < 9 { (0, 14, 0, Set::EMPTY, false) } else { (2, 0, 1, second, true) };
            assert_eq!((edition, listing.number, listing.written, listing.last, listing.finished), due);
        }
        // Nothing follows: done in any room, and the last set is the start.
        let Report { edition, listing } = asked(1, &family, &chances, Some(first), room);
        let due = (1, 0, 0, first, true);
        assert_eq!((edition, listing.number, listing.written, listing.last, listing.finished), due);
    }
}

/// "Finished" speaks of reportable cuts: others may follow.
#[test]
fn finished() {
    let family = of_sets(5, &[set(&[0, 1]), set(&[2, 3, 4])]);
    let answer = asked(2, &family, &[1; 5], None, 5).listing;
    assert_eq!((answer.written, answer.last, answer.finished), (1, set(&[0, 1]), true));
    assert!(!list(&family, None, 5).finished);
    assert!(!asked(2, &family, &[D; 5], None, 5).listing.finished);
}

#[test]
fn rooms_join() {
    let chances = [D, 1_000, D, D / 2, 2_000, D];
    let family = every_set(6);
    for edition in [1, 2] {
        let whole = bytes_of(&all_of(edition, &family, &chances));
        for seed in 0..200 {
            let random = &mut Random::new(seed);
            let (mut joined, mut after) = (Vec::new(), None);
            loop {
                let room = random.between(13, 60);
                let listing = asked(edition, &family, &chances, after, room).listing;
                assert_eq!(listing.number, 0);
                joined.extend(listing.bytes);
                after = Some(listing.last);
                if listing.finished {
                    break;
                }
            }
            assert_eq!(joined, whole, "seed {seed}");
        }
    }
}

#[test]
fn large_trees() {
    let count = |tree: &Tree, edition| all_of(edition, &cuts_of(tree), &tree.chances).len();
    let european = european_1();
    assert_eq!(count(&european, 1), 1);
    let all: Vec<Set> = Walk::new(&cuts_of(&european), None).collect();
    let likely = all.iter().filter(|cut| reportable(2, cut, &european.chances)).count();
    assert_eq!((all.len(), count(&european, 2)), (46_188, likely));
    let metropolis = metropolis();
    let all: Vec<Set> = Walk::new(&cuts_of(&metropolis), None).collect();
    let short = all.iter().filter(|cut| cut.members().len() <= 2).count();
    assert_eq!(count(&metropolis, 1), short);
    assert!(count(&metropolis, 2) >= short);
}

/// At most one node on the way to a cut is entered for each event: the first room of 2^60 cuts comes at once, and so does the last cut.
#[test]
fn at_once() {
    let family = pairs_and_one(60, Some(2));
    let mut chances: Vec<u32> = JUST_ABOVE.iter().flat_map(|&chance| [chance; 2]).collect();
    chances.resize(122, D);
    let first = asked(2, &family, &chances, None, 1_210).listing;
    assert_eq!((first.written, first.finished), (10, false));
    assert_eq!(asked(1, &family, &chances, None, 100).listing.last, set(&[120, 121]));
    assert_eq!(asked(2, &one_set(1_024), &[D; 1_024], None, 2_817).listing.written, 1);
}
