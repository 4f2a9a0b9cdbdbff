//! Request 11: the checker against truth tables, the counts against whole listings, the planner by its words, and what is written out.

use second::analysis::{analyse, Lengths};
use second::families::{self, every_set, of_sets};
use second::generator::{small_shape, tree};
use second::judge::write;
use second::lent::{Lent, Sort};
use second::listing::Walk;
use second::planner::*;
use second::plans::{self, all_known};
use second::random::Random;
use second::sets::Set;
use second::tree::Tree;
use second::{brute, brute_cuts, diagrams};

/// Sets of few events as numbers, bit i for event i.
type Numbered = u32;

fn number(set: &Set) -> Numbered {
    set.0[0] as Numbered
}

fn numbered(set: Numbered) -> Set {
    Set::from_number(0, set as usize)
}

fn cuts_of(tree: &Tree) -> Lent {
    analyse(&write(tree).unwrap(), Lengths::AMPLE).unwrap_or_else(|refusal| panic!("{refusal:?}")).lent_cuts()
}

/// The root can't fail while these are sound, whatever else fails: by every set of the others.
fn safe(fails: &dyn Fn(Numbered) -> bool, events: u32, set: Numbered) -> bool {
    (0..1u32 << events).filter(|other| other & set == 0).all(|other| !fails(other))
}

/// The checker's words, of a root that fails so and of its cuts in listing order.
fn by_words(fails: &dyn Fn(Numbered) -> bool, events: u32, cuts: &[Set], set: Numbered) -> Judgement {
    let mut members = (0..events).filter(|event| set >> event & 1 == 1);
    if safe(fails, events, set) {
        match members.find(|event| safe(fails, events, set & !(1 << event))) {
            Some(member) => Judgement::Droppable(member),
            None => Judgement::Accepted,
        }
    } else {
        let missing = cuts.iter().find(|cut| number(cut) & set == 0);
        Judgement::Missed(*missing.expect("where the root can fail a cut misses the set"))
    }
}

/// The planner's words over a list of cuts.
fn planned(cuts: &[Set], events: u32) -> Set {
    let mut left: Vec<Set> = cuts.to_vec();
    let mut set = Set::EMPTY;
    loop {
        let holds = |event: u32| left.iter().filter(|cut| cut.holds(event)).count();
        // The first of those with the most.
        let Some(event) = (0..events).rev().max_by_key(|&event| holds(event)).filter(|&event| holds(event) > 0) else {
            return set;
        };
        set = set.with(event);
        left.retain(|cut| !cut.holds(event));
    }
}

fn listed(family: &Lent) -> Option<Vec<Set>> {
    let cuts: Vec<Set> = Walk::new(family, None).take(301).collect();
    (cuts.len() <= 300).then_some(cuts)
}

/// By truth tables, without any diagram: each set of each small tree's events.
#[test]
fn checks_of_trees_are_those_of_their_functions() {
    let (mut accepted, mut missed, mut droppable) = (0, 0, 0);
    for seed in 0..600 {
        let random = &mut Random::new(seed);
        let shape = small_shape(random);
        let tree = tree(random, shape);
        let events = tree.events() as u32;
        if events > 6 {
            continue;
        }
        let functions = brute::functions(&tree);
        let root = functions.of_gates.last().unwrap();
        let cuts = brute_cuts::in_order(&brute_cuts::minimal_cuts(root));
        let family = cuts_of(&tree);
        let fails = |set: Numbered| root[set as usize];
        for set in 0..1 << events {
            let due = by_words(&fails, events, &cuts, set);
            assert_eq!(judge(&family, numbered(set)), due, "seed {seed}");
            match due {
                Judgement::Accepted => accepted += 1,
                Judgement::Missed(_) => missed += 1,
                Judgement::Droppable(_) => droppable += 1,
            }
        }
        assert_eq!(plan(&family), Ok(planned(&cuts, events)), "seed {seed}");
    }
    assert!(accepted > 300 && missed > 1_000 && droppable > 1_000, "{accepted} {missed} {droppable}");
}

/// Lent families, mostly no antichains: the root fails where all events of one of the sets do.
#[test]
fn checks_of_any_family() {
    let (mut nested, mut accepted) = (0, 0);
    for seed in 0..400 {
        let random = &mut Random::new(seed);
        let events = random.between(1, 6) as u32;
        let times = random.of(&[2, 4, 8, 20]);
        let mut sets: Vec<Set> = (0..1 << events).filter(|_| random.once_in(times)).map(numbered).collect();
        if sets.is_empty() {
            continue;
        }
        sets.sort_by(Set::order);
        let family = of_sets(events, &sets);
        assert_eq!(listed(&family), Some(sets.clone()));
        let fails = |set: Numbered| sets.iter().any(|cut| number(cut) & !set == 0);
        nested += u32::from(
            sets.iter().any(|one| sets.iter().any(|other| one != other && number(one) & !number(other) == 0)),
        );
        for set in 0..1 << events {
            let due = by_words(&fails, events, &sets, set);
            assert_eq!(judge(&family, numbered(set)), due, "seed {seed}");
            let first = sets.iter().find(|cut| number(cut) & set == 0).copied();
            assert_eq!(first_missing(&family, numbered(set)), first, "seed {seed}");
            accepted += u32::from(due == Judgement::Accepted);
        }
        assert_eq!(plan(&family), Ok(planned(&sets, events)), "seed {seed}");
    }
    assert!(nested > 100 && accepted > 300, "{nested} {accepted}");
}

/// The counts are those of the listing; and what an event holds is what is no longer left once it is kept.
#[test]
fn counts_are_those_of_the_listing() {
    let mut compared = 0;
    for seed in 0..2_000 {
        let random = &mut Random::new(seed);
        let family = match seed % 3 {
            0 => families::towers(random),
            _ => diagrams::good(random, Sort::Cuts, 40),
        };
        if family.node_count * family.event_count > 40_000 {
            continue;
        }
        let set = plans::seeded(random, &family);
        if refusal(&family, true, set).is_some() {
            continue;
        }
        let counts = held(&family, &set);
        let left = |set: &Set| missing_below(&family, set)[family.root as usize];
        for (event, &count) in counts.iter().enumerate() {
            let (all, less) = (left(&set), left(&set.with(event as u32)));
            if all < u128::MAX {
                assert_eq!(count, all - less, "seed {seed}");
            }
        }
        if let Some(cuts) = listed(&family) {
            let missing: Vec<&Set> = cuts.iter().filter(|cut| misses(cut, &set)).collect();
            let of = |event: u32| missing.iter().filter(|cut| cut.holds(event)).count() as u128;
            assert_eq!(counts, (0..family.event_count as u32).map(of).collect::<Vec<u128>>(), "seed {seed}");
            assert_eq!(plan(&family), Ok(planned(&cuts, family.event_count as u32)), "seed {seed}");
            compared += 1;
        }
    }
    assert!(compared > 800, "{compared}");
}

#[test]
fn what_is_written_out() {
    for own in all_known() {
        assert_eq!(plan(&own.family), own.plan, "{}", own.what);
        for (set, due) in own.judged {
            assert_eq!(judge(&own.family, set), due, "{}", own.what);
        }
    }
}

/// The case that the request's study names: the plan is not accepted, and the checker says why.
#[test]
fn a_plan_has_no_standing() {
    let cuts = [[0, 1], [0, 2], [0, 3], [1, 4], [2, 5], [3, 6]].map(|cut| Set::of(&cut));
    let family = of_sets(7, &cuts);
    assert_eq!(holding(&family, &Set::EMPTY), Ok(vec![3, 2, 2, 2, 1, 1, 1]));
    assert_eq!(holding(&family, &Set::of(&[0])), Ok(vec![0, 1, 1, 1, 1, 1, 1]));
    let proposal = plan(&family).unwrap();
    assert_eq!(proposal.members(), [0, 1, 2, 3]);
    assert_eq!(judge(&family, proposal), Judgement::Droppable(0));
    assert_eq!(judge(&family, without(proposal, 0)), Judgement::Accepted);
}

/// A root that always fails has no accepted set; the empty set is accepted exactly if the root can't fail.
#[test]
fn the_two_ends() {
    for seed in 0..3_000 {
        let random = &mut Random::new(seed);
        let family = diagrams::good(random, Sort::Cuts, 12);
        let Some(cuts) = listed(&family) else { continue };
        assert_eq!(judge(&family, Set::EMPTY) == Judgement::Accepted, cuts.is_empty(), "seed {seed}");
        let set = plans::seeded(random, &family);
        if cuts.last() == Some(&Set::EMPTY) && refusal(&family, true, set).is_none() {
            assert!(matches!(judge(&family, set), Judgement::Missed(_)), "seed {seed}");
        }
    }
}

/// Whatever is proposed, less what could be dropped again and again, ends in a set that is accepted, unless the root always fails.
#[test]
fn what_is_proposed_can_be_mended() {
    let (mut mended, mut none) = (0, 0);
    for seed in 0..1_500 {
        let random = &mut Random::new(seed);
        let family = diagrams::good(random, Sort::Cuts, 40);
        let Ok(mut set) = plan(&family) else { continue };
        while let Judgement::Droppable(member) = judge(&family, set) {
            set = without(set, member);
            mended += 1;
        }
        match judge(&family, set) {
            Judgement::Accepted => {}
            judged => {
                assert_eq!(judged, Judgement::Missed(Set::EMPTY), "seed {seed}");
                none += 1;
            }
        }
    }
    assert!(mended > 20 && none > 20, "{mended} {none}");
}

#[test]
fn refusals_in_order() {
    let good = every_set(3);
    let bad = Lent { root: 9, ..good.clone() };
    let beyond = Set::of(&[3]);
    assert_eq!(refusal(&bad, false, beyond), Some(12));
    assert_eq!(refusal(&good, false, beyond), Some(9));
    assert_eq!(refusal(&good, true, beyond), Some(13));
    assert_eq!(refusal(&good, true, Set::of(&[2])), None);
    assert_eq!(refusal(&every_set(1_024), true, Set::of(&[1_023])), None);
}
