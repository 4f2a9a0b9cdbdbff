//! Brute force by the definitions against the diagrams, on seeded small trees and lent diagrams.

use second::analysis::{analyse, Analysis, Lengths};
use second::bracket::{bracket, events_reached, exact_chance, keeps_promise};
use second::brute::{self, depends, functions, is_constant};
use second::brute_cuts::{self, as_set, cut_nodes_needed, in_order, minimal_cuts, Family};
use second::diagrams;
use second::generator::{chances, room, small_shape, start, tree};
use second::judge::{read, write};
use second::lent::{Lent, Sort};
use second::listing::{list, Walk};
use second::random::Random;
use second::renumbering::renumbering;
use second::sets::{Set, LONGEST_CUT, WORDS};
use second::tree::*;

fn analysed(tree: &Tree) -> Analysis {
    analyse(&write(tree).unwrap(), Lengths::AMPLE).unwrap_or_else(|refusal| panic!("{refusal:?}"))
}

/// SEEDS in the environment asks for more than the usual number.
#[test]
fn trees() {
    let seeds = std::env::var("SEEDS").map_or(4_000, |seeds| seeds.parse().expect("a number"));
    for seed in 0..seeds {
        let random = &mut Random::new(seed);
        let shape = small_shape(random);
        let tree = tree(random, shape);
        compare(&tree, seed);
    }
}

/// Fewer, but wider.
#[test]
fn wider_trees() {
    for seed in 0..40 {
        let random = &mut Random::new(1_000_000 + seed);
        let events = random.between(7, 9);
        let shape = second::generator::shape(events, random.between(3, 9), random.between(3, 7));
        compare(&tree(random, shape), seed);
    }
}

fn compare(tree: &Tree, seed: u64) {
    let events = tree.events();
    let defined = functions(tree);
    let root = defined.of_gates.last().unwrap();
    let done = analysed(tree);
    assert_eq!(read(&write(tree).unwrap()).unwrap(), *tree);

    assert_eq!(done.robdd.nodes_by_gate, defined.nodes_needed, "nodes needed, seed {seed}");
    let capacity = done.robdd.nodes.count();
    let cut_capacity = done.cuts.nodes.count();
    assert_eq!(cut_capacity, cut_nodes_needed(root, events), "cut nodes needed, seed {seed}");
    let bytes = write(tree).unwrap();
    let number = |nodes, cuts| analyse(&bytes, Lengths::of_capacities(nodes, cuts)).err().map_or(0, |r| r.number);
    assert_eq!(number(capacity, cut_capacity), 0);
    assert_eq!(number(capacity - 1, cut_capacity), 10);
    assert_eq!(number(capacity, cut_capacity - 1), 11);

    // Gates share a node exactly when they agree on every set, and none is constant.
    for (g, f) in defined.of_gates.iter().enumerate() {
        assert!(!is_constant(f));
        for (h, other) in defined.of_gates.iter().enumerate() {
            assert_eq!(f == other, done.robdd.gate_nodes[g] == done.robdd.gate_nodes[h]);
        }
    }
    for set in 0..1usize << events {
        let fails = brute::fails(tree, &|event| set >> event & 1 == 1);
        assert_eq!(fails, root[set]);
        assert_eq!(fails, value(&done.lent_function(), as_set(set)));
    }

    let cuts = done.lent_cuts();
    assert!(cuts.is_diagram() && done.lent_function().is_diagram());
    let sets = in_order(&minimal_cuts(root));
    assert_eq!(Walk::new(&cuts, None).collect::<Vec<_>>(), sets, "cuts, seed {seed}");
    assert_eq!(done.cuts.cut_count().decimal(), sets.len().to_string());
    let table = done.robdd.nodes.table();
    assert!(renumbering(&table, capacity, &done.robdd.nodes).is_some());

    let function = done.lent_function();
    let top = bracket(&function, &tree.chances, true);
    let exact = brute::exact_chance(root, &tree.chances);
    let l = (0..events).filter(|&event| depends(root, event)).count();
    assert_eq!(l, events_reached(&function));
    assert_eq!(exact, exact_chance(&function, &tree.chances));
    assert!(keeps_promise(top.low, top.high, &exact, l, events as u32), "bracket, seed {seed}");
}

fn value(diagram: &Lent, failed: Set) -> bool {
    let mut node = diagram.root_node();
    while node >= 2 {
        node = if failed.holds(diagram.event(node)) { diagram.failed(node) } else { diagram.sound(node) };
    }
    node == 1
}

/// The family of a small lent cut diagram by document 002's own words.
fn family(diagram: &Lent, node: u32) -> Family {
    match node {
        0 => Family::new(),
        1 => Family::from([0]),
        _ => {
            let event = 1usize << diagram.event(node);
            let with: Family = family(diagram, diagram.failed(node)).iter().map(|set| set | event).collect();
            with.union(&family(diagram, diagram.sound(node))).copied().collect()
        }
    }
}

#[test]
fn lent_cut_diagrams() {
    let mut compared = 0;
    for seed in 0..20_000 {
        let random = &mut Random::new(seed);
        let diagram = diagrams::good(random, Sort::Cuts, 12);
        assert!(diagram.is_diagram(), "seed {seed}");
        if diagram.event_count > 40 {
            continue;
        }
        let sets = in_order(&family(&diagram, diagram.root_node()));
        let whole: usize = sets.iter().map(|set| set.cut_bytes().len()).sum();
        for _ in 0..4 {
            let start = start(random, diagram.event_count as usize, &sets);
            let room = room(random, whole);
            let answer = list(&diagram, start, room);
            let beyond = start.is_some_and(|set| set.holds_any(diagram.event_count as u32..MOST_EVENTS as u32));
            if beyond {
                assert_eq!(answer.number, 13);
                continue;
            }
            let defined = brute_cuts::list(&sets, start, room);
            assert_eq!(
                (answer.number, answer.written, answer.bytes, answer.last, answer.finished),
                (defined.number, defined.written, defined.bytes, defined.last, defined.finished),
                "seed {seed}"
            );
            compared += 1;
        }
    }
    assert!(compared > 30_000);
}

/// Handing on the last set through rooms of any size gives every set once, in order.
#[test]
fn rooms_join() {
    for seed in 0..2_000 {
        let random = &mut Random::new(seed);
        let diagram = diagrams::good(random, Sort::Cuts, 16);
        let sets: Vec<Set> = Walk::new(&diagram, None).take(3_000).collect();
        if sets.len() == 3_000 {
            continue;
        }
        let expected: Vec<u8> = sets.iter().flat_map(Set::cut_bytes).collect();
        let mut joined = Vec::new();
        let mut from = None;
        loop {
            let answer = list(&diagram, from, random.between(LONGEST_CUT, LONGEST_CUT + 90));
            assert_eq!(answer.number, 0);
            joined.extend(answer.bytes);
            from = Some(answer.last);
            if answer.finished {
                break;
            }
        }
        assert_eq!(joined, expected, "seed {seed}");
    }
}

#[test]
fn lent_function_diagrams() {
    for seed in 0..6_000 {
        let random = &mut Random::new(seed);
        let diagram = diagrams::good(random, Sort::Function, 12);
        assert!(diagram.is_diagram(), "seed {seed}");
        let events = diagram.event_count as usize;
        let mut chances = chances(random, events);
        let top = bracket(&diagram, &chances, true);
        // Exact numbers of 1,024 events are long: some of these suffice.
        if events <= 300 || seed % 20 == 0 {
            let exact = exact_chance(&diagram, &chances);
            let l = events_reached(&diagram);
            assert!(keeps_promise(top.low, top.high, &exact, l, events as u32), "seed {seed}");
            if events <= 8 {
                let f: Vec<bool> = (0..1usize << events).map(|set| value(&diagram, as_set(set))).collect();
                assert_eq!(exact, brute::exact_chance(&f, &chances), "seed {seed}");
            }
        }
        assert_eq!(bracket(&diagram, &chances[1..], true).number, 9);
        assert_eq!(bracket(&diagram, &chances, false).number, 9);
        let place = random.below(events);
        chances[place] = D + 1;
        assert_eq!(bracket(&diagram, &chances, true).number, 7);
        assert_eq!(bracket(&diagram, &chances, false).number, 9);
        chances[place] = 0;
        chances.push(u32::MAX);
        assert_eq!(bracket(&diagram, &chances, true).number, 0);
    }
}

/// Damage is seen, mostly: some changes give another diagram.
#[test]
fn damaged_diagrams() {
    for sort in [Sort::Function, Sort::Cuts] {
        let mut refused = 0;
        for seed in 0..5_000 {
            let diagram = diagrams::damaged(&mut Random::new(seed), sort, 12);
            if !diagram.is_diagram() {
                refused += 1;
                match sort {
                    Sort::Function => assert_eq!(bracket(&diagram, &[], false).number, 12),
                    Sort::Cuts => assert_eq!(list(&diagram, Some(Set([u64::MAX; WORDS])), 0).number, 12),
                }
            }
        }
        assert!((3_500..5_000).contains(&refused), "{refused}");
    }
}
