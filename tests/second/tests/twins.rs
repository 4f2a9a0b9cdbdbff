//! Request 3: an at-least gate counts each distinct input once, at its first place; 5 is decided after its last input.

use second::analysis::{analyse, Analysis, Lengths};
use second::brute::{self, functions};
use second::brute_cuts::{in_order, minimal_cuts};
use second::equations::{typed, Import};
use second::generator::{middle_shape, small_shape, tree};
use second::judge::{read, write, Refusal};
use second::listing::Walk;
use second::random::Random;
use second::tree::*;
use second::twins::{Due, CASES, TEXTS};
use Input::Event;

fn analysed(bytes: &[u8]) -> Result<Analysis, Refusal> {
    analyse(bytes, Lengths::AMPLE)
}

fn members(done: &Analysis) -> Vec<Vec<u32>> {
    Walk::new(&done.lent_cuts(), None).map(|cut| cut.members()).collect()
}

#[test]
fn the_cases() {
    for case in CASES {
        let bytes = case.bytes();
        match case.due {
            Due::Refused(number, place) => {
                assert_eq!(read(&bytes), Err(Refusal { number, place }), "{}", case.what);
                assert_eq!(analysed(&bytes).err(), Some(Refusal { number, place }), "{}", case.what);
            }
            Due::Done(nodes, cuts) => {
                let tree = read(&bytes).unwrap_or_else(|refusal| panic!("{}: {refusal:?}", case.what));
                assert_eq!(write(&tree).as_ref(), Ok(&bytes), "{}", case.what);
                let done = analysed(&bytes).unwrap_or_else(|refusal| panic!("{}: {refusal:?}", case.what));
                assert_eq!((done.robdd.nodes.count(), &members(&done)[..]), (nodes, &owned(cuts)[..]), "{}", case.what);
                // And by the definitions.
                let defined = functions(&tree);
                assert_eq!(defined.nodes_needed.last(), Some(&nodes), "{}", case.what);
                let sets: Vec<Vec<u32>> =
                    in_order(&minimal_cuts(defined.of_gates.last().unwrap())).iter().map(|cut| cut.members()).collect();
                assert_eq!(sets, owned(cuts), "{}", case.what);
            }
        }
    }
}

fn owned(cuts: &[&[u32]]) -> Vec<Vec<u32>> {
    cuts.iter().map(|cut| cut.to_vec()).collect()
}

#[test]
fn typed_twins() {
    for &(text, number) in TEXTS {
        assert_eq!(typed(text.as_bytes()).number, number, "{text}");
    }
    let Import { tree, .. } = typed(b"x = at-least 2 in a, a, b\n");
    let fails = |set: u32| brute::fails(&tree, &|event| set >> event & 1 == 1);
    assert_eq!([0, 1, 2, 3].map(fails), [false, false, false, true]);
}

/// A tree in memory is refused as its bytes would be, also where no bytes can hold it.
#[test]
fn writing() {
    let mut tree = Tree::of_chances(&[0; 2]);
    at_least(&mut tree, 3, &[Event(0), Event(0), Event(1)]);
    assert_eq!(write(&tree), Err(Refusal { number: 5, place: 10 }));
    tree.gates[0].k = u32::MAX;
    assert_eq!(write(&tree), Err(Refusal { number: 5, place: 10 }));
    tree.inputs[2] = 2;
    assert_eq!(write(&tree), Err(Refusal { number: 6, place: 17 }));
    tree.gates[0].k = 0;
    assert_eq!(write(&tree), Err(Refusal { number: 6, place: 17 }));
    tree.gates[0].n = 65;
    assert_eq!(write(&tree), Err(Refusal { number: 4, place: 10 }));
    tree.gates[0] = Gate { kind: AT_LEAST, k: 2, n: 3 };
    tree.inputs[2] = 1;
    assert!(write(&tree).is_ok());
    tree.gates.push(Gate { kind: 9, k: 0, n: 1 });
    tree.gate_count = 2;
    assert_eq!(write(&tree), Err(Refusal { number: 2, place: 19 }));
    tree.gates[0].k = 3;
    assert_eq!(write(&tree), Err(Refusal { number: 5, place: 10 }));
}

/// The tree with the twins of at-least gates taken out says the same, with the same nodes for each gate.
#[test]
fn twins_change_nothing() {
    let mut with_twins = 0;
    for seed in 0..4_000 {
        let random = &mut Random::new(seed);
        let shape = if seed % 20 == 0 { middle_shape(random) } else { small_shape(random) };
        let tree = tree(random, shape);
        let mut plain = Tree::of_chances(&tree.chances);
        for (gate, inputs) in tree.gates.iter().zip(tree.inputs_by_gate()) {
            let counted = if gate.kind == AT_LEAST { distinct(&inputs) } else { inputs };
            plain.add_gate(gate.kind, gate.k, &counted);
        }
        if plain == tree {
            continue;
        }
        with_twins += 1;
        let lengths = Lengths::of_capacities(20_000, 20_000);
        let (whole, less) = (analyse(&write(&tree).unwrap(), lengths), analyse(&write(&plain).unwrap(), lengths));
        match (whole, less) {
            (Ok(whole), Ok(less)) => {
                assert_eq!(whole.robdd.nodes_by_gate, less.robdd.nodes_by_gate, "seed {seed}");
                assert_eq!(whole.robdd.nodes.table(), less.robdd.nodes.table(), "seed {seed}");
            }
            (whole, less) => assert_eq!(whole.err(), less.err(), "seed {seed}"),
        }
    }
    assert!(with_twins > 1_000, "{with_twins}");
}

/// A name, and a gate of that name alone, are two: so doubles can still be said.
#[test]
fn one_name_by_several_gates() {
    let mut tree = Tree::of_chances(&[0; 2]);
    let first = or(&mut tree, &[Event(0)]);
    let second = or(&mut tree, &[Event(0)]);
    at_least(&mut tree, 3, &[Event(0), first, second, first, Event(1)]);
    let done = analysed(&write(&tree).unwrap()).unwrap_or_else(|refusal| panic!("{refusal:?}"));
    assert_eq!(members(&done), [[0]]);
}
