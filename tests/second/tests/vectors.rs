//! Vectors from outside: reading, European 1, and made trees with their counts.

use second::added::filled;
use second::analysis::{analyse, Analysis, Lengths};
use second::big::Big;
use second::bracket::{bracket, events_reached, exact_chance, keeps_promise};
use second::european::european_1;
use second::generator::{and_of_ors, longest_run, longest_shape, tree};
use second::judge::{read, write, Refusal};
use second::lent::{Lent, Sort};
use second::listing::{list, Walk};
use second::program::program;
use second::random::Random;
use second::tree::*;
use Input::Event;

fn analysed(tree: &Tree) -> Analysis {
    analyse(&write(tree).unwrap(), Lengths::AMPLE).unwrap_or_else(|refusal| panic!("{refusal:?}"))
}

fn bytes_of(hex: &str) -> Vec<u8> {
    let digits: Vec<u8> = hex.bytes().filter(|digit| !digit.is_ascii_whitespace()).collect();
    let pair = |pair: &[u8]| u8::from_str_radix(std::str::from_utf8(pair).unwrap(), 16).unwrap();
    digits.chunks(2).map(pair).collect()
}

#[test]
fn reading() {
    let refused = [
        ("", 1, 0),
        ("09", 2, 0),
        ("08", 1, 0),
        ("080000", 3, 0),
        ("05", 1, 0),
        ("0500", 3, 0),
        ("07", 4, 0),
        ("07 07", 3, 1),
        ("0100000000 07", 4, 5),
        ("0100000000 0202 0500", 1, 9),
        ("0100000000 0202 0500 07", 3, 9),
        ("0100000000 0202 0500 0200", 3, 9),
        ("0100000000 0201 0500 07 FF", 3, 10),
        ("0100000000 0201 0500 01FFFF", 1, 9),
        ("0100000000 0201 0500 0100000000", 3, 9),
        ("0100000000 0200", 4, 5),
        ("0100000000 044141", 4, 5),
        ("0100000000 040201", 1, 8),
        ("0100000000 040201 0500", 5, 5),
        ("0100000000 0201 0501 07", 6, 7),
        ("0100000000 0201 060000 07", 6, 7),
        ("0101CA9A3B", 7, 0),
        ("0100000000 0100000000 0201 0500 07", 8, 5),
        ("0100000000 0201 0500 0201 0500 07", 8, 5),
    ];
    for (hex, number, place) in refused {
        assert_eq!(read(&bytes_of(hex)), Err(Refusal { number, place }), "{hex}");
    }
    assert!(read(&bytes_of("0100CA9A3B 0201 0500 07")).is_ok());
}

/// 18,944 bytes of records without a fault, and 20,992 with sites: no input has fewer than three.
#[test]
fn longest_run_before_the_end() {
    for (site, length) in [(None, 18_944), (Some(0), 20_992), (Some(5), 20_992)] {
        let run = longest_run(site);
        assert_eq!(run.len() as u64, length);
        for (tail, number, place) in
            [("07", 8, 0), ("07 07", 3, length + 1), ("05 00", 3, length), ("02 01", 4, length), ("", 1, length)]
        {
            let bytes = [run.clone(), bytes_of(tail)].concat();
            assert_eq!(read(&bytes), Err(Refusal { number, place }), "{tail}");
        }
    }
}

#[test]
fn longest_tree() {
    for seed in 0..20 {
        let tree = tree(&mut Random::new(seed), longest_shape());
        assert_eq!((tree.gates.len(), tree.events(), tree.inputs.len()), (512, 1_024, 4_096));
        assert_eq!(write(&tree).unwrap().len(), 18_689);
        assert_eq!(write(&tree.with_sites(&[])).unwrap().len(), LONGEST_TREE);
    }
}

#[test]
fn european() {
    let tree = european_1();
    let bytes = write(&tree).unwrap();
    assert_eq!(bytes, include_bytes!("../../../examples/european1.tree"));
    assert_eq!(bytes.len(), 1_067);
    assert_eq!((tree.events(), tree.gates.len()), (61, 84));
    let done = analysed(&tree);
    assert_eq!(done.robdd.nodes.count(), 13_102);
    assert_eq!(done.cuts.nodes.count(), 16_233);
    assert_eq!(done.cuts.nodes.reached(done.cuts.root).len(), 6_042);
    assert_eq!(done.cuts.cut_count(), Big::from(46_188));
    let mut by_size = [0; 62];
    let mut last = None;
    for cut in Walk::new(&done.lent_cuts(), None) {
        assert!(last.is_none_or(|last: second::sets::Set| last.order(&cut).is_lt()));
        by_size[cut.members().len()] += 1;
        last = Some(cut);
    }
    assert_eq!(by_size[2..12], [1, 1, 70, 400, 2_212, 14_748, 8_460, 10_624, 6_600, 3_072]);
    assert_eq!(by_size.iter().sum::<usize>(), 46_188);
    let function = done.lent_function();
    let top = bracket(&function, &tree.chances, true);
    assert_eq!((top.number, top.low, top.high), (0, 1_275, 1_288));
    assert_eq!(events_reached(&function), 61);
    assert!(keeps_promise(1_275, 1_288, &exact_chance(&function, &tree.chances), 61, 61));
    // The gate that fills a table of 4,096 nodes.
    assert_eq!(filled(&done.added(), 4_096), Some(75));
    let mut text = Vec::new();
    program(&bytes, &mut text).unwrap();
    assert_eq!(text, b"refused 10 at 75\n");
}

/// A lent function diagram of document 003; not monotone.
#[test]
fn node_vector() {
    let triples = [[4, 0, 1], [3, 2, 1], [3, 0, 1], [2, 3, 1], [2, 4, 3], [1, 4, 6], [1, 6, 5], [0, 7, 8]];
    let diagram = Lent { sort: Sort::Function, event_count: 5, table: triples.concat(), node_count: 8, root: 9 };
    for (chance, low, high) in [(500_000_000, 656_250_000, 656_250_000), (333_333_333, 864_197_531, 864_197_533)] {
        let chances = [chance; 5];
        let top = bracket(&diagram, &chances, true);
        assert_eq!((top.number, top.low, top.high), (0, low, high));
        let l = events_reached(&diagram);
        assert!(keeps_promise(low, high, &exact_chance(&diagram, &chances), l, 5));
    }
}

/// Document 002, 4.3: Fig. 1 and Fig. 2 as sets.
#[test]
fn families_of_document_002() {
    let lent = |table: Vec<u32>| {
        let count = table.len() as u64 / 3;
        Lent { sort: Sort::Cuts, event_count: 3, table, node_count: count, root: count + 1 }
    };
    assert_eq!(list(&lent(vec![1, 0, 1]), None, 100).number, 12);
    assert_eq!(list(&lent(vec![2, 1, 0, 0, 1, 2]), None, 100).bytes, bytes_of("21 00 22 21 02 22"));
    assert_eq!(list(&lent(vec![0, 1, 1]), None, 100).bytes, bytes_of("21 00 22 22"));
    let function = Lent { sort: Sort::Function, ..lent(vec![0, 1, 1]) };
    assert_eq!(bracket(&function, &[0; 3], true).number, 12);
    for (root, bytes) in [(0, ""), (1, "22")] {
        let leaf = Lent { root, ..lent(vec![]) };
        let listing = list(&leaf, None, 1);
        assert_eq!((listing.number, listing.bytes, listing.finished), (0, bytes_of(bytes), true));
    }
}

fn counts(tree: &Tree) -> (usize, usize, String) {
    let done = analysed(tree);
    (done.robdd.nodes.count(), done.cuts.nodes.count(), done.cuts.cut_count().decimal())
}

fn gate_of(kind: u32, k: u32, events: u32) -> Tree {
    let mut tree = Tree::of_chances(&vec![1; events as usize]);
    let inputs: Vec<Input> = (0..events).map(Event).collect();
    tree.add_gate(kind, k, &inputs);
    tree
}

#[test]
fn steps_are_literal() {
    assert_eq!(counts(&gate_of(AT_LEAST, 32, 64)), (2_111, 1_056, "1832624140942590534".into()));
    assert_eq!(counts(&gate_of(AT_LEAST, 2, 64)), (251, 126, "2016".into()));
    assert_eq!(counts(&gate_of(AND, 0, 64)), (2_080, 64, "1".into()));
    assert_eq!(counts(&gate_of(OR, 0, 64)), (2_080, 64, "64".into()));
    assert_eq!(counts(&gate_of(AT_LEAST, 3, 3)).0, 5);
    assert_eq!(counts(&gate_of(AND, 0, 3)).0, 6);
    assert_eq!(counts(&gate_of(AT_LEAST, 1, 3)).0, 5);
    assert_eq!(counts(&gate_of(OR, 0, 3)).0, 6);
    assert_eq!(counts(&gate_of(AT_LEAST, 2, 3)).0, 7);
    let mut backwards = Tree::of_chances(&[1; 3]);
    at_least(&mut backwards, 2, &[Event(2), Event(1), Event(0)]);
    assert_eq!(counts(&backwards).0, 9);
}

#[test]
fn ands_of_ors() {
    for (pairs, nodes, cut_nodes, cuts) in
        [(63, 4_095, 126, "9223372036854775808"), (64, 4_224, 128, "18446744073709551616")]
    {
        assert_eq!(counts(&and_of_ors(pairs)), (nodes, cut_nodes, cuts.into()));
    }
}
