//! Cases 1 to 10 of document 01.

use second::analysis::{analyse, Analysis, Lengths};
use second::bracket::{bracket, events_reached};
use second::judge::{read, write, Refusal};
use second::listing::{list, Walk};
use second::program::program;
use second::sets::Set;
use second::tree::*;
use Input::Event;

const TENTH: u32 = 100_000_000;

fn case_1() -> Tree {
    let mut tree = Tree::of_chances(&[TENTH; 3]);
    let b1 = and(&mut tree, &[Event(0), Event(1)]);
    let b2 = and(&mut tree, &[Event(1), Event(2)]);
    or(&mut tree, &[b1, b2]);
    tree
}

fn analysed(tree: &Tree) -> Analysis {
    analyse(&write(tree).unwrap(), Lengths::AMPLE).unwrap_or_else(|refusal| panic!("{refusal:?}"))
}

fn cuts(done: &Analysis) -> Vec<Vec<u32>> {
    Walk::new(&done.lent_cuts(), None).map(|cut| cut.members()).collect()
}

fn top(done: &Analysis) -> (u32, u32) {
    let top = bracket(&done.lent_function(), &done.tree.chances, true);
    assert_eq!(top.number, 0);
    (top.low, top.high)
}

fn number(bytes: &[u8], nodes: usize, cuts: usize) -> Option<Refusal> {
    analyse(bytes, Lengths::of_capacities(nodes, cuts)).err()
}

#[test]
fn case_1_bytes_counts_listing() {
    let mut bytes = [1, 0x00, 0xE1, 0xF5, 0x05].repeat(3);
    bytes.extend([2, 2, 5, 0, 5, 1, 2, 2, 5, 1, 5, 2, 3, 2, 6, 0, 0, 6, 1, 0, 7]);
    assert_eq!(bytes.len(), 36);
    assert_eq!(write(&case_1()).unwrap(), bytes);
    assert_eq!(read(&bytes).unwrap(), case_1());
    let done = analysed(&case_1());
    assert_eq!((done.robdd.nodes.count(), done.cuts.nodes.count()), (6, 4));
    assert_eq!(done.added(), [3, 2, 1]);
    let whole = list(&done.lent_cuts(), None, 100);
    assert_eq!(whole.bytes, [0x21, 0, 0x21, 1, 0x22, 0x21, 1, 0x21, 2, 0x22]);
    assert_eq!(top(&done), (19_000_000, 19_000_000));
    assert_eq!(number(&bytes, 6, 4), None);
    for (nodes, gate) in [(5, 2), (4, 1), (3, 1), (2, 0), (1, 0), (0, 0)] {
        assert_eq!(number(&bytes, nodes, 4), Some(Refusal { number: 10, place: gate }));
        assert_eq!(number(&bytes, nodes, 0), Some(Refusal { number: 10, place: gate }));
    }
    assert_eq!(number(&bytes, 6, 3), Some(Refusal { number: 11, place: 0 }));
    let mut text = Vec::new();
    program(&bytes, &mut text).unwrap();
    let expected = "events 3\ngates 3\nnodes 6\ncuts\n0 1\n1 2\ntop 19000000 19000000\n";
    assert_eq!(String::from_utf8(text).unwrap(), expected);
}

/// Document 000, 2.2: three of the eight assignments are solutions.
#[test]
fn case_1_assignments() {
    let fails = |set: usize| second::brute::fails(&case_1(), &|event| set >> event & 1 == 1);
    assert_eq!((0..8).filter(|&set| fails(set)).collect::<Vec<_>>(), [0b011, 0b110, 0b111]);
}

#[test]
fn case_2_rooms() {
    let diagram = analysed(&case_1()).lent_cuts();
    for room in 0..5 {
        let listing = list(&diagram, None, room);
        assert_eq!((listing.number, listing.written, listing.finished, listing.last), (14, 0, false, Set::EMPTY));
    }
    for room in 5..10 {
        let listing = list(&diagram, None, room);
        assert_eq!((listing.number, listing.written, listing.bytes.len(), listing.finished), (0, 1, 5, false));
        assert_eq!(listing.last, Set::of(&[0, 1]));
    }
    let listing = list(&diagram, None, 10);
    assert_eq!((listing.number, listing.written, listing.bytes.len(), listing.finished), (0, 2, 10, true));
}

#[test]
fn case_3_starts() {
    let diagram = analysed(&case_1()).lent_cuts();
    let listing = list(&diagram, Some(Set::of(&[0])), 100);
    assert_eq!((listing.bytes, listing.finished), (Set::of(&[1, 2]).cut_bytes(), true));
    let last = Set::of(&[1, 2]);
    let listing = list(&diagram, Some(last), 0);
    assert_eq!((listing.number, listing.written, listing.last, listing.finished), (0, 0, last, true));
    // After the empty set nothing can follow; a set beyond the events comes before a short room.
    assert!(list(&diagram, Some(Set::EMPTY), 0).finished);
    assert_eq!(list(&diagram, Some(Set::of(&[3])), 0).number, 13);
}

#[test]
fn case_4_minimal_only() {
    let mut tree = Tree::of_chances(&[TENTH; 3]);
    let left = or(&mut tree, &[Event(0), Event(2)]);
    let right = or(&mut tree, &[Event(1), Event(2)]);
    and(&mut tree, &[left, right]);
    let done = analysed(&tree);
    assert_eq!(cuts(&done), [vec![0, 1], vec![2]]);
    assert_eq!((done.robdd.nodes.count(), done.cuts.nodes.count()), (6, 4));
    assert_eq!(done.cuts.nodes.reached(done.cuts.root).len(), 3);
    assert_eq!(done.robdd.nodes.reached(done.robdd.root()).len(), 3);
}

#[test]
fn case_5_absorbed() {
    let mut tree = Tree::of_chances(&[TENTH; 2]);
    let both = and(&mut tree, &[Event(0), Event(1)]);
    or(&mut tree, &[Event(0), both]);
    let done = analysed(&tree);
    assert_eq!(cuts(&done), [vec![0]]);
    assert_eq!(events_reached(&done.lent_function()), 1);
    assert_eq!(done.added(), [3, 0]);
}

#[test]
fn case_6_two_of_three() {
    let mut tree = Tree::of_chances(&[TENTH; 3]);
    at_least(&mut tree, 2, &[Event(0), Event(1), Event(2)]);
    let done = analysed(&tree);
    assert_eq!(cuts(&done), [vec![0, 1], vec![0, 2], vec![1, 2]]);
    assert_eq!(top(&done), (28_000_000, 28_000_000));
    assert_eq!(done.robdd.nodes.count(), 7);
}

#[test]
fn case_7_at_least_one_and_all() {
    for n in 1..=10 {
        let inputs: Vec<Input> = (0..n).map(Event).collect();
        let mut tree = Tree::of_chances(&vec![TENTH; n as usize]);
        let gates = [
            or(&mut tree, &inputs),
            at_least(&mut tree, 1, &inputs),
            and(&mut tree, &inputs),
            at_least(&mut tree, n, &inputs),
        ];
        and(&mut tree, &gates);
        let nodes = analysed(&tree).robdd.gate_nodes;
        assert_eq!((nodes[0], nodes[2]), (nodes[1], nodes[3]));
    }
}

#[test]
fn case_8_rounding() {
    let mut tree = Tree::of_chances(&[1, 1]);
    and(&mut tree, &[Event(0), Event(1)]);
    assert_eq!(top(&analysed(&tree)), (0, 1));
}

#[test]
fn case_9_empty_input() {
    assert_eq!(read(&[]), Err(Refusal { number: 1, place: 0 }));
    let mut text = Vec::new();
    program(&[], &mut text).unwrap();
    assert_eq!(text, b"refused 1 at 0\n");
}

#[test]
fn case_10_certain_chance() {
    let mut tree = Tree::of_chances(&[D]);
    or(&mut tree, &[Event(0)]);
    assert_eq!(top(&analysed(&tree)), (D, D));
    tree.chances[0] = D + 1;
    assert_eq!(write(&tree), Err(Refusal { number: 7, place: 0 }));
}

#[test]
fn a_name_that_stands_twice_counts_once() {
    let mut tree = Tree::of_chances(&[TENTH; 2]);
    at_least(&mut tree, 2, &[Event(0), Event(0), Event(1)]);
    let done = analysed(&tree);
    assert_eq!((cuts(&done), done.robdd.nodes.count()), (vec![vec![0, 1]], 3));
}

#[test]
fn lengths_come_after_the_tree_and_before_the_tables() {
    let bytes = write(&case_1()).unwrap();
    let ample = Lengths::AMPLE;
    for bad in [
        Lengths { node_table: 1, ..ample },
        Lengths { node_table: 3_000_003, ..ample },
        Lengths { cut_table: 5, ..ample },
        Lengths { cut_table: 3_000_003, node_table: 0, ..ample },
        Lengths { memo: 6, ..ample },
        Lengths { gate_list: 2, ..ample },
        Lengths { added_list: 2, ..ample },
        Lengths { added_list: 0, node_table: 0, ..ample },
        Lengths { areas_suffice: false, ..ample },
    ] {
        assert_eq!(analyse(&bytes, bad).err(), Some(Refusal { number: 9, place: 0 }));
        assert_eq!(analyse(&bytes[1..], bad).err(), Some(Refusal { number: 2, place: 0 }));
    }
    assert!(analyse(&bytes, Lengths { gate_list: 3, added_list: 3, memo: 4, ..ample }).is_ok());
}
