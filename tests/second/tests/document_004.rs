//! Trees of document 004 with their cuts. Event i of the document is event i − 1 here.

use second::analysis::{analyse, Analysis, Lengths};
use second::brute::fails;
use second::heat_removal::{f023_open, heat_removal};
use second::judge::write;
use second::listing::Walk;
use second::tree::*;

fn analysed(tree: &Tree) -> Analysis {
    analyse(&write(tree).unwrap(), Lengths::AMPLE).unwrap_or_else(|refusal| panic!("{refusal:?}"))
}

fn event(number: u32) -> Input {
    Input::Event(number - 1)
}

fn events<const N: usize>(numbers: [u32; N]) -> [Input; N] {
    numbers.map(event)
}

/// The cuts in the document's numbers.
fn cuts(done: &Analysis) -> Vec<Vec<u32>> {
    let numbers = |members: Vec<u32>| members.into_iter().map(|member| member + 1).collect();
    Walk::new(&done.lent_cuts(), None).map(|cut| numbers(cut.members())).collect()
}

fn counts(done: &Analysis) -> (usize, usize) {
    (done.robdd.nodes.count(), done.cuts.nodes.count())
}

/// Each cut fails the root and every set one short of it does not.
fn cuts_are_sharp(done: &Analysis) {
    for cut in Walk::new(&done.lent_cuts(), None) {
        assert!(fails(&done.tree, &|event| cut.holds(event)));
        for left_out in cut.members() {
            assert!(!fails(&done.tree, &|event| event != left_out && cut.holds(event)));
        }
    }
}

#[test]
fn section_1_7_first_example() {
    let mut tree = Tree::of_chances(&[1; 4]);
    let a3 = and(&mut tree, &events([2, 3]));
    let a1 = or(&mut tree, &[event(1), a3]);
    let a2 = or(&mut tree, &events([2, 4]));
    and(&mut tree, &[a1, a2]);
    let done = analysed(&tree);
    assert_eq!(cuts(&done), [vec![1, 2], vec![1, 4], vec![2, 3]]);
    assert_eq!(counts(&done), (8, 5));
}

fn figure_9_e1(tree: &mut Tree) -> Input {
    let five_eleven = and(tree, &events([5, 11]));
    let with_16 = or(tree, &[five_eleven, event(16)]);
    let with_10 = and(tree, &[with_16, event(10)]);
    let three = and(tree, &events([8, 9, 13]));
    let first = or(tree, &[three, with_10]);
    let ten_fourteen = or(tree, &events([10, 14]));
    let with_3 = and(tree, &[ten_fourteen, event(3)]);
    let with_1 = or(tree, &[with_3, event(1)]);
    let with_6 = and(tree, &[with_1, event(6)]);
    let three_five = or(tree, &events([3, 5]));
    let with_2 = and(tree, &[three_five, event(2)]);
    let second = or(tree, &[with_6, with_2]);
    or(tree, &[first, second])
}

fn figure_9_e2(tree: &mut Tree) -> Input {
    let three = and(tree, &events([6, 14, 15]));
    let with_1 = and(tree, &[three, event(1)]);
    let four_twelve = and(tree, &events([4, 12]));
    let first = or(tree, &[with_1, four_twelve]);
    let twelve_fifteen = and(tree, &events([12, 15]));
    let eight_thirteen = and(tree, &events([8, 13]));
    let either = or(tree, &[twelve_fifteen, eight_thirteen]);
    let with_7 = and(tree, &[event(7), either]);
    let two_six = or(tree, &events([2, 6]));
    let with_3 = and(tree, &[event(3), two_six]);
    let second = or(tree, &[with_7, with_3]);
    or(tree, &[first, second])
}

#[test]
fn section_1_7_figure_9_first_half() {
    // The events that only the second half has hang on a spare gate, for every event must be used.
    let mut whole = Tree::of_chances(&[1; 16]);
    let e1 = figure_9_e1(&mut whole);
    let others: Vec<Input> = events([4, 7, 12, 15]).to_vec();
    let spare = and(&mut whole, &others);
    or(&mut whole, &[e1, spare]);
    let found = cuts(&analysed(&whole));
    assert_eq!(found.len(), 8 + 1);
    for cut in [&[2, 5][..], &[3, 6, 10], &[10, 16], &[2, 3], &[3, 6, 14], &[5, 10, 11], &[8, 9, 13], &[1, 6]] {
        assert!(found.contains(&cut.to_vec()));
    }
}

#[test]
fn section_1_7_figure_9() {
    let mut tree = Tree::of_chances(&[1; 16]);
    let e1 = figure_9_e1(&mut tree);
    let e2 = figure_9_e2(&mut tree);
    and(&mut tree, &[e1, e2]);
    let done = analysed(&tree);
    let expected = [
        "1.3.6",
        "1.4.6.12",
        "1.6.7.8.13",
        "1.6.7.12.15",
        "1.6.14.15",
        "2.3",
        "2.4.5.12",
        "2.5.7.8.13",
        "2.5.7.12.15",
        "3.6.8.9.13",
        "3.6.10",
        "3.6.14",
        "4.5.10.11.12",
        "4.8.9.12.13",
        "4.10.12.16",
        "5.7.8.10.11.13",
        "5.7.10.11.12.15",
        "7.8.9.13",
        "7.8.10.13.16",
        "7.10.12.15.16",
    ];
    let dotted = |cut: &Vec<u32>| cut.iter().map(u32::to_string).collect::<Vec<_>>().join(".");
    assert_eq!(cuts(&done).iter().map(dotted).collect::<Vec<_>>(), expected);
    cuts_are_sharp(&done);
    assert_eq!(counts(&done), (197, 152));
}

#[test]
fn section_3_3_bridge() {
    let mut tree = Tree::of_chances(&[1; 5]);
    let paths = [
        and(&mut tree, &events([1, 2])),
        and(&mut tree, &events([3, 4])),
        and(&mut tree, &events([1, 4, 5])),
        and(&mut tree, &events([2, 3, 5])),
    ];
    or(&mut tree, &paths);
    let done = analysed(&tree);
    assert_eq!(cuts(&done), [vec![1, 2], vec![1, 4, 5], vec![2, 3, 5], vec![3, 4]]);
    assert_eq!(counts(&done), (22, 12));
}

#[test]
fn sections_4_and_6_1() {
    for (left, right) in [(2, 2), (2, 3), (3, 3)] {
        let mut tree = Tree::of_chances(&vec![1; left + right]);
        let all: Vec<Input> = (0..(left + right) as u32).map(Input::Event).collect();
        let halves = [and(&mut tree, &all[..left]), and(&mut tree, &all[left..])];
        or(&mut tree, &halves);
        let done = analysed(&tree);
        assert_eq!(cuts(&done).len(), 2);
        cuts_are_sharp(&done);
    }
}

#[test]
fn section_6_2_standby() {
    let mut tree = Tree::of_chances(&[1; 14]);
    let d = or(&mut tree, &events([3, 4]));
    let e = or(&mut tree, &events([5, 6]));
    let c = and(&mut tree, &[d, e]);
    let h = or(&mut tree, &events([10, 11, 12, 13, 14]));
    let g9 = and(&mut tree, &[event(9), h]);
    let g = or(&mut tree, &[g9, event(8)]);
    let f = or(&mut tree, &[event(7), g]);
    let b = or(&mut tree, &[c, f]);
    or(&mut tree, &[event(1), b, event(2)]);
    let done = analysed(&tree);
    let found = cuts(&done);
    assert_eq!(found.iter().filter(|cut| cut.len() == 1).flatten().copied().collect::<Vec<_>>(), [1, 2, 7, 8]);
    assert_eq!(found.iter().filter(|cut| cut.len() == 2).count(), 9);
    assert_eq!(found.len(), 13);
    cuts_are_sharp(&done);
    assert_eq!(counts(&done), (38, 16));
}

#[test]
fn section_6_3_f023_open() {
    let mut tree = Tree::of_chances(&[1; 10]);
    f023_open(&mut tree, 1);
    assert_eq!(cuts(&analysed(&tree)).len(), 7);
}

#[test]
fn section_6_3_heat_removal() {
    let done = analysed(&heat_removal());
    let found = cuts(&done);
    assert_eq!(found.len(), 96);
    let of_size = |size: usize| found.iter().filter(|cut| cut.len() == size).count();
    assert_eq!([3, 4, 5, 6, 7, 8].map(of_size), [4, 12, 24, 28, 20, 8]);
    cuts_are_sharp(&done);
    assert_eq!(counts(&done), (100, 36));
}
