//! Request 2: counts by size against listings, figures from elsewhere, and the order of a folder's refusals.

use second::analysis::{analyse, Analysis, Lengths};
use second::damage::{damaged, NUMBERS};
use second::european::european_1;
use second::families;
use second::folders::Folder;
use second::generator::{and_of_ors, ors_from_the_last, small_shape, tree};
use second::heat_removal::heat_removal;
use second::judge::{write, Refusal};
use second::lent::{Lent, Sort};
use second::listing::Walk;
use second::random::Random;
use second::sizes::*;
use second::{brute, brute_cuts, diagrams};

fn analysed(bytes: &[u8]) -> Analysis {
    analyse(bytes, Lengths::AMPLE).unwrap_or_else(|refusal| panic!("{refusal:?}"))
}

/// Counts that end in zeros up to size 1,024.
fn whole(told: &[u64]) -> Vec<u64> {
    [told, &vec![0; SIZES - told.len()]].concat()
}

fn listed(diagram: &Lent) -> Option<Vec<u64>> {
    let mut counts = vec![0; SIZES];
    for (number, cut) in Walk::new(diagram, None).enumerate() {
        if number == 300 {
            return None;
        }
        counts[cut.members().len()] += 1;
    }
    Some(counts)
}

#[test]
fn counts_are_those_of_the_listing() {
    let mut compared = 0;
    for seed in 0..3_000 {
        let random = &mut Random::new(seed);
        let diagram = match seed % 3 {
            0 => families::towers(random),
            _ => diagrams::good(random, Sort::Cuts, 40),
        };
        assert!(diagram.is_diagram(), "seed {seed}");
        if let Some(counts) = listed(&diagram) {
            assert_eq!(sizes(&diagram, true), Ok(counts), "seed {seed}");
            compared += 1;
        }
    }
    assert!(compared > 1_500, "{compared}");
}

/// By truth tables, without any diagram.
#[test]
fn counts_of_trees_are_those_of_their_minimal_cuts() {
    for seed in 0..2_000 {
        let random = &mut Random::new(seed);
        let shape = small_shape(random);
        let tree = tree(random, shape);
        let functions = brute::functions(&tree);
        let mut counts = vec![0; SIZES];
        for cut in brute_cuts::minimal_cuts(functions.of_gates.last().unwrap()) {
            counts[cut.count_ones() as usize] += 1;
        }
        assert_eq!(sizes(&analysed(&write(&tree).unwrap()).lent_cuts(), true), Ok(counts), "seed {seed}");
    }
}

#[test]
fn figures() {
    let of_tree = |tree| sizes(&analysed(&write(&tree).unwrap()).lent_cuts(), true);
    let too_many = Err(Refusal { number: 19, place: 0 });
    let european = [0, 0, 1, 1, 70, 400, 2_212, 14_748, 8_460, 10_624, 6_600, 3_072];
    assert_eq!(of_tree(european_1()), Ok(whole(&european)));
    assert_eq!(of_tree(heat_removal()), Ok(whole(&[0, 0, 0, 4, 12, 24, 28, 20, 8])));
    for pairs in [63, 64] {
        let expected = if pairs == 63 { Ok(whole(&[vec![0; 63], vec![1 << 63]].concat())) } else { too_many.clone() };
        assert_eq!(of_tree(and_of_ors(pairs)), expected);
        assert_eq!(of_tree(ors_from_the_last(pairs)), expected);
    }
    assert_eq!(sizes(&families::all_but_one(3), true), Ok(whole(&[0, 0, 0, 7])));
    assert_eq!(sizes(&families::all_but_one(64), true), Ok(whole(&[vec![0; 64], vec![u64::MAX]].concat())));
    assert_eq!(sizes(&families::all_but_one(65), true), too_many);
    assert_eq!(sizes(&families::every_set(5), true), Ok(whole(&[1, 5, 10, 10, 5, 1])));
    // 67 choose 33 fits, 68 choose 34 does not; of 1,024 events the numbers leave 128 bits, too.
    assert_eq!(sizes(&families::every_set(67), true).unwrap()[33], 14_226_520_737_620_288_370);
    assert_eq!(sizes(&families::every_set(68), true), too_many);
    assert_eq!(sizes(&families::every_set(1_024), true), too_many);
    assert_eq!(sizes(&families::one_set(1_024), true), Ok([vec![0; 1_024], vec![1]].concat()));
    for (root, counts) in [(0, vec![]), (1, vec![1])] {
        assert_eq!(sizes(&Lent { root, ..families::every_set(5) }, true), Ok(whole(&counts)));
    }
}

#[test]
fn the_order_of_sizes() {
    let overflow = families::every_set(100);
    let bad = Lent { root: 102, ..overflow.clone() };
    for (diagram, suffice, number) in
        [(&bad, true, 12), (&bad, false, 12), (&overflow, false, 9), (&overflow, true, 19)]
    {
        assert_eq!(sizes(diagram, suffice), Err(Refusal { number, place: 0 }));
    }
}

fn of_trees(trees: &[&[u8]], lent: Lengths, suffice: bool) -> Result<Vec<u64>, RefusedFolder> {
    let Folder { bytes, lengths } = Folder::of(&trees.iter().map(|tree| tree.to_vec()).collect::<Vec<_>>());
    folder(&bytes, &lengths, lent, suffice)
}

fn refused(number: u32, place: u64, tree: u64) -> Result<Vec<u64>, RefusedFolder> {
    Err(RefusedFolder { number, place, tree })
}

#[test]
fn the_order_of_a_folder() {
    let ample = Lengths { gate_list: 400, ..Lengths::of_capacities(20_000, 20_000) };
    let small = write(&heat_removal()).unwrap();
    let fits = write(&and_of_ors(63)).unwrap();
    let huge = write(&and_of_ors(64)).unwrap();
    let random = &mut Random::new(0);
    assert_eq!(of_trees(&[], ample, true), Ok(whole(&[])));
    assert_eq!(of_trees(&[&small[..]; 64], ample, true), Ok(whole(&[0, 0, 0, 256, 768, 1_536, 1_792, 1_280, 512])));
    assert_eq!(of_trees(&[&small[..]; 65], ample, true), refused(9, 0, 0));
    assert_eq!(of_trees(&[], ample, false), refused(9, 0, 0));
    assert_eq!(of_trees(&[&fits, &fits], ample, true), refused(19, 0, 0));
    assert_eq!(of_trees(&[&small, &huge], ample, true), refused(19, 0, 0));
    for number in NUMBERS {
        let bad = damaged(random, number);
        let place = bad.expected.place;
        // The first refused tree, before 19 and behind the folder's own 9.
        assert_eq!(of_trees(&[&bad.bytes, &small], ample, true), refused(number, place, 0));
        assert_eq!(of_trees(&[&small, &bad.bytes, &[]], ample, true), refused(number, place, 1));
        assert_eq!(of_trees(&[&huge, &fits, &bad.bytes], ample, true), refused(number, place, 2));
        assert_eq!(of_trees(&[&bad.bytes], ample, false), refused(9, 0, 0));
    }
    // A tree's own 9, 10 with its gate, and 11; nobody lends a list of added nodes.
    let lent = Lengths { gate_list: 63, ..ample };
    assert_eq!(of_trees(&[&small, &small, &huge], lent, true), refused(9, 0, 2));
    assert!(of_trees(&[&small], Lengths { added_list: 0, ..ample }, true).is_ok());
    assert_eq!(of_trees(&[&fits, &huge], Lengths::of_capacities(4_223, 128), true), refused(10, 64, 1));
    assert_eq!(of_trees(&[&fits, &huge], Lengths::of_capacities(2, 128), true), refused(10, 0, 0));
    assert_eq!(of_trees(&[&fits, &huge], Lengths::of_capacities(4_224, 127), true), refused(11, 0, 1));
    assert_eq!(of_trees(&[&fits], Lengths::of_capacities(4_095, 126), true).unwrap()[63], 1 << 63);
}

#[test]
fn lengths_of_a_folder() {
    let tree = write(&heat_removal()).unwrap();
    let length = tree.len() as u64;
    let two = [&tree[..], &tree].concat();
    let right = of_trees(&[&tree, &tree], Lengths::AMPLE, true);
    assert_eq!(right, Ok(whole(&[0, 0, 0, 8, 24, 48, 56, 40, 16])));
    let answer = |lengths: &[u64]| folder(&two, lengths, Lengths::AMPLE, true);
    assert_eq!(answer(&[length, length]), right);
    for wrong in [
        &[length][..],
        &[length, length - 1],
        &[length, length + 1],
        &[],
        &[2 * length, 1],
        &[length, length, u64::MAX, 1],
        &[length + (1 << 63), length + (1 << 63)],
    ] {
        assert_eq!(answer(wrong), refused(9, 0, 0), "{wrong:?}");
    }
    // The right sum, cut elsewhere: the trees decide.
    assert_eq!(answer(&[length + 1, length - 1]), refused(3, length, 0));
    assert_eq!(answer(&[length, length, 0]), refused(1, 0, 2));
    assert_eq!(answer(&[0, length, length]), refused(1, 0, 0));
}
