//! Request 12: figures from elsewhere, the promise on built trees, and refusals.

use second::analysis::{analyse, Lengths};
use second::bracket::bracket;
use second::generator::{self, small_shape, tree};
use second::importance::*;
use second::judge::{write, Refusal};
use second::lent::Lent;
use second::random::Random;
use second::tree::D;
use second::weights::{self, lent, written_out, SHARP};

fn case_1() -> Lent {
    weights::case_1(0, 3)
}

fn weights(lows: &[u32], highs: &[u32], rank: &[u32]) -> Result<Weights, Refusal> {
    Ok(Weights { lows: lows.to_vec(), highs: highs.to_vec(), rank: rank.to_vec() })
}

#[test]
fn figures() {
    let tenth = D / 10;
    let (some, most) = (90_000_000, 190_000_000);
    let expected = weights(&[some, most, some], &[some, most, some], &[1, 0, 2]);
    assert_eq!(importance(&case_1(), &[tenth; 3], true), expected);
    let sharp = importance(&case_1(), &SHARP, true);
    assert_eq!(sharp, weights(&[0, 999_999_999, 0], &[1, 1_000_000_000, 1], &[1, 0, 2]));
    assert_eq!(importance(&lent(1, &[0, 1, 0], 2), &[5], true), weights(&[D], &[D], &[0]));
    for own in written_out() {
        assert_eq!(importance(&own.diagram, &own.chances, true), Ok(own.due), "{}", own.what);
    }
}

/// The same of case 1 as its bytes say it, with its own chances and with others.
#[test]
fn figures_of_the_tree() {
    let bytes = include_bytes!("../../../examples/case1.tree");
    let done = analyse(bytes, Lengths::AMPLE).expect("done");
    let of = |chances: &[u32]| importance(&done.lent_function(), chances, true);
    let (some, most) = (90_000_000, 190_000_000);
    assert_eq!(of(&done.tree.chances), weights(&[some, most, some], &[some, most, some], &[1, 0, 2]));
    assert_eq!(of(&SHARP), weights(&[0, 999_999_999, 0], &[1, 1_000_000_000, 1], &[1, 0, 2]));
}

#[test]
fn refusals() {
    let number = |diagram: &Lent, chances: &[u32], suffice| importance(diagram, chances, suffice).unwrap_err().number;
    let bad = Lent { root: 9, ..case_1() };
    assert_eq!(number(&bad, &[D + 1; 2], false), 12);
    assert_eq!(number(&case_1(), &[D + 1; 2], true), 9);
    assert_eq!(number(&case_1(), &[D + 1; 3], false), 9);
    assert_eq!(number(&case_1(), &[0, 0, D + 1], true), 7);
}

/// On built trees: the numbers enclose the exact difference, and are the bracket's of the chances with one replaced.
#[test]
fn built_trees_keep_the_promise() {
    for seed in 0..300 {
        let random = &mut Random::new(seed);
        let shape = small_shape(random);
        let built = tree(random, shape);
        let done = analyse(&write(&built).expect("accepted"), Lengths::AMPLE).expect("done");
        let function = done.lent_function();
        let chances = generator::chances(random, built.event_count as usize);
        let answer = importance(&function, &chances, true).expect("done");
        for event in 0..built.event_count as u32 {
            assert!(keeps_promise(&function, &chances, &answer, event), "seed {seed} event {event}");
            if answer.highs[event as usize] > 0 {
                let with = |chance| {
                    let mut chances = chances.clone();
                    chances[event as usize] = chance;
                    bracket(&function, &chances, true)
                };
                let (failed, sound) = (with(D), with(0));
                assert_eq!(answer.lows[event as usize], failed.low.saturating_sub(sound.high));
                assert_eq!(answer.highs[event as usize], failed.high - sound.low);
            }
        }
    }
}
