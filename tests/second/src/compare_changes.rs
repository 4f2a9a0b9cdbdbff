//! Pairs of listings given to the three calls that compare them, against the second program.

use crate::analysis::{analyse, Lengths};
use crate::changes::{compare, cuts_of, first_difference, Side};
use crate::compare::no_fault;
use crate::european::european_1;
use crate::judge::write;
use crate::library::*;
use crate::listing::list;
use crate::metropolis::metropolis;
use crate::pairs::{self, bytes_of};
use crate::random::Random;
use crate::sets::Set;
use crate::tally::{hex, Tally};
use crate::tree::*;

/// Seeded pairs, each both ways.
pub fn compare_pairs(library: &dyn Library, random: &mut Random, tally: &mut Tally) {
    for _ in 0..3 {
        let [one, other] = pairs::seeded(random);
        compare_pair(library, &one, &other, tally);
        compare_pair(library, &other, &one, tally);
    }
}

pub fn compare_pair(library: &dyn Library, yesterday: &[u8], today: &[u8], tally: &mut Tally) {
    tally.note(|| format!("{} against {}", hex(yesterday), hex(today)));
    let first = first_difference(yesterday, today);
    let numbers = compare(yesterday, today);
    let number = first.verdict.number;
    for call in ["side", "first difference", "compare"] {
        tally.due(call, number);
    }
    tally.same("the side", first.verdict, library.side(yesterday, today));
    no_fault(library, tally);
    tally.same("the first difference", first, library.first_difference(yesterday, today));
    no_fault(library, tally);
    tally.same("gone, new and kept", numbers, library.compare(yesterday, today));
    no_fault(library, tally);
    tally.large("bytes of a listing compared", yesterday.len().max(today.len()) as u64);
    tally.meet("pairs of equal listings", number == 0 && first.verdict.side == Side::Neither);
    tally.meet("with a cut gone first", number == 0 && first.verdict.side == Side::Yesterday);
    tally.meet("with a cut new first", number == 0 && first.verdict.side == Side::Today);
    tally.meet("with the empty cut first", number == 0 && first.length == 1);
    tally.meet(
        "with bad listings on both sides",
        number == 20 && cuts_of(today).is_none() && cuts_of(yesterday).is_none(),
    );
}

/// The pairs of every run: short bytes of all sorts, every byte of a listing changed, cases 1 and 6, large trees with a cut taken out.
pub fn compare_listings(library: &dyn Library, tally: &mut Tally) {
    tally.detailed = true;
    tally.name = Some("listings of up to four bytes");
    let short = short_bytes(&[0x21, 0x22, 0], 4);
    for yesterday in &short {
        short.iter().for_each(|today| compare_pair(library, yesterday, today, tally));
    }
    tally.name = Some("one byte changed");
    let across = [&[254, 255, 256, 0x122][..], &[255, 256, 257], &[0x121, 0x223], &[0x322, 1_023], &[]];
    for sets in [&[&[1, 2, 0x22][..], &[1, 2], &[0x22], &[]][..], &across] {
        let told = bytes_of(&sets.iter().map(|members| Set::of(members)).collect::<Vec<_>>());
        for place in 0..told.len() {
            for byte in 0..=255 {
                let mut other = told.clone();
                other[place] = byte;
                compare_ways(library, &told, &other, tally);
                compare_pair(library, &other, &other, tally);
            }
        }
    }
    tally.name = Some("cases 1 and 6");
    let (two_ands, two_of_three) = (listing_of(&case_1()), listing_of(&case_6()));
    compare_all_ways(library, &two_ands, &two_of_three, tally);
    tally.detailed = false;
    compare_taken_out(library, "European 1 with a cut taken out", &european_1(), tally);
    compare_taken_out(library, "the metropolis with a cut taken out", &metropolis(), tally);
    tally.name = None;
}

fn compare_taken_out(library: &dyn Library, name: &'static str, tree: &Tree, tally: &mut Tally) {
    tally.name = Some(name);
    let whole = listing_of(tree);
    let cuts = cuts_of(&whole).expect("a listing of the second program is good");
    for place in [0, 1, cuts.len() / 2, cuts.len() - 1] {
        let cut = cuts[place];
        compare_all_ways(library, &whole, &[&whole[..cut.start], &whole[cut.end..]].concat(), tally);
    }
    // The last byte lost, with a difference in the first cut.
    compare_all_ways(library, &whole[cuts[0].end..], &whole[..whole.len() - 1], tally);
}

fn compare_ways(library: &dyn Library, one: &[u8], other: &[u8], tally: &mut Tally) {
    compare_pair(library, one, other, tally);
    compare_pair(library, other, one, tally);
}

fn compare_all_ways(library: &dyn Library, one: &[u8], other: &[u8], tally: &mut Tally) {
    compare_ways(library, one, other, tally);
    compare_pair(library, one, one, tally);
}

/// All bytes of these values, up to a length.
fn short_bytes(values: &[u8], longest: usize) -> Vec<Vec<u8>> {
    let mut all = vec![Vec::new()];
    let mut start = 0;
    for _ in 0..longest {
        let end = all.len();
        for place in start..end {
            for &value in values {
                all.push([&all[place][..], &[value]].concat());
            }
        }
        start = end;
    }
    all
}

pub fn listing_of(tree: &Tree) -> Vec<u8> {
    let bytes = write(tree).expect("a named tree is accepted");
    let done = analyse(&bytes, Lengths::AMPLE).unwrap_or_else(|refusal| panic!("{refusal:?}"));
    let listing = list(&done.lent_cuts(), None, usize::MAX);
    assert!(listing.finished);
    listing.bytes
}

pub fn case_1() -> Tree {
    let mut tree = Tree::of_chances(&[D / 10; 3]);
    let first = and(&mut tree, &[Input::Event(0), Input::Event(1)]);
    let second = and(&mut tree, &[Input::Event(1), Input::Event(2)]);
    or(&mut tree, &[first, second]);
    tree
}

pub fn case_6() -> Tree {
    let mut tree = Tree::of_chances(&[D / 10; 3]);
    at_least(&mut tree, 2, &[Input::Event(0), Input::Event(1), Input::Event(2)]);
    tree
}
