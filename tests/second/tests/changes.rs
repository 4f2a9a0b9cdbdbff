//! Two listings compared: the request's traps one by one, the cases it names, and every pair of small families.

use second::changes::*;
use second::compare_changes::{case_1, case_6, listing_of};
use second::european::european_1;
use second::pairs::{self, bytes_of};
use second::random::Random;
use second::sets::Set;
use std::cmp::Ordering;
use std::collections::HashSet;

const NONE: &[u8] = &[];
/// {5, 6}, {5}, {33, 34}, the empty set.
const GOOD: &[u8] = &[0x21, 5, 0x21, 6, 0x22, 0x21, 5, 0x22, 0x21, 33, 0x21, 34, 0x22, 0x22];

fn shown(yesterday: &[u8], today: &[u8]) -> (u32, Side, Vec<u8>) {
    let Difference { verdict, start, length } = first_difference(yesterday, today);
    assert_eq!((verdict, verdict.place), (side(yesterday, today), 0));
    let of = if verdict.side == Side::Today { today } else { yesterday };
    assert!(verdict.number == 0 || (start, length) == (0, 0));
    (verdict.number, verdict.side, of[start..start + length].to_vec())
}

fn counted(yesterday: &[u8], today: &[u8]) -> (usize, usize, usize) {
    let Comparison { verdict, gone, new, kept } = compare(yesterday, today);
    assert_eq!(verdict, Verdict::done(Side::Neither));
    (gone, new, kept)
}

#[test]
fn good_listings() {
    let across =
        [&[0x21, 255, 0x23, 0, 1, 0x23, 1, 1, 0x22][..], &[0x23, 0x22, 1, 0x22], &[0x23, 255, 3, 0x22]].concat();
    let alike = [0x21, 0x21, 0x21, 0x22, 0x22, 0x21, 0x22, 0x22];
    for good in [NONE, GOOD, &[0x22], &[0x21, 255, 0x22], &alike, &across] {
        assert!(cuts_of(good).is_some(), "{good:02X?}");
        assert_eq!(shown(good, good), (0, Side::Neither, vec![]));
    }
}

#[test]
fn bad_listings() {
    let bads: &[&[u8]] = &[
        // It ends inside a record, or before a cut's end.
        &[0x21],
        &[0x21, 0],
        &[0x21, 0, 0x21],
        &[0x22, 0x21, 0],
        // A cut twice, the empty one too; anything behind the empty one.
        &[0x22, 0x22],
        &[0x21, 0, 0x22, 0x21, 0, 0x22],
        &[0x22, 0x21, 0, 0x22],
        // Members that fall or repeat.
        &[0x21, 1, 0x21, 0, 0x22],
        &[0x21, 1, 0x21, 1, 0x22],
        // A set before one that holds it; out of order.
        &[0x21, 5, 0x22, 0x21, 5, 0x21, 6, 0x22],
        &[0x21, 1, 0x22, 0x21, 0, 0x22],
        &[0x21, 0, 0x22, 0x21, 2, 0x22, 0x21, 1, 0x22],
        // Unknown kinds.
        &[0],
        &[0x20],
        &[0x24, 0, 0, 0x22],
        &[0x24, 0, 1, 0x22],
        &[0x21, 0, 0x22, 0],
        // Kind 23 with a number below 256, or above 1,023; without its bytes.
        &[0x23, 0, 0, 0x22],
        &[0x23, 255, 0, 0x22],
        &[0x21, 0, 0x23, 1, 0, 0x22],
        &[0x23, 0, 4, 0x22],
        &[0x23, 255, 255, 0x22],
        &[0x23, 0, 1],
        &[0x23, 0],
        &[0x23],
        // Members and cuts out of order by their high bytes.
        &[0x23, 1, 1, 0x23, 0, 1, 0x22],
        &[0x23, 0, 2, 0x22, 0x23, 1, 1, 0x22],
    ];
    for &bad in bads {
        assert!(cuts_of(bad).is_none(), "{bad:02X?}");
        for good in [NONE, GOOD, &[0x21, 0, 0x22]] {
            for (yesterday, today, side) in
                [(bad, good, Side::Yesterday), (good, bad, Side::Today), (bad, bad, Side::Yesterday)]
            {
                assert_eq!(shown(yesterday, today), (20, side, vec![]));
                let refused = Comparison { verdict: Verdict::refused(side), ..Comparison::default() };
                assert_eq!(compare(yesterday, today), refused);
            }
        }
    }
}

/// A difference in the first cut, a fault in the last.
#[test]
fn judged_whole() {
    assert_eq!(shown(&[0x21, 0, 0x22, 0x22], &[0x21, 1, 0x22, 0x21]), (20, Side::Today, vec![]));
    assert_eq!(shown(&[0x21, 0, 0x22, 0x21], &[0x21, 1, 0x22, 0x22]), (20, Side::Yesterday, vec![]));
    assert_eq!(shown(&[0x21, 0, 0x22, 0x21], &[0]), (20, Side::Yesterday, vec![]));
}

#[test]
fn prefixes() {
    let cuts = cuts_of(GOOD).unwrap();
    for (place, cut) in cuts.iter().enumerate() {
        let front = &GOOD[..cut.start];
        let own = GOOD[cut.start..cut.end].to_vec();
        assert_eq!(shown(front, GOOD), (0, Side::Today, own.clone()));
        assert_eq!(shown(GOOD, front), (0, Side::Yesterday, own));
        assert_eq!(counted(front, GOOD), (0, cuts.len() - place, place));
        assert_eq!(counted(GOOD, front), (cuts.len() - place, 0, place));
    }
    assert_eq!(shown(&[0x22], NONE), (0, Side::Yesterday, vec![0x22]));
    assert_eq!(shown(NONE, &[0x22]), (0, Side::Today, vec![0x22]));
}

/// The earlier in the order is the one that stands in one only, wherever the other listing has got to.
#[test]
fn by_order_and_not_by_position() {
    let (one, two, both) = (&[0x21, 1, 0x22][..], &[0x21, 2, 0x22][..], &[0x21, 1, 0x21, 2, 0x22][..]);
    assert_eq!(shown(two, &[one, two].concat()), (0, Side::Today, one.to_vec()));
    assert_eq!(shown(&[one, two].concat(), two), (0, Side::Yesterday, one.to_vec()));
    assert_eq!(shown(one, both), (0, Side::Today, both.to_vec()));
    assert_eq!(shown(both, one), (0, Side::Yesterday, both.to_vec()));
    assert_eq!(counted(one, both), (1, 1, 0));
}

#[test]
fn case_1_against_case_6() {
    let (two_ands, two_of_three) = (listing_of(&case_1()), listing_of(&case_6()));
    let cut = vec![0x21, 0, 0x21, 2, 0x22];
    assert_eq!(shown(&two_ands, &two_of_three), (0, Side::Today, cut.clone()));
    assert_eq!(first_difference(&two_ands, &two_of_three).start, 5);
    assert_eq!(shown(&two_of_three, &two_ands), (0, Side::Yesterday, cut));
    assert_eq!((counted(&two_ands, &two_of_three), counted(&two_of_three, &two_ands)), ((0, 1, 2), (1, 0, 2)));
}

#[test]
fn european_with_one_cut_taken_out() {
    let whole = listing_of(&european_1());
    let cuts = cuts_of(&whole).unwrap();
    assert_eq!(cuts.len(), 46_188);
    for place in [0, 30_000, 46_187] {
        let cut = cuts[place];
        let without = [&whole[..cut.start], &whole[cut.end..]].concat();
        assert_eq!(shown(&whole, &without), (0, Side::Yesterday, whole[cut.start..cut.end].to_vec()));
        assert_eq!(shown(&without, &whole), (0, Side::Today, whole[cut.start..cut.end].to_vec()));
        assert_eq!(first_difference(&whole, &without).start, cut.start);
        assert_eq!((counted(&whole, &without), counted(&without, &whole)), ((1, 0, 46_187), (0, 1, 46_187)));
    }
}

/// What stands in one of two sorted lists only, by going along both.
fn merged(yesterday: &[Set], today: &[Set]) -> (Vec<(Side, Set)>, usize) {
    let (mut only, mut kept, mut i, mut j) = (Vec::new(), 0, 0, 0);
    loop {
        let order = match (yesterday.get(i), today.get(j)) {
            (None, None) => return (only, kept),
            (Some(one), Some(other)) => one.order(other),
            (one, _) => {
                if one.is_some() {
                    Ordering::Less
                } else {
                    Ordering::Greater
                }
            }
        };
        match order {
            Ordering::Less => only.push((Side::Yesterday, yesterday[i])),
            Ordering::Greater => only.push((Side::Today, today[j])),
            Ordering::Equal => kept += 1,
        }
        i += usize::from(order.is_le());
        j += usize::from(order.is_ge());
    }
}

fn agrees(yesterday: &[Set], today: &[Set]) {
    let (old, new) = (bytes_of(yesterday), bytes_of(today));
    let (only, kept) = merged(yesterday, today);
    let (side, part) = only.first().map_or((Side::Neither, vec![]), |(side, set)| (*side, set.cut_bytes()));
    assert_eq!(shown(&old, &new), (0, side, part));
    let gone = only.iter().filter(|(side, _)| *side == Side::Yesterday).count();
    assert_eq!(counted(&old, &new), (gone, only.len() - gone, kept));
    assert_eq!((gone + kept, only.len() - gone + kept), (yesterday.len(), today.len()));
    assert_eq!(old == new, only.is_empty());
}

/// All families of sets of three events, against each other, the first three and those around 256; and seeded ones.
#[test]
fn two_ways_agree() {
    for first in [0, 254] {
        let mut sets: Vec<Set> = (0..8).map(|set| Set::from_number(first, set)).collect();
        sets.sort_by(Set::order);
        let family = |choice: u32| -> Vec<Set> { (0..8).filter(|i| choice >> i & 1 == 1).map(|i| sets[i]).collect() };
        for yesterday in 0..256 {
            for today in 0..256 {
                agrees(&family(yesterday), &family(today));
            }
        }
    }
    let random = &mut Random::new(5);
    for _ in 0..2_000 {
        let (yesterday, today) = (pairs::family(random), pairs::family(random));
        agrees(&yesterday, &today);
    }
}

/// Bytes are good exactly if some sets in order are written so: all bytes of four values, up to nine of them.
#[test]
fn good_exactly_if_written() {
    const VALUES: [u8; 4] = [0, 1, 0x21, 0x22];
    let chosen = |choice: usize, i: &usize| choice >> i & 1 == 1;
    let mut sets: Vec<Set> = (0..16)
        .map(|choice| (0..4).filter(|i| chosen(choice, i)).fold(Set::EMPTY, |set, i| set.with(VALUES[i].into())))
        .collect();
    sets.sort_by(Set::order);
    let written: HashSet<Vec<u8>> = (0..1 << 16)
        .map(|choice| bytes_of(&(0..16).filter(|i| chosen(choice, i)).map(|i| sets[i]).collect::<Vec<Set>>()))
        .filter(|bytes| bytes.len() <= 9)
        .collect();
    let mut good = 0;
    let mut all = vec![Vec::new()];
    while let Some(bytes) = all.pop() {
        assert_eq!(cuts_of(&bytes).is_some(), written.contains(&bytes), "{bytes:02X?}");
        good += usize::from(written.contains(&bytes));
        if bytes.len() < 9 {
            all.extend(VALUES.map(|byte| [&bytes[..], &[byte]].concat()));
        }
    }
    assert_eq!(good, written.len());
}
