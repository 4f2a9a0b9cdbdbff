//! Request 9 in figures: editions, chances around the edge of edition 2, and families whose reports are written out.

use crate::families::{of_sets, one_set, pairs_and_one};
use crate::generator;
use crate::lent::Lent;
use crate::random::Random;
use crate::sets::Set;
use crate::tree::D;

/// Four chances whose product is 10^30 − 1 of 10^36: just below 1,000 billionths, and no float tells.
pub const JUST_BELOW: [u32; 4] = [787_569_631, 805_471_691, 758_239_261, 2_079];
/// 10^30 + 1: just above.
pub const JUST_ABOVE: [u32; 4] = [39_526_741, 423_079_001, 276_841_861, 216_001];

/// Of 1,024 equal chances the least whose product reaches the edge; 355 of them may be one less, 356 may not.
pub const LEAST_OF_1024: u32 = 986_598_896;
pub const ONE_LESS_OF_1024: usize = 355;

/// Mostly one of the two editions; else a number that a narrower type might take for one.
pub fn edition(random: &mut Random) -> u32 {
    match random.below(10) {
        0 => random.of(&[0, 3, 4, 255, 256, 257, 258, 65_537, 65_538, 1 << 31, u32::MAX]),
        1..=3 => 1,
        _ => 2,
    }
}

/// So many chances, one at least, whose product is exactly 1,000 billionths.
pub fn at_the_edge(random: &mut Random, count: usize) -> Vec<u32> {
    let mut chances = vec![D; count];
    for _ in 0..6 {
        chances[random.below(count)] /= 10;
    }
    for _ in 0..(4 * count).min(40) {
        // Four fifths of one, five fourths of another.
        let (one, other) = (random.below(count), random.below(count));
        if one != other && chances[one] % 5 == 0 && chances[other] % 4 == 0 && chances[other] / 4 <= D / 5 {
            chances[one] = chances[one] / 5 * 4;
            chances[other] = chances[other] / 4 * 5;
        }
    }
    chances
}

/// For each event one: of any kind, or such that a cut is at the edge, or just beside it.
pub fn chances(random: &mut Random, events: usize, cuts: &[Set]) -> Vec<u32> {
    let some = [0, 1, 999, 1_000, 1_001, 9_999_999, 10_000_000, 31_622_776, 31_622_777, D / 2, D - 1, D];
    let mut chances: Vec<u32> = match random.below(4) {
        0 => generator::chances(random, events),
        1 => (0..events).map(|_| random.of(&some)).collect(),
        _ => (0..events).map(|_| if random.once_in(4) { random.of(&some) } else { D }).collect(),
    };
    let long: Vec<Set> = cuts.iter().filter(|cut| cut.members().len() > 2).copied().collect();
    if long.is_empty() || random.once_in(4) {
        return chances;
    }
    let members = random.of(&long).members();
    let mut own = match random.below(6) {
        0 => [JUST_BELOW, JUST_ABOVE][random.below(2)].to_vec(),
        _ => at_the_edge(random, members.len()),
    };
    own.truncate(members.len());
    own.resize(members.len(), D);
    let place = random.below(own.len());
    match random.below(4) {
        0 => own[place] -= 1,
        1 if own[place] < D => own[place] += 1,
        _ => {}
    }
    for (event, chance) in members.into_iter().zip(own) {
        chances[event as usize] = chance;
    }
    chances
}

/// A family, chances, and what is reported under either edition.
pub struct Known {
    pub what: &'static str,
    pub family: Lent,
    pub chances: Vec<u32>,
    pub reports: [Vec<Set>; 2],
}

fn known(what: &'static str, family: Lent, chances: &[u32], one: &[Set], two: &[Set]) -> Known {
    Known { what, family, chances: chances.to_vec(), reports: [one.to_vec(), two.to_vec()] }
}

/// The one cut of all events, reported under edition 2 or not.
fn whole(what: &'static str, chances: &[u32], told: bool) -> Known {
    let events = chances.len() as u32;
    let cut = Set::of(&(0..events).collect::<Vec<u32>>());
    known(what, one_set(events), chances, &[], &[cut][..usize::from(told)])
}

fn at_edges() -> Vec<Known> {
    const TEN_MILLIONS: u32 = 10_000_000;
    let mut all = vec![
        whole("three chances of 10,000,000", &[TEN_MILLIONS; 3], true),
        whole("10^30 - 1", &JUST_BELOW, false),
        whole("10^30 + 1", &JUST_ABOVE, true),
        whole(
            "1,000.4, of which 999.5 is left where each product is rounded down",
            &[1_000_900, 1_000_000, 999_500_000],
            true,
        ),
        whole("999.6, rounded up or to the nearest 1,000", &[999_600, 1_000_000, D], false),
        whole("the greatest product", &[D; 5], true),
        whole("a chance of 0", &[D, 0, D], false),
    ];
    for place in 0..3 {
        let mut chances = [TEN_MILLIONS; 3];
        chances[place] -= 1;
        all.push(whole("one of 9,999,999", &chances, false));
        let mut chances = [D; 3];
        chances[place] = 1_000;
        all.push(whole("one of 1,000", &chances, true));
        chances[place] -= 1;
        all.push(whole("one of 999", &chances, false));
    }
    all
}

/// Cuts of 1,024 members, just above and just below the edge.
pub fn longest() -> [Known; 2] {
    [(ONE_LESS_OF_1024, true), (ONE_LESS_OF_1024 + 1, false)].map(|(one_less, told)| {
        let mut chances = [LEAST_OF_1024; 1_024];
        chances[1_024 - one_less..].fill(LEAST_OF_1024 - 1);
        whole("1,024 members at the edge", &chances, told)
    })
}

/// 60 pairs and what comes behind. Of each pair the events have the chances that the pair's number gives.
fn of_pairs(what: &'static str, more: Option<u32>, chances: impl Fn(u32) -> [u32; 2], two: &[Set]) -> Known {
    let own = (0..PAIRS).flat_map(chances).chain(vec![0; more.unwrap_or(0) as usize]).collect::<Vec<u32>>();
    let behind: Vec<u32> = (2 * PAIRS..own.len() as u32).collect();
    let last: Vec<Set> = more.filter(|&more| more <= 2).map(|_| Set::of(&behind)).into_iter().collect();
    known(what, pairs_and_one(PAIRS, more), &own, &last, &[two, &last].concat())
}

const PAIRS: u32 = 60;

/// 2^60 cuts that are not reportable but for one, or for that too, and a cut behind them.
fn at_once() -> Vec<Known> {
    let below = |pair: u32| JUST_BELOW.get(pair as usize).copied().unwrap_or(D);
    let edge = |pair: u32| if pair % 10 == 3 { D / 10 } else { D };
    // The first of each pair, the second of each, and now the one, now the other.
    let choices: [fn(u32) -> u32; 3] = [|_| 0, |_| 1, |pair| pair / 7 % 2];
    let mut all = vec![
        of_pairs("2^60 cuts far below the edge, then one of two members", Some(2), |_| [D / 2; 2], &[]),
        of_pairs("2^60 cuts just below the edge, then one of two members", Some(2), |pair| [below(pair); 2], &[]),
        of_pairs("2^60 cuts just below the edge, then the empty cut", Some(0), |pair| [below(pair); 2], &[]),
        of_pairs("2^60 cuts just below the edge, then one of three members", Some(3), |pair| [below(pair); 2], &[]),
        of_pairs("2^60 cuts just below the edge", None, |pair| [below(pair); 2], &[]),
    ];
    for choice in choices {
        let cut = Set::of(&(0..PAIRS).map(|pair| 2 * pair + choice(pair)).collect::<Vec<u32>>());
        let chances = |pair: u32| {
            let mut both = [edge(pair) - 1; 2];
            both[choice(pair) as usize] = edge(pair);
            both
        };
        all.push(of_pairs("2^60 cuts, one of them at the edge", None, chances, &[cut]));
        all.push(of_pairs("2^60 cuts, one of them at the edge, then one of two members", Some(2), chances, &[cut]));
    }
    all
}

/// Cuts of few members, whose chances do not matter; and some of each kind.
fn small_ones() -> Vec<Known> {
    let set = Set::of;
    let nested = [set(&[0, 1, 2]), set(&[0, 1]), set(&[])];
    let mixed = [set(&[0, 1, 2]), set(&[1, 2, 3, 4]), set(&[2, 5]), set(&[3, 4, 5])];
    let low = [1, D, D, D, D, 500];
    let leaf = |root| Lent { root, ..one_set(3) };
    vec![
        known("sets inside one another, impossible ones", of_sets(3, &nested), &[0; 3], &nested[1..], &nested[1..]),
        known("the same, certain ones", of_sets(3, &nested), &[D; 3], &nested[1..], &nested),
        known("no cut", leaf(0), &[D; 3], &[], &[]),
        known("the empty cut", leaf(1), &[0; 3], &[Set::EMPTY], &[Set::EMPTY]),
        known("short and long, likely and not", of_sets(6, &mixed), &low, &mixed[2..3], &mixed[1..3]),
    ]
}

pub fn all_known() -> Vec<Known> {
    [at_edges(), small_ones(), at_once()].into_iter().flatten().collect()
}

/// The next cut is not reportable and would fit into a room of seven or eight bytes; the next reportable one has nine.
pub fn fourteen() -> (Lent, Vec<u32>) {
    (of_sets(5, &[Set::of(&[0, 1, 2]), Set::of(&[1, 2, 3, 4])]), vec![1, D, D, D, D])
}
