//! Wrong programs, continued: counts by size, and folders.

use crate::analysis::Lengths;
use crate::lent::Lent;
use crate::library::*;
use crate::mirror::{lay_out_counts, Mirror};
use crate::sizes::*;
use crate::wrong::Wrong::{self, *};
use crate::wrong_wide::wide_counts;

/// The counts; what is too large stands as 2^64 − 1.
fn counts_of(diagram: &Lent) -> Vec<u64> {
    let mut counts: Vec<u64> = by_size(diagram).into_iter().map(|n| u64::try_from(n).unwrap_or(u64::MAX)).collect();
    counts.resize(SIZES, 0);
    counts
}

/// Whether some stored node has a count that is too large.
fn some_node_overflows(diagram: &Lent) -> bool {
    (2..diagram.node_count + 2).rev().any(|root| sizes(&Lent { root, ..diagram.clone() }, true).is_err())
}

pub fn wrong_sizes(wrong: Wrong, diagram: &Lent, mut counting: CountAreas) -> SizesAnswer {
    let before = counting.work.each_ref().map(|area| area.to_vec());
    let counts_before = counting.counts.to_vec();
    let short = !Mirror.counting_suffices(diagram.table.len(), &counting);
    let mut answer = Mirror.sizes(diagram, counting.again());
    let counts = &mut *counting.counts;
    match (wrong, answer.number) {
        (UnreachedOverflowRefuses, 0) if diagram.node_count < 700 && some_node_overflows(diagram) => answer.number = 19,
        (LargestRefused, 0) if counts_of(diagram).contains(&u64::MAX) => answer.number = 19,
        (StopsAtTheLargest, 19) => {
            lay_out_counts(Some(&counts_of(diagram)), counting);
            answer.number = 0;
        }
        (CountsStartBeforeNineteen, 19) => counts[0] = counts_of(diagram)[0],
        (EmptySetUnderOne, 0) => {
            counts[1] += counts[0];
            counts[0] = 0;
        }
        (EmptySetNotCounted, 0) => counts[0] = 0,
        (LastSizeLeftOut, 0) => counts[diagram.event_count as usize] = 0,
        (CountsStopAt256, 0) => wide_counts(wrong, &counts_before, counts),
        (ZerosBehindTheCounts, 0) => counts[SIZES..].fill(0),
        (CountingAreaLeftDirty, 0) => *counting.work[0].last_mut().expect("an area has numbers") = 1,
        (CountingAreasStayOnNineteen, 19) => {
            counting.work.iter_mut().zip(before).for_each(|(area, before)| area.copy_from_slice(&before));
        }
        (CountsNeedNotReach1024, 9) if counts.len() < SIZES && counts.len() as u64 > diagram.event_count => {
            let told = counts_of(diagram)[..counts.len()].to_vec();
            lay_out_counts(Some(&told), counting);
            answer.number = 0;
        }
        (NineBeforeTwelveOfSizes, 12) if short => answer.number = 9,
        _ => {}
    }
    answer
}

type Totals = Result<Vec<u64>, RefusedFolder>;

/// What the folder comes to in the wrong program.
fn other_totals(wrong: Wrong, bytes: &[u8], lengths: &[u64], lent: Lengths, suffice: bool) -> Totals {
    let right = folder(bytes, lengths, lent, suffice);
    let refused = right.as_ref().err().copied();
    let trees = trees_of(bytes, lengths).unwrap_or_default();
    let alone = |tree: usize| {
        let own = folder(trees[tree], &[trees[tree].len() as u64], lent, true);
        own.map_err(|refused| RefusedFolder { tree: tree as u64, ..refused })
    };
    let first = |count: usize| {
        let end = lengths[..count].iter().fold(0u64, |end, &length| end.saturating_add(length));
        let own = bytes.get(..usize::try_from(end).ok()?)?;
        Some(folder(own, &lengths[..count], lent, suffice))
    };
    match (wrong, refused.map_or(0, |refused| refused.number)) {
        (FirstSixtyFourTrees, 9) if lengths.len() > MOST_TREES => first(MOST_TREES).unwrap_or(right),
        (LengthsWrap, 9) if lengths.len() <= MOST_TREES => {
            let sum = lengths.iter().fold(0u64, |sum, &length| sum.wrapping_add(length));
            if suffice && sum == bytes.len() as u64 {
                Err(RefusedFolder::whole(1))
            } else {
                right
            }
        }
        (BytesLeftOver, 9) if lengths.len() <= MOST_TREES => first(lengths.len()).unwrap_or(right),
        (NineAfterTheTrees, 9) if !suffice => match folder(bytes, lengths, lent, true) {
            Err(refused) if refused.number < 9 => Err(refused),
            _ => right,
        },
        (TreesOwnNineteen, _) => (0..trees.len()).map(alone).find(Result::is_err).filter(|_| suffice).unwrap_or(right),
        (NineteenAtOnce, _) => (1..=trees.len()).filter_map(first).find(Result::is_err).unwrap_or(right),
        (PlaceInTheFolder, 1..=8 | 21) => right.map_err(|refused| {
            let before: u64 = lengths[..refused.tree as usize].iter().sum();
            RefusedFolder { place: refused.place + before, ..refused }
        }),
        (FolderTenWithoutAGate, 10) => right.map_err(|refused| RefusedFolder { place: 0, ..refused }),
        (TreeNotTold, _) => right.map_err(|refused| RefusedFolder { tree: 0, ..refused }),
        (LastRefusedTree, 1..=11 | 21) => {
            (0..trees.len()).rev().map(alone).find(Result::is_err).filter(|_| suffice).unwrap_or(right)
        }
        (TotalsOfTheLast, 0) if !trees.is_empty() => alone(trees.len() - 1),
        _ => right,
    }
}

pub fn wrong_folder(wrong: Wrong, bytes: &[u8], lengths: &[u64], areas: Areas, counting: CountAreas) -> FolderAnswer {
    let suffice = Mirror.counting_suffices(areas.cuts.len(), &counting);
    let totals = other_totals(wrong, bytes, lengths, Mirror.lengths(&areas), suffice);
    let refused = totals.as_ref().err().copied();
    let RefusedFolder { number, place, tree } = refused.unwrap_or(RefusedFolder::whole(0));
    let stays = refused.is_some_and(|refused| refused.leaves_memory());
    let memory_stays = match wrong {
        MemoryStaysAfterALaterTree => (1..=9).contains(&number),
        TwentyOneLeavesZero => stays && number != 21,
        FirstTreeClears => stays && (number == 9 || lengths.is_empty()),
        EmptyFolderChangesNothing => stays || lengths.is_empty(),
        _ => stays,
    };
    if wrong == CountsBeforeARefusal && tree > 0 {
        counting.counts[0] = 0;
    }
    if !memory_stays {
        areas.clear();
    }
    if !(stays || wrong == CountingAreasStayAfterALaterTree && (1..=9).contains(&number)) {
        lay_out_counts(totals.ok().as_deref(), counting);
    }
    FolderAnswer { number, place, tree }
}
