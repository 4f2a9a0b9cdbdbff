//! Wrong programs, continued: the importance of events.

use crate::bracket::bracket;
use crate::lent::Lent;
use crate::library::*;
use crate::mirror::Mirror;
use crate::tree::D;
use crate::wrong::Wrong::{self, *};
use std::cmp::Reverse;

pub fn is_of_importance(wrong: Wrong) -> bool {
    (PlainDifferenceOfUnused..=ChancesBehindJudged).contains(&wrong)
}

pub fn wrong_importance(wrong: Wrong, diagram: &Lent, chances: &[u32], mut areas: WeighAreas) -> ImportanceAnswer {
    let seen = chances_seen(wrong, diagram, chances);
    let mut answer = Mirror.importance(diagram, &seen, areas.again());
    let high = |a: &u32| *a > D;
    match (wrong, answer.number) {
        (SevenBeforeNineOfWeights, 9) if seen.iter().take(diagram.event_count as usize).any(high) => answer.number = 7,
        (ChancesBehindJudged, 0) if seen.iter().any(high) => return ImportanceAnswer { number: 7, ..answer },
        (WeighingClearsOnSeven, 7) => areas.work.into_iter().for_each(|area| area.fill(0)),
        (_, 0) => weigh_wrongly(wrong, diagram, &seen, areas),
        _ => {}
    }
    answer
}

/// The chances that are looked at.
fn chances_seen(wrong: Wrong, diagram: &Lent, chances: &[u32]) -> Vec<u32> {
    let mut seen = chances.to_vec();
    if wrong == ChancesOfNodesJudged && diagram.is_diagram() {
        let events: Vec<u32> = diagram.reached().into_iter().map(|node| diagram.event(node)).collect();
        let nowhere = |event: usize| !events.contains(&(event as u32));
        seen.iter_mut().enumerate().filter(|(event, _)| nowhere(*event)).for_each(|(_, chance)| *chance = 0);
    }
    seen
}

fn weigh_wrongly(wrong: Wrong, diagram: &Lent, chances: &[u32], areas: WeighAreas) {
    let WeighAreas { lows, highs, rank, work } = areas;
    let events = diagram.event_count as usize;
    let with = |event: usize, chance: u32| {
        let mut chances = chances.to_vec();
        chances[event] = chance;
        bracket(diagram, &chances, true)
    };
    let ends = |event: usize| (with(event, D), with(event, 0));
    let standing: Vec<u32> = diagram.reached().into_iter().map(|node| diagram.event(node)).collect();
    let stands = |event: usize| standing.contains(&(event as u32));
    let stored = |event: usize| (0..diagram.node_count as u32).any(|node| diagram.event(node + 2) as usize == event);
    for event in 0..events {
        let (failed, sound) = match wrong {
            PlainDifferenceOfUnused if !stands(event) => ends(event),
            UnreachedStand if stored(event) => ends(event),
            LowLessLow | HighLessHigh | AbsoluteDifference | LowNotCutOff if stands(event) => ends(event),
            _ => continue,
        };
        let plain = (failed.low.saturating_sub(sound.high), failed.high.saturating_sub(sound.low));
        (lows[event], highs[event]) = match wrong {
            LowLessLow => (failed.low.saturating_sub(sound.low), plain.1),
            HighLessHigh => (plain.0, failed.high.saturating_sub(sound.high)),
            AbsoluteDifference if failed.high < sound.low => (sound.low - failed.high, sound.high - failed.low),
            LowNotCutOff => (failed.low.wrapping_sub(sound.high), plain.1),
            _ => plain,
        };
    }
    let low = |event: &u32| lows[*event as usize];
    let own = &mut rank[..events];
    match wrong {
        TiesToTheHigher => own.sort_by_key(|event| (Reverse(low(event)), Reverse(*event))),
        RankedByHigh => own.sort_by_key(|event| (Reverse(highs[*event as usize]), *event)),
        RankedFromTheLeast => own.sort_by_key(|event| (low(event), *event)),
        PlacesForTheRank => {
            let places = own.to_vec();
            places.iter().enumerate().for_each(|(place, &event)| own[event as usize] = place as u32);
        }
        UnusedLeftOut => {
            let used: Vec<u32> = own.iter().copied().filter(|&event| stands(event as usize)).collect();
            own.fill(0);
            own[..used.len()].copy_from_slice(&used);
        }
        ZerosBehindTheRank => rank[events..].fill(0),
        ZerosBehindTheLows => lows[events..].fill(0),
        WeighingAreaLeftDirty => work[2].fill(1),
        _ => {}
    }
}
