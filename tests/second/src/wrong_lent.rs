//! Wrong programs, continued: listing, bracket, and the judgement of lent diagrams.

use crate::lent::{Lent, Sort};
use crate::library::*;
use crate::listing::Walk;
use crate::mirror::Mirror;
use crate::sets::{Set, LONGEST_CUT};
use crate::tree::D;
use crate::wrong::Wrong::{self, *};
use crate::wrong_wide::refuses_count;

/// What the wrong program takes the diagram for; `None` if it refuses it.
fn seen(wrong: Wrong, diagram: &Lent) -> Option<Lent> {
    let nodes = diagram.table.chunks_exact(3).take(diagram.node_count.min(1 << 20) as usize);
    match wrong {
        _ if refuses_count(wrong, diagram) => None,
        JudgesReachedNodesOnly if !diagram.is_diagram() => Some(without_unreached(diagram)),
        RefusesEqualNodes => {
            let mut met = Vec::new();
            for node in nodes {
                if met.contains(&node) {
                    return None;
                }
                met.push(node);
            }
            Some(diagram.clone())
        }
        RefusesEqualBranchesOfCuts if diagram.sort == Sort::Cuts => {
            nodes.into_iter().all(|node| node[1] != node[2]).then(|| diagram.clone())
        }
        _ => Some(diagram.clone()),
    }
}

/// Every node that the root doesn't reach becomes a harmless one.
fn without_unreached(diagram: &Lent) -> Lent {
    let mut mended = diagram.clone();
    let count = diagram.node_count.min(diagram.table.len() as u64 / 3) as usize;
    let mut marked = vec![false; count + 2];
    if let Some(mark) = marked.get_mut(diagram.root as usize) {
        *mark = true;
    }
    for node in (2..count + 2).rev() {
        let triple = &diagram.table[3 * (node - 2)..3 * (node - 1)];
        for &branch in &triple[1..] {
            if marked[node] && (branch as usize) < node {
                marked[branch as usize] = true;
            }
        }
        if !marked[node] {
            mended.table[3 * (node - 2)..3 * (node - 1)].copy_from_slice(&[0, 1, 0]);
        }
    }
    mended
}

pub fn wrong_list(wrong: Wrong, diagram: &Lent, after: Option<Set>, room: &mut [u8]) -> ListAnswer {
    let refused = |number| ListAnswer { number, place: 0, written: 0, used: 0, last: Set::EMPTY, finished: false };
    let Some(diagram) = &seen(wrong, diagram) else { return refused(12) };
    let good = diagram.is_diagram();
    let after = match wrong {
        NoCutStartsAtBeginning if good => {
            after.filter(|start| Walk::new(diagram, None).take(1_000).any(|cut| cut == *start))
        }
        BeginningIsAfterEmpty => after.or(Some(Set::EMPTY)),
        NoThirteen if good => after.map(|start| {
            start.members().into_iter().filter(|&e| (e as u64) < diagram.event_count).fold(Set::EMPTY, Set::with)
        }),
        _ => after,
    };
    let room_length = room.len();
    let mut answer = Mirror.list(diagram, after, room);
    if answer.number != 0 {
        if wrong == ThirteenSaysTheEvent && answer.number == 13 {
            answer.place = diagram.event_count;
        }
        if wrong == SkipsWhatDoesNotFit && answer.number == 14 {
            return other_list(diagram, after, room, false);
        }
        return answer;
    }
    match wrong {
        FinishedAfterFirstRoom => answer.finished = true,
        FinishedIfRoomIsLeft => answer.finished = (answer.used as usize) < room_length,
        FourteenBelowTheLongest if room_length < LONGEST_CUT => return refused(14),
        WritesNothing => answer = ListAnswer { written: 0, used: 0, finished: true, ..answer },
        LastSetForgotten if answer.written == 0 => answer.last = Set::EMPTY,
        BySize => return other_list(diagram, after, room, true),
        ZerosBehindTheCuts => room[answer.used as usize..].fill(0),
        _ => {}
    }
    answer
}

/// Cuts by size, or cuts skipped where they don't fit.
fn other_list(diagram: &Lent, after: Option<Set>, room: &mut [u8], by_size: bool) -> ListAnswer {
    let mut cuts: Vec<Set> = Walk::new(diagram, after).take(1_000).collect();
    if by_size {
        cuts.sort_by_key(|cut| cut.members().len());
    }
    let mut answer =
        ListAnswer { number: 0, place: 0, written: 0, used: 0, last: after.unwrap_or(Set::EMPTY), finished: true };
    for cut in cuts {
        let bytes = cut.cut_bytes();
        let used = answer.used as usize;
        if used + bytes.len() > room.len() {
            answer.finished = false;
            continue;
        }
        room[used..used + bytes.len()].copy_from_slice(&bytes);
        answer.used += bytes.len() as u64;
        answer.written += 1;
        answer.last = cut;
    }
    answer
}

pub fn wrong_bracket(wrong: Wrong, diagram: &Lent, chances: &[u32], work: [&mut [u32]; 2]) -> BracketAnswer {
    let Some(diagram) = &seen(wrong, diagram) else { return BracketAnswer { number: 12, place: 0, low: 0, high: 0 } };
    let [low_area, high_area] = work;
    let mut answer = Mirror.bracket(diagram, chances, [&mut *low_area, &mut *high_area]);
    match (wrong, answer.number) {
        (ZeroToOne, 0) => (answer.low, answer.high) = (0, D),
        (LowTwice, 0) => answer.high = answer.low,
        (RoundsToNearest, 0) => {
            let near = nearest(diagram, chances);
            (answer.low, answer.high) = (near, near);
        }
        (AreasDirtyBehind, 0) => *high_area.last_mut().expect("an area has numbers") = 7,
        (SevenOnlyForNodes, 7) => {
            let mut mended = chances.to_vec();
            let events: Vec<u32> = diagram.reached().into_iter().map(|node| diagram.event(node)).collect();
            for (event, chance) in mended.iter_mut().enumerate() {
                if !events.contains(&(event as u32)) {
                    *chance = 0;
                }
            }
            answer = Mirror.bracket(diagram, &mended, [low_area, high_area]);
        }
        (SevenSaysTheEvent, 7) => answer.place = chances.iter().position(|&a| a > D).map_or(0, |event| event as u64),
        (NineBeforeTwelve, 12) if (chances.len() as u64) < diagram.event_count => answer.number = 9,
        _ => {}
    }
    answer
}

fn nearest(diagram: &Lent, chances: &[u32]) -> u32 {
    let d = D as u64;
    let mut near = vec![0, d];
    for node in 2..diagram.node_count as u32 + 2 {
        let a = chances[diagram.event(node) as usize] as u64;
        let (failed, sound) = (near[diagram.failed(node) as usize], near[diagram.sound(node) as usize]);
        near.push((a * failed + (d - a) * sound + d / 2) / d);
    }
    near[diagram.root as usize] as u32
}
