//! Wrong programs, continued: reports.

use crate::lent::Lent;
use crate::library::*;
use crate::listing::{fill, refused, Listing, Walk};
use crate::mirror::{lay_out_cuts, Mirror};
use crate::report::*;
use crate::sets::Set;
use crate::tree::{D, MOST_EVENTS};
use crate::wrong::Wrong::{self, *};

/// Families of more cuts than this are reported as they should be.
const MOST_CUTS: usize = 3_000;

pub fn is_of_reports(wrong: Wrong) -> bool {
    (EditionZeroIsOne..=ReportAreasClearedOnTwentyThree).contains(&wrong)
}

pub fn wrong_report(
    wrong: Wrong,
    diagram: &Lent,
    asked: Asked,
    room: &mut [u8],
    work: [&mut [u32]; REPORT_AREAS],
) -> ReportAnswer {
    let edition = edition_seen(wrong, asked.edition);
    let asked = Asked { edition, ..asked };
    let listing = match refusal_seen(wrong, diagram, asked, &work) {
        Some(number) => refused(number),
        None => listing_seen(wrong, diagram, asked, room.len()),
    };
    leave(wrong, listing.number, work);
    let mut answer = ReportAnswer {
        edition: if listing.number == 0 { edition as u64 } else { 0 },
        listing: lay_out_cuts(&listing, room),
    };
    match (wrong, listing.number) {
        (EditionToldInARefusal, 1..) => answer.edition = asked.edition as u64,
        (EditionNotTold, _) => answer.edition = 0,
        (EditionTwoToldAlways, 0) => answer.edition = 2,
        (ReportSevenSaysTheEvent, 7) => {
            answer.listing.place = asked.chances.iter().position(|&chance| chance > D).map_or(0, |event| event as u64);
        }
        (ZerosBehindTheReport, 0) => room[listing.bytes.len()..].fill(0),
        _ => {}
    }
    answer
}

fn edition_seen(wrong: Wrong, edition: u32) -> u32 {
    match wrong {
        EditionZeroIsOne if edition == 0 => 1,
        EditionsAboveTwoAreTwo => edition.min(2),
        EditionCutToAByte => edition & 0xFF,
        _ => edition,
    }
}

/// Every rule for itself, in the wrong program's order.
fn refusal_seen(wrong: Wrong, diagram: &Lent, asked: Asked, work: &[&mut [u32]; REPORT_AREAS]) -> Option<u32> {
    let Asked { edition, chances, after } = asked;
    let events = diagram.event_count.min(1 << 20) as usize;
    let reached = || -> Vec<u32> { diagram.reached().into_iter().map(|node| diagram.event(node)).collect() };
    let areas_suffice = match wrong {
        ShortReportAreaPasses => true,
        ReportAreasByTheCount => work.iter().all(|area| area.len() as u64 >= diagram.node_count),
        _ => Mirror.report_suffices(diagram.table.len(), work),
    };
    let broken = |number: &u32| match (number, wrong) {
        (23, _) => ![1, 2].contains(&edition),
        (12, _) => !diagram.is_diagram(),
        (9, NoChancesUnderOne) if edition == 1 => !areas_suffice,
        (9, _) => chances.len() < events || !areas_suffice,
        (7, ChancesNotJudgedUnderOne | NoChancesUnderOne) if edition == 1 => false,
        (7, ReportSevenOfAllLent) => chances.iter().any(|&chance| chance > D),
        (7, ReportSevenOfReachedEvents) => reached().into_iter().any(|event| chances[event as usize] > D),
        (7, CertainRefused) => chances.iter().take(events).any(|&chance| chance >= D),
        (7, _) => chances.iter().take(events).any(|&chance| chance > D),
        (_, ReportNoThirteen) => false,
        (_, UnreportableStartRefused) => after.is_some_and(|start| {
            start.holds_any(events as u32..MOST_EVENTS as u32) || !reportable(edition, &start, chances)
        }),
        _ => after.is_some_and(|start| start.holds_any(events.min(MOST_EVENTS) as u32..MOST_EVENTS as u32)),
    };
    let order = match wrong {
        TwelveBeforeTwentyThree => [12, 23, 9, 7, 13],
        TwentyThreeLast => [12, 9, 7, 13, 23],
        NineBeforeTwelveOfReports => [23, 9, 12, 7, 13],
        SevenBeforeNine => [23, 12, 7, 9, 13],
        ThirteenBeforeSeven => [23, 12, 9, 13, 7],
        _ => [23, 12, 9, 7, 13],
    };
    order.into_iter().find(broken)
}

/// What the wrong program takes for reportable.
fn told(wrong: Wrong, edition: u32, cut: &Set, chances: &[u32]) -> bool {
    let members = cut.members();
    let own = |event: &u32| chances[*event as usize] as u64;
    let rounded = |up: u64| members.iter().fold(D as u64, |product, event| (product * own(event) + up) / D as u64);
    let short = members.len() <= 2;
    match (wrong, edition) {
        (ThreeMembersUnderOne, _) if members.len() == 3 => true,
        (TwoMembersTooMany, 1) => members.len() < 2,
        (EditionOneHasProducts, 1) => reportable(2, cut, chances),
        (EditionTwoIsOne, 2) => short,
        (EditionTwoIsAll, 2) => true,
        (TwoInPlaceOfOne, 2) => Product::of(&members, chances).reaches_the_edge(),
        (RoundedProductDecides, 2) => short || rounded(0) >= EDGE,
        (NearestProductDecides, 2) => short || rounded(D as u64 / 2) >= EDGE,
        (FloatProductDecides, 2) => {
            short || members.iter().map(|event| own(event) as f64 / 1e9).product::<f64>() >= 1e-6
        }
        (ProductsWrap, 2) => {
            let times = |factors: &mut dyn Iterator<Item = u64>| factors.fold(1u128, |p, a| p.wrapping_mul(a as u128));
            let edge = times(&mut members.iter().map(|_| D as u64)).wrapping_mul(EDGE as u128);
            short || times(&mut members.iter().map(own)).wrapping_mul(D as u128) >= edge
        }
        (EdgeIsOut, 2) => {
            let edge = Product::one().times(EDGE as u32);
            short || !edge.at_least(&Product::of(&members, chances))
        }
        (ChancesByTheLowByte, 2) => {
            let folded: Vec<u32> = (0..chances.len()).map(|event| chances[event % 256]).collect();
            reportable(2, cut, &folded)
        }
        _ => reportable(edition, cut, chances),
    }
}

/// Which product a wrong walk takes for that of a node.
fn pruned(wrong: Wrong, diagram: &Lent, asked: Asked, room: usize) -> Option<Listing> {
    let prefers: Prefers = match wrong {
        PrunesByTheFewest => &|sound, failed| sound.members <= failed.members,
        PrunesByTheSoundBranch => &|_, _| true,
        PrunesByTheFailedBranch => &|_, _| false,
        PrunesByNumbersAlone => &|sound, failed| sound.number >= failed.number,
        _ => return None,
    };
    let Asked { edition, chances, after } = asked;
    Some(fill(reportable_cuts_by(edition, diagram, chances, after, prefers), after, room))
}

fn listing_seen(wrong: Wrong, diagram: &Lent, asked: Asked, room: usize) -> Listing {
    let Asked { edition, chances, after } = asked;
    let after = match wrong {
        UnreportableStartsAnew => after.filter(|start| reportable(edition, start, chances)),
        _ => after,
    };
    let right = || report(edition, diagram, chances, true, after, room).listing;
    if let Some(listing) = pruned(wrong, diagram, asked, room) {
        return listing;
    }
    let chances_there = chances.len() as u64 >= diagram.event_count && chances.iter().all(|&chance| chance <= D);
    let all: Vec<Set> = Walk::new(diagram, after).take(MOST_CUTS + 1).collect();
    if all.len() > MOST_CUTS {
        return if chances_there { right() } else { refused(14) };
    }
    let mut cuts: Vec<Set> = all.iter().filter(|cut| told(wrong, edition, cut, chances)).copied().collect();
    if wrong == ShortCutsFirst {
        cuts.sort_by_key(|cut| cut.members().len() > 2);
    }
    let mut listing = fill(cuts.iter().copied(), after, room);
    let behind = all.iter().filter(|cut| after.is_none() && listing.written == 0 || listing.last.order(cut).is_lt());
    let next = all.first();
    match (wrong, listing.number) {
        (FinishedOfAllCuts, 0) => listing.finished = behind.count() == 0,
        (FourteenOfTheNextCut, 0) if next.is_some_and(|cut| cut.cut_bytes().len() > room) => listing = refused(14),
        (DoneForFourteen, 14) => listing = Listing { last: after.unwrap_or(Set::EMPTY), ..refused(0) },
        (LastOfAllCuts, 0) if listing.finished => listing.last = all.last().copied().unwrap_or(listing.last),
        (ReportLastForgotten, 0) if listing.written == 0 => listing.last = Set::EMPTY,
        _ => {}
    }
    listing
}

/// What the wrong program leaves in the areas.
fn leave(wrong: Wrong, number: u32, mut work: [&mut [u32]; REPORT_AREAS]) {
    let clears = match wrong {
        ReportAreasStayOnFourteen => number == 0,
        ReportAreasClearedOnSeven => [0, 7, 14].contains(&number),
        ReportAreasClearedOnThirteen => [0, 13, 14].contains(&number),
        ReportAreasClearedOnTwentyThree => [0, 14, 23].contains(&number),
        _ => [0, 14].contains(&number),
    };
    if clears {
        work.iter_mut().for_each(|area| area.fill(0));
    }
    if wrong == ReportAreaLeftDirty && number == 0 {
        if let Some(last) = work[1].last_mut() {
            *last = 1;
        }
    }
}
