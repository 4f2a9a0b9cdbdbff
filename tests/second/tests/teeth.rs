//! The comparison itself: it passes the mirror, and it sees every wrong program.

use second::compare::compare_input;
use second::compare_added::compare_added;
use second::compare_decisions::compare_decided;
use second::compare_importance::compare_weights;
use second::compare_large::compare_twins;
use second::compare_plans::compare_maintenance;
use second::compare_reports::compare_reviews;
use second::compare_seasons::compare_seasons;
use second::compare_sites::compare_sites;
use second::compare_wide::compare_wide;
use second::library::Library;
use second::mirror::Mirror;
use second::random::Random;
use second::tally::Tally;
use second::wrong::{Wrong, WrongProgram, ALL};
use second::wrong_decisions::is_of_decisions;
use second::wrong_importance::is_of_importance;
use second::wrong_plans::is_of_plans;
use second::wrong_report::is_of_reports;
use second::wrong_seasons::is_of_seasons;

fn tally(library: &dyn Library, inputs: u64) -> Tally {
    let mut tally = Tally::default();
    for seed in 0..inputs {
        compare_input(library, seed, &mut tally);
        if tally.failed > 0 {
            break;
        }
    }
    tally
}

#[test]
fn the_mirror_passes() {
    let tally = tally(&Mirror, 6_000);
    assert_eq!(tally.failed, 0, "{}", tally.first_difference.unwrap_or_default());
    assert!(tally.passed > 30_000, "{}", tally.line());
    let numbers = |call| -> Vec<u32> { tally.due.keys().filter(|due| due.0 == call).map(|due| due.1).collect() };
    assert_eq!(numbers("read"), [0, 1, 2, 3, 4, 5, 6, 7, 8, 21]);
    assert_eq!(numbers("write"), [0, 2, 4, 5, 6, 7, 8, 9, 22]);
    assert_eq!(numbers("to sites"), [0, 1, 2, 3, 4, 5, 6, 7, 8, 9, 21]);
    assert_eq!(numbers("from sites"), [0, 1, 2, 3, 4, 5, 6, 7, 8, 9, 21, 22]);
    assert_eq!(numbers("analyse"), [0, 1, 2, 3, 4, 5, 6, 7, 8, 9, 10, 11, 21]);
    assert_eq!(numbers("season"), [0, 1, 2, 3, 4, 5, 6, 7, 8, 9, 10, 11, 13, 21, 24]);
    assert_eq!(numbers("chances"), [0, 9, 13, 24]);
    assert_eq!(numbers("list"), [0, 12, 13, 14]);
    assert_eq!(numbers("report"), [0, 7, 9, 12, 13, 14, 23]);
    assert_eq!(numbers("bracket"), [0, 7, 9, 12]);
    assert_eq!(numbers("importance"), [0, 7, 9, 12]);
    assert_eq!(numbers("import"), [0, 4, 5, 7, 9, 15, 16, 17, 18]);
    assert_eq!(numbers("export"), [0, 2, 4, 5, 6, 7, 8, 9]);
    assert_eq!(numbers("sizes"), [0, 9, 12, 19]);
    assert_eq!(numbers("folder"), [0, 1, 2, 3, 4, 5, 6, 7, 8, 9, 10, 11, 19, 21]);
    assert_eq!(numbers("first missing"), [0, 9, 12, 13]);
    assert_eq!(numbers("holding"), [0, 9, 12, 13, 19]);
    assert_eq!(numbers("check"), [0, 9, 12, 13]);
    assert_eq!(numbers("plan"), [0, 9, 12, 19]);
    assert_eq!(numbers("decides"), [0, 13, 20]);
    for call in ["side", "first difference", "compare"] {
        assert_eq!(numbers(call), [0, 20]);
    }
}

/// The cases of a request by themselves: the mirror passes, and each of these wrong programs is seen.
fn told_apart(compare: fn(&dyn Library, &mut Random, &mut Tally), wrongs: &[Wrong]) {
    let tally = |library: &dyn Library| {
        let mut tally = Tally::default();
        compare(library, &mut Random::new(0), &mut tally);
        tally
    };
    let right = tally(&Mirror);
    assert_eq!(right.failed, 0, "{}", right.first_difference.unwrap_or_default());
    let passing: Vec<&Wrong> = wrongs.iter().filter(|&&wrong| tally(&WrongProgram(wrong)).failed == 0).collect();
    assert!(passing.is_empty(), "{passing:?} pass");
}

/// Every wrong program about twins, but those that write trees in memory.
#[test]
fn twins_are_told_apart() {
    told_apart(
        compare_twins,
        &[
            Wrong::ZeroAtOnce,
            Wrong::FiveAtOnce,
            Wrong::FiveAtTheLastInput,
            Wrong::FiveAfterTheNextRecord,
            Wrong::FiveOfAllInputs,
            Wrong::FiveByNumbersAlone,
            Wrong::TwinsDroppedFromJoins,
            Wrong::DoublesCountedTwice,
            Wrong::DistinctByNode,
            Wrong::DistinctByNumbersAlone,
            Wrong::DistinctAtTheLastPlaces,
            Wrong::ImportsFiveOfAllInputs,
        ],
    );
}

/// Every wrong program about added nodes, but that of a folder.
#[test]
fn added_nodes_are_told_apart() {
    told_apart(
        compare_added,
        &[
            Wrong::EventsWithTheFirstGate,
            Wrong::EventsNotCounted,
            Wrong::ReachedForAdded,
            Wrong::NeededForAdded,
            Wrong::DirtBehindTheAdded,
            Wrong::AddedStayOnTen,
            Wrong::AddedStayOnEleven,
            Wrong::AddedClearedBeforeNine,
            Wrong::ShortAddedPasses,
            Wrong::TenWithoutAGate,
            Wrong::EventsBuiltFirst,
            Wrong::PlaceOneGateLate,
            Wrong::PlaceOfTheLastThatFits,
            Wrong::TenSaysTheRecord,
            Wrong::ElevenSaysAGate,
        ],
    );
}

/// Every wrong program about wide events, but those that compare listings, import, count or bracket.
#[test]
fn wide_events_are_told_apart() {
    told_apart(
        compare_wide,
        &[
            Wrong::NarrowPasses,
            Wrong::TwentyOneAfterSix,
            Wrong::TwentyOneBeforeThree,
            Wrong::WideInputsHighByteFirst,
            Wrong::FourAtTheOldLimit,
            Wrong::GatesFrom256,
            Wrong::WideInputsThroughout,
            Wrong::InputsCutToAByte,
            Wrong::WideMembersThroughout,
            Wrong::MembersCutToAByte,
            Wrong::MembersHighByteFirst,
            Wrong::HighWordsNotCompared,
            Wrong::LastWithoutHighWords,
            Wrong::LongCutsOverrun,
            Wrong::ThreeBytesForEach,
            Wrong::TwelveAbove256,
        ],
    );
}

/// Every wrong program about sites, but the one that imports.
#[test]
fn sites_are_told_apart() {
    told_apart(
        compare_sites,
        &[
            Wrong::FormGuessedFromTheSites,
            Wrong::KindElevenUnknown,
            Wrong::MixturePasses,
            Wrong::MixtureAfterFour,
            Wrong::MixtureAfterSeven,
            Wrong::MixtureBeforeOne,
            Wrong::MixtureAtTheFirstEvent,
            Wrong::SitesHighByteFirst,
            Wrong::SiteBeforeTheChance,
            Wrong::SitesNotRead,
            Wrong::EveryEventHasFiveBytes,
            Wrong::FormWrittenBySites,
            Wrong::LostSitesPass,
            Wrong::WritesTwentyTwoBeforeEight,
            Wrong::TwentyTwoOfSitesBehind,
            Wrong::WritesNineBeforeTwentyTwo,
            Wrong::WritesUntilTwentyTwo,
            Wrong::WritesPlaceOfTheLastSite,
            Wrong::WritesPlaceOfSevenBytes,
            Wrong::MovedTreesRefused,
            Wrong::ZerosBehindTheMoved,
            Wrong::MovesUntilFull,
            Wrong::MovesIntoEitherForm,
            Wrong::MovesRoomBeforeTheTree,
            Wrong::SitesSetToZero,
            Wrong::BackDropsSites,
            Wrong::BackDropsHighSites,
            Wrong::BackRefusesTheNewForm,
            Wrong::BackNineBeforeTwentyTwo,
            Wrong::BackWritesUntilTwentyTwo,
            Wrong::BackClearsOnTwentyTwo,
            Wrong::BackPlaceOfTheLastSite,
            Wrong::BackPlaceOfFiveBytes,
            Wrong::BackSaysTheEvent,
            Wrong::BackTwentyTwoBeforeEight,
            Wrong::SitesNotAnalysed,
            Wrong::ExportRefusesSites,
            Wrong::ExportRefusesLostSites,
            Wrong::ExportsThePlaceOfTheOldForm,
        ],
    );
}

/// Every wrong program about reports, but those that only memory of other lengths or contents tells.
#[test]
fn reports_are_told_apart() {
    let by_seeds = [Wrong::ShortReportAreaPasses, Wrong::ReportAreasByTheCount];
    let own: Vec<Wrong> = ALL.iter().copied().filter(|&wrong| is_of_reports(wrong)).collect();
    assert_eq!(own.len(), 50);
    let seen: Vec<Wrong> = own.into_iter().filter(|wrong| !by_seeds.contains(wrong)).collect();
    told_apart(compare_reviews, &seen);
}

/// Every wrong program about seasons.
#[test]
fn seasons_are_told_apart() {
    let own: Vec<Wrong> = ALL.iter().copied().filter(|&wrong| is_of_seasons(wrong)).collect();
    assert_eq!(own.len(), 62);
    told_apart(compare_seasons, &own);
}

/// Every wrong program about the planner.
#[test]
fn plans_are_told_apart() {
    let own: Vec<Wrong> = ALL.iter().copied().filter(|&wrong| is_of_plans(wrong)).collect();
    assert_eq!(own.len(), 53);
    told_apart(compare_maintenance, &own);
}

/// Every wrong program about the importance of events.
#[test]
fn importances_are_told_apart() {
    let own: Vec<Wrong> = ALL.iter().copied().filter(|&wrong| is_of_importance(wrong)).collect();
    assert_eq!(own.len(), 18);
    told_apart(compare_weights, &own);
}

/// Every wrong program about decisions by the list alone.
#[test]
fn decisions_are_told_apart() {
    let own: Vec<Wrong> = ALL.iter().copied().filter(|&wrong| is_of_decisions(wrong)).collect();
    assert_eq!(own.len(), 42);
    told_apart(compare_decided, &own);
}

#[test]
fn wrong_programs_are_seen() {
    for &wrong in ALL {
        let tally = tally(&WrongProgram(wrong), 20_000);
        assert!(tally.failed > 0, "{wrong:?} passes");
        println!("{wrong:?}: seed {}", tally.seed);
    }
}
