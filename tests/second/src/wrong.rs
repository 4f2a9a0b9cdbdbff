//! Wrong programs: the mirror with one fault each. The comparison must see every one of them.

use crate::analysis::{analyse_tree, Lengths};
use crate::changes::{Comparison, Difference, Verdict};
use crate::cut_diagram::CutDiagram;
use crate::equations::LISTS;
use crate::importance::WEIGH_AREAS;
use crate::judge::{read, write};
use crate::lent::Lent;
use crate::library::*;
use crate::mirror::{lay_out_analysis, Mirror};
use crate::planner::HOLDING_AREAS;
use crate::report::REPORT_AREAS;
use crate::robdd::{Robdd, Steps};
use crate::sets::Set;
use crate::settings::Season;
use crate::sizes::COUNT_AREAS;
use crate::tree::*;
use crate::wrong_added::wrong_added;
use crate::wrong_changes::{wrong_compare, wrong_difference, wrong_side};
use crate::wrong_decisions::{is_of_decisions, wrong_decision};
use crate::wrong_equations::{wrong_export, wrong_import};
use crate::wrong_importance::{is_of_importance, wrong_importance};
use crate::wrong_lent::{wrong_bracket, wrong_list};
use crate::wrong_plans::*;
use crate::wrong_report::{is_of_reports, wrong_report};
use crate::wrong_seasons::{is_of_seasons, wrong_chances, wrong_season};
use crate::wrong_sites::*;
use crate::wrong_sizes::{wrong_folder, wrong_sizes};
use crate::wrong_steps::{other_steps, sort_inputs};
use crate::wrong_twins::{counted, wrong_read, wrong_write};
use crate::wrong_wide::{wide_list, wide_read, wide_write};

// One name for each fault, and the list of them all.
macro_rules! wrongs {
    ($($name:ident),* $(,)?) => {
        #[derive(Clone, Copy, Debug, PartialEq, Eq, PartialOrd)]
        pub enum Wrong { $($name),* }
        pub const ALL: &[Wrong] = &[$(Wrong::$name),*];
    };
}

wrongs! {
    // Reading.
    PlaceAlwaysZero,
    TrailingBytesAsRecords,
    InputsSorted,
    UnusedGateAccepted,
    TotalJudgedAtTheInput,
    ZeroAtOnce,
    FiveAtOnce,
    FiveAtTheLastInput,
    FiveAfterTheNextRecord,
    FiveOfAllInputs,
    FiveByNumbersAlone,
    TwinsDroppedFromJoins,
    NarrowPasses,
    TwentyOneAfterSix,
    TwentyOneBeforeThree,
    WideInputsHighByteFirst,
    FourAtTheOldLimit,
    GatesFrom256,
    FormGuessedFromTheSites,
    KindElevenUnknown,
    MixturePasses,
    MixtureAfterFour,
    MixtureAfterSeven,
    MixtureBeforeOne,
    MixtureAtTheFirstEvent,
    SitesHighByteFirst,
    SiteBeforeTheChance,
    SitesNotRead,
    EveryEventHasFiveBytes,
    // Writing.
    WritesUntilFull,
    ZerosBehindTheTree,
    RoomBeforeTheTree,
    UseNotJudgedOnWriting,
    WritesFiveAtOnce,
    WritesFiveOfAllInputs,
    WideInputsThroughout,
    InputsCutToAByte,
    FormWrittenBySites,
    LostSitesPass,
    WritesTwentyTwoBeforeEight,
    TwentyTwoOfSitesBehind,
    WritesNineBeforeTwentyTwo,
    WritesUntilTwentyTwo,
    WritesPlaceOfTheLastSite,
    WritesPlaceOfSevenBytes,
    // Moves.
    MovedTreesRefused,
    ZerosBehindTheMoved,
    MovesUntilFull,
    MovesIntoEitherForm,
    MovesRoomBeforeTheTree,
    SitesSetToZero,
    BackDropsSites,
    BackDropsHighSites,
    BackRefusesTheNewForm,
    BackNineBeforeTwentyTwo,
    BackWritesUntilTwentyTwo,
    BackClearsOnTwentyTwo,
    BackPlaceOfTheLastSite,
    BackPlaceOfFiveBytes,
    BackSaysTheEvent,
    BackTwentyTwoBeforeEight,
    // Analysis.
    SafeBound,
    OrForAtLeastOne,
    JoinsFromTheRight,
    CountsReachedCutNodes,
    NodesStayOnEleven,
    DirtBehindTheNodes,
    ClearsBeforeNine,
    TwentyOneLeavesZero,
    OneNodeForAllGates,
    AreaLeftDirty,
    CountKeptInRefusal,
    FirstGateIsRoot,
    SitesNotAnalysed,
    DoublesCountedTwice,
    DistinctByNode,
    DistinctByNumbersAlone,
    DistinctAtTheLastPlaces,
    // What each gate adds.
    EventsWithTheFirstGate,
    EventsNotCounted,
    ReachedForAdded,
    NeededForAdded,
    DirtBehindTheAdded,
    AddedStayOnTen,
    AddedStayOnEleven,
    AddedClearedBeforeNine,
    ShortAddedPasses,
    TenWithoutAGate,
    EventsBuiltFirst,
    PlaceOneGateLate,
    PlaceOfTheLastThatFits,
    TenSaysTheRecord,
    ElevenSaysAGate,
    // Seasons: the store.
    TornEndAccepted,
    TornEndDropped,
    OtherKindsPass,
    KindIsDecimal,
    OtherKindsSkipped,
    StatesAboveTwoAreSound,
    StatesByTheLowBits,
    EditionsMayFall,
    EditionsMustRise,
    FallsOfOneEventOnly,
    FallsBelowTheFirstOnly,
    EventsNotJudged,
    EventsUpTo1024,
    EventsOneTooMany,
    EventsByTheLowByte,
    EventsHighByteFirst,
    EditionsByTheLowByte,
    EditionsHighByteFirst,
    ThirteenBeforeTwentyFour,
    TwentyFourOfAllFirst,
    LastFaultDecides,
    AboveNotJudged,
    AboveEndsTheJudging,
    ThirteenOfAboveNotJudged,
    FreeEventsNotJudged,
    TwentyFourForThirteen,
    StorePlaceZero,
    StorePlaceByRecord,
    StorePlaceOfTheByte,
    StorePlaceBehindTheTree,
    StoreBeforeTheTree,
    StoreBeforeEight,
    NineBeforeTheStore,
    EmptyStoreRefused,
    TwentyFourLeavesZero,
    // Which record decides.
    EditionOfItsOwn,
    BeforeTheEditionOnly,
    LastOfAllDecides,
    FirstDecides,
    FreeDoesNotFree,
    FreeWins,
    EveryEditionStartsAnew,
    StatesSwapped,
    // The build.
    ForcedNodesMade,
    JoinsStopEarly,
    ForcedDroppedFromAtLeast,
    ForcedTwinsAreOne,
    FreeNodesNeeded,
    AddedOfTheFreeTree,
    SeasonTenWithoutAGate,
    SureRootHasNoCut,
    ConstantRootRefused,
    ConstantGatesAreZero,
    // The chances.
    FailedWithChanceZero,
    SoundKeepsItsChance,
    ForcedChancesStay,
    ChancesAboveOneRefused,
    ChancesAboveOneCut,
    TooManyChancesPass,
    ManyChancesRefused,
    NineBeforeTheStoreOfChances,
    ChancesUntilTheFault,
    // Listing.
    FinishedAfterFirstRoom,
    FinishedIfRoomIsLeft,
    NoCutStartsAtBeginning,
    BeginningIsAfterEmpty,
    FourteenBelowTheLongest,
    WritesNothing,
    LastSetForgotten,
    SkipsWhatDoesNotFit,
    BySize,
    NoThirteen,
    ThirteenSaysTheEvent,
    ZerosBehindTheCuts,
    WideMembersThroughout,
    MembersCutToAByte,
    MembersHighByteFirst,
    HighWordsNotCompared,
    LastWithoutHighWords,
    ThirteenOfLowWords,
    LongCutsOverrun,
    ThreeBytesForEach,
    // Report.
    EditionZeroIsOne,
    EditionsAboveTwoAreTwo,
    EditionCutToAByte,
    EditionToldInARefusal,
    EditionNotTold,
    EditionTwoToldAlways,
    TwelveBeforeTwentyThree,
    TwentyThreeLast,
    NineBeforeTwelveOfReports,
    SevenBeforeNine,
    ThirteenBeforeSeven,
    ReportNoThirteen,
    NoChancesUnderOne,
    ChancesNotJudgedUnderOne,
    ReportSevenOfAllLent,
    ReportSevenOfReachedEvents,
    ReportSevenSaysTheEvent,
    CertainRefused,
    ShortReportAreaPasses,
    ReportAreasByTheCount,
    ThreeMembersUnderOne,
    TwoMembersTooMany,
    EditionOneHasProducts,
    EditionTwoIsOne,
    EditionTwoIsAll,
    TwoInPlaceOfOne,
    RoundedProductDecides,
    NearestProductDecides,
    FloatProductDecides,
    ProductsWrap,
    EdgeIsOut,
    ChancesByTheLowByte,
    PrunesByTheFewest,
    PrunesByTheSoundBranch,
    PrunesByTheFailedBranch,
    PrunesByNumbersAlone,
    UnreportableStartsAnew,
    UnreportableStartRefused,
    FinishedOfAllCuts,
    FourteenOfTheNextCut,
    DoneForFourteen,
    LastOfAllCuts,
    ReportLastForgotten,
    ShortCutsFirst,
    ZerosBehindTheReport,
    ReportAreaLeftDirty,
    ReportAreasStayOnFourteen,
    ReportAreasClearedOnSeven,
    ReportAreasClearedOnThirteen,
    ReportAreasClearedOnTwentyThree,
    // Bracket.
    ZeroToOne,
    LowTwice,
    RoundsToNearest,
    AreasDirtyBehind,
    SevenOnlyForNodes,
    SevenSaysTheEvent,
    NineBeforeTwelve,
    // Lent diagrams.
    JudgesReachedNodesOnly,
    RefusesEqualNodes,
    RefusesEqualBranchesOfCuts,
    TwelveAbove256,
    // Import.
    LineFaultAfterSixteen,
    ChanceJudgedByEarlierEquations,
    SecondChanceTaken,
    ChanceOfNoEquationTaken,
    ChanceOfALeftNameTaken,
    EmptyLinesPass,
    CarriageReturnsPass,
    LastLineFeedLacks,
    LeadingZerosPass,
    WordsOnTheRightPass,
    ThirteenBytesPass,
    LineCounted,
    SixteenSaysTheFirst,
    LeftTwiceTaken,
    RingOfTheRootOnly,
    EighteenBeforeSeventeen,
    RingBackwards,
    RingLeftOut,
    EmptyTextPasses,
    FirstRootTaken,
    LimitsBeforeSeventeen,
    GatesJudgedFirst,
    CountBeforeChances,
    NumbersWrap,
    LongNumbersAreLines,
    GatesNumberedWhenEntered,
    EventsByFirstLine,
    OneOfOneIsOr,
    ImportsFiveOfAllInputs,
    ImportStopsAt256,
    ImportsTheNewForm,
    ShownInAnyLine,
    ShownStaysOnRefusal,
    ListLeftDirty,
    NineAfterTheLines,
    ClearsBeforeNineOfImport,
    // Export.
    OneInputKeepsItsKind,
    ZeroChancesLeftOut,
    ChancesFirst,
    ExportsUntilFull,
    ExportRoomBeforeTheTree,
    ZerosBehindTheText,
    ExportRefusesSites,
    ExportRefusesLostSites,
    ExportsThePlaceOfTheOldForm,
    // Importance.
    PlainDifferenceOfUnused,
    UnreachedStand,
    LowLessLow,
    HighLessHigh,
    AbsoluteDifference,
    LowNotCutOff,
    TiesToTheHigher,
    RankedByHigh,
    RankedFromTheLeast,
    PlacesForTheRank,
    UnusedLeftOut,
    ZerosBehindTheRank,
    ZerosBehindTheLows,
    WeighingAreaLeftDirty,
    WeighingClearsOnSeven,
    SevenBeforeNineOfWeights,
    ChancesOfNodesJudged,
    ChancesBehindJudged,
    // Sizes.
    UnreachedOverflowRefuses,
    LargestRefused,
    StopsAtTheLargest,
    CountsStartBeforeNineteen,
    EmptySetUnderOne,
    LastSizeLeftOut,
    EmptySetNotCounted,
    ZerosBehindTheCounts,
    CountingAreaLeftDirty,
    CountingAreasStayOnNineteen,
    CountsNeedNotReach1024,
    CountsStopAt256,
    NineBeforeTwelveOfSizes,
    // Folder.
    FirstSixtyFourTrees,
    LengthsWrap,
    BytesLeftOver,
    NineAfterTheTrees,
    TreesOwnNineteen,
    NineteenAtOnce,
    PlaceInTheFolder,
    TreeNotTold,
    LastRefusedTree,
    TotalsOfTheLast,
    CountsBeforeARefusal,
    MemoryStaysAfterALaterTree,
    CountingAreasStayAfterALaterTree,
    FirstTreeClears,
    EmptyFolderChangesNothing,
    FolderTenWithoutAGate,
    // The planner: refusals.
    NineBeforeTwelveOfPlans,
    ThirteenBeforeNineOfPlans,
    MembersBeyondPass,
    MembersBeyondOfLowWords,
    ThirteenSaysTheMember,
    NineteenBeforeThirteen,
    MissingAreaByTheCount,
    MissingAreaWithoutLeaves,
    HoldingAreasByTheCount,
    HoldingAreasOfOneNumber,
    CountsOneShortPass,
    // The first cut that misses a set.
    LastCutThatMisses,
    ShortestCutThatMisses,
    MinimalCutsAlone,
    FirstCutOfAll,
    EmptyCutMissesNothing,
    EmptyCutNotFound,
    SetToldForNoCut,
    HighMembersNotKept,
    MissingAreaLeftDirty,
    PlannerClearsOnThirteen,
    // The check.
    MemberToldFirst,
    HighestMemberTold,
    OnlyMembersOfNoCut,
    NoMemberIsJudged,
    LastMemberNotJudged,
    EmptySetNeverAccepted,
    PlaceSaysTheMember,
    AcceptedInARefusal,
    CutToldWithTheMember,
    MemberToldWithTheCut,
    AreaLeftWithAMember,
    // The cuts that are left of each event.
    CountsOfAllCuts,
    CountsOfCutsThatMeet,
    MembersStillCounted,
    MinimalCutsCounted,
    NodesCountedForCuts,
    LargestCountIsNineteen,
    CountsHeldAtTheLargest,
    NineteenByTheNumberOfCuts,
    NineteenByAnUnreachedNode,
    HeldWrittenBeforeNineteen,
    ZerosBehindTheHeld,
    HoldingAreaLeftDirty,
    HoldingAreasStayOnNineteen,
    // The plan.
    TiesToTheHigherNumber,
    TakesTheFirstCutsEvent,
    TakesTheFewest,
    OneEventAlone,
    PlanIsPruned,
    EmptyCutEndsThePlan,
    PlanCutToAByte,
    SetToldWithNineteen,
    // Listings compared.
    EndOfCutLacks,
    NarrowMembersTaken,
    MembersBeyondTaken,
    WideMembersRefused,
    HighMembersNotCompared,
    Kind24Passed,
    UnknownKindsPassed,
    MembersMayRepeat,
    MembersMayFall,
    CutsMayRepeat,
    BehindTheEmptyCut,
    OrderNotJudged,
    SubsetsComeFirst,
    EmptyListingRefused,
    OneInsideAnotherRefused,
    TodaysFaultFirst,
    FaultBehindTheDifference,
    FaultAtItsPlace,
    DifferenceByPosition,
    SideOfTheLonger,
    PartWithoutItsEnd,
    PartToTheEnd,
    PartFromTheDifference,
    PartIsTheWholeWhereEqual,
    GoneTakenForNew,
    KeptByPosition,
    CountsInARefusal,
    // Decided by the listing alone.
    TouchesForContains,
    PartOfACut,
    EqualToACut,
    EveryCutContained,
    LastCutUnseen,
    FirstCutUnseen,
    LastCutDecides,
    CutsBehindTheHundredthUnseen,
    LastMemberUnseen,
    FirstMemberUnseen,
    WideMembersUnseen,
    WideMembersByTheLowByte,
    LastWordUnseen,
    ComplementTaken,
    NoCutAlwaysFails,
    EmptyCutNeverFails,
    SetThatFailsNothing,
    ThirteenBeforeTwenty,
    BeyondPasses,
    BeyondByOnePasses,
    BeyondOfLowWords,
    EventsByTheLowBits,
    NoEventsRefused,
    ManyEventsRefused,
    ListedBeyondRefused,
    ListedBeyondIsThirteen,
    DecidedBeforeALaterFault,
    FailsToldWithTwenty,
    FailsToldWithThirteen,
    PlaceToldWithTwenty,
    PlaceToldWithThirteen,
    PlaceOfTheCutTold,
    DecidedWithoutItsEnd,
    DecidedOutOfOrder,
    DecidedTwice,
    DecidedBehindTheEmptyCut,
    DecidedWithFallingMembers,
    DecidedWithNarrowMembers,
    DecidedWithMembersBeyond,
    DecidedWithKind24,
    DecidedIfNoneIsInside,
    DecidedIfNotEmpty,
}

use Wrong::*;

pub struct WrongProgram(pub Wrong);

impl Library for WrongProgram {
    fn smallest_areas(&self, node_capacity: usize, cut_capacity: usize) -> [usize; 4] {
        Mirror.smallest_areas(node_capacity, cut_capacity)
    }

    fn smallest_bracket_areas(&self, capacity: usize) -> [usize; 2] {
        Mirror.smallest_bracket_areas(capacity)
    }

    fn smallest_count_areas(&self, capacity: usize) -> [usize; COUNT_AREAS] {
        Mirror.smallest_count_areas(capacity)
    }

    fn smallest_report_areas(&self, capacity: usize) -> [usize; REPORT_AREAS] {
        Mirror.smallest_report_areas(capacity)
    }

    fn smallest_missing_area(&self, capacity: usize) -> usize {
        Mirror.smallest_missing_area(capacity)
    }

    fn smallest_holding_areas(&self, capacity: usize) -> [usize; HOLDING_AREAS] {
        Mirror.smallest_holding_areas(capacity)
    }

    fn smallest_weigh_areas(&self, capacity: usize) -> [usize; WEIGH_AREAS] {
        Mirror.smallest_weigh_areas(capacity)
    }

    fn read(&self, bytes: &[u8]) -> ReadAnswer {
        let mut answer = Mirror.read(bytes);
        let place = answer.place as usize;
        let at_fault = bytes.get(place).copied().unwrap_or(0);
        match self.0 {
            PlaceAlwaysZero => answer.place = 0,
            TrailingBytesAsRecords if answer.number == 3 && ![1, 2, 3, 4, 5, 6, 7, 8, 0x11].contains(&at_fault) => {
                answer.number = 2;
            }
            InputsSorted => sort_inputs(&mut answer.tree),
            UnusedGateAccepted if answer.number == 8 && ![1, 0x11].contains(&at_fault) => {
                answer = ReadAnswer { number: 0, place: 0, tree: Tree::default() };
            }
            TotalJudgedAtTheInput if answer.number == 4 && (2..=3).contains(&at_fault) => {
                if (1..=64).contains(&bytes[place + 1]) {
                    answer.place += 2;
                }
            }
            _ => answer = sites_read(self.0, bytes, wide_read(self.0, bytes, wrong_read(self.0, bytes, answer))),
        }
        answer
    }

    fn write(&self, tree: &Tree, room: &mut [u8]) -> WriteAnswer {
        if [WideInputsThroughout, InputsCutToAByte].contains(&self.0) {
            return wide_write(self.0, tree, room);
        }
        if let Some(answer) = sites_write(self.0, tree, room) {
            return answer;
        }
        let mut answer = Mirror.write(tree, room);
        match (self.0, answer.number) {
            (WritesUntilFull, 9) => {
                let bytes = write(tree).expect("only the room was short");
                let length = room.len();
                room.copy_from_slice(&bytes[..length]);
            }
            (ZerosBehindTheTree, 0) => room[answer.used as usize..].fill(0),
            (RoomBeforeTheTree, 1..=8) if (room.len() as u64) <= answer.place => {
                answer = WriteAnswer { number: 9, place: 0, used: 0 };
            }
            (UseNotJudgedOnWriting, 8) => answer = WriteAnswer { number: 0, place: 0, used: 0 },
            (WritesFiveAtOnce | WritesFiveOfAllInputs, _) => answer = wrong_write(self.0, tree, answer),
            _ => {}
        }
        answer
    }

    fn to_sites(&self, bytes: &[u8], room: &mut [u8]) -> WriteAnswer {
        wrong_to_sites(self.0, bytes, room)
    }

    fn from_sites(&self, bytes: &[u8], room: &mut [u8]) -> WriteAnswer {
        wrong_from_sites(self.0, bytes, room)
    }

    fn analyse(&self, bytes: &[u8], mut areas: Areas, added: &mut [u32]) -> AnalyseAnswer {
        if let Some(refusal) = sites_analysis(self.0, bytes) {
            return lay_out_analysis(Err(refusal), areas, added);
        }
        let (nodes_before, added_before) = (areas.nodes.to_vec(), added.to_vec());
        let other = other_steps(self.0, bytes);
        let mut answer = match counted(self.0) {
            Some(counted) => {
                let lengths = Lengths { added_list: added.len(), ..Mirror.lengths(&areas) };
                let taken = |robdd: &Robdd, gate: &Gate, inputs: &[Input]| match gate.kind {
                    AT_LEAST => counted(robdd, inputs),
                    _ => inputs.to_vec(),
                };
                let steps = Steps { taken: &taken, ..Steps::default() };
                let done = read(bytes).and_then(|tree| analyse_tree(tree, lengths, &steps));
                lay_out_analysis(done, areas.again(), added)
            }
            None => Mirror.analyse(other.as_deref().unwrap_or(bytes), areas.again(), added),
        };
        match (self.0, answer.number) {
            (SafeBound, 0) if areas.nodes.len() < 4 * answer.nodes as usize => {
                areas.again().clear();
                answer = AnalyseAnswer { number: 10, place: 0, nodes: 0, cut_nodes: 0, root: 0, cut_root: 0 };
            }
            (CountsReachedCutNodes, 0) => {
                let tree = read(bytes).expect("an analysis was done");
                let robdd = Robdd::build(&tree, usize::MAX).expect("it was built before");
                let cuts = CutDiagram::build(&robdd, usize::MAX).unwrap_or_else(|_| unreachable!());
                answer.cut_nodes = cuts.nodes.reached(cuts.root).len() as u64;
            }
            (NodesStayOnEleven, 11) => areas.nodes.copy_from_slice(&nodes_before),
            (DirtBehindTheNodes, 0) => {
                let end = 3 * answer.nodes as usize;
                areas.nodes[end..].copy_from_slice(&nodes_before[end..]);
            }
            (ClearsBeforeNine, 9) | (TwentyOneLeavesZero, 21) => areas.again().clear(),
            (OneNodeForAllGates, 0) => {
                areas.gates.iter_mut().filter(|node| **node != 0).for_each(|node| *node = answer.root);
            }
            (AreaLeftDirty, 0) => *areas.work[3].last_mut().expect("an area has numbers") = 1,
            (CountKeptInRefusal, 11) => answer.nodes = areas.nodes.len() as u64 / 3,
            (FirstGateIsRoot, 0) => answer.root = areas.gates[0],
            _ => answer = wrong_added(self.0, bytes, &added_before, areas, added, answer),
        }
        answer
    }

    fn analyse_season(&self, bytes: &[u8], season: Season, areas: Areas, added: &mut [u32]) -> AnalyseAnswer {
        match is_of_seasons(self.0) {
            true => wrong_season(self.0, bytes, season, areas, added),
            false => Mirror.analyse_season(bytes, season, areas, added),
        }
    }

    fn chances_under(&self, season: Season, chances: &mut [u32]) -> SettingsAnswer {
        match is_of_seasons(self.0) {
            true => wrong_chances(self.0, season, chances),
            false => Mirror.chances_under(season, chances),
        }
    }

    fn list(&self, diagram: &Lent, after: Option<Set>, room: &mut [u8]) -> ListAnswer {
        wide_list(self.0, diagram, after, room).unwrap_or_else(|| wrong_list(self.0, diagram, after, room))
    }

    fn bracket(&self, diagram: &Lent, chances: &[u32], work: [&mut [u32]; 2]) -> BracketAnswer {
        wrong_bracket(self.0, diagram, chances, work)
    }

    fn report(&self, diagram: &Lent, asked: Asked, room: &mut [u8], work: [&mut [u32]; REPORT_AREAS]) -> ReportAnswer {
        match is_of_reports(self.0) {
            true => wrong_report(self.0, diagram, asked, room, work),
            false => Mirror.report(diagram, asked, room, work),
        }
    }

    fn import(&self, text: &[u8], lists: [&mut [u32]; LISTS]) -> ImportAnswer {
        wrong_import(self.0, text, lists)
    }

    fn export(&self, tree: &Tree, room: &mut [u8]) -> WriteAnswer {
        sites_export(self.0, tree, room).unwrap_or_else(|| wrong_export(self.0, tree, room))
    }

    fn side(&self, yesterday: &[u8], today: &[u8]) -> Verdict {
        wrong_side(self.0, yesterday, today)
    }

    fn first_difference(&self, yesterday: &[u8], today: &[u8]) -> Difference {
        wrong_difference(self.0, yesterday, today)
    }

    fn compare(&self, yesterday: &[u8], today: &[u8]) -> Comparison {
        wrong_compare(self.0, yesterday, today)
    }

    fn decides(&self, listing: &[u8], events: u64, set: &Set) -> DecidedAnswer {
        match is_of_decisions(self.0) {
            true => wrong_decision(self.0, listing, events, set),
            false => Mirror.decides(listing, events, set),
        }
    }

    fn importance(&self, diagram: &Lent, chances: &[u32], areas: WeighAreas) -> ImportanceAnswer {
        match is_of_importance(self.0) {
            true => wrong_importance(self.0, diagram, chances, areas),
            false => Mirror.importance(diagram, chances, areas),
        }
    }

    fn sizes(&self, diagram: &Lent, counting: CountAreas) -> SizesAnswer {
        wrong_sizes(self.0, diagram, counting)
    }

    fn folder(&self, bytes: &[u8], lengths: &[u64], areas: Areas, counting: CountAreas) -> FolderAnswer {
        wrong_folder(self.0, bytes, lengths, areas, counting)
    }

    fn first_missing(&self, diagram: &Lent, set: Set, some: &mut [u32]) -> MissedAnswer {
        match is_of_plans(self.0) {
            true => wrong_missing(self.0, diagram, set, some),
            false => Mirror.first_missing(diagram, set, some),
        }
    }

    fn holding(&self, diagram: &Lent, set: Set, areas: HoldingAreas) -> HeldAnswer {
        match is_of_plans(self.0) {
            true => wrong_holding(self.0, diagram, set, areas),
            false => Mirror.holding(diagram, set, areas),
        }
    }

    fn check(&self, diagram: &Lent, set: Set, some: &mut [u32]) -> CheckAnswer {
        match is_of_plans(self.0) {
            true => wrong_check(self.0, diagram, set, some),
            false => Mirror.check(diagram, set, some),
        }
    }

    fn plan(&self, diagram: &Lent, work: [&mut [u64]; HOLDING_AREAS]) -> PlanAnswer {
        match is_of_plans(self.0) {
            true => wrong_plan(self.0, diagram, work),
            false => Mirror.plan(diagram, work),
        }
    }
}
