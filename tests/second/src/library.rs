//! What a comparison asks of an analyser: the public calls on plain data and lent memory.
//! A binding to a linked library implements this; so does the mirror, for trying out the comparison.

use crate::changes::{Comparison, Difference, Verdict};
use crate::equations::LISTS;
use crate::importance::WEIGH_AREAS;
use crate::lent::Lent;
use crate::planner::HOLDING_AREAS;
use crate::report::REPORT_AREAS;
use crate::sets::Set;
use crate::settings::Season;
use crate::sizes::COUNT_AREAS;
use crate::tree::Tree;

#[derive(Clone, Debug, PartialEq, Eq)]
pub struct ReadAnswer {
    pub number: u32,
    pub place: u64,
    /// The empty tree in a refusal.
    pub tree: Tree,
}

#[derive(Clone, Copy, Debug, PartialEq, Eq)]
pub struct WriteAnswer {
    pub number: u32,
    pub place: u64,
    pub used: u64,
}

#[derive(Clone, Copy, Debug, PartialEq, Eq)]
pub struct AnalyseAnswer {
    pub number: u32,
    pub place: u64,
    pub nodes: u64,
    pub cut_nodes: u64,
    pub root: u32,
    pub cut_root: u32,
}

#[derive(Clone, Copy, Debug, PartialEq, Eq)]
pub struct ListAnswer {
    pub number: u32,
    pub place: u64,
    pub written: u64,
    pub used: u64,
    pub last: Set,
    pub finished: bool,
}

#[derive(Clone, Copy, Debug, PartialEq, Eq)]
pub struct BracketAnswer {
    pub number: u32,
    pub place: u64,
    pub low: u32,
    pub high: u32,
}

/// What stands in the lists is compared beside it.
#[derive(Clone, Debug, PartialEq, Eq)]
pub struct ImportAnswer {
    pub number: u32,
    pub place: u64,
    pub line: u64,
    pub ring: u64,
    /// The empty tree in a refusal.
    pub tree: Tree,
}

#[derive(Clone, Copy, Debug, PartialEq, Eq)]
pub struct SizesAnswer {
    pub number: u32,
    pub place: u64,
}

#[derive(Clone, Copy, Debug, PartialEq, Eq)]
pub struct ImportanceAnswer {
    pub number: u32,
    pub place: u64,
}

#[derive(Clone, Copy, Debug, PartialEq, Eq)]
pub struct FolderAnswer {
    pub number: u32,
    pub place: u64,
    pub tree: u64,
}

/// What is said of a store of settings.
#[derive(Clone, Copy, Debug, PartialEq, Eq)]
pub struct SettingsAnswer {
    pub number: u32,
    pub place: u64,
}

/// The edition beside what a listing call answers.
#[derive(Clone, Copy, Debug, PartialEq, Eq)]
pub struct ReportAnswer {
    pub edition: u64,
    pub listing: ListAnswer,
}

/// What a report call is asked beside its diagram.
#[derive(Clone, Copy, Debug)]
pub struct Asked<'a> {
    pub edition: u32,
    pub chances: &'a [u32],
    /// `None` is "from the beginning".
    pub after: Option<Set>,
}

/// The first cut that misses a set; the empty set where none is found.
#[derive(Clone, Copy, Debug, PartialEq, Eq)]
pub struct MissedAnswer {
    pub number: u32,
    pub place: u64,
    pub found: bool,
    pub cut: Set,
}

#[derive(Clone, Copy, Debug, PartialEq, Eq)]
pub struct HeldAnswer {
    pub number: u32,
    pub place: u64,
}

/// `said` is 0 in a refusal; the member is 0 and the cut empty unless they are told.
#[derive(Clone, Copy, Debug, PartialEq, Eq)]
pub struct CheckAnswer {
    pub number: u32,
    pub place: u64,
    pub said: u64,
    pub member: u64,
    pub cut: Set,
}

/// The empty set in a refusal.
#[derive(Clone, Copy, Debug, PartialEq, Eq)]
pub struct PlanAnswer {
    pub number: u32,
    pub place: u64,
    pub set: Set,
}

/// `fails` is false in a refusal.
#[derive(Clone, Copy, Debug, PartialEq, Eq)]
pub struct DecidedAnswer {
    pub number: u32,
    pub place: u64,
    pub fails: bool,
}

/// What an analysis is lent, and a folder too; an analysis has one list more.
pub struct Areas<'a> {
    pub nodes: &'a mut [u32],
    pub cuts: &'a mut [u32],
    pub gates: &'a mut [u32],
    pub memo: &'a mut [u32],
    pub work: [&'a mut [u32]; 4],
}

impl<'a> Areas<'a> {
    /// All of it, in the order of the call.
    pub fn all(self) -> [&'a mut [u32]; 8] {
        let Areas { nodes, cuts, gates, memo, work: [heads, next, marks, own] } = self;
        [nodes, cuts, gates, memo, heads, next, marks, own]
    }

    pub fn again(&mut self) -> Areas<'_> {
        Areas {
            nodes: self.nodes,
            cuts: self.cuts,
            gates: self.gates,
            memo: self.memo,
            work: self.work.each_mut().map(|area| &mut **area),
        }
    }

    pub fn clear(self) {
        self.all().into_iter().for_each(|area| area.fill(0));
    }
}

/// What counting by size is lent.
pub struct CountAreas<'a> {
    pub counts: &'a mut [u64],
    pub work: [&'a mut [u64]; COUNT_AREAS],
}

impl CountAreas<'_> {
    pub fn again(&mut self) -> CountAreas<'_> {
        CountAreas { counts: self.counts, work: self.work.each_mut().map(|area| &mut **area) }
    }
}

/// What counting the cuts that hold an event is lent.
pub struct HoldingAreas<'a> {
    pub counts: &'a mut [u64],
    pub work: [&'a mut [u64]; HOLDING_AREAS],
}

/// What the importance of events is lent to be written.
pub struct WeighAreas<'a> {
    pub lows: &'a mut [u32],
    pub highs: &'a mut [u32],
    pub rank: &'a mut [u32],
    pub work: [&'a mut [u32]; WEIGH_AREAS],
}

impl<'a> WeighAreas<'a> {
    /// All of it, in the order of the call.
    pub fn all(self) -> [&'a mut [u32]; 3 + WEIGH_AREAS] {
        let WeighAreas { lows, highs, rank, work: [down, up, marks] } = self;
        [lows, highs, rank, down, up, marks]
    }

    pub fn again(&mut self) -> WeighAreas<'_> {
        WeighAreas {
            lows: self.lows,
            highs: self.highs,
            rank: self.rank,
            work: self.work.each_mut().map(|area| &mut **area),
        }
    }
}

pub trait Library {
    /// The documented smallest lengths of the work areas; an area that isn't asked for has 0.
    fn smallest_areas(&self, node_capacity: usize, cut_capacity: usize) -> [usize; 4];
    fn smallest_bracket_areas(&self, capacity: usize) -> [usize; 2];
    fn smallest_count_areas(&self, capacity: usize) -> [usize; COUNT_AREAS];
    fn smallest_report_areas(&self, capacity: usize) -> [usize; REPORT_AREAS];
    fn smallest_missing_area(&self, capacity: usize) -> usize;
    fn smallest_holding_areas(&self, capacity: usize) -> [usize; HOLDING_AREAS];
    fn smallest_weigh_areas(&self, capacity: usize) -> [usize; WEIGH_AREAS];

    fn read(&self, bytes: &[u8]) -> ReadAnswer;
    fn write(&self, tree: &Tree, room: &mut [u8]) -> WriteAnswer;
    /// The bytes of a tree moved to the form with sites, and back.
    fn to_sites(&self, bytes: &[u8], room: &mut [u8]) -> WriteAnswer;
    fn from_sites(&self, bytes: &[u8], room: &mut [u8]) -> WriteAnswer;
    /// `added` is the list of the nodes that each gate added.
    fn analyse(&self, bytes: &[u8], areas: Areas, added: &mut [u32]) -> AnalyseAnswer;
    /// The same in a season.
    fn analyse_season(&self, bytes: &[u8], season: Season, areas: Areas, added: &mut [u32]) -> AnalyseAnswer;
    /// The chances of all events of a tree become those of a season.
    fn chances_under(&self, season: Season, chances: &mut [u32]) -> SettingsAnswer;
    /// `None` is "from the beginning".
    fn list(&self, diagram: &Lent, after: Option<Set>, room: &mut [u8]) -> ListAnswer;
    fn bracket(&self, diagram: &Lent, chances: &[u32], work: [&mut [u32]; 2]) -> BracketAnswer;
    fn report(&self, diagram: &Lent, asked: Asked, room: &mut [u8], work: [&mut [u32]; REPORT_AREAS]) -> ReportAnswer;
    fn import(&self, text: &[u8], lists: [&mut [u32]; LISTS]) -> ImportAnswer;
    fn export(&self, tree: &Tree, room: &mut [u8]) -> WriteAnswer;
    fn side(&self, yesterday: &[u8], today: &[u8]) -> Verdict;
    fn first_difference(&self, yesterday: &[u8], today: &[u8]) -> Difference;
    fn compare(&self, yesterday: &[u8], today: &[u8]) -> Comparison;
    /// Whether the set contains a cut of the listing.
    fn decides(&self, listing: &[u8], events: u64, set: &Set) -> DecidedAnswer;

    fn importance(&self, diagram: &Lent, chances: &[u32], areas: WeighAreas) -> ImportanceAnswer;
    fn sizes(&self, diagram: &Lent, counting: CountAreas) -> SizesAnswer;
    fn folder(&self, bytes: &[u8], lengths: &[u64], areas: Areas, counting: CountAreas) -> FolderAnswer;

    /// The first cut that misses a set; for each event the cuts that miss the set and hold the event.
    fn first_missing(&self, diagram: &Lent, set: Set, some: &mut [u32]) -> MissedAnswer;
    fn holding(&self, diagram: &Lent, set: Set, areas: HoldingAreas) -> HeldAnswer;
    /// A set that is to be kept sound, checked; and one proposed.
    fn check(&self, diagram: &Lent, set: Set, some: &mut [u32]) -> CheckAnswer;
    fn plan(&self, diagram: &Lent, work: [&mut [u64]; HOLDING_AREAS]) -> PlanAnswer;

    /// What a binding itself saw go wrong in the last call: a write outside of what was lent to be written, or no return.
    fn fault(&self) -> Option<&'static str> {
        None
    }
}

/// Memory with guards on both sides that remembers what it held when it was lent.
pub struct Guarded<T> {
    whole: Vec<T>,
    before: Vec<T>,
    guard: T,
}

const GUARDS: usize = 4;

impl<T: Copy + PartialEq> Guarded<T> {
    pub fn new(contents: Vec<T>, guard: T) -> Guarded<T> {
        let mut whole = vec![guard; GUARDS];
        whole.extend(&contents);
        whole.extend(vec![guard; GUARDS]);
        Guarded { whole, before: contents, guard }
    }

    pub fn lend(&mut self) -> &mut [T] {
        let end = GUARDS + self.before.len();
        &mut self.whole[GUARDS..end]
    }

    pub fn now(&self) -> &[T] {
        &self.whole[GUARDS..GUARDS + self.before.len()]
    }

    pub fn before(&self) -> &[T] {
        &self.before
    }

    pub fn unchanged(&self) -> bool {
        self.now() == self.before
    }

    pub fn all(&self, value: T) -> bool {
        self.now().iter().all(|&now| now == value)
    }

    pub fn guards_stand(&self) -> bool {
        let end = GUARDS + self.before.len();
        self.whole[..GUARDS].iter().chain(&self.whole[end..]).all(|&guard| guard == self.guard)
    }
}
