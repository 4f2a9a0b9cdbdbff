//! The second program behind the calls of a library: it keeps every promise about lent memory, so that
//! the comparison can be tried on it, and on wrong programs made from it.

use crate::analysis::{analyse, Analysis, Lengths};
use crate::bracket::bracket;
use crate::changes::{self, Comparison, Difference, Verdict};
use crate::decision::decides;
use crate::equations::{export_into, import, Import, LISTS, RING, SHOWN};
use crate::importance::{importance, WEIGH_AREAS};
use crate::judge::{read, write_into, Refusal};
use crate::lent::Lent;
use crate::library::*;
use crate::listing::{list, Listing};
use crate::moves::{from_sites_into, to_sites_into};
use crate::planner::{self, Judgement, HOLDING_AREAS};
use crate::report::{report, Report, REPORT_AREAS};
use crate::sets::Set;
use crate::settings::{analyse_season, chances_under, Season};
use crate::sizes::{folder, sizes, RefusedFolder, COUNT_AREAS, SIZES};
use crate::tree::{Tree, MOST_GATES};

pub struct Mirror;

fn fill(area: &mut [u32], numbers: &[u32]) {
    area.fill(0);
    area[..numbers.len()].copy_from_slice(numbers);
}

/// What is answered where something was written into a room, or not.
pub fn told(written: Result<usize, Refusal>) -> WriteAnswer {
    match written {
        Ok(used) => WriteAnswer { number: 0, place: 0, used: used as u64 },
        Err(Refusal { number, place }) => WriteAnswer { number, place, used: 0 },
    }
}

/// What is answered where cuts go to the front of a room.
pub fn lay_out_cuts(listing: &Listing, room: &mut [u8]) -> ListAnswer {
    room[..listing.bytes.len()].copy_from_slice(&listing.bytes);
    ListAnswer {
        number: listing.number,
        place: listing.place,
        written: listing.written as u64,
        used: listing.bytes.len() as u64,
        last: listing.last,
        finished: listing.finished,
    }
}

/// What the lists hold after an import.
pub fn lay_out(answer: Import, lists: [&mut [u32]; LISTS]) -> ImportAnswer {
    let Import { number, place, line, ring, tree, shown } = answer;
    if number != 9 {
        for (own, list) in lists.into_iter().enumerate() {
            match own {
                RING => fill(list, &ring),
                SHOWN => fill(list, &shown),
                _ => list.fill(0),
            }
        }
    }
    ImportAnswer { number, place, line, ring: ring.len() as u64, tree }
}

/// What the lists of a counting hold next, where it is not refused before anything is written.
pub fn lay_out_counts(counts: Option<&[u64]>, counting: CountAreas) {
    if let Some(counts) = counts {
        counting.counts[..counts.len()].copy_from_slice(counts);
    }
    counting.work.into_iter().for_each(|area| area.fill(0));
}

/// What is answered where chances are changed, or not.
pub fn lay_out_chances(changed: Result<Vec<u32>, Refusal>, chances: &mut [u32]) -> SettingsAnswer {
    match changed {
        Ok(changed) => {
            chances.copy_from_slice(&changed);
            SettingsAnswer { number: 0, place: 0 }
        }
        Err(Refusal { number, place }) => SettingsAnswer { number, place },
    }
}

/// What is answered of a cut that misses a set.
pub fn told_cut(found: Result<Option<Set>, u32>) -> MissedAnswer {
    let cut = found.ok().flatten();
    MissedAnswer { number: found.err().unwrap_or(0), place: 0, found: cut.is_some(), cut: cut.unwrap_or(Set::EMPTY) }
}

/// What is answered of a set that is checked.
pub fn told_judgement(judged: Result<Judgement, u32>) -> CheckAnswer {
    let (said, member, cut) = match judged {
        Err(_) => (0, 0, Set::EMPTY),
        Ok(Judgement::Accepted) => (planner::ACCEPTED, 0, Set::EMPTY),
        Ok(Judgement::Missed(cut)) => (planner::CUT_MISSES, 0, cut),
        Ok(Judgement::Droppable(member)) => (planner::DROPPABLE, member as u64, Set::EMPTY),
    };
    CheckAnswer { number: judged.err().unwrap_or(0), place: 0, said, member, cut }
}

/// What is answered where a set is proposed.
pub fn told_plan(planned: Result<Set, u32>) -> PlanAnswer {
    PlanAnswer { number: planned.err().unwrap_or(0), place: 0, set: planned.unwrap_or(Set::EMPTY) }
}

/// What is answered of a set that a listing decides.
pub fn told_decision(decided: Result<bool, Refusal>) -> DecidedAnswer {
    match decided {
        Ok(fails) => DecidedAnswer { number: 0, place: 0, fails },
        Err(Refusal { number, place }) => DecidedAnswer { number, place, fails: false },
    }
}

/// What an analysis leaves and answers, of whichever program.
pub fn lay_out_analysis(done: Result<Analysis, Refusal>, mut areas: Areas, added: &mut [u32]) -> AnalyseAnswer {
    let refusal = done.as_ref().err().copied();
    if refusal.is_none_or(|refusal| refusal.leaves_zero()) {
        areas.again().clear();
        added.fill(0);
    }
    match done {
        Ok(done) => {
            fill(areas.nodes, &done.robdd.nodes.table());
            fill(areas.cuts, &done.cuts.nodes.table());
            fill(areas.gates, &done.robdd.gate_nodes);
            fill(added, &done.added());
            AnalyseAnswer {
                number: 0,
                place: 0,
                nodes: done.robdd.nodes.count() as u64,
                cut_nodes: done.cuts.nodes.count() as u64,
                root: done.robdd.root(),
                cut_root: done.cuts.root,
            }
        }
        Err(Refusal { number, place }) => AnalyseAnswer { number, place, nodes: 0, cut_nodes: 0, root: 0, cut_root: 0 },
    }
}

impl Mirror {
    /// Whether the lists of a counting are long enough for a table of so many numbers.
    pub fn counting_suffices(&self, table: usize, counting: &CountAreas) -> bool {
        let smallest = self.smallest_count_areas(table / 3);
        counting.counts.len() >= SIZES && counting.work.iter().zip(smallest).all(|(area, least)| area.len() >= least)
    }

    /// Whether the areas of a report are long enough for a table of so many numbers.
    pub fn report_suffices(&self, table: usize, work: &[&mut [u32]; REPORT_AREAS]) -> bool {
        let smallest = self.smallest_report_areas(table / 3);
        work.iter().zip(smallest).all(|(area, least)| area.len() >= least)
    }

    /// Whether the area of a search is long enough for a table of so many numbers, and whether those of a counting are.
    pub fn missing_suffices(&self, table: usize, some: &[u32]) -> bool {
        some.len() >= self.smallest_missing_area(table / 3)
    }

    pub fn holding_suffices(&self, table: usize, work: &[&mut [u64]; HOLDING_AREAS]) -> bool {
        let smallest = self.smallest_holding_areas(table / 3);
        work.iter().zip(smallest).all(|(area, least)| area.len() >= least)
    }

    /// With a list of added nodes that is long enough.
    pub fn lengths(&self, areas: &Areas) -> Lengths {
        let smallest = self.smallest_areas(areas.nodes.len() / 3, areas.cuts.len() / 3);
        Lengths {
            node_table: areas.nodes.len(),
            cut_table: areas.cuts.len(),
            gate_list: areas.gates.len(),
            added_list: MOST_GATES,
            memo: areas.memo.len(),
            areas_suffice: areas.work.iter().zip(smallest).all(|(area, least)| area.len() >= least),
        }
    }
}

impl Library for Mirror {
    fn smallest_areas(&self, node_capacity: usize, cut_capacity: usize) -> [usize; 4] {
        [node_capacity.max(cut_capacity) + 2; 4]
    }

    fn smallest_bracket_areas(&self, capacity: usize) -> [usize; 2] {
        [capacity + 2; 2]
    }

    fn smallest_count_areas(&self, capacity: usize) -> [usize; COUNT_AREAS] {
        [capacity + 2; COUNT_AREAS]
    }

    fn smallest_report_areas(&self, capacity: usize) -> [usize; REPORT_AREAS] {
        [capacity; REPORT_AREAS]
    }

    fn smallest_missing_area(&self, capacity: usize) -> usize {
        capacity + 2
    }

    fn smallest_holding_areas(&self, capacity: usize) -> [usize; HOLDING_AREAS] {
        [2 * (capacity + 2); HOLDING_AREAS]
    }

    fn smallest_weigh_areas(&self, capacity: usize) -> [usize; WEIGH_AREAS] {
        [capacity + 2; WEIGH_AREAS]
    }

    fn read(&self, bytes: &[u8]) -> ReadAnswer {
        match read(bytes) {
            Ok(tree) => ReadAnswer { number: 0, place: 0, tree },
            Err(Refusal { number, place }) => ReadAnswer { number, place, tree: Tree::default() },
        }
    }

    fn write(&self, tree: &Tree, room: &mut [u8]) -> WriteAnswer {
        told(write_into(tree, room))
    }

    fn to_sites(&self, bytes: &[u8], room: &mut [u8]) -> WriteAnswer {
        told(to_sites_into(bytes, room))
    }

    fn from_sites(&self, bytes: &[u8], room: &mut [u8]) -> WriteAnswer {
        told(from_sites_into(bytes, room))
    }

    fn analyse(&self, bytes: &[u8], areas: Areas, added: &mut [u32]) -> AnalyseAnswer {
        let done = analyse(bytes, Lengths { added_list: added.len(), ..self.lengths(&areas) });
        lay_out_analysis(done, areas, added)
    }

    fn analyse_season(&self, bytes: &[u8], season: Season, areas: Areas, added: &mut [u32]) -> AnalyseAnswer {
        let lengths = Lengths { added_list: added.len(), ..self.lengths(&areas) };
        lay_out_analysis(analyse_season(bytes, season, lengths), areas, added)
    }

    fn chances_under(&self, season: Season, chances: &mut [u32]) -> SettingsAnswer {
        lay_out_chances(chances_under(season, chances), chances)
    }

    fn list(&self, diagram: &Lent, after: Option<Set>, room: &mut [u8]) -> ListAnswer {
        lay_out_cuts(&list(diagram, after, room.len()), room)
    }

    fn bracket(&self, diagram: &Lent, chances: &[u32], work: [&mut [u32]; 2]) -> BracketAnswer {
        let smallest = self.smallest_bracket_areas(diagram.table.len() / 3);
        let suffice = work.iter().zip(smallest).all(|(area, least)| area.len() >= least);
        let answer = bracket(diagram, chances, suffice);
        if answer.number == 0 {
            work.into_iter().for_each(|area| area.fill(0));
        }
        BracketAnswer { number: answer.number, place: answer.place, low: answer.low, high: answer.high }
    }

    fn report(&self, diagram: &Lent, asked: Asked, room: &mut [u8], work: [&mut [u32]; REPORT_AREAS]) -> ReportAnswer {
        let suffice = self.report_suffices(diagram.table.len(), &work);
        let Asked { edition, chances, after } = asked;
        let Report { edition, listing } = report(edition, diagram, chances, suffice, after, room.len());
        if [0, 14].contains(&listing.number) {
            work.into_iter().for_each(|area| area.fill(0));
        }
        ReportAnswer { edition: edition as u64, listing: lay_out_cuts(&listing, room) }
    }

    fn import(&self, text: &[u8], lists: [&mut [u32]; LISTS]) -> ImportAnswer {
        let lengths: Vec<usize> = lists.iter().map(|list| list.len()).collect();
        lay_out(import(text, &lengths), lists)
    }

    fn export(&self, tree: &Tree, room: &mut [u8]) -> WriteAnswer {
        told(export_into(tree, room))
    }

    fn importance(&self, diagram: &Lent, chances: &[u32], areas: WeighAreas) -> ImportanceAnswer {
        let events = diagram.event_count as usize;
        let smallest = self.smallest_weigh_areas(diagram.table.len() / 3);
        let suffice = [&areas.lows, &areas.highs, &areas.rank].iter().all(|list| list.len() >= events)
            && areas.work.iter().zip(smallest).all(|(area, least)| area.len() >= least);
        match importance(diagram, chances, suffice) {
            Err(Refusal { number, place }) => ImportanceAnswer { number, place },
            Ok(weights) => {
                areas.lows[..events].copy_from_slice(&weights.lows);
                areas.highs[..events].copy_from_slice(&weights.highs);
                areas.rank[..events].copy_from_slice(&weights.rank);
                areas.work.into_iter().for_each(|area| area.fill(0));
                ImportanceAnswer { number: 0, place: 0 }
            }
        }
    }

    fn sizes(&self, diagram: &Lent, counting: CountAreas) -> SizesAnswer {
        let answer = sizes(diagram, self.counting_suffices(diagram.table.len(), &counting));
        let (number, place) = answer.as_ref().map_or_else(|&Refusal { number, place }| (number, place), |_| (0, 0));
        if [0, 19].contains(&number) {
            lay_out_counts(answer.ok().as_deref(), counting);
        }
        SizesAnswer { number, place }
    }

    fn folder(&self, bytes: &[u8], lengths: &[u64], areas: Areas, counting: CountAreas) -> FolderAnswer {
        let suffice = self.counting_suffices(areas.cuts.len(), &counting);
        let answer = folder(bytes, lengths, self.lengths(&areas), suffice);
        let refused = answer.as_ref().err().copied();
        if !refused.is_some_and(|refused| refused.leaves_memory()) {
            areas.clear();
            lay_out_counts(answer.ok().as_deref(), counting);
        }
        let RefusedFolder { number, place, tree } = refused.unwrap_or(RefusedFolder::whole(0));
        FolderAnswer { number, place, tree }
    }

    fn side(&self, yesterday: &[u8], today: &[u8]) -> Verdict {
        changes::side(yesterday, today)
    }

    fn first_difference(&self, yesterday: &[u8], today: &[u8]) -> Difference {
        changes::first_difference(yesterday, today)
    }

    fn compare(&self, yesterday: &[u8], today: &[u8]) -> Comparison {
        changes::compare(yesterday, today)
    }

    fn decides(&self, listing: &[u8], events: u64, set: &Set) -> DecidedAnswer {
        told_decision(decides(listing, events, set))
    }

    fn first_missing(&self, diagram: &Lent, set: Set, some: &mut [u32]) -> MissedAnswer {
        let refused = planner::refusal(diagram, self.missing_suffices(diagram.table.len(), some), set);
        let found = refused.map_or_else(|| Ok(planner::first_missing(diagram, set)), Err);
        if found.is_ok() {
            some.fill(0);
        }
        told_cut(found)
    }

    fn holding(&self, diagram: &Lent, set: Set, areas: HoldingAreas) -> HeldAnswer {
        let HoldingAreas { counts, work } = areas;
        let suffice = counts.len() as u64 >= diagram.event_count && self.holding_suffices(diagram.table.len(), &work);
        if let Some(number) = planner::refusal(diagram, suffice, set) {
            return HeldAnswer { number, place: 0 };
        }
        work.into_iter().for_each(|area| area.fill(0));
        match planner::holding(diagram, &set) {
            Err(number) => HeldAnswer { number, place: 0 },
            Ok(own) => {
                counts[..own.len()].copy_from_slice(&own);
                HeldAnswer { number: 0, place: 0 }
            }
        }
    }

    fn check(&self, diagram: &Lent, set: Set, some: &mut [u32]) -> CheckAnswer {
        let refused = planner::refusal(diagram, self.missing_suffices(diagram.table.len(), some), set);
        let judged = refused.map_or_else(|| Ok(planner::judge(diagram, set)), Err);
        if judged.is_ok() {
            some.fill(0);
        }
        told_judgement(judged)
    }

    fn plan(&self, diagram: &Lent, work: [&mut [u64]; HOLDING_AREAS]) -> PlanAnswer {
        let suffice = self.holding_suffices(diagram.table.len(), &work);
        if let Some(number) = planner::refusal(diagram, suffice, Set::EMPTY) {
            return told_plan(Err(number));
        }
        work.into_iter().for_each(|area| area.fill(0));
        told_plan(planner::plan(diagram))
    }
}
