//! Sets to be kept sound, of any lent family: the first cut that misses one, the cuts that are left of each event, what the checker says, and what is
//! proposed, against the second program.

use crate::compare::no_fault;
use crate::families;
use crate::lent::Lent;
use crate::library::*;
use crate::mirror::{told_cut, told_judgement, told_plan};
use crate::planner::{self, judge, misses, refusal, Judgement, HOLDING_AREAS};
use crate::plans::{self, all_known, Known};
use crate::random::Random;
use crate::sets::Set;
use crate::tally::Tally;
use crate::tree::MOST_EVENTS;

/// A plan takes a pass over the nodes for each event, and so does a check. Families beyond the first are seldom planned, beyond the second never.
const MOST_TOIL: [u64; 2] = [100_000, 4_000_000];

fn too_large(diagram: &Lent, random: &mut Random) -> bool {
    let toil = diagram.node_count.saturating_mul(diagram.event_count);
    toil > MOST_TOIL[usize::from(random.once_in(8))]
}

/// A few calls of every kind on one family; now and then on the same with one event more in each of its sets.
pub fn compare_plans(library: &dyn Library, diagram: &Lent, random: &mut Random, tally: &mut Tally) {
    let before = std::mem::take(&mut tally.input);
    compare_one(library, diagram, &before, random, tally);
    if random.once_in(8) && diagram.is_diagram() && diagram.event_count < MOST_EVENTS as u64 {
        compare_one(library, &plans::all_with_one_more(diagram), "", random, tally);
    }
    tally.input = before;
}

fn compare_one(library: &dyn Library, diagram: &Lent, from: &str, random: &mut Random, tally: &mut Tally) {
    let mut on = On { library, diagram, may_lack: true, from };
    if diagram.is_diagram() && too_large(diagram, random) {
        let _ = on.first_missing(Set::of(&[0]), random, tally);
        let _ = on.holding(Set::of(&[0]), random, tally);
        return;
    }
    let set = plans::seeded(random, diagram);
    let _ = on.first_missing(set, random, tally);
    let set = plans::seeded_few(random, diagram);
    let _ = on.holding(set, random, tally);
    let set = plans::seeded(random, diagram);
    let _ = on.check(set, random, tally);
    let proposal = on.plan(random, tally);
    on.may_lack = false;
    if let Some(Ok(set)) = proposal {
        // What is proposed has to be checked like any other set.
        let _ = on.check(set, random, tally);
    }
}

/// One family in a library's hands.
struct On<'a> {
    library: &'a dyn Library,
    diagram: &'a Lent,
    /// Whether an area may be too short.
    may_lack: bool,
    from: &'a str,
}

/// An area of at least its smallest length, dirty; of an unlucky one less.
fn area<T: Copy + PartialEq>(least: usize, lack: bool, random: &mut Random, dirt: fn(u64) -> T) -> Guarded<T> {
    let length = match lack {
        true => random.of(&[0, least / 2, least - 1, least - 1]),
        false => least + if random.once_in(2) { random.below(20) } else { 0 },
    };
    let small = random.once_in(2);
    let number = |random: &mut Random| if small { random.below(3) as u64 } else { random.next() };
    Guarded::new((0..length).map(|_| dirt(number(random))).collect(), dirt(0xDEAD_BEEF_DEAD_BEEF))
}

impl On<'_> {
    fn note(&self, what: &str, set: Set, lengths: &[usize], tally: &mut Tally) {
        tally.note(|| {
            let asked = format!("{what} of {:?}, areas {lengths:?}", set.members());
            match self.from {
                "" => format!("{:?} {asked}", self.diagram),
                bytes => format!("{bytes} {asked}"),
            }
        });
    }

    fn capacity(&self) -> usize {
        self.diagram.table.len() / 3
    }

    fn lacks(&self, random: &mut Random) -> bool {
        self.may_lack && random.once_in(10)
    }

    /// The area of a search, and whether it suffices.
    fn some(&self, random: &mut Random) -> (Guarded<u32>, bool) {
        let lack = self.lacks(random);
        (area(self.library.smallest_missing_area(self.capacity()), lack, random, |dirt| dirt as u32), !lack)
    }

    /// The areas of a counting, and whether they suffice.
    fn work(&self, random: &mut Random) -> ([Guarded<u64>; HOLDING_AREAS], bool) {
        let smallest = self.library.smallest_holding_areas(self.capacity());
        let short = self.lacks(random).then(|| random.below(HOLDING_AREAS));
        let mut place = 0..;
        let areas = smallest.map(|least| area(least, place.next() == short, random, |dirt| dirt));
        (areas, short.is_none())
    }

    /// The first cut that misses the set. Answers what the second program says.
    fn first_missing(&self, set: Set, random: &mut Random, tally: &mut Tally) -> Result<Option<Set>, u32> {
        let (mut some, suffice) = self.some(random);
        self.note("the first cut that misses", set, &[some.now().len()], tally);
        let refused = refusal(self.diagram, suffice, set);
        let expected = refused.map_or_else(|| Ok(planner::first_missing(self.diagram, set)), Err);
        let got = self.library.first_missing(self.diagram, set, some.lend());
        no_fault(self.library, tally);
        tally.due("first missing", expected.err().unwrap_or(0));
        tally.meet("sets that no cut misses", expected == Ok(None));
        tally.meet("sets that the empty cut alone misses", expected == Ok(Some(Set::EMPTY)));
        tally.same("the first cut that misses", told_cut(expected), got);
        compare_area(&some, expected.is_ok(), tally);
        expected
    }

    /// The cuts that miss the set and hold each event.
    fn holding(&self, set: Set, random: &mut Random, tally: &mut Tally) -> Result<Vec<u64>, u32> {
        let (mut work, mut suffice) = self.work(random);
        let events = self.diagram.event_count.min(1_100) as usize;
        let lack = suffice && self.lacks(random) && events > 0;
        let mut counts = area(events, lack, random, |dirt| dirt);
        suffice &= !lack;
        let lengths = [counts.now().len(), work[0].now().len(), work[1].now().len()];
        self.note("the cuts that are left", set, &lengths, tally);
        let refused = refusal(self.diagram, suffice, set);
        let expected = refused.map_or_else(|| planner::holding(self.diagram, &set), Err);
        let number = *expected.as_ref().err().unwrap_or(&0);
        let areas = HoldingAreas { counts: counts.lend(), work: work.each_mut().map(Guarded::lend) };
        let got = self.library.holding(self.diagram, set, areas);
        no_fault(self.library, tally);
        tally.due("holding", number);
        tally.same("the cuts that are left", HeldAnswer { number, place: 0 }, got);
        tally.holds("guards of the cuts that are left", counts.guards_stand());
        match &expected {
            Ok(own) => {
                let (now, behind) = counts.now().split_at(own.len());
                tally.same("the cuts that are left of each event", &own[..], now);
                tally.holds("what lies behind them stays", behind == &counts.before()[own.len()..]);
                tally.meet("an event in 2^64 - 1 cuts", own.contains(&u64::MAX));
                tally.large("cuts that hold one event", own.iter().copied().max().unwrap_or(0));
            }
            Err(_) => tally.holds("a refusal leaves the counts", counts.unchanged()),
        }
        work.iter().for_each(|area| compare_area(area, [0, 19].contains(&number), tally));
        expected
    }

    fn check(&self, set: Set, random: &mut Random, tally: &mut Tally) -> Result<Judgement, u32> {
        let (mut some, suffice) = self.some(random);
        self.note("a check", set, &[some.now().len()], tally);
        let refused = refusal(self.diagram, suffice, set);
        let expected = refused.map_or_else(|| Ok(judge(self.diagram, set)), Err);
        let got = self.library.check(self.diagram, set, some.lend());
        no_fault(self.library, tally);
        tally.due("check", expected.err().unwrap_or(0));
        match expected {
            Ok(Judgement::Accepted) => {
                tally.meet("sets accepted", true);
                tally.large("members of a set accepted", set.members().len() as u64);
            }
            Ok(Judgement::Missed(cut)) => {
                tally.meet("sets missed", true);
                tally.holds("the cut that is told misses the set", misses(&cut, &set));
            }
            Ok(Judgement::Droppable(member)) => {
                tally.meet("sets with a member that could be dropped", true);
                tally.meet("which is not the lowest", set.members().first() != Some(&member));
            }
            Err(_) => {}
        }
        tally.same("a check", told_judgement(expected), got);
        compare_area(&some, expected.is_ok(), tally);
        expected
    }

    /// Answers what the second program proposes, where it is not refused for what was lent.
    fn plan(&self, random: &mut Random, tally: &mut Tally) -> Option<Result<Set, u32>> {
        let (mut work, suffice) = self.work(random);
        self.note("a plan", Set::EMPTY, &work.each_ref().map(|area| area.now().len()), tally);
        let refused = refusal(self.diagram, suffice, Set::EMPTY);
        let expected = refused.map_or_else(|| planner::plan(self.diagram), Err);
        let number = expected.err().unwrap_or(0);
        let got = self.library.plan(self.diagram, work.each_mut().map(Guarded::lend));
        no_fault(self.library, tally);
        tally.due("plan", number);
        if let Ok(set) = expected {
            let judged = judge(self.diagram, set);
            tally.meet("plans accepted", judged == Judgement::Accepted);
            tally.meet("plans with a member too many", matches!(judged, Judgement::Droppable(_)));
            tally.large("members of a plan", set.members().len() as u64);
        }
        tally.same("a plan", told_plan(expected), got);
        work.iter().for_each(|area| compare_area(area, [0, 19].contains(&number), tally));
        refused.is_none().then_some(expected)
    }
}

fn compare_area<T: Copy + PartialEq + Default>(area: &Guarded<T>, cleared: bool, tally: &mut Tally) {
    tally.holds("guards of the planner's areas", area.guards_stand());
    match cleared {
        true => tally.holds("the planner's areas end zero", area.all(T::default())),
        false => tally.holds("a refusal leaves the planner's areas", area.unchanged()),
    }
}

/// Request 11 case by case.
pub fn compare_maintenance(library: &dyn Library, random: &mut Random, tally: &mut Tally) {
    for own in all_known() {
        tally.name = Some(own.what);
        compare_known(library, &own, random, tally);
    }
    compare_every_set(library, random, tally);
    compare_beyond(library, random, tally);
    compare_order(library, tally);
}

fn compare_known(library: &dyn Library, own: &Known, random: &mut Random, tally: &mut Tally) {
    let on = On { library, diagram: &own.family, may_lack: false, from: own.what };
    let planned = on.plan(random, tally);
    tally.same("as it is written out", Some(own.plan), planned);
    for &(set, due) in &own.judged {
        let judged = on.check(set, random, tally);
        tally.same("as it is written out", Ok(due), judged);
        let cut = match due {
            Judgement::Missed(cut) => Some(cut),
            _ => None,
        };
        let found = on.first_missing(set, random, tally);
        tally.same("as it is written out", Ok(cut), found);
        let none_left = on.holding(set, random, tally).is_ok_and(|counts| counts.iter().all(|&count| count == 0));
        tally.holds("no event of a cut is left where none is", cut.is_some() || none_left);
    }
    let _ = on.holding(Set::EMPTY, random, tally);
}

/// Each set of the events of small families, which are mostly no antichains.
fn compare_every_set(library: &dyn Library, random: &mut Random, tally: &mut Tally) {
    tally.name = Some("every set of six events");
    for seed in 0..12 {
        let own = &mut Random::new(seed);
        let sets: Vec<Set> = (0..64).filter(|_| own.once_in(8)).map(|set| Set::from_number(0, 63 - set)).collect();
        let mut sets = if sets.is_empty() { vec![Set::of(&[0])] } else { sets };
        sets.sort_by(Set::order);
        let family = families::of_sets(6, &sets);
        let on = On { library, diagram: &family, may_lack: false, from: "" };
        for set in 0..64 {
            let set = Set::from_number(0, set);
            let _ = on.check(set, random, tally);
            let _ = on.first_missing(set, random, tally);
            let _ = on.holding(set, random, tally);
        }
        let _ = on.plan(random, tally);
    }
}

/// Members that are no events, in any word.
fn compare_beyond(library: &dyn Library, random: &mut Random, tally: &mut Tally) {
    tally.name = Some("sets beyond the events");
    for events in [3, 63, 64, 66, 256, 1_023] {
        let family = Lent { event_count: events as u64, ..families::every_set(3) };
        let on = On { library, diagram: &family, may_lack: false, from: "" };
        for member in [events, events + 1, 300, 1_023].into_iter().filter(|member| (events..1_024).contains(member)) {
            let set = Set::of(&[0, member]);
            let judged = on.check(set, random, tally);
            tally.same("as it is written out", Err(13), judged);
            let found = on.first_missing(set, random, tally);
            tally.same("as it is written out", Err(13), found);
            let left = on.holding(set, random, tally);
            tally.same("as it is written out", Err(13), left);
        }
        let judged = on.check(Set::of(&[0, 1, 2, events - 1]), random, tally);
        tally.same("as it is written out", Ok(Judgement::Missed(Set::EMPTY)), judged);
    }
}

/// Each two faults at once: the one that comes first is told.
fn compare_order(library: &dyn Library, tally: &mut Tally) {
    tally.name = Some("the order of the planner's refusals");
    let good = Lent { event_count: 66, ..families::every_set(65) };
    let bad = Lent { root: 99, ..good.clone() };
    // Room for more nodes than are stated: the lengths go by the room.
    let wide = Lent { table: [&good.table[..], &[7; 12]].concat(), ..good.clone() };
    for faults in 0..8usize {
        let has = |fault: usize| faults >> fault & 1 == 1;
        let diagram = if has(0) { &bad } else { &wide };
        let set = if has(2) { Set::of(&[66]) } else { Set::EMPTY };
        let due = [12, 9, 13].into_iter().enumerate().find(|&(fault, _)| has(fault)).map(|(_, number)| number);
        let least = library.smallest_missing_area(diagram.table.len() / 3);
        let less = usize::from(has(1));
        let mut some = vec![5; least - less];
        tally.same("as it is written out", due.unwrap_or(0), library.check(diagram, set, &mut some).number);
        tally.same("as it is written out", due.unwrap_or(0), library.first_missing(diagram, set, &mut some).number);
        for short in 0..3 {
            let work = library.smallest_holding_areas(diagram.table.len() / 3);
            let length = |place: usize, least: usize| least - if place == short { less } else { 0 };
            let (mut below, mut ways) = (vec![5; length(0, work[0])], vec![5; length(1, work[1])]);
            let mut counts = vec![5; length(2, 66)];
            let areas = HoldingAreas { counts: &mut counts, work: [&mut below, &mut ways] };
            tally.same("as it is written out", due.unwrap_or(19), library.holding(diagram, set, areas).number);
            tally.holds("a refusal leaves the counts", counts.iter().all(|&count| count == 5));
            if !has(2) && short < 2 {
                let planned = library.plan(diagram, [&mut below, &mut ways]).number;
                tally.same("as it is written out", due.unwrap_or(19), planned);
            }
        }
    }
}
