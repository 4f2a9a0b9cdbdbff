//! The linked library, behind the process of `tests/driver`: a call is a request over one pipe and an answer over another.

use crate::arrays::Arrays;
use crate::changes::{Comparison, Difference, Side, Verdict};
use crate::equations::LISTS;
use crate::importance::WEIGH_AREAS;
use crate::lent::Lent;
use crate::library::*;
use crate::planner::HOLDING_AREAS;
use crate::report::REPORT_AREAS;
use crate::sets::{Set, WORDS};
use crate::settings::Season;
use crate::sizes::COUNT_AREAS;
use crate::tree::Tree;
use std::cell::{Cell, RefCell};
use std::io::{self, Read, Write};
use std::process::{Child, Command, Stdio};

const READ: u64 = 1;
const WRITE: u64 = 2;
const ANALYSE: u64 = 3;
const LIST: u64 = 4;
const BRACKET: u64 = 5;
const IMPORT: u64 = 6;
const EXPORT: u64 = 7;
const SIZES: u64 = 8;
const FOLDER: u64 = 9;
const SIDE: u64 = 10;
const FIRST_DIFFERENCE: u64 = 11;
const COMPARE: u64 = 12;
const TO_SITES: u64 = 13;
const FROM_SITES: u64 = 14;
const REPORT: u64 = 15;
const ANALYSE_SEASON: u64 = 16;
const CHANCES_UNDER: u64 = 17;
const FIRST_MISSING: u64 = 18;
const HOLDING: u64 = 19;
const CHECK: u64 = 20;
const PLAN: u64 = 21;
const IMPORTANCE: u64 = 22;
const DECIDES: u64 = 23;

/// What the driver says of a call when every guard and every constant area stands.
const ALL_STANDS: u64 = 3;

pub struct Driver {
    command: Vec<String>,
    process: RefCell<Child>,
    /// What was seen to go wrong in the last call, beside its answer.
    fault: Cell<Option<&'static str>>,
}

/// A lent area that a call may write.
pub enum Area<'a> {
    Bytes(&'a mut [u8]),
    Halves(&'a mut [u16]),
    Numbers(&'a mut [u32]),
    Words(&'a mut [u64]),
}

/// The bytes of a request: the call, then its arguments in the header's order.
pub struct Request(Vec<u8>);

impl Request {
    fn of(call: u64) -> Request {
        Request(call.to_le_bytes().to_vec())
    }

    fn number(mut self, number: u64) -> Request {
        self.0.extend(number.to_le_bytes());
        self
    }

    pub fn bytes(self, area: &[u8]) -> Request {
        let mut request = self.number(area.len() as u64);
        request.0.extend(area);
        request
    }

    pub fn halves(self, area: &[u16]) -> Request {
        let mut request = self.number(area.len() as u64);
        request.0.extend(area.iter().flat_map(|number| number.to_le_bytes()));
        request
    }

    pub fn numbers(self, area: &[u32]) -> Request {
        let mut request = self.number(area.len() as u64);
        request.0.extend(area.iter().flat_map(|number| number.to_le_bytes()));
        request
    }

    fn words(self, area: &[u64]) -> Request {
        let mut request = self.number(area.len() as u64);
        request.0.extend(area.iter().flat_map(|number| number.to_le_bytes()));
        request
    }

    /// A diagram as it is lent.
    fn diagram(self, diagram: &Lent) -> Request {
        let request = self.numbers(&diagram.table).number(diagram.event_count);
        request.number(diagram.node_count).number(diagram.root)
    }

    /// Where a listing starts. From the beginning the set is not looked at.
    fn start(self, after: Option<Set>, dirt: usize) -> Request {
        let words = after.map_or([u64::MAX, 1, 0, dirt as u64].repeat(WORDS / 4), |set| set.0.to_vec());
        self.number(u64::from(after.is_none())).words(&words)
    }
}

fn start(command: &[String]) -> Child {
    let pipes = Command::new(&command[0]).args(&command[1..]).stdin(Stdio::piped()).stdout(Stdio::piped()).spawn();
    pipes.unwrap_or_else(|fault| panic!("{}: {fault}", command[0]))
}

fn word(bytes: &[u8]) -> u64 {
    u64::from_le_bytes(bytes.try_into().expect("a word has 8 bytes"))
}

/// Dirt that goes with these bytes.
fn seed(bytes: &[u8]) -> u64 {
    bytes.iter().fold(0u64, |seed, &byte| seed.wrapping_mul(31).wrapping_add(byte as u64))
}

/// A number of an answer; one that no answer may hold stands for all that are too large.
fn small(number: u64) -> u32 {
    u32::try_from(number).unwrap_or(u32::MAX)
}

impl Driver {
    /// The command starts the driver: its path, behind an emulator and before an option where there is one.
    pub fn new(command: Vec<String>) -> Driver {
        let process = RefCell::new(start(&command));
        Driver { command, process, fault: Cell::new(None) }
    }

    /// Makes a call: the words of its answer, and what the areas hold next. A driver that dies is started again; its call
    /// answers nothing that could be expected, and changes nothing.
    fn ask<const WORDS: usize>(&self, request: Request, areas: &mut [Area]) -> [u64; WORDS] {
        self.fault.set(None);
        let bytes: usize = areas.iter().map(Area::bytes).sum();
        let mut reply = vec![0; 8 + 8 * WORDS + bytes];
        if self.exchange(&request.0, &mut reply).is_err() {
            self.fault.set(Some("the call did not return"));
            let mut process = self.process.borrow_mut();
            let _ = process.kill();
            let _ = process.wait();
            *process = start(&self.command);
            return [u64::MAX; WORDS];
        }
        match word(&reply[..8]) {
            ALL_STANDS => {}
            2 => self.fault.set(Some("a guard was written to")),
            1 => self.fault.set(Some("a constant area was written to")),
            _ => self.fault.set(Some("a guard and a constant area were written to")),
        }
        let mut rest = &reply[8..];
        let mut answer = [0; WORDS];
        for number in &mut answer {
            *number = word(&rest[..8]);
            rest = &rest[8..];
        }
        for area in areas {
            let (own, others) = rest.split_at(area.bytes());
            area.fill(own);
            rest = others;
        }
        answer
    }

    /// A flag of an answer.
    fn flag(&self, word: u64) -> bool {
        if word > 1 && self.fault.get().is_none() {
            self.fault.set(Some("a flag is neither 0 nor 1"));
        }
        word == 1
    }

    /// The tree that a call left in the arrays, which a refusal leaves as they were lent.
    fn tree(&self, number: u64, [events, gates, sited]: [u64; 3], lent: &Arrays, arrays: &Arrays) -> Tree {
        let tree = if number == 0 {
            arrays.tree(events, gates, sited)
        } else {
            (arrays == lent && [events, gates, sited] == [0; 3]).then(Tree::default)
        };
        if tree.is_none() && self.fault.get().is_none() {
            self.fault.set(Some("the call leaves more or less than its tree in the arrays, the counts or the form"));
        }
        tree.unwrap_or_default()
    }

    /// A call that writes a tree into a room.
    fn written(&self, call: u64, tree: &Tree, room: &mut [u8]) -> WriteAnswer {
        let arrays = Arrays::of(tree, room.len() as u64);
        let request = Request::of(call).number(tree.event_count).number(tree.gate_count).number(u64::from(tree.sited));
        let request = arrays.lend(request).bytes(room);
        let [number, place, used] = self.ask(request, &mut [Area::Bytes(room)]);
        WriteAnswer { number: small(number), place, used }
    }

    /// A call that moves a tree's bytes into a room.
    fn moved(&self, call: u64, bytes: &[u8], room: &mut [u8]) -> WriteAnswer {
        let request = Request::of(call).bytes(bytes).bytes(room);
        let [number, place, used] = self.ask(request, &mut [Area::Bytes(room)]);
        WriteAnswer { number: small(number), place, used }
    }

    /// A call that is lent the memory of an analysis, behind what the request says.
    fn analysed(&self, request: Request, areas: Areas, added: &mut [u32]) -> AnalyseAnswer {
        let [nodes, cuts, gates, behind @ ..] = areas.all();
        let mut all: Vec<&mut [u32]> = [nodes, cuts, gates, added].into_iter().chain(behind).collect();
        let request = all.iter().fold(request, |request, area| request.numbers(area));
        let mut written: Vec<Area> = all.iter_mut().map(|area| Area::Numbers(area)).collect();
        let [number, place, nodes, cut_nodes, root, cut_root] = self.ask(request, &mut written);
        AnalyseAnswer { number: small(number), place, nodes, cut_nodes, root: small(root), cut_root: small(cut_root) }
    }

    /// A call on two listings, which writes its answer alone.
    fn of_listings<const WORDS: usize>(&self, call: u64, yesterday: &[u8], today: &[u8]) -> [u64; WORDS] {
        self.ask(Request::of(call).bytes(yesterday).bytes(today), &mut [])
    }

    fn verdict(&self, number: u64, place: u64, side: u64) -> Verdict {
        let side = match side {
            0 => Side::Neither,
            1 => Side::Yesterday,
            2 => Side::Today,
            _ => {
                self.fault.set(self.fault.get().or(Some("no such side")));
                Side::Neither
            }
        };
        Verdict { number: small(number), place, side }
    }

    fn exchange(&self, request: &[u8], reply: &mut [u8]) -> io::Result<()> {
        let mut process = self.process.borrow_mut();
        let input = process.stdin.as_mut().expect("the pipe is there");
        input.write_all(request)?;
        input.flush()?;
        process.stdout.as_mut().expect("the pipe is there").read_exact(reply)
    }
}

impl Drop for Driver {
    fn drop(&mut self) {
        let process = self.process.get_mut();
        drop(process.stdin.take());
        let _ = process.wait();
    }
}

impl Area<'_> {
    fn bytes(&self) -> usize {
        match self {
            Area::Bytes(area) => area.len(),
            Area::Halves(area) => 2 * area.len(),
            Area::Numbers(area) => 4 * area.len(),
            Area::Words(area) => 8 * area.len(),
        }
    }

    fn fill(&mut self, bytes: &[u8]) {
        match self {
            Area::Bytes(area) => area.copy_from_slice(bytes),
            Area::Halves(area) => {
                for (number, pair) in area.iter_mut().zip(bytes.chunks_exact(2)) {
                    *number = u16::from_le_bytes([pair[0], pair[1]]);
                }
            }
            Area::Numbers(area) => {
                for (number, four) in area.iter_mut().zip(bytes.chunks_exact(4)) {
                    *number = u32::from_le_bytes([four[0], four[1], four[2], four[3]]);
                }
            }
            Area::Words(area) => {
                for (number, eight) in area.iter_mut().zip(bytes.chunks_exact(8)) {
                    *number = word(eight);
                }
            }
        }
    }
}

impl<'a> CountAreas<'a> {
    fn lend(&self, request: Request) -> Request {
        self.work.iter().fold(request.words(self.counts), |request, area| request.words(area))
    }

    fn areas(self) -> Vec<Area<'a>> {
        std::iter::once(self.counts).chain(self.work).map(Area::Words).collect()
    }
}

impl Library for Driver {
    fn smallest_areas(&self, node_capacity: usize, cut_capacity: usize) -> [usize; 4] {
        [node_capacity.max(cut_capacity) + 2; 4]
    }

    fn smallest_bracket_areas(&self, capacity: usize) -> [usize; 2] {
        [capacity; 2]
    }

    fn smallest_count_areas(&self, capacity: usize) -> [usize; COUNT_AREAS] {
        [capacity + 2; COUNT_AREAS]
    }

    fn smallest_report_areas(&self, capacity: usize) -> [usize; REPORT_AREAS] {
        [capacity; REPORT_AREAS]
    }

    fn smallest_missing_area(&self, capacity: usize) -> usize {
        capacity + 2
    }

    fn smallest_holding_areas(&self, capacity: usize) -> [usize; HOLDING_AREAS] {
        [2 * (capacity + 2); HOLDING_AREAS]
    }

    fn smallest_weigh_areas(&self, capacity: usize) -> [usize; WEIGH_AREAS] {
        [capacity, capacity, capacity + 2]
    }

    fn read(&self, bytes: &[u8]) -> ReadAnswer {
        let lent = Arrays::dirty(seed(bytes));
        let mut arrays = lent.clone();
        let request = arrays.lend(Request::of(READ).bytes(bytes));
        let [number, place, events, gates, sited] = self.ask(request, &mut arrays.areas());
        ReadAnswer { number: small(number), place, tree: self.tree(number, [events, gates, sited], &lent, &arrays) }
    }

    fn write(&self, tree: &Tree, room: &mut [u8]) -> WriteAnswer {
        self.written(WRITE, tree, room)
    }

    fn to_sites(&self, bytes: &[u8], room: &mut [u8]) -> WriteAnswer {
        self.moved(TO_SITES, bytes, room)
    }

    fn from_sites(&self, bytes: &[u8], room: &mut [u8]) -> WriteAnswer {
        self.moved(FROM_SITES, bytes, room)
    }

    fn analyse(&self, bytes: &[u8], areas: Areas, added: &mut [u32]) -> AnalyseAnswer {
        self.analysed(Request::of(ANALYSE).bytes(bytes), areas, added)
    }

    fn analyse_season(&self, bytes: &[u8], season: Season, areas: Areas, added: &mut [u32]) -> AnalyseAnswer {
        let request = Request::of(ANALYSE_SEASON).bytes(bytes).bytes(season.store).number(season.edition as u64);
        self.analysed(request, areas, added)
    }

    fn chances_under(&self, season: Season, chances: &mut [u32]) -> SettingsAnswer {
        let request = Request::of(CHANCES_UNDER).bytes(season.store).number(season.edition as u64).numbers(chances);
        let [number, place] = self.ask(request, &mut [Area::Numbers(chances)]);
        SettingsAnswer { number: small(number), place }
    }

    fn list(&self, diagram: &Lent, after: Option<Set>, room: &mut [u8]) -> ListAnswer {
        let request = Request::of(LIST).numbers(&diagram.table).number(diagram.event_count).number(diagram.node_count);
        let request = request.number(diagram.root).start(after, room.len()).bytes(room);
        let [number, place, written, used, finished, last @ ..]: [u64; 5 + WORDS] =
            self.ask(request, &mut [Area::Bytes(room)]);
        let finished = self.flag(finished);
        ListAnswer { number: small(number), place, written, used, last: Set(last), finished }
    }

    fn report(&self, diagram: &Lent, asked: Asked, room: &mut [u8], work: [&mut [u32]; REPORT_AREAS]) -> ReportAnswer {
        let Asked { edition, chances, after } = asked;
        let request = Request::of(REPORT).number(edition as u64).numbers(&diagram.table);
        let request = request.number(diagram.event_count).number(diagram.node_count).number(diagram.root);
        let [few, picks] = work;
        let request = request.numbers(chances).start(after, room.len()).bytes(room).numbers(few).numbers(picks);
        let [number, place, edition, written, used, finished, last @ ..]: [u64; 6 + WORDS] =
            self.ask(request, &mut [Area::Bytes(room), Area::Numbers(few), Area::Numbers(picks)]);
        let finished = self.flag(finished);
        let listing = ListAnswer { number: small(number), place, written, used, last: Set(last), finished };
        ReportAnswer { edition, listing }
    }

    fn bracket(&self, diagram: &Lent, chances: &[u32], work: [&mut [u32]; 2]) -> BracketAnswer {
        let request =
            Request::of(BRACKET).numbers(&diagram.table).number(diagram.event_count).number(diagram.node_count);
        let request = request.number(diagram.root).numbers(chances);
        let [lows, highs] = work;
        let request = request.numbers(lows).numbers(highs);
        let [number, place, low, high] = self.ask(request, &mut [Area::Numbers(lows), Area::Numbers(highs)]);
        BracketAnswer { number: small(number), place, low: small(low), high: small(high) }
    }

    fn import(&self, text: &[u8], mut lists: [&mut [u32]; LISTS]) -> ImportAnswer {
        let lent = Arrays::dirty(seed(text));
        let mut arrays = lent.clone();
        let mut request = Request::of(IMPORT).bytes(text);
        for list in &lists {
            request = request.numbers(list);
        }
        let mut areas: Vec<Area> = lists.iter_mut().map(|list| Area::Numbers(list)).collect();
        let request = arrays.lend(request);
        areas.extend(arrays.areas());
        let [number, place, line, ring, events, gates] = self.ask(request, &mut areas);
        // Typed equations have no sites, and no answer about them: the form is the old one.
        let tree = self.tree(number, [events, gates, 0], &lent, &arrays);
        ImportAnswer { number: small(number), place, line, ring, tree }
    }

    fn export(&self, tree: &Tree, room: &mut [u8]) -> WriteAnswer {
        self.written(EXPORT, tree, room)
    }

    fn importance(&self, diagram: &Lent, chances: &[u32], areas: WeighAreas) -> ImportanceAnswer {
        let mut all = areas.all();
        let request = Request::of(IMPORTANCE).diagram(diagram).numbers(chances);
        let request = all.iter().fold(request, |request, area| request.numbers(area));
        let mut written: Vec<Area> = all.iter_mut().map(|area| Area::Numbers(area)).collect();
        let [number, place] = self.ask(request, &mut written);
        ImportanceAnswer { number: small(number), place }
    }

    fn sizes(&self, diagram: &Lent, counting: CountAreas) -> SizesAnswer {
        let request = Request::of(SIZES).numbers(&diagram.table).number(diagram.event_count).number(diagram.node_count);
        let request = counting.lend(request.number(diagram.root));
        let [number, place] = self.ask(request, &mut counting.areas());
        SizesAnswer { number: small(number), place }
    }

    fn folder(&self, bytes: &[u8], lengths: &[u64], areas: Areas, counting: CountAreas) -> FolderAnswer {
        let mut all = areas.all();
        let request = Request::of(FOLDER).bytes(bytes).words(lengths);
        let request = counting.lend(all.iter().fold(request, |request, area| request.numbers(area)));
        let mut written: Vec<Area> = all.iter_mut().map(|area| Area::Numbers(area)).collect();
        written.extend(counting.areas());
        let [number, place, tree] = self.ask(request, &mut written);
        FolderAnswer { number: small(number), place, tree }
    }

    fn side(&self, yesterday: &[u8], today: &[u8]) -> Verdict {
        let [number, place, side] = self.of_listings(SIDE, yesterday, today);
        self.verdict(number, place, side)
    }

    fn first_difference(&self, yesterday: &[u8], today: &[u8]) -> Difference {
        let [number, place, side, offset, length] = self.of_listings(FIRST_DIFFERENCE, yesterday, today);
        Difference { verdict: self.verdict(number, place, side), start: offset as usize, length: length as usize }
    }

    fn compare(&self, yesterday: &[u8], today: &[u8]) -> Comparison {
        let [number, place, side, gone, new, kept] = self.of_listings(COMPARE, yesterday, today);
        let verdict = self.verdict(number, place, side);
        Comparison { verdict, gone: gone as usize, new: new as usize, kept: kept as usize }
    }

    fn decides(&self, listing: &[u8], events: u64, set: &Set) -> DecidedAnswer {
        let request = Request::of(DECIDES).bytes(listing).number(events).words(&set.0);
        let [number, place, fails] = self.ask(request, &mut []);
        DecidedAnswer { number: small(number), place, fails: self.flag(fails) }
    }

    fn first_missing(&self, diagram: &Lent, set: Set, some: &mut [u32]) -> MissedAnswer {
        let request = Request::of(FIRST_MISSING).diagram(diagram).words(&set.0).numbers(some);
        let [number, place, found, cut @ ..]: [u64; 3 + WORDS] = self.ask(request, &mut [Area::Numbers(some)]);
        MissedAnswer { number: small(number), place, found: self.flag(found), cut: Set(cut) }
    }

    fn holding(&self, diagram: &Lent, set: Set, areas: HoldingAreas) -> HeldAnswer {
        let HoldingAreas { counts, work: [below, ways] } = areas;
        let request = Request::of(HOLDING).diagram(diagram).words(&set.0).words(counts).words(below).words(ways);
        let [number, place] = self.ask(request, &mut [Area::Words(counts), Area::Words(below), Area::Words(ways)]);
        HeldAnswer { number: small(number), place }
    }

    fn check(&self, diagram: &Lent, set: Set, some: &mut [u32]) -> CheckAnswer {
        let request = Request::of(CHECK).diagram(diagram).words(&set.0).numbers(some);
        let [number, place, said, member, cut @ ..]: [u64; 4 + WORDS] = self.ask(request, &mut [Area::Numbers(some)]);
        CheckAnswer { number: small(number), place, said, member, cut: Set(cut) }
    }

    fn plan(&self, diagram: &Lent, work: [&mut [u64]; HOLDING_AREAS]) -> PlanAnswer {
        let [below, ways] = work;
        let request = Request::of(PLAN).diagram(diagram).words(below).words(ways);
        let [number, place, set @ ..]: [u64; 2 + WORDS] =
            self.ask(request, &mut [Area::Words(below), Area::Words(ways)]);
        PlanAnswer { number: small(number), place, set: Set(set) }
    }

    fn fault(&self) -> Option<&'static str> {
        self.fault.get()
    }
}
