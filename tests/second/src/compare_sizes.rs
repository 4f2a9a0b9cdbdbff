//! Counts by size of any lent family, and the totals over folders, against the second program.

use crate::analysis::Lengths;
use crate::compare::no_fault;
use crate::european::european_1;
use crate::families;
use crate::folders::{self, Folder};
use crate::generator::and_of_ors;
use crate::heat_removal::heat_removal;
use crate::judge::{write, Refusal};
use crate::lent::Lent;
use crate::library::*;
use crate::memory::{lengths, Memory, Need};
use crate::random::Random;
use crate::sizes::*;
use crate::tally::{hex, Tally};
use crate::tree::{Tree, MOST_EVENTS};

/// The lists that a counting is lent, dirty.
struct Counting {
    counts: Guarded<u64>,
    work: [Guarded<u64>; COUNT_AREAS],
    suffice: bool,
}

impl Counting {
    /// Of the smallest lengths for a table of so many numbers, or longer; in some of the inputs one is short.
    fn around(library: &dyn Library, table: usize, random: &mut Random, may_lack: bool) -> Counting {
        let smallest = library.smallest_count_areas(table / 3);
        let mut longer = |least: usize| if random.once_in(3) { least + random.below(20) } else { least };
        let (mut counts, mut work) = (longer(SIZES), smallest.map(&mut longer));
        let lack = may_lack && random.once_in(10);
        if lack {
            match random.below(COUNT_AREAS + 1) {
                COUNT_AREAS => counts = random.of(&[0, 1, SIZES - 1, SIZES - 1]),
                place => work[place] = random.of(&[0, smallest[place] / 2, smallest[place] - 1, smallest[place] - 1]),
            }
        }
        let small = random.once_in(2);
        let mut dirty = |length: usize| {
            let number = |random: &mut Random| if small { random.below(3) as u64 } else { random.next() };
            Guarded::new((0..length).map(|_| number(random)).collect(), 0xDEAD_BEEF_DEAD_BEEF)
        };
        Counting { counts: dirty(counts), work: work.map(&mut dirty), suffice: !lack }
    }

    fn lend(&mut self) -> CountAreas<'_> {
        CountAreas { counts: self.counts.lend(), work: self.work.each_mut().map(Guarded::lend) }
    }

    fn told(&self) -> String {
        format!("counts {} areas {:?}", self.counts.now().len(), self.work.each_ref().map(|area| area.now().len()))
    }

    /// What the lists hold next: the counts if there are some, else as before; the areas as before or zero.
    fn compare(&self, counts: Option<&[u64]>, areas_stay: bool, tally: &mut Tally) {
        tally.holds("guards of the counts", self.counts.guards_stand() && self.work.iter().all(Guarded::guards_stand));
        match counts {
            Some(counts) => {
                let (own, behind) = self.counts.now().split_at(SIZES);
                tally.same("the counts", counts, own);
                tally.holds("what lies behind the counts stays", behind == &self.counts.before()[SIZES..]);
            }
            None => tally.holds("a refusal leaves the counts", self.counts.unchanged()),
        }
        if areas_stay {
            tally.holds("the counting areas stay", self.work.iter().all(Guarded::unchanged));
        } else {
            tally.holds("the counting areas end zero", self.work.iter().all(|area| area.all(0)));
        }
    }
}

/// A lent family in lists of lengths around the need, or of the right ones.
pub fn compare_sizes(library: &dyn Library, diagram: &Lent, random: &mut Random, tally: &mut Tally) {
    let before = std::mem::take(&mut tally.input);
    let _ = one_counting(library, diagram, true, random, tally, &before);
    tally.input = before;
}

/// Answers what the second program says of the family.
fn one_counting(
    library: &dyn Library,
    diagram: &Lent,
    may_lack: bool,
    random: &mut Random,
    tally: &mut Tally,
    from: &str,
) -> Result<Vec<u64>, Refusal> {
    let mut counting = Counting::around(library, diagram.table.len(), random, may_lack);
    tally.note(|| match from {
        "" => format!("{diagram:?} {}", counting.told()),
        bytes => format!("{bytes} {}", counting.told()),
    });
    let expected = sizes(diagram, counting.suffice);
    let got = library.sizes(diagram, counting.lend());
    no_fault(library, tally);
    let (number, place) = expected.as_ref().map_or_else(|&Refusal { number, place }| (number, place), |_| (0, 0));
    tally.due("sizes", number);
    if let Ok(counts) = &expected {
        tally.meet("families with the empty set", counts[0] == 1);
        tally.meet("families with a set of all 1,024 events", counts[MOST_EVENTS] == 1);
        tally.meet("families with a count above 2^63", counts.iter().any(|&count| count > 1 << 63));
        tally.meet("families with a count of 2^64 - 1", counts.contains(&u64::MAX));
        tally.large("sets of one size", counts.iter().copied().max().unwrap_or(0));
    }
    tally.same("counting", SizesAnswer { number, place }, got);
    counting.compare(expected.as_deref().ok(), [9, 12].contains(&number), tally);
    expected
}

/// A seeded folder.
pub fn compare_folders(library: &dyn Library, random: &mut Random, tally: &mut Tally) {
    let folder = folders::seeded(random);
    let (lengths, work) = lengths_around(library, &folder, random);
    let _ = compare_folder_in(library, &folder, lengths, work, true, random, tally);
}

/// The lengths to be lent to the analyses: near what all trees need together.
fn lengths_around(library: &dyn Library, folder: &Folder, random: &mut Random) -> (Lengths, [usize; 4]) {
    let mut need = Need { nodes: 1, cuts: 1, gates: 1, by_gate: Vec::new() };
    for tree in trees_of(&folder.bytes, &folder.lengths).unwrap_or_default() {
        if let Some(own) = Need::of(tree) {
            need = Need {
                nodes: need.nodes.max(own.nodes),
                cuts: need.cuts.max(own.cuts),
                gates: need.gates.max(own.gates),
                by_gate: own.by_gate,
            };
        }
    }
    lengths(library, need, random)
}

/// A folder in memory of these lengths, dirty when it is lent. Answers what the second program says.
fn compare_folder_in(
    library: &dyn Library,
    folder: &Folder,
    lengths: Lengths,
    work_lengths: [usize; 4],
    may_lack: bool,
    random: &mut Random,
    tally: &mut Tally,
) -> Result<Vec<u64>, RefusedFolder> {
    let Folder { bytes, lengths: of_trees } = folder;
    let mut memory = Memory::dirty(lengths, work_lengths, random);
    let mut counting = Counting::around(library, lengths.cut_table, random, may_lack);
    tally.note(|| {
        let told = counting.told();
        format!("{} trees of {of_trees:?} lengths {lengths:?} work areas {work_lengths:?} {told}", hex(bytes))
    });
    let expected = crate::sizes::folder(bytes, of_trees, lengths, counting.suffice);
    let got = library.folder(bytes, of_trees, memory.lend(), counting.lend());
    no_fault(library, tally);
    let refused = expected.as_ref().err().copied();
    let RefusedFolder { number, place, tree } = refused.unwrap_or(RefusedFolder::whole(0));
    tally.due("folder", number);
    meet_folder(folder, lengths, refused, tally);
    tally.same("a folder", FolderAnswer { number, place, tree }, got);
    let all = memory.all();
    tally.holds("guards of a folder", all.iter().all(|area| area.guards_stand()));
    let stays = refused.is_some_and(|refused| refused.leaves_memory());
    if stays {
        tally.holds(
            "the first 9 and the first tree's 1 to 9 and 21 write nothing",
            all.iter().all(|area| area.unchanged()),
        );
    } else {
        tally.holds("a folder leaves zero", all.iter().all(|area| area.all(0)));
    }
    counting.compare(expected.as_deref().ok(), stays, tally);
    expected
}

/// What a folder brought that is worth meeting.
fn meet_folder(folder: &Folder, lent: Lengths, refused: Option<RefusedFolder>, tally: &mut Tally) {
    let Some(trees) = trees_of(&folder.bytes, &folder.lengths) else { return };
    let too_many = |trees: &[&[u8]]| {
        let Folder { bytes, lengths } = Folder::of(&trees.iter().map(|tree| tree.to_vec()).collect::<Vec<_>>());
        crate::sizes::folder(&bytes, &lengths, lent, true).is_err_and(|refused| refused.number == 19)
    };
    match refused {
        None => {
            tally.meet("folders of no tree", trees.is_empty());
            tally.meet("folders of one tree", trees.len() == 1);
            tally.meet("folders of 64 trees", trees.len() == MOST_TREES);
        }
        Some(RefusedFolder { number: 19, .. }) => {
            tally.meet("folders with too many cuts in no single tree", !trees.iter().any(|tree| too_many(&[tree])));
        }
        Some(RefusedFolder { number, place, tree }) if trees.len() > 1 && (number != 9 || tree > 0) => {
            let tree = tree as usize;
            tally.meet("folders refused by their first tree", tree == 0);
            tally.meet("folders refused by their last tree", tree == trees.len() - 1);
            tally.meet("folders refused by a tree in the middle", tree > 0 && tree < trees.len() - 1);
            tally.meet("folders refused by a tree after too many cuts", too_many(&trees[..tree]));
            tally.meet("folders refused by a gate but the first", number == 10 && place > 0);
        }
        Some(_) => {}
    }
}

/// Trees and families whose counts are known from elsewhere.
pub fn compare_figures(library: &dyn Library, random: &mut Random, tally: &mut Tally) {
    tally.name = Some("European 1 by size");
    let european = [0, 0, 1, 1, 70, 400, 2_212, 14_748, 8_460, 10_624, 6_600, 3_072];
    compare_trees(library, &[european_1()], Ok(&european), random, tally);
    tally.name = Some("heat removal by size");
    let heat = [0, 0, 0, 4, 12, 24, 28, 20, 8];
    compare_trees(library, &[heat_removal()], Ok(&heat), random, tally);
    let both: Vec<u64> = european.iter().zip(heat.iter().chain(&[0; 3])).map(|(a, b)| a + b).collect();
    compare_trees(library, &[heat_removal(), european_1()], Ok(&both), random, tally);
    tally.name = Some("ands of ors by size");
    let fits = [vec![0; 63], vec![1 << 63]].concat();
    compare_trees(library, &[and_of_ors(63)], Ok(&fits), random, tally);
    compare_trees(library, &[and_of_ors(64)], Err(19), random, tally);
    compare_trees(library, &[and_of_ors(63), and_of_ors(63)], Err(19), random, tally);
    tally.name = Some("families of known counts");
    let all_but_one = [vec![0; 64], vec![u64::MAX]].concat();
    compare_family(library, &families::all_but_one(64), Ok(&all_but_one), random, tally);
    compare_family(library, &families::all_but_one(65), Err(19), random, tally);
    compare_family(library, &families::every_set(68), Err(19), random, tally);
    compare_family(library, &families::every_set(4), Ok(&[1, 4, 6, 4, 1]), random, tally);
}

/// The counts, told as far as they are not 0; or the number.
fn compare_figure(expected: Result<&[u64], u32>, counts: Result<Vec<u64>, u32>, tally: &mut Tally) {
    let whole = |told: &[u64]| [told, &vec![0; SIZES - told.len()]].concat();
    tally.same("figures from elsewhere", expected.map(whole), counts);
}

fn compare_family(
    library: &dyn Library,
    family: &Lent,
    expected: Result<&[u64], u32>,
    random: &mut Random,
    tally: &mut Tally,
) {
    let counts = one_counting(library, family, false, random, tally, "");
    compare_figure(expected, counts.map_err(|refusal| refusal.number), tally);
}

fn compare_trees(
    library: &dyn Library,
    trees: &[Tree],
    expected: Result<&[u64], u32>,
    random: &mut Random,
    tally: &mut Tally,
) {
    let bytes = |tree: &Tree| write(tree).expect("a named tree is accepted");
    let folder = Folder::of(&trees.iter().map(bytes).collect::<Vec<_>>());
    let (nodes, cuts) = (14_000, 17_000);
    let lengths = Lengths { memo: 1 << 16, ..Lengths::of_capacities(nodes, cuts) };
    let work = library.smallest_areas(nodes, cuts);
    let totals = compare_folder_in(library, &folder, lengths, work, false, random, tally);
    compare_figure(expected, totals.map_err(|refused| refused.number), tally);
}
