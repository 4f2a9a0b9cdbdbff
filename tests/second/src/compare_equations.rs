//! Texts and trees given to import and export, against the second program.

use crate::analysis::{analyse, Lengths};
use crate::brute;
use crate::compare::{compare_rooms, no_fault};
use crate::equations::*;
use crate::generator;
use crate::judge::{judged_bytes, read, write};
use crate::library::*;
use crate::listing::Walk;
use crate::memory::dirty;
use crate::random::Random;
use crate::sets::Set;
use crate::tally::Tally;
use crate::texts;
use crate::tree::*;
use crate::unlawful::tree_in_memory;

/// Larger diagrams, and more cuts, aren't compared after a round trip.
const MOST_NODES: usize = 3_000;
const MOST_CUTS: usize = 2_000;

/// A text: good, damaged, without a plan, or changed in a byte.
pub fn compare_texts(library: &dyn Library, random: &mut Random, tally: &mut Tally) {
    let sort = random.below(12);
    let text = match sort {
        0..=2 => texts::seeded(random, false).bytes,
        3..=7 => texts::seeded(random, true).bytes,
        8 | 9 => texts::without_plan(random),
        10 => {
            let good = texts::seeded(random, false).bytes;
            texts::nudged(random, good)
        }
        _ => generator::bytes(random),
    };
    compare_import(library, &text, random, tally);
}

/// A tree to be exported, which may break any rule; an accepted one goes there and back.
pub fn compare_trees(library: &dyn Library, random: &mut Random, tally: &mut Tally) {
    let tree = match random.below(100) {
        0..=29 => tree_in_memory(random),
        30 => generator::tree(random, generator::longest_shape()),
        31..=49 => {
            let shape = generator::middle_shape(random);
            generator::tree(random, shape)
        }
        _ => {
            let shape = generator::small_shape(random);
            generator::tree(random, shape)
        }
    };
    let tree = generator::in_either_form(random, tree);
    tally.note(|| format!("{tree:?}"));
    compare_export(library, &tree, random, tally);
    if let Ok(text) = export(&tree) {
        let back = compare_import(library, &text, random, tally);
        // Without what stands behind the counts, and without sites where the form has none.
        let tree = judged_bytes(&tree).and_then(|bytes| read(&bytes)).expect("it was exported");
        compare_round_trip(&tree, &text, &back, tally);
    }
}

pub fn compare_export(library: &dyn Library, tree: &Tree, random: &mut Random, tally: &mut Tally) {
    compare_rooms("export", export(tree), &|room| library.export(tree, room), library, random, tally);
}

/// Lengths of the lists around the need: mostly right, one or several short in some of the inputs.
fn lengths(random: &mut Random, need: usize) -> [usize; LISTS] {
    let longer = random.once_in(2);
    let mut lengths = [need; LISTS].map(|need| if longer { need + random.below(9) } else { need });
    if random.once_in(12) {
        for _ in 0..random.of(&[1, 1, 1, 2, 11]) {
            lengths[random.below(LISTS)] = random.of(&[need - 1, need - 1, 0, need / 2]);
        }
    }
    lengths
}

/// Answers what the second program says of the text.
pub fn compare_import(library: &dyn Library, text: &[u8], random: &mut Random, tally: &mut Tally) -> Import {
    let lengths = lengths(random, text.len() + 1);
    if lengths.iter().any(|&length| length <= text.len()) {
        compare_import_in(library, text, lengths, random, tally);
    }
    compare_import_in(library, text, lengths.map(|length| length.max(text.len() + 1)), random, tally)
}

pub fn compare_import_in(
    library: &dyn Library,
    text: &[u8],
    lengths: [usize; LISTS],
    random: &mut Random,
    tally: &mut Tally,
) -> Import {
    tally.note(|| format!("{:?} lists {lengths:?}", String::from_utf8_lossy(text)));
    let expected = import(text, &lengths);
    tally.due("import", expected.number);
    let mut lists = lengths.map(|length| dirty(random, length));
    let got = library.import(text, lists.each_mut().map(Guarded::lend));
    no_fault(library, tally);
    let told = |number, place, line, tree: &Tree| (number, place, line, tree.clone());
    tally.same(
        "importing",
        told(expected.number, expected.place, expected.line, &expected.tree),
        told(got.number, got.place, got.line, &got.tree),
    );
    tally.holds("guards of the lists", lists.iter().all(Guarded::guards_stand));
    if expected.number == 9 {
        tally.holds("9 leaves the lists", lists.iter().all(Guarded::unchanged));
        return expected;
    }
    tally.holds("work lists end zero", lists[..RING].iter().all(|list| list.all(0)));
    let shown = lists[SHOWN].now();
    let (names, behind) = shown.split_at(expected.shown.len());
    tally.holds("where the names stand", names == expected.shown && behind.iter().all(|&place| place == 0));
    // Any ring is right.
    let ring = lists[RING].now();
    match ring.split_at_checked(got.ring as usize) {
        Some((lines, behind)) if expected.number == 17 => {
            tally.holds("a ring is shown", is_ring(text, lines));
            tally.holds("zeros behind the ring", behind.iter().all(|&line| line == 0));
            tally.large("lines of a ring", got.ring);
        }
        _ => tally.holds("no ring is shown", expected.number != 17 && got.ring == 0 && lists[RING].all(0)),
    }
    if expected.number == 0 {
        tally.large("events typed", expected.tree.event_count);
        tally.large("gates typed", expected.tree.gate_count);
        tally.large("inputs typed", expected.tree.inputs.len() as u64);
        tally.meet(
            "texts with a name of 12 bytes",
            expected.shown.iter().any(|&at| name_at(text, at).len() == LONGEST_NAME),
        );
    }
    tally.large("bytes typed", text.len() as u64);
    expected
}

/// The event of the tree that each event of the tree there and back is, by its name.
fn old_events(text: &[u8], back: &Import) -> Vec<u32> {
    let name = |&place: &u32| String::from_utf8_lossy(name_at(text, place)).into_owned();
    let number = |place: &u32| name(place)[1..].parse().expect("an exported event is e and its number");
    back.shown[..back.tree.events()].iter().map(number).collect()
}

/// Exported and imported: the same chances, the same root function, the same cuts, up to the renumbering.
fn compare_round_trip(tree: &Tree, text: &[u8], back: &Import, tally: &mut Tally) {
    tally.same("a text of an export is imported", 0, back.number);
    let old = old_events(text, back);
    let chances: Vec<u32> = old.iter().map(|&event| tree.chance(event as u64)).collect();
    tally.same("chances there and back", &chances, &back.tree.chances);
    tally.same(
        "counts there and back",
        (tree.event_count, tree.gate_count),
        (back.tree.event_count, back.tree.gate_count),
    );
    if tree.events() <= 8 {
        let same = (0..1u32 << tree.events()).all(|set| {
            let before = brute::fails(tree, &|event| set >> event & 1 == 1);
            before == brute::fails(&back.tree, &|event| set >> old[event as usize] & 1 == 1)
        });
        tally.holds("the root function there and back", same);
    }
    let cuts = |tree: &Tree, old: &dyn Fn(u32) -> u32| -> Option<Vec<Vec<u32>>> {
        let bytes = write(tree).expect("the tree was exported");
        let done = analyse(&bytes, Lengths::of_capacities(MOST_NODES, MOST_NODES)).ok()?;
        let found: Vec<Set> = Walk::new(&done.lent_cuts(), None).take(MOST_CUTS + 1).collect();
        let in_old = |cut: &Set| {
            let mut members: Vec<u32> = cut.members().into_iter().map(old).collect();
            members.sort();
            members
        };
        let mut all: Vec<Vec<u32>> = found.iter().map(in_old).collect();
        all.sort();
        (all.len() <= MOST_CUTS).then_some(all)
    };
    if let (Some(before), Some(after)) = (cuts(tree, &|event| event), cuts(&back.tree, &|event| old[event as usize])) {
        tally.holds("the cuts there and back", before == after);
        tally.meet("round trips with cuts compared", true);
    }
}
