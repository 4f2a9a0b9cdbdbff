//! Request 7 case by case: the second program's answers are held to those that are written out, the library's to the second program's.

use crate::analysis::{analyse, Lengths};
use crate::compare::{compare_analysis_in, compare_reading};
use crate::compare_large::compare_cases;
use crate::compare_lent::one_listing;
use crate::judge::{write, OLD_READER};
use crate::library::*;
use crate::listing::list;
use crate::pairs::bytes_of;
use crate::random::Random;
use crate::sets::Set;
use crate::tally::Tally;
use crate::wide::{known, Known, CASES};

pub fn compare_wide(library: &dyn Library, random: &mut Random, tally: &mut Tally) {
    compare_cases(library, CASES, random, tally);
    for known in known() {
        compare_known(library, &known, random, tally);
    }
}

/// Read, analysed in tables that just suffice, and listed: into rooms around the lengths that a cut and the whole have, or would have if every member
/// had two bytes or three, and after each cut and its neighbours.
fn compare_known(library: &dyn Library, known: &Known, random: &mut Random, tally: &mut Tally) {
    tally.name = Some(known.what);
    let bytes = write(&known.tree).expect("a known tree is accepted");
    compare_reading(library, &bytes, random, tally);
    let old = OLD_READER.read(&bytes).err().map(|refusal| (refusal.number, refusal.place));
    tally.same("the old reader", (known.tree.events() > 256).then_some((4, 1_280)), old);
    let done = analyse(&bytes, Lengths::AMPLE).unwrap_or_else(|refusal| panic!("{}: {refusal:?}", known.what));
    let (nodes, cuts) = (done.robdd.nodes.count(), done.cuts.nodes.count());
    let lengths = Lengths { memo: 4_000, ..Lengths::of_capacities(nodes, cuts) };
    compare_analysis_in(library, &bytes, lengths, library.smallest_areas(nodes, cuts), random, tally);

    let family = done.lent_cuts();
    let whole = bytes_of(&known.cuts);
    tally.holds("as it is written out", list(&family, None, whole.len()).bytes == whole);
    let (own, members) = (known.cuts[0].cut_bytes().len(), known.cuts[0].members().len());
    for room in [own - 1, own, own + 1, 2 * members + 1, 3 * members + 1, whole.len() - 1, whole.len()] {
        one_listing(library, &family, None, room, random, tally, known.what);
    }
    for cut in &known.cuts {
        let lowest = cut.members()[0];
        for start in [*cut, Set::of(&[lowest]), cut.with(known.tree.events() as u32 - 1)] {
            one_listing(library, &family, Some(start), own, random, tally, known.what);
        }
    }
}
