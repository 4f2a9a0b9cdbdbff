//! The nodes that each gate adds, and the gate that 10 names: the list that an analysis is lent for it, and request 6 case by case.

use crate::added::{filled, handed_on, CASES};
use crate::analysis::{analyse, Analysis, Lengths};
use crate::compare::compare_analysis_in;
use crate::european::european_1;
use crate::judge::{read, write, Refusal};
use crate::library::*;
use crate::random::Random;
use crate::tally::Tally;

/// The whole list: what each gate added, then zeros. Together that is what the answer says.
pub fn compare_added_list(done: &Analysis, got: &AnalyseAnswer, list: &Guarded<u32>, tally: &mut Tally) {
    let mut whole = done.added();
    whole.resize(list.now().len(), 0);
    tally.same("the nodes that each gate added", &whole[..], list.now());
    tally.same("their sum", got.nodes, list.now().iter().map(|&nodes| nodes as u64).sum());
}

pub fn meet_added(done: &Analysis, tally: &mut Tally) {
    let added = done.added();
    tally.meet("gates that add no node", added.contains(&0));
    tally.large("nodes that a gate adds", added.into_iter().max().unwrap_or(0) as u64);
}

pub fn meet_refusal(refusal: Refusal, bytes: &[u8], lengths: Lengths, tally: &mut Tally) {
    let Ok(tree) = read(bytes) else { return };
    let (gates, gate) = (tree.gate_count, refusal.place);
    if refusal.number == 10 {
        tally.meet("10 at the first of several gates", gate == 0 && gates > 1);
        tally.meet("10 at a gate between", gate > 0 && gate + 1 < gates);
        tally.meet("10 at the last of several gates", gate > 0 && gate + 1 == gates);
        tally.large("gate that fills the table", gate);
    }
    let ample = Lengths { added_list: tree.gates.len(), ..lengths };
    let short = refusal.number == 9 && analyse(bytes, ample).err().is_none_or(|refusal| refusal.number != 9);
    tally.meet("9 for the list of added nodes alone", short);
}

/// Request 6 case by case: the second program's answers are held to those that are written out, the library's to the second program's.
pub fn compare_added(library: &dyn Library, random: &mut Random, tally: &mut Tally) {
    for case in CASES {
        tally.name = Some(case.what);
        let bytes = case.bytes();
        let need = case.added.iter().sum::<u32>() as usize;
        for nodes in 0..=need + 1 {
            compare_case(library, &bytes, case.added, nodes, random, tally);
        }
    }
    tally.name = Some("512 gates, gate by gate");
    let (bytes, added) = handed_on();
    for nodes in 0..=3 {
        compare_case(library, &bytes, &added, nodes, random, tally);
    }
    compare_european(library, random, tally);
}

/// Lists of added nodes that are exact, one short and longer, and a cut table that is one short.
fn compare_case(
    library: &dyn Library,
    bytes: &[u8],
    added: &[u32],
    nodes: usize,
    random: &mut Random,
    tally: &mut Tally,
) {
    let gates = added.len();
    let ample = Lengths { gate_list: gates, memo: 4, ..Lengths::of_capacities(nodes, 64) };
    let cut_nodes = analyse(bytes, Lengths { node_table: 3 * 64, ..ample }).map_or(0, |done| done.cuts.nodes.count());
    let lengths = |added_list, cuts: usize| Lengths { added_list, cut_table: 3 * cuts, ..ample };
    let filled = filled(added, nodes).map(|gate| (10, gate as u64));
    for (lengths, due) in [
        (lengths(gates, cut_nodes), filled),
        (lengths(gates + 3, cut_nodes), filled),
        (lengths(gates - 1, cut_nodes), Some((9, 0))),
        (lengths(0, cut_nodes), Some((9, 0))),
        (lengths(gates, cut_nodes - 1), filled.or(Some((11, 0)))),
    ] {
        let done = analyse(bytes, lengths);
        tally.same("as it is written out", due, done.as_ref().err().map(|refusal| (refusal.number, refusal.place)));
        tally.same("gate by gate", added, &done.map_or(added.to_vec(), |done| done.added()));
        let work = library.smallest_areas(lengths.node_table / 3, lengths.cut_table / 3);
        compare_analysis_in(library, bytes, lengths, work, random, tally);
    }
}

/// 4,096 nodes are filled by gate 75; the last gate fills a table that is one short.
fn compare_european(library: &dyn Library, random: &mut Random, tally: &mut Tally) {
    tally.name = Some("European 1, gate by gate");
    let tree = european_1();
    let bytes = write(&tree).expect("a named tree is accepted");
    for (nodes, due) in [(4_096, Some((10, 75))), (13_101, Some((10, tree.gate_count - 1))), (20_000, None)] {
        let lengths = Lengths { memo: 1 << 16, ..Lengths::of_capacities(nodes, 20_000) };
        let done = analyse(&bytes, lengths);
        tally.same("as it is written out", due, done.as_ref().err().map(|refusal| (refusal.number, refusal.place)));
        tally.same("all gates together", 13_102, done.map_or(13_102, |done| done.added().iter().sum()));
        compare_analysis_in(library, &bytes, lengths, library.smallest_areas(nodes, 20_000), random, tally);
    }
}
