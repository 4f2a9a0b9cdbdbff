//! Wrong programs, continued: the nodes that each gate adds, and the gate that 10 names.

use crate::analysis::added as differences;
use crate::judge::{event_length, input_length, read};
use crate::library::*;
use crate::mirror::Mirror;
use crate::robdd::Robdd;
use crate::tree::*;
use crate::wrong::Wrong::{self, *};

/// The tree's first gates, with all of its events.
fn first_gates(tree: &Tree, count: usize) -> Robdd {
    let mut first = Tree::of_chances(&tree.chances);
    for (gate, inputs) in tree.gates.iter().zip(tree.inputs_by_gate()).take(count) {
        first.add_gate(gate.kind, gate.k, &inputs);
    }
    Robdd::build(&first, usize::MAX).expect("there is room for everything")
}

/// How many events the gates up to this one don't use.
fn unused(tree: &Tree, gate: usize) -> usize {
    let used: Vec<Input> = tree.inputs_by_gate()[..=gate].concat();
    (0..tree.event_count as u32).filter(|&event| !used.contains(&Input::Event(event))).count()
}

/// Where the record of a gate stands.
fn offset(tree: &Tree, gate: usize) -> u64 {
    let own = |gate: &Gate| if gate.kind == AT_LEAST { 3 } else { 2 };
    let before = tree.gates.iter().zip(tree.inputs_by_gate()).take(gate);
    event_length(tree.sited) * tree.event_count
        + before.map(|(gate, inputs)| own(gate) + inputs.iter().map(input_length).sum::<u64>()).sum::<u64>()
}

/// The list of a wrong program after a done analysis; `None` where it is the right one.
fn wrong_list(wrong: Wrong, tree: &Tree) -> Option<Vec<u32>> {
    let built = || first_gates(tree, tree.gates.len());
    let all_gates = || built().nodes_by_gate.into_iter().enumerate();
    let with_unused = |(gate, needed): (usize, usize)| needed + unused(tree, gate);
    match wrong {
        EventsWithTheFirstGate => Some(differences(&all_gates().map(with_unused).collect::<Vec<_>>())),
        EventsNotCounted => {
            let bare = all_gates().map(|gate| with_unused(gate) - tree.events());
            Some(differences(&bare.collect::<Vec<_>>()))
        }
        ReachedForAdded => {
            let Robdd { nodes, gate_nodes, .. } = built();
            Some(gate_nodes.into_iter().map(|node| nodes.reached(node).len() as u32).collect())
        }
        NeededForAdded => Some(all_gates().map(|(_, needed)| needed as u32).collect()),
        _ => None,
    }
}

/// The place of a wrong program's 10, which is `gate` for the right one.
fn wrong_place(wrong: Wrong, tree: &Tree, gate: usize, capacity: usize) -> u64 {
    match wrong {
        EventsBuiltFirst => {
            let needed = first_gates(tree, gate).nodes_by_gate;
            let fills = (0..gate).find(|&gate| needed[gate] + unused(tree, gate) > capacity);
            fills.unwrap_or(gate) as u64
        }
        TenWithoutAGate => 0,
        PlaceOneGateLate => gate as u64 + 1,
        PlaceOfTheLastThatFits => gate.saturating_sub(1) as u64,
        TenSaysTheRecord => offset(tree, gate),
        _ => gate as u64,
    }
}

/// What a wrong program makes of a right analysis; `before` is what the list held when it was lent.
pub fn wrong_added(
    wrong: Wrong,
    bytes: &[u8],
    before: &[u32],
    areas: Areas,
    added: &mut [u32],
    mut answer: AnalyseAnswer,
) -> AnalyseAnswer {
    let Ok(tree) = read(bytes) else { return answer };
    let gate = answer.place as usize;
    match (wrong, answer.number) {
        (DirtBehindTheAdded, 0) => added[tree.gates.len()..].copy_from_slice(&before[tree.gates.len()..]),
        (_, 0) => {
            if let Some(list) = wrong_list(wrong, &tree) {
                added[..list.len()].copy_from_slice(&list);
            }
        }
        (AddedStayOnTen, 10) => added[..gate].copy_from_slice(&differences(&first_gates(&tree, gate).nodes_by_gate)),
        (AddedStayOnEleven, 11) => {
            let needed = first_gates(&tree, tree.gates.len()).nodes_by_gate;
            added[..needed.len()].copy_from_slice(&differences(&needed));
        }
        (AddedClearedBeforeNine, 9) => added.fill(0),
        (ShortAddedPasses, 9) => {
            let mut ample = vec![0; MOST_GATES];
            answer = Mirror.analyse(bytes, areas, &mut ample);
            if answer.number != 9 {
                added.copy_from_slice(&ample[..before.len()]);
            }
        }
        (ElevenSaysAGate, 11) => answer.place = tree.gate_count - 1,
        (_, 10) => answer.place = wrong_place(wrong, &tree, gate, areas.nodes.len() / 3),
        _ => {}
    }
    answer
}
