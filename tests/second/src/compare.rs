//! One seeded input after another: a library's answers and its lent memory against the second program.

use crate::analysis::{Analysis, Lengths};
use crate::compare_added::{compare_added_list, meet_added, meet_refusal};
use crate::compare_changes::compare_pairs;
use crate::compare_decisions::{compare_any_listings, compare_decisions};
use crate::compare_equations::{compare_texts, compare_trees};
use crate::compare_importance::compare_importance;
use crate::compare_lent::{compare_bracket, compare_list};
use crate::compare_plans::compare_plans;
use crate::compare_reports::compare_report;
use crate::compare_seasons::{compare_season, meet_season};
use crate::compare_sites::{compare_forms, compare_moves};
use crate::compare_sizes::{compare_folders, compare_sizes};
use crate::damage::{damaged, NUMBERS};
use crate::diagrams;
use crate::families;
use crate::generator::{self, large_shape, longest_shape, middle_shape, small_shape};
use crate::judge::{read, write, Refusal};
use crate::lent::{Lent, Sort};
use crate::library::*;
use crate::memory::{dirty, lengths, Memory, Need, MOST_NODES};
use crate::random::Random;
use crate::renumbering::renumbering;
use crate::settings::{analyse_when, chances_under, Season};
use crate::tally::{hex, Tally};
use crate::tree::{distinct, Input, Tree, AT_LEAST, MOST_GATES};
use crate::unlawful::tree_in_memory;

/// The comparisons of one input.
pub fn compare_input(library: &dyn Library, seed: u64, tally: &mut Tally) {
    let random = &mut Random::new(seed);
    tally.begin(seed);
    match seed % 22 {
        0 => compare_reading(library, &generator::bytes(random), random, tally),
        1..=3 => {
            let number = random.of(&NUMBERS);
            let bytes = damaged(random, number).bytes;
            compare_reading(library, &bytes, random, tally);
            if random.once_in(4) {
                compare_analysis(library, &bytes, random, tally);
                compare_season(library, &bytes, random, tally);
            }
        }
        4 => {
            compare_writing(library, &tree_in_memory(random), random, tally);
            compare_pairs(library, random, tally);
            compare_any_listings(library, random, tally);
        }
        5..=9 => {
            let shape = small_shape(random);
            compare_tree(library, &generator::tree(random, shape), random, tally);
        }
        10 | 11 => {
            let shape = match random.below(60) {
                0 => longest_shape(),
                1 | 2 => large_shape(random),
                3 => return compare_tree(library, &generator::narrow_tree(random), random, tally),
                4..=6 => return compare_tree(library, &generator::wide_tree(random), random, tally),
                _ => middle_shape(random),
            };
            compare_tree(library, &generator::tree(random, shape), random, tally);
        }
        12..=15 => {
            let sort = if seed % 2 == 0 { Sort::Function } else { Sort::Cuts };
            let nodes = if random.once_in(50) { 400 } else { random.of(&[3, 12, 40]) };
            let diagram = match random.below(9) {
                0..=2 => diagrams::damaged(random, sort, nodes),
                3 | 4 if sort == Sort::Cuts => families::seeded(random),
                _ => diagrams::good(random, sort, nodes),
            };
            compare_diagram(library, &diagram, random, tally);
        }
        16..=18 => compare_texts(library, random, tally),
        19 => compare_trees(library, random, tally),
        _ => compare_folders(library, random, tally),
    }
}

fn compare_tree(library: &dyn Library, tree: &Tree, random: &mut Random, tally: &mut Tally) {
    let tree = generator::in_either_form(random, tree.clone());
    let bytes = write(&tree).expect("a generated tree is accepted");
    compare_reading(library, &bytes, random, tally);
    compare_analysis(library, &bytes, random, tally);
    if random.once_in(8) {
        compare_forms(library, &tree, random, tally);
    }
    if random.once_in(3) {
        compare_season(library, &bytes, random, tally);
    }
}

pub fn compare_diagram(library: &dyn Library, diagram: &Lent, random: &mut Random, tally: &mut Tally) {
    match diagram.sort {
        Sort::Function => {
            compare_bracket(library, diagram, None, random, tally);
            compare_importance(library, diagram, None, random, tally);
        }
        Sort::Cuts => {
            compare_list(library, diagram, random, tally);
            compare_sizes(library, diagram, random, tally);
            compare_report(library, diagram, None, random, tally);
            compare_plans(library, diagram, random, tally);
        }
    }
}

/// What a binding saw beside the answer.
pub fn no_fault(library: &dyn Library, tally: &mut Tally) {
    tally.same("the call keeps to what it was lent", None, library.fault());
}

/// Reading, writing what was read, and every other time both moves.
pub fn compare_reading(library: &dyn Library, bytes: &[u8], random: &mut Random, tally: &mut Tally) {
    tally.note(|| hex(bytes));
    if random.once_in(2) {
        compare_moves(library, bytes, random, tally);
    }
    let got = library.read(bytes);
    no_fault(library, tally);
    let expected = read(bytes);
    tally.due("read", expected.as_ref().map_or_else(|refusal| refusal.number, |_| 0));
    match expected {
        Ok(tree) => {
            tally.same("reading", &ReadAnswer { number: 0, place: 0, tree: tree.clone() }, &got);
            tally.large("bytes read", bytes.len() as u64);
            tally.large("events read", tree.event_count);
            tally.large("gates read", tree.gate_count);
            tally.large("inputs read", tree.inputs.len() as u64);
            tally.large("inputs of a gate", tree.gates.iter().map(|gate| gate.n as u64).max().unwrap_or(0));
            compare_writing(library, &tree, random, tally);
        }
        Err(Refusal { number, place }) => {
            tally.same("reading", ReadAnswer { number, place, tree: Tree::default() }, got);
        }
    }
}

pub fn compare_writing(library: &dyn Library, tree: &Tree, random: &mut Random, tally: &mut Tally) {
    if tally.input.is_empty() {
        tally.note(|| format!("{tree:?}"));
    }
    compare_rooms("write", write(tree), &|room| library.write(tree, room), library, random, tally);
}

/// A call that writes a tree: rooms one short, exact, longer and empty.
pub fn compare_rooms(
    call: &'static str,
    written: Result<Vec<u8>, Refusal>,
    make: &dyn Fn(&mut [u8]) -> WriteAnswer,
    library: &dyn Library,
    random: &mut Random,
    tally: &mut Tally,
) {
    let length = written.as_ref().map_or(20, Vec::len);
    for room_length in [length, length - 1, length + random.below(40), random.below(length)] {
        let mut room = Guarded::new((0..room_length).map(|_| random.byte()).collect(), 0xA5);
        let got = make(room.lend());
        no_fault(library, tally);
        let expected = match &written {
            Err(Refusal { number, place }) => WriteAnswer { number: *number, place: *place, used: 0 },
            Ok(_) if room_length < length => WriteAnswer { number: 9, place: 0, used: 0 },
            Ok(_) => WriteAnswer { number: 0, place: 0, used: length as u64 },
        };
        tally.due(call, expected.number);
        tally.same(call, expected, got);
        tally.holds("guards of a room", room.guards_stand());
        match &written {
            Ok(bytes) if expected.number == 0 => {
                let whole = [&bytes[..], &room.before()[length..]].concat();
                tally.holds("bytes of a written tree", room.now() == whole);
            }
            _ => tally.holds("a refusal leaves the room", room.unchanged()),
        }
    }
}

/// Whether both tables have room for just the nodes that are needed.
fn exactly(done: &Analysis, lengths: Lengths) -> bool {
    lengths.node_table == 3 * done.robdd.nodes.count() && lengths.cut_table == 3 * done.cuts.nodes.count()
}

pub fn compare_analysis(library: &dyn Library, bytes: &[u8], random: &mut Random, tally: &mut Tally) {
    let (nodes, cuts) = (random.below(MOST_NODES), random.below(200));
    let need = Need::of(bytes).unwrap_or(Need { nodes, cuts, gates: MOST_GATES, by_gate: Vec::new() });
    let (lengths, work_lengths) = lengths(library, need, random);
    compare_analysis_in(library, bytes, lengths, work_lengths, random, tally);
}

pub fn compare_analysis_in(
    library: &dyn Library,
    bytes: &[u8],
    lengths: Lengths,
    work_lengths: [usize; 4],
    random: &mut Random,
    tally: &mut Tally,
) {
    compare_analysis_when(library, None, bytes, lengths, work_lengths, random, tally);
}

/// An analysis, in a season or in none, in memory of these lengths, dirty when it is lent; then its tables lent to the other calls.
pub fn compare_analysis_when(
    library: &dyn Library,
    season: Option<Season>,
    bytes: &[u8],
    lengths: Lengths,
    work_lengths: [usize; 4],
    random: &mut Random,
    tally: &mut Tally,
) {
    let expected = analyse_when(season, bytes, lengths);
    match season {
        Some(season) => meet_season(&expected, bytes, season, tally),
        None => meet_analysis(&expected, bytes, lengths, tally),
    }
    let mut memory = Memory::dirty(lengths, work_lengths, random);
    let mut added = dirty(random, lengths.added_list);
    let told =
        season.map_or(String::new(), |season| format!(" store {} edition {}", hex(season.store), season.edition));
    tally.note(|| format!("{}{told} lengths {lengths:?} work areas {work_lengths:?}", hex(bytes)));
    let got = match season {
        Some(season) => library.analyse_season(bytes, season, memory.lend(), added.lend()),
        None => library.analyse(bytes, memory.lend(), added.lend()),
    };
    no_fault(library, tally);
    let all = [&memory.all()[..], &[&added]].concat();
    tally.holds("guards of an analysis", all.iter().all(|area| area.guards_stand()));
    match expected {
        Err(refusal) => {
            let Refusal { number, place } = refusal;
            let refused = AnalyseAnswer { number, place, nodes: 0, cut_nodes: 0, root: 0, cut_root: 0 };
            tally.same("a refused analysis", refused, got);
            if refusal.leaves_zero() {
                tally.holds("10 and 11 leave zero", all.iter().all(|area| area.all(0)));
            } else {
                tally.holds("every other refusal writes nothing", all.iter().all(|area| area.unchanged()));
            }
        }
        Ok(done) => {
            let counts = (0, 0, done.robdd.nodes.count() as u64, done.cuts.nodes.count() as u64);
            tally.same("number, place, node counts", counts, (got.number, got.place, got.nodes, got.cut_nodes));
            if (got.number, got.place, got.nodes, got.cut_nodes) != counts {
                return;
            }
            tally.holds("memo and work areas end zero", memory.all()[3..].iter().all(|area| area.all(0)));
            compare_tables(&done, &got, &memory, tally);
            compare_added_list(&done, &got, &added, tally);
            let tables = (memory.nodes.now(), memory.cuts.now());
            let own = &done.tree.chances;
            let chances = season.map_or(Ok(own.clone()), |season| chances_under(season, own)).expect("it is accepted");
            compare_uses(library, &done, &chances, &got, tables, random, tally);
            if random.once_in(3) {
                let (table, root) = (tables.1.to_vec(), got.cut_root as u64);
                let (event_count, node_count) = (done.tree.event_count, got.cut_nodes);
                let family = Lent { sort: Sort::Cuts, event_count, table, node_count, root };
                compare_decisions(library, &done, &family, season, random, tally);
            }
        }
    }
}

/// What an analysis brought that is worth meeting.
fn meet_analysis(expected: &Result<Analysis, Refusal>, bytes: &[u8], lengths: Lengths, tally: &mut Tally) {
    tally.due("analyse", expected.as_ref().map_or_else(|refusal| refusal.number, |_| 0));
    match expected {
        Err(refusal) => meet_refusal(*refusal, bytes, lengths, tally),
        Ok(done) => {
            tally.meet("tables exactly full", exactly(done, lengths));
            tally.meet("analyses without a memo", lengths.memo == 0);
            tally.meet("with one quadruple", lengths.memo == 4);
            tally.meet("with 10,000 quadruples", lengths.memo >= 40_000);
            tally.meet("of more than 256 events", done.tree.event_count > 256);
            tally.meet("of trees with sites", done.tree.sited);
            tally.large("events analysed", done.tree.event_count);
            tally.large("gates analysed", done.tree.gate_count);
            tally.large("inputs analysed", done.tree.inputs.len() as u64);
            tally.large("nodes", done.robdd.nodes.count() as u64);
            tally.large("cut nodes", done.cuts.nodes.count() as u64);
            tally.large("memo", lengths.memo as u64);
            meet_twins(&done.tree, tally);
            meet_added(done, tally);
        }
    }
}

/// Counts trees in which an at-least gate has an input twice, or an event beside the gate of its number.
fn meet_twins(tree: &Tree, tally: &mut Tally) {
    let at_least = tree.gates.iter().zip(tree.inputs_by_gate()).filter(|(gate, _)| gate.kind == AT_LEAST);
    let counted: Vec<Vec<Input>> = at_least.map(|(_, inputs)| inputs).collect();
    tally.meet("at-least gates with twins", counted.iter().any(|inputs| distinct(inputs).len() < inputs.len()));
    let beside = |inputs: &Vec<Input>| {
        inputs.iter().any(|input| matches!(*input, Input::Event(event) if inputs.contains(&Input::Gate(event))))
    };
    tally.meet("with event and gate of one number", counted.iter().any(beside));
}

/// Both tables, the gate list and the roots, up to a renumbering of nodes.
fn compare_tables(done: &Analysis, got: &AnalyseAnswer, memory: &Memory, tally: &mut Tally) {
    let Memory { nodes, cuts, gates, .. } = memory;
    let ours = |map: &Option<Vec<u32>>, node: u32| map.as_ref().and_then(|map| map.get(node as usize).copied());
    let map = renumbering(nodes.now(), got.nodes as usize, &done.robdd.nodes);
    tally.holds("the node table", map.is_some());
    tally.same("the root", Some(done.robdd.root()), ours(&map, got.root));
    let count = done.robdd.gate_nodes.len();
    let listed: Vec<Option<u32>> = gates.now()[..count].iter().map(|&node| ours(&map, node)).collect();
    let expected: Vec<Option<u32>> = done.robdd.gate_nodes.iter().map(|&node| Some(node)).collect();
    tally.same("the gate list", expected, listed);
    tally.holds("zeros behind the gate list", gates.now()[count..].iter().all(|&node| node == 0));
    let map = renumbering(cuts.now(), got.cut_nodes as usize, &done.cuts.nodes);
    tally.holds("the cut table", map.is_some());
    tally.same("the cut root", Some(done.cuts.root), ours(&map, got.cut_root));
}

/// The library's own tables lent to its listing, its counting, its report, its bracket, its importance and its planner.
fn compare_uses(
    library: &dyn Library,
    done: &Analysis,
    chances: &[u32],
    got: &AnalyseAnswer,
    (nodes, cuts): (&[u32], &[u32]),
    random: &mut Random,
    tally: &mut Tally,
) {
    let event_count = done.tree.event_count;
    let lent = |sort, table: &[u32], node_count, root: u32| Lent {
        sort,
        event_count,
        table: table.to_vec(),
        node_count,
        root: root as u64,
    };
    let function = lent(Sort::Function, nodes, got.nodes, got.root);
    let family = lent(Sort::Cuts, cuts, got.cut_nodes, got.cut_root);
    tally.holds("built diagrams are diagrams", function.is_diagram() && family.is_diagram());
    compare_list(library, &family, random, tally);
    compare_sizes(library, &family, random, tally);
    compare_report(library, &family, Some(chances), random, tally);
    compare_bracket(library, &function, Some(chances), random, tally);
    compare_importance(library, &function, Some(chances), random, tally);
    if random.once_in(8) {
        // Each taken for the other kind: answered for what it denotes, if it keeps that kind's rules.
        compare_list(library, &Lent { sort: Sort::Cuts, ..function }, random, tally);
        let other = Lent { sort: Sort::Function, ..family.clone() };
        compare_bracket(library, &other, Some(chances), random, tally);
    }
    compare_plans(library, &family, random, tally);
}
