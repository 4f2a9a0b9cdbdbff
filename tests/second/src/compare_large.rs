//! The fixed inputs of every run: requests 3, 6, 7, 8, 9, 10, 11, 12 and 13 case by case, trees of known numbers at exact capacities, the longest bytes, the limits of lengths.

use crate::analysis::{analyse, Lengths};
use crate::city::{self, city};
use crate::compare::{compare_analysis_in, compare_diagram, compare_reading};
use crate::compare_added::compare_added;
use crate::compare_changes::{case_1, compare_listings};
use crate::compare_decisions::compare_decided;
use crate::compare_equations::{compare_export, compare_import};
use crate::compare_importance::compare_weights;
use crate::compare_lent::one_listing;
use crate::compare_plans::compare_maintenance;
use crate::compare_reports::{compare_longest_cuts, compare_named_reports, compare_reviews};
use crate::compare_seasons::{compare_named_season, compare_seasons};
use crate::compare_sites::compare_sites;
use crate::compare_sizes::compare_figures;
use crate::compare_wide::compare_wide;
use crate::diagrams;
use crate::european::{self, european_1};
use crate::generator::{longest_run, sites};
use crate::judge::write;
use crate::lent::{Lent, Sort, MOST_NUMBERS};
use crate::library::*;
use crate::metropolis::{self, metropolis};
use crate::random::Random;
use crate::settings::State;
use crate::tally::Tally;
use crate::texts::{chain, upside_down, wide};
use crate::tree::*;
use crate::twins::{Case, Due, CASES, TEXTS};

pub fn compare_large(library: &dyn Library, tally: &mut Tally) {
    let random = &mut Random::new(0);
    tally.detailed = true;
    compare_twins(library, random, tally);
    compare_added(library, random, tally);
    compare_wide(library, random, tally);
    compare_sites(library, random, tally);
    compare_reviews(library, random, tally);
    compare_longest_cuts(library, random, tally);
    compare_seasons(library, random, tally);
    compare_maintenance(library, random, tally);
    compare_weights(library, random, tally);
    compare_decided(library, random, tally);
    compare_named(library, "European 1", &european_1(), random, tally);
    compare_named(library, "a small city", &city(city::SMALL), random, tally);
    compare_named(library, "a middle city", &city(city::MIDDLE), random, tally);
    compare_named(library, "a large city", &city(city::LARGE), random, tally);
    compare_named(library, "a wide city", &city(city::WIDE), random, tally);
    compare_named(library, "the metropolis", &metropolis(), random, tally);
    let sites = sites(random, metropolis().events());
    compare_named(library, "the metropolis with sites", &metropolis().with_sites(&sites), random, tally);
    compare_named_season(library, "European 1 in a season", &european_1(), State::Sound, random, tally);
    compare_named_season(library, "European 1 in a bad season", &european_1(), State::Failed, random, tally);
    compare_named_season(library, "the metropolis in a season", &metropolis(), State::Sound, random, tally);
    compare_named_season(library, "the metropolis in a bad season", &metropolis(), State::Failed, random, tally);
    compare_figures(library, random, tally);
    compare_longest_bytes(library, random, tally);
    compare_longest_tables(library, random, tally);
    // These are too long to be told.
    tally.detailed = false;
    compare_long_texts(library, random, tally);
    compare_largest_diagrams(library, random, tally);
    compare_listings(library, tally);
    tally.name = None;
}

/// Byte by byte: the second program's answers are held to those that are written out, the library's to the second program's.
pub fn compare_cases(library: &dyn Library, cases: &[Case], random: &mut Random, tally: &mut Tally) {
    for case in cases {
        tally.name = Some(case.what);
        let bytes = case.bytes();
        let done = analyse(&bytes, Lengths::AMPLE);
        let refusal = done.as_ref().err().map(|refusal| Due::Refused(refusal.number, refusal.place));
        let nodes = done.as_ref().map_or(0, |done| done.robdd.nodes.count());
        let due = matches!(case.due, Due::Done(due, _) if due == nodes && refusal.is_none());
        tally.holds("as it is written out", due || refusal == Some(case.due));
        compare_reading(library, &bytes, random, tally);
        let cuts = done.as_ref().map_or(0, |done| done.cuts.nodes.count());
        let lengths = Lengths { memo: 4, ..Lengths::of_capacities(nodes, cuts) };
        compare_analysis_in(library, &bytes, lengths, library.smallest_areas(nodes, cuts), random, tally);
    }
}

pub fn compare_twins(library: &dyn Library, random: &mut Random, tally: &mut Tally) {
    compare_cases(library, CASES, random, tally);
    tally.name = Some("names that stand twice");
    for (text, number) in TEXTS {
        let import = compare_import(library, text.as_bytes(), random, tally);
        tally.same("a text with a name twice", *number, import.number);
    }
}

/// Done with exactly the nodes that are needed, 10 and 11 with one less; then the listing, from room to room.
fn compare_named(library: &dyn Library, name: &'static str, tree: &Tree, random: &mut Random, tally: &mut Tally) {
    tally.name = Some(name);
    let bytes = write(tree).expect("a named tree is accepted");
    compare_reading(library, &bytes, random, tally);
    let done = analyse(&bytes, Lengths::AMPLE).unwrap_or_else(|_| unreachable!("{name} has room in ample tables"));
    let (nodes, cuts) = (done.robdd.nodes.count(), done.cuts.nodes.count());
    for (nodes, cuts) in [(nodes, cuts), (nodes - 1, cuts), (nodes, cuts - 1)] {
        let (gate_list, added_list) = (tree.gates.len(), tree.gates.len());
        let lengths = Lengths { gate_list, added_list, memo: 1 << 20, ..Lengths::of_capacities(nodes, cuts) };
        compare_analysis_in(library, &bytes, lengths, library.smallest_areas(nodes, cuts), random, tally);
    }
    let family = done.lent_cuts();
    let mut after = None;
    for _ in 0..40 {
        let room = random.between(20_000, 40_000);
        after = one_listing(library, &family, after, room, random, tally, name);
        if after.is_none() {
            break;
        }
    }
    compare_named_reports(library, &family, &tree.chances, random, tally, name);
}

/// The longest runs of records without a fault, and what may follow them.
fn compare_longest_bytes(library: &dyn Library, random: &mut Random, tally: &mut Tally) {
    tally.name = Some("the longest bytes");
    let inputs: [&[u8]; 4] = [&[5, 0], &[6, 0, 0], &[8, 0, 0], &[8, 0, 1]];
    let events: [&[u8]; 2] = [&[1, 0, 0, 0, 0], &[0x11, 0, 0, 0, 0, 0, 0]];
    let others: [&[u8]; 5] = [&[], &[7], &[7, 7], &[2, 1], &[9]];
    for run in [None, Some(0), Some(5)].map(longest_run) {
        for tail in inputs.into_iter().chain(events).chain(others) {
            compare_reading(library, &[&run[..], tail].concat(), random, tally);
            compare_reading(library, &[&run[..], tail, &[7; 5_000]].concat(), random, tally);
        }
    }
}

/// Tables and work areas at the limits of their lengths, and one number beyond.
fn compare_longest_tables(library: &dyn Library, random: &mut Random, tally: &mut Tally) {
    tally.name = Some("tables of 3,000,000 numbers");
    let bytes = write(&case_1()).expect("case 1 is accepted");
    let most = MOST_NUMBERS;
    for (node_table, cut_table) in
        [(most, most), (most, 12), (18, most), (most + 3, 12), (18, most + 3), (most - 1, most)]
    {
        let work = library.smallest_areas(node_table / 3, cut_table / 3);
        let lengths = Lengths { node_table, cut_table, gate_list: 3, added_list: 3, memo: 4, areas_suffice: true };
        compare_analysis_in(library, &bytes, lengths, work, random, tally);
    }
    for place in 0..4 {
        let mut work = library.smallest_areas(most / 3, 4);
        work[place] -= 1;
        let lengths =
            Lengths { node_table: most, cut_table: 12, gate_list: 3, added_list: 3, memo: 4, areas_suffice: false };
        compare_analysis_in(library, &bytes, lengths, work, random, tally);
    }
}

/// Lent diagrams of up to a million nodes, and a table that is too long.
fn compare_largest_diagrams(library: &dyn Library, random: &mut Random, tally: &mut Tally) {
    tally.input.clear();
    tally.name = Some("lent diagrams of many nodes");
    for sort in [Sort::Function, Sort::Cuts] {
        for length in [MOST_NUMBERS, MOST_NUMBERS + 3] {
            let empty = Lent { sort, event_count: MOST_EVENTS as u64, table: vec![9; length], node_count: 0, root: 1 };
            compare_diagram(library, &empty, random, tally);
        }
        for _ in 0..3 {
            let diagram = diagrams::good(random, sort, MOST_NUMBERS / 3 - 3);
            tally.large("nodes lent", diagram.node_count);
            compare_diagram(library, &diagram, random, tally);
            let mut spoilt = diagram;
            if spoilt.node_count > 0 {
                // The last node that is judged breaks the numbering.
                let last = 3 * (spoilt.node_count as usize - 1);
                spoilt.table[last + 2] = spoilt.node_count as u32 + 1;
                compare_diagram(library, &spoilt, random, tally);
            }
        }
    }
}

/// The named trees typed and exported, and texts of 100,000 equations: deep, in a ring, and wide.
fn compare_long_texts(library: &dyn Library, random: &mut Random, tally: &mut Tally) {
    const MANY: usize = 100_000;
    tally.name = Some("typed trees");
    let cities = [city::LARGE, city::WIDE].map(city::equations);
    for text in
        [european::EQUATIONS, metropolis::EQUATIONS, &cities[0], &cities[1], &chain(MOST_GATES, false), &wide(64)]
    {
        let import = compare_import(library, text.as_bytes(), random, tally);
        tally.same("a typed tree", 0, import.number);
        compare_export(library, &import.tree, random, tally);
    }
    tally.name = Some("texts of 100,000 equations");
    let (deep, ring) = (chain(MANY, false), chain(MANY, true));
    for (text, number) in [
        (upside_down(&deep), 4),
        (format!("{deep}p e0 1000000001\n"), 7),
        (format!("{deep}a = b\n"), 18),
        (format!("a = b\n{ring}"), 17),
        (format!("{ring}g7 = b\n"), 16),
        (format!("{ring}p g7 5\n"), 15),
        (wide(MANY), 4),
    ] {
        let import = compare_import(library, text.as_bytes(), random, tally);
        tally.same("a text of many lines", number, import.number);
    }
}
