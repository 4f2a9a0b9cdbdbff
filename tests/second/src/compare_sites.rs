//! Request 8 case by case: the second program's answers are held to those that are written out, the library's to the second program's.

use crate::compare::{compare_reading, compare_rooms, compare_writing};
use crate::compare_equations::compare_export;
use crate::compare_large::compare_cases;
use crate::generator::{longest_shape, sites, tree};
use crate::judge::{write, Refusal};
use crate::library::*;
use crate::memory::{dirty, lengths, Memory, Need};
use crate::mirror::told;
use crate::moves::{from_sites, from_sites_into, to_sites, to_sites_into};
use crate::random::Random;
use crate::sites::{lost, CASES, MOVES};
use crate::tally::{hex, Tally};
use crate::tree::{Tree, LONGEST_TREE};

/// Both moves of some bytes, into rooms around what they need.
pub fn compare_moves(library: &dyn Library, bytes: &[u8], random: &mut Random, tally: &mut Tally) {
    let (to, back) = (to_sites(bytes), from_sites(bytes));
    tally.meet("trees moved to sites", to.as_ref().is_ok_and(|moved| moved != bytes));
    tally.meet("trees moved back", back.as_ref().is_ok_and(|moved| moved != bytes));
    compare_rooms("to sites", to, &|room| library.to_sites(bytes, room), library, random, tally);
    compare_rooms("from sites", back, &|room| library.from_sites(bytes, room), library, random, tally);
}

/// An analysis of the tree without sites and one of it with some, each in the same lent memory: the same answer, and all memory the same to the last number.
pub fn compare_forms(library: &dyn Library, tree: &Tree, random: &mut Random, tally: &mut Tally) {
    let own = sites(random, tree.events());
    let forms = [Tree { sited: false, sites: vec![0; tree.events()], ..tree.clone() }, tree.clone().with_sites(&own)];
    let bytes = forms.map(|form| write(&form).expect("a generated tree is accepted in both forms"));
    let Some(need) = Need::of(&bytes[0]) else { return };
    let (lengths, work_lengths) = lengths(library, need, random);
    tally.note(|| format!("{} and {} lengths {lengths:?} work areas {work_lengths:?}", hex(&bytes[0]), hex(&bytes[1])));
    let dirt = random.next();
    let [old, new] = bytes.map(|bytes| {
        let random = &mut Random::new(dirt);
        let mut memory = Memory::dirty(lengths, work_lengths, random);
        let mut added = dirty(random, lengths.added_list);
        let answer = library.analyse(&bytes, memory.lend(), added.lend());
        (answer, memory.all().map(|area| area.now().to_vec()), added.now().to_vec())
    });
    tally.meet("trees analysed in both forms", old.0.number == 0);
    tally.meet("and found too large in both", old.0.number == 10 || old.0.number == 11);
    tally.holds("an analysis is the same with and without sites", old == new);
}

pub fn compare_sites(library: &dyn Library, random: &mut Random, tally: &mut Tally) {
    compare_cases(library, CASES, random, tally);
    for case in CASES {
        tally.name = Some(case.what);
        compare_moves(library, &case.bytes(), random, tally);
    }
    for own in MOVES {
        tally.name = Some(own.what);
        let bytes = own.bytes();
        tally.note(|| hex(&bytes));
        tally.same(
            "as it is written out",
            (own.due(own.to), own.due(own.back)),
            (to_sites(&bytes), from_sites(&bytes)),
        );
        compare_moves(library, &bytes, random, tally);
        compare_every_room(library, &bytes, random, tally);
    }
    for own in lost() {
        tally.name = Some(own.what);
        tally.note(|| format!("{:?}", own.tree));
        tally.same("as it is written out", own.due, write(&own.tree).err());
        compare_writing(library, &own.tree, random, tally);
        // Equations have no sites, so an export loses none.
        compare_export(library, &own.tree, random, tally);
    }
    compare_longest(library, random, tally);
}

/// Rooms of every length up to some more than either form needs.
fn compare_every_room(library: &dyn Library, bytes: &[u8], random: &mut Random, tally: &mut Tally) {
    for length in 0..bytes.len() + 9 {
        let dirt: Vec<u8> = (0..length).map(|_| random.byte()).collect();
        let (mut to, mut back) = (dirt.clone(), dirt.clone());
        let due = [told(to_sites_into(bytes, &mut to)), told(from_sites_into(bytes, &mut back))];
        let (mut to_room, mut back_room) = (Guarded::new(dirt.clone(), 0xA5), Guarded::new(dirt, 0xA5));
        let got = [library.to_sites(bytes, to_room.lend()), library.from_sites(bytes, back_room.lend())];
        tally.same("moves into a room", due, got);
        tally.holds("the rooms", to_room.now() == to && back_room.now() == back);
        tally.holds("guards of the rooms", to_room.guards_stand() && back_room.guards_stand());
    }
}

/// The longest trees: of the new form with sites, with none, with one in the last event, and of the old form.
fn compare_longest(library: &dyn Library, random: &mut Random, tally: &mut Tally) {
    tally.name = Some("the longest trees");
    let old = tree(random, longest_shape());
    let any = sites(random, old.events());
    let last = [&vec![0; old.events() - 1][..], &[1]].concat();
    let forms: [(Tree, Option<u64>); 4] = [
        (old.clone(), None),
        (old.clone().with_sites(&[]), None),
        (old.clone().with_sites(&last), Some(7 * 1_023)),
        (old.with_sites(&any), any.iter().position(|&site| site != 0).map(|event| 7 * event as u64)),
    ];
    for (tree, lost) in forms {
        let bytes = write(&tree).expect("a longest tree is accepted");
        tally.same("its length", if tree.sited { LONGEST_TREE } else { 18_689 }, bytes.len());
        tally.same("as it is worked out", lost.map(|place| Refusal { number: 22, place }), from_sites(&bytes).err());
        compare_reading(library, &bytes, random, tally);
        compare_moves(library, &bytes, random, tally);
    }
}
