//! Request 8: events with sites in records and in memory, the form of a tree, the two moves, and what does not depend on sites.

use second::analysis::{analyse, Lengths};
use second::bracket::bracket;
use second::damage::{damaged, NUMBERS};
use second::equations::{export, typed};
use second::generator::{self, middle_shape, sites, small_shape, tree, wide_tree};
use second::judge::{read, refuse, write, write_into, Refusal, READER_WITHOUT_SITES};
use second::listing::list;
use second::moves::{from_sites, from_sites_into, to_sites, to_sites_into};
use second::program::program;
use second::random::Random;
use second::sites::{lost, CASES, MOVES};
use second::sizes::sizes as by_size;
use second::tree::*;
use second::twins::Due;

#[test]
fn the_cases() {
    for case in CASES {
        let read = read(&case.bytes());
        match case.due {
            Due::Refused(number, place) => assert_eq!(read, refuse(number, place), "{}", case.what),
            Due::Done(..) => assert!(read.is_ok_and(|tree| tree.sited), "{}", case.what),
        }
    }
}

#[test]
fn the_moves() {
    for own in MOVES {
        assert_eq!(to_sites(&own.bytes()), own.due(own.to), "{}", own.what);
        assert_eq!(from_sites(&own.bytes()), own.due(own.back), "{}", own.what);
    }
}

#[test]
fn lost_sites() {
    for own in lost() {
        assert_eq!(write(&own.tree).err(), own.due, "{}", own.what);
        // Whatever the room.
        let mut none = [];
        let number = write_into(&own.tree, &mut none).err().map(|refusal| refusal.number);
        assert_eq!(number, Some(own.due.map_or(9, |refusal| refusal.number)), "{}", own.what);
    }
}

fn any_tree(random: &mut Random) -> Tree {
    match random.below(8) {
        0 => wide_tree(random),
        1..=3 => {
            let shape = middle_shape(random);
            tree(random, shape)
        }
        _ => {
            let shape = small_shape(random);
            tree(random, shape)
        }
    }
}

/// The form is read, kept and written again, also where all sites are 0.
#[test]
fn there_and_back() {
    let mut lost = 0;
    for seed in 0..3_000 {
        let random = &mut Random::new(seed);
        let old = any_tree(random);
        let bytes = write(&old).unwrap();
        // Old to new to old, and each form moved to itself.
        let new = to_sites(&bytes).unwrap();
        assert_eq!(new.len(), bytes.len() + 2 * old.events());
        assert_eq!(read(&new), Ok(old.clone().with_sites(&[])), "seed {seed}");
        assert_eq!(from_sites(&new).as_ref(), Ok(&bytes), "seed {seed}");
        assert_eq!(from_sites(&bytes).as_ref(), Ok(&bytes), "seed {seed}");
        assert_eq!(to_sites(&new).as_ref(), Ok(&new), "seed {seed}");
        // New to old to new where all sites are 0, and only there.
        let sited = old.clone().with_sites(&sites(random, old.events()));
        let written = write(&sited).unwrap();
        assert_eq!(read(&written).as_ref(), Ok(&sited), "seed {seed}");
        assert_eq!(to_sites(&written).as_ref(), Ok(&written), "seed {seed}");
        match sited.sites.iter().position(|&site| site != 0) {
            None => {
                assert_eq!(from_sites(&written).as_ref(), Ok(&bytes), "seed {seed}");
                assert_eq!(written, new, "seed {seed}");
            }
            Some(event) => {
                assert_eq!(from_sites(&written), refuse(22, 7 * event as u64), "seed {seed}");
                assert_eq!(write(&Tree { sited: false, ..sited }), refuse(22, 5 * event as u64), "seed {seed}");
                lost += 1;
            }
        }
    }
    assert!(lost > 1_500, "{lost}");
}

/// 1 to 8 and 21, then 22, then 9; a refusal leaves the room.
#[test]
fn rooms_of_the_moves() {
    for own in MOVES {
        let bytes = own.bytes();
        for (moved, into) in [
            (to_sites(&bytes), to_sites_into as fn(&[u8], &mut [u8]) -> Result<usize, Refusal>),
            (from_sites(&bytes), from_sites_into),
        ] {
            for length in 0..bytes.len() + 8 {
                let mut room = vec![0xAA; length];
                let answer = into(&bytes, &mut room);
                let mut due = vec![0xAA; length];
                match &moved {
                    Err(refusal) => assert_eq!(answer, Err(*refusal), "{}", own.what),
                    Ok(moved) if moved.len() > length => assert_eq!(answer, refuse(9, 0), "{}", own.what),
                    Ok(moved) => {
                        assert_eq!(answer, Ok(moved.len()), "{}", own.what);
                        due[..moved.len()].copy_from_slice(moved);
                    }
                }
                assert_eq!(room, due, "{}", own.what);
            }
        }
    }
}

/// Nodes, cuts, listings, counts by size and brackets are those of the old form.
#[test]
fn nothing_depends_on_sites() {
    for seed in 0..1_500 {
        let random = &mut Random::new(seed);
        let old = any_tree(random);
        let sited = old.clone().with_sites(&sites(random, old.events()));
        let capacities = Lengths::of_capacities(random.below(60), random.below(60));
        let lengths = random.of(&[capacities, Lengths::of_capacities(6_000, 6_000)]);
        match (analyse(&write(&old).unwrap(), lengths), analyse(&write(&sited).unwrap(), lengths)) {
            (Ok(before), Ok(after)) => {
                assert_eq!(before.robdd.nodes.table(), after.robdd.nodes.table());
                assert_eq!(before.cuts.nodes.table(), after.cuts.nodes.table());
                assert_eq!(before.robdd.gate_nodes, after.robdd.gate_nodes);
                assert_eq!(before.added(), after.added());
                let (one, other) = (list(&before.lent_cuts(), None, 500), list(&after.lent_cuts(), None, 500));
                assert_eq!((one.bytes, one.finished), (other.bytes, other.finished));
                assert_eq!(by_size(&before.lent_cuts(), true), by_size(&after.lent_cuts(), true));
                let ends = |done: &second::analysis::Analysis| {
                    let top = bracket(&done.lent_function(), &done.tree.chances, true);
                    (top.low, top.high)
                };
                assert_eq!(ends(&before), ends(&after));
            }
            (Err(before), Err(after)) => assert_eq!(before, after, "seed {seed}"),
            _ => panic!("seed {seed}: one is refused"),
        }
    }
}

/// Bytes without kind 11 are read as they were; one at the front of which it stands had number 2.
#[test]
fn old_files() {
    for seed in 0..6_000 {
        let random = &mut Random::new(seed);
        let bytes = match seed % 3 {
            0 => generator::bytes(random),
            1 => {
                let number = random.of(&NUMBERS);
                damaged(random, number).bytes
            }
            _ => write(&any_tree(random)).unwrap(),
        };
        match (READER_WITHOUT_SITES.read(&bytes), read(&bytes)) {
            (Err(Refusal { number: 2, place }), new) if bytes[place as usize] == 0x11 => {
                if let Err(Refusal { number, place: later }) = new {
                    assert!(later >= place || number == 8 || number == 5, "seed {seed}");
                }
            }
            (old, new) => assert_eq!(old, new, "seed {seed}"),
        }
    }
}

/// A tree of the new form is typed as its old form is, and what is typed has the old form.
#[test]
fn equations_have_no_sites() {
    for seed in 0..500 {
        let random = &mut Random::new(seed);
        let old = any_tree(random);
        let sites = sites(random, old.events());
        let text = export(&old).unwrap();
        let sited = old.clone().with_sites(&sites);
        assert_eq!(export(&sited).as_ref(), Ok(&text));
        assert_eq!(export(&Tree { sited: false, ..sited }).as_ref(), Ok(&text));
        let back = typed(&text);
        assert_eq!((back.number, back.tree.sited, back.tree.sites), (0, false, vec![0; old.events()]));
    }
    // Refused by the bytes of its own form.
    let mut tree = Tree::of_chances(&[0, D + 1]).with_sites(&[1]);
    or(&mut tree, &[Input::Event(0), Input::Event(1)]);
    assert_eq!(export(&tree), refuse(7, 7));
    assert_eq!(export(&Tree { sited: false, ..tree }), refuse(7, 5));
}

#[test]
fn the_program_says_the_same() {
    let said = |bytes: &[u8]| {
        let mut text = Vec::new();
        program(bytes, &mut text).unwrap();
        text
    };
    let corridor = include_bytes!("../../../examples/corridor.tree");
    assert_eq!(said(&to_sites(corridor).unwrap()), include_bytes!("../../../examples/corridor.out"));
    let sited = include_bytes!("../../../examples/corridor_sites.tree");
    assert_eq!(said(sited), include_bytes!("../../../examples/corridor.out"));
    assert_eq!(from_sites(sited).map_err(|refusal| refusal.number), Err(22));
}
