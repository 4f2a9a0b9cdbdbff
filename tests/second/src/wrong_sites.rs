//! Wrong programs, continued: events with sites, the form of a tree, the two moves, and number 22.

use crate::judge::{event_bytes, lay, read, write, Record, Refusal, READER_WITHOUT_SITES};
use crate::library::*;
use crate::mirror::{told, Mirror};
use crate::moves::{from_sites, to_sites};
use crate::tree::*;
use crate::wrong::Wrong::{self, *};
use crate::wrong_twins::answered;
use crate::wrong_wide::rewritten;

/// The sites that a tree has, by event.
fn sited_events(tree: &Tree) -> Vec<u64> {
    (0..tree.event_count.min(MOST_EVENTS as u64)).filter(|&event| tree.site(event) != 0).collect()
}

/// The tree with the form that its sites suggest.
fn guessed(tree: &Tree) -> Tree {
    Tree { sited: !sited_events(tree).is_empty(), ..tree.clone() }
}

/// The tree with every site 0.
fn at_zero(tree: &Tree) -> Tree {
    Tree { sites: vec![0; tree.sites.len()], ..tree.clone() }
}

/// The bytes with every event in this form.
fn in_form(bytes: &[u8], sited: bool) -> Vec<u8> {
    rewritten(bytes, |record, own| match record {
        Record::Event { chance, site } => event_bytes(chance as u32, sited.then_some(site.unwrap_or(0))),
        _ => own.to_vec(),
    })
}

/// Where an event of the other kind stands among the events: its number and its chance, if that is whole.
fn mixture(bytes: &[u8], place: u64) -> Option<(u64, Option<u32>)> {
    let first = match bytes.first()? {
        1 => 5,
        0x11 => 7,
        _ => return None,
    };
    let at_fault = bytes.get(place as usize..)?;
    let other = [1, 0x11].contains(at_fault.first()?) && at_fault[0] != bytes[0];
    // Behind a gate an event is no mixture.
    let among = place % first == 0 && (0..place).step_by(first as usize).all(|own| bytes[own as usize] == bytes[0]);
    let chance = at_fault.get(1..5).and_then(|chance| chance.try_into().ok()).map(u32::from_le_bytes);
    (other && among).then_some((place / first, chance))
}

pub fn sites_read(wrong: Wrong, bytes: &[u8], mut right: ReadAnswer) -> ReadAnswer {
    let mixed = || mixture(bytes, right.place);
    match (wrong, right.number) {
        (FormGuessedFromTheSites, 0) => right.tree = guessed(&right.tree),
        (KindElevenUnknown, _) => return answered(READER_WITHOUT_SITES.read(bytes)),
        (MixturePasses, 3) if mixed().is_some() => return answered(read(&in_form(bytes, bytes[0] == 0x11))),
        (MixtureAfterFour, 3) if mixed().is_some_and(|(event, _)| event == MOST_EVENTS as u64) => right.number = 4,
        (MixtureAfterSeven, 3) if mixed().is_some_and(|(_, chance)| chance > Some(D)) => right.number = 7,
        (MixtureBeforeOne, 1) if mixed().is_some() => right.number = 3,
        (MixtureAtTheFirstEvent, 3) if mixed().is_some() => right.place = 0,
        (SitesHighByteFirst, 0) => right.tree.sites.iter_mut().for_each(|site| *site = site.swap_bytes()),
        (SiteBeforeTheChance, _) => {
            let turned = rewritten(bytes, |_, own| match own {
                [0x11, body @ ..] => [&[0x11], &body[2..], &body[..2]].concat(),
                _ => own.to_vec(),
            });
            return answered(read(&turned));
        }
        (SitesNotRead, 0) => right.tree = at_zero(&right.tree),
        (EveryEventHasFiveBytes, 8) if bytes[right.place as usize] == 0x11 => right.place = right.place / 7 * 5,
        _ => {}
    }
    right
}

/// As it is due, but 9 where the room is shorter than so many bytes.
fn room_first(room: &[u8], needed: usize, right: WriteAnswer) -> WriteAnswer {
    match room.len() < needed {
        true => WriteAnswer { number: 9, place: 0, used: 0 },
        false => right,
    }
}

fn refused(number: u32, place: u64) -> WriteAnswer {
    WriteAnswer { number, place, used: 0 }
}

/// As many of the bytes as there is room for.
fn spill(bytes: &[u8], room: &mut [u8]) {
    let fits = bytes.len().min(room.len());
    room[..fits].copy_from_slice(&bytes[..fits]);
}

/// `None` where the wrong program writes as it should.
pub fn sites_write(wrong: Wrong, tree: &Tree, room: &mut [u8]) -> Option<WriteAnswer> {
    let number = told(write(tree).map(|bytes| bytes.len())).number;
    let events = sited_events(tree);
    match (wrong, number) {
        (FormWrittenBySites, _) => return Some(Mirror.write(&guessed(tree), room)),
        (LostSitesPass, 22) => return Some(Mirror.write(&at_zero(tree), room)),
        (WritesTwentyTwoBeforeEight, 8) if !tree.sited && !events.is_empty() => {
            return Some(refused(22, 5 * events[0]))
        }
        (TwentyTwoOfSitesBehind, 0) if !tree.sited => {
            let behind = tree.sites.iter().position(|&site| site != 0)?;
            return Some(refused(22, 5 * behind as u64));
        }
        _ => {}
    }
    if number != 22 {
        return None;
    }
    let bytes = write(&at_zero(tree)).expect("only sites were lost");
    match wrong {
        WritesNineBeforeTwentyTwo => Some(room_first(room, bytes.len(), refused(22, 5 * events[0]))),
        WritesUntilTwentyTwo => {
            spill(&bytes[..5 * events[0] as usize], room);
            Some(refused(22, 5 * events[0]))
        }
        WritesPlaceOfTheLastSite => Some(refused(22, 5 * events[events.len() - 1])),
        WritesPlaceOfSevenBytes => Some(refused(22, 7 * events[0])),
        _ => None,
    }
}

/// What both moves may do wrong to a room, once they are answered.
fn wrong_room(wrong: Wrong, moved: &[u8], given: &[u8], room: &mut [u8], right: WriteAnswer) -> WriteAnswer {
    match (wrong, right.number) {
        (MovedTreesRefused, 0) if moved == given => refused(3, 0),
        (ZerosBehindTheMoved, 0) => {
            room[right.used as usize..].fill(0);
            right
        }
        (MovesUntilFull, 9) => {
            spill(moved, room);
            right
        }
        (MovesIntoEitherForm, 0) => room_first(room, given.len().max(moved.len()), right),
        _ => right,
    }
}

pub fn wrong_to_sites(wrong: Wrong, bytes: &[u8], room: &mut [u8]) -> WriteAnswer {
    let Ok(moved) = to_sites(bytes) else {
        let right = Mirror.to_sites(bytes, room);
        return refused_move(wrong, bytes, room, right);
    };
    if wrong == SitesSetToZero {
        return told(lay(Ok(in_form(&in_form(bytes, false), true)), room));
    }
    let before = room.to_vec();
    let right = Mirror.to_sites(bytes, room);
    let answer = wrong_room(wrong, &moved, bytes, room, right);
    if answer.number != right.number {
        room.copy_from_slice(&before);
    }
    answer
}

pub fn wrong_from_sites(wrong: Wrong, bytes: &[u8], room: &mut [u8]) -> WriteAnswer {
    let before = room.to_vec();
    let right = Mirror.from_sites(bytes, room);
    if ![0, 9, 22].contains(&right.number) {
        return refused_move(wrong, bytes, room, right);
    }
    let tree = read(bytes).expect("only sites or the room refuse it");
    let events = sited_events(&tree);
    let moved = in_form(bytes, false);
    let first = events.first().copied().unwrap_or(0);
    match (wrong, right.number) {
        (BackDropsSites, 22) => told(lay(Ok(moved), room)),
        (BackDropsHighSites, 22) if tree.sites.iter().all(|site| site % 256 == 0) => told(lay(Ok(moved), room)),
        (BackRefusesTheNewForm, 0 | 9) if tree.sited => {
            room.copy_from_slice(&before);
            refused(22, 0)
        }
        (BackNineBeforeTwentyTwo, 22) => room_first(room, moved.len(), right),
        (BackWritesUntilTwentyTwo, 22) => {
            spill(&moved[..5 * first as usize], room);
            right
        }
        (BackClearsOnTwentyTwo, 22) => {
            room.fill(0);
            right
        }
        (BackPlaceOfTheLastSite, 22) => refused(22, 7 * events[events.len() - 1]),
        (BackPlaceOfFiveBytes, 22) => refused(22, 5 * first),
        (BackSaysTheEvent, 22) => refused(22, first),
        (_, 22) => right,
        _ => {
            let answer = wrong_room(wrong, &from_sites(bytes).expect("it was moved"), bytes, room, right);
            if answer.number != right.number {
                room.copy_from_slice(&before);
            }
            answer
        }
    }
}

/// Bytes that reading refuses.
fn refused_move(wrong: Wrong, bytes: &[u8], room: &[u8], right: WriteAnswer) -> WriteAnswer {
    let site = || {
        let (records, _) = crate::wrong_wide::records(bytes);
        records.iter().position(|(record, _)| matches!(record, Record::Event { site: Some(1..), .. }))
    };
    match (wrong, right.number) {
        (BackTwentyTwoBeforeEight, 8) => site().map_or(right, |event| refused(22, 7 * event as u64)),
        (MovesRoomBeforeTheTree, 1..=8 | 21) if (room.len() as u64) <= right.place => refused(9, 0),
        _ => right,
    }
}

/// `None` where the wrong program exports as it should.
pub fn sites_export(wrong: Wrong, tree: &Tree, room: &mut [u8]) -> Option<WriteAnswer> {
    let lost = sited_events(tree).first().copied();
    let number = Mirror.export(tree, &mut room.to_vec()).number;
    match (wrong, number) {
        (ExportRefusesSites, 0) if tree.sited => lost.map(|event| refused(22, 7 * event)),
        (ExportRefusesLostSites, 0) if !tree.sited => lost.map(|event| refused(22, 5 * event)),
        (ExportsThePlaceOfTheOldForm, 2..=8) => Some(Mirror.export(&Tree { sited: false, ..tree.clone() }, room)),
        _ => None,
    }
}

/// What a wrong program refuses to analyse, and with what.
pub fn sites_analysis(wrong: Wrong, bytes: &[u8]) -> Option<Refusal> {
    (wrong == SitesNotAnalysed && read(bytes).is_ok()).then(|| READER_WITHOUT_SITES.read(bytes).err())?
}
