//! Seeded stores of settings: good ones, such as force every event, damaged ones, and good ones with records of later editions added.

use crate::random::Random;
use crate::settings::*;

pub fn store_of(settings: &[Setting]) -> Vec<u8> {
    settings.iter().flat_map(Setting::bytes).collect()
}

fn state(random: &mut Random) -> State {
    random.of(&[State::Free, State::Failed, State::Failed, State::Sound, State::Sound])
}

/// Editions that never fall, near one another or over the whole range.
fn editions(random: &mut Random, count: usize) -> Vec<u16> {
    let most = random.of(&[1, 3, 10, 300, 65_535]);
    let first = if random.once_in(4) { 65_535 - most } else { 0 };
    let mut editions: Vec<u16> = (0..count).map(|_| (first + random.below(most + 1)) as u16).collect();
    editions.sort();
    editions
}

/// A store that is accepted for so many events.
pub fn good(random: &mut Random, events: usize) -> Vec<Setting> {
    let count = match random.below(8) {
        0 => 0,
        1 => events.min(60) * 2,
        _ => random.between(1, 8),
    };
    let few = random.between(1, events.min(4));
    let narrow = random.once_in(3);
    let editions = editions(random, count);
    let setting = |edition| {
        let event = if narrow { random.below(few) } else { random.below(events) } as u16;
        Setting { edition, event, state: state(random) }
    };
    editions.into_iter().map(setting).collect()
}

/// Every event has a record that forces it, all in one edition or one after the other.
pub fn all_forced(random: &mut Random, events: usize) -> Vec<Setting> {
    let (one, step) = (random.of(&[State::Failed, State::Sound]), random.below(2));
    let mixed = random.once_in(2);
    let first = random.below(3);
    let setting = |event: usize| Setting {
        edition: (first + step * event) as u16,
        event: event as u16,
        state: if mixed { random.of(&[State::Failed, State::Sound]) } else { one },
    };
    (0..events).map(setting).collect()
}

/// One or two of a good store's records made faulty, a byte changed, or the store cut inside a record.
pub fn damaged(random: &mut Random, events: usize) -> Vec<u8> {
    let mut store = store_of(&good(random, events));
    if store.is_empty() {
        store = store_of(&all_forced(random, events.min(3)));
    }
    for _ in 0..random.between(1, 2) {
        let record = SETTING_BYTES * random.below(store.len() / SETTING_BYTES);
        match random.below(8) {
            0 => store[record] = random.of(&[0x30, 0x32, 31, 0x11, 0]),
            1 => store[record + 5] = random.of(&[3, 4, 255, 0x31]),
            2 => store[record + 1..record + 3].copy_from_slice(&[0, 0]),
            3 => store[record + 1..record + 3].copy_from_slice(&random.of(&[[255, 255], [1, 0], [0, 1]])),
            4 | 5 => {
                let beyond = random.of(&[events, events + 1, events + 256, 1_024, 65_535]).min(65_535) as u16;
                store[record + 3..record + 5].copy_from_slice(&beyond.to_le_bytes());
            }
            _ => {
                let place = random.below(store.len());
                store[place] = random.byte();
            }
        }
    }
    if random.once_in(4) {
        store.truncate(store.len() - random.between(1, 5));
    }
    store
}

/// Any store, mostly a good one.
pub fn store(random: &mut Random, events: usize) -> Vec<u8> {
    match random.below(16) {
        0..=2 => damaged(random, events),
        3 => (0..random.below(20)).map(|_| random.of(&[0, 1, 2, SETTING, SETTING, 0xFF])).collect(),
        4 | 5 => store_of(&all_forced(random, events)),
        _ => store_of(&good(random, events)),
    }
}

/// An edition of the store's, the one before or after it, or any.
pub fn edition(random: &mut Random, store: &[u8]) -> u16 {
    let editions: Vec<u16> =
        store.chunks_exact(SETTING_BYTES).map(|record| u16::from_le_bytes([record[1], record[2]])).collect();
    if editions.is_empty() || random.once_in(8) {
        return random.of(&[0, 1, 2, 255, 256, 65_535]);
    }
    let own = random.of(&editions);
    random.of(&[own, own, own, own.saturating_sub(1), own.saturating_add(1), 65_535])
}

/// The settings with some valid records of editions above the asked one added, wherever they leave the store valid.
pub fn with_above(random: &mut Random, settings: &[Setting], events: usize, asked: u16) -> Vec<Setting> {
    let mut more = settings.to_vec();
    for _ in 0..if asked < u16::MAX { random.between(1, 4) } else { 0 } {
        let first = more.iter().position(|setting| setting.edition > asked).unwrap_or(more.len());
        let place = random.between(first, more.len());
        let least = if place > first { more[place - 1].edition } else { asked + 1 };
        let most = more.get(place).map_or(u16::MAX, |setting| setting.edition);
        let between = random.between(least as usize, most as usize) as u16;
        let edition = random.of(&[least, most, between]);
        more.insert(place, Setting { edition, event: random.below(events) as u16, state: state(random) });
    }
    more
}
