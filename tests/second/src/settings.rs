//! Request 10: a store of settings judged, the state of each event under an edition, and the analysis and the chances under these.

use crate::analysis::{analyse, analyse_tree, Analysis, Lengths};
use crate::judge::{read, refuse, Refusal};
use crate::robdd::Steps;
use crate::tree::{D, MOST_EVENTS};

pub const SETTING: u8 = 0x31;

/// The kind, two bytes of edition, two of event, one of state.
pub const SETTING_BYTES: usize = 6;

#[derive(Clone, Copy, Debug, PartialEq, Eq)]
pub enum State {
    Free,
    Failed,
    Sound,
}

pub const STATES: [State; 3] = [State::Free, State::Failed, State::Sound];

#[derive(Clone, Copy, Debug, PartialEq, Eq)]
pub struct Setting {
    pub edition: u16,
    pub event: u16,
    pub state: State,
}

impl Setting {
    pub fn bytes(&self) -> [u8; SETTING_BYTES] {
        let ([low, high], [event_low, event_high]) = (self.edition.to_le_bytes(), self.event.to_le_bytes());
        [SETTING, low, high, event_low, event_high, self.state as u8]
    }
}

/// A store, and the edition that is asked for.
#[derive(Clone, Copy, Debug)]
pub struct Season<'a> {
    pub store: &'a [u8],
    pub edition: u16,
}

/// The settings of a store for a tree of so many events. The first faulty record decides, and all are judged, whatever edition is asked for.
pub fn judge_store(store: &[u8], events: usize) -> Result<Vec<Setting>, Refusal> {
    let mut settings: Vec<Setting> = Vec::new();
    for (number, record) in store.chunks(SETTING_BYTES).enumerate() {
        let place = (number * SETTING_BYTES) as u64;
        let &[SETTING, low, high, event_low, event_high, state] = record else {
            return refuse(24, place);
        };
        let Some(&state) = STATES.get(state as usize) else {
            return refuse(24, place);
        };
        let edition = u16::from_le_bytes([low, high]);
        if settings.last().is_some_and(|before| edition < before.edition) {
            return refuse(24, place);
        }
        let event = u16::from_le_bytes([event_low, event_high]);
        if event as usize >= events {
            return refuse(13, place);
        }
        settings.push(Setting { edition, event, state });
    }
    Ok(settings)
}

/// The last record for an event at or before the asked edition decides, and without one it is free.
pub fn states(settings: &[Setting], events: usize, asked: u16) -> Vec<State> {
    let of = |event: usize| {
        let decides = |setting: &&Setting| setting.event as usize == event && setting.edition <= asked;
        settings.iter().rev().find(decides).map_or(State::Free, |setting| setting.state)
    };
    (0..events).map(of).collect()
}

impl Season<'_> {
    pub fn states(&self, events: usize) -> Result<Vec<State>, Refusal> {
        Ok(states(&judge_store(self.store, events)?, events, self.edition))
    }
}

/// 1 to 8 and 21, then 24 and 13, then 9, then 10, then 11.
pub fn analyse_season(bytes: &[u8], season: Season, lengths: Lengths) -> Result<Analysis, Refusal> {
    let tree = read(bytes)?;
    let states = season.states(tree.events())?;
    analyse_tree(tree, lengths, &Steps { states: &states, ..Steps::default() })
}

/// The analysis in a season, or in none.
pub fn analyse_when(season: Option<Season>, bytes: &[u8], lengths: Lengths) -> Result<Analysis, Refusal> {
    match season {
        Some(season) => analyse_season(bytes, season, lengths),
        None => analyse(bytes, lengths),
    }
}

/// D or 0 where an event is forced.
pub fn chances_in(states: &[State], chances: &[u32]) -> Vec<u32> {
    let of = |(&state, &chance): (&State, &u32)| match state {
        State::Free => chance,
        State::Failed => D,
        State::Sound => 0,
    };
    states.iter().zip(chances).map(of).collect()
}

/// The chances of all events of a tree under the settings: 24 and 13, then 9 where these are more than a tree can have. No chance is judged.
pub fn chances_under(season: Season, chances: &[u32]) -> Result<Vec<u32>, Refusal> {
    let states = season.states(chances.len())?;
    if chances.len() > MOST_EVENTS {
        return refuse(9, 0);
    }
    Ok(chances_in(&states, chances))
}
