//! Wrong programs, continued: stores of settings, which record decides, forced events, and their chances.

use crate::analysis::{added as differences, analyse_tree, Lengths};
use crate::judge::{read, refuse, Refusal};
use crate::library::*;
use crate::mirror::{lay_out_analysis, lay_out_chances, Mirror};
use crate::robdd::{Robdd, Steps, FALSE, TRUE};
use crate::settings::*;
use crate::tree::*;
use crate::wrong::Wrong::{self, *};
use State::{Failed, Free, Sound};

pub fn is_of_seasons(wrong: Wrong) -> bool {
    (TornEndAccepted..=ChancesUntilTheFault).contains(&wrong)
}

/// A record as a wrong program reads it; what is missing at a torn end is 0.
#[derive(Clone, Copy)]
struct Seen {
    place: usize,
    torn: bool,
    kind: u8,
    edition: u16,
    event: u16,
    state: u8,
}

fn records(wrong: Wrong, store: &[u8]) -> Vec<Seen> {
    let number = |low: u8, high: u8, wrong_byte: bool, wrong_order: bool| match (wrong_byte, wrong_order) {
        (true, _) => low as u16,
        (_, true) => u16::from_be_bytes([low, high]),
        _ => u16::from_le_bytes([low, high]),
    };
    let seen = |(number_of, record): (usize, &[u8])| {
        let mut own = [0; SETTING_BYTES];
        own[..record.len()].copy_from_slice(record);
        let [kind, low, high, event_low, event_high, state] = own;
        Seen {
            place: number_of * SETTING_BYTES,
            torn: record.len() < SETTING_BYTES,
            kind,
            edition: number(low, high, wrong == EditionsByTheLowByte, wrong == EditionsHighByteFirst),
            event: number(event_low, event_high, wrong == EventsByTheLowByte, wrong == EventsHighByteFirst),
            state: if wrong == StatesByTheLowBits { state % 4 } else { state },
        }
    };
    store.chunks(SETTING_BYTES).enumerate().map(seen).collect()
}

/// The number that a record gets behind these.
fn fault(wrong: Wrong, own: &Seen, before: &[Seen], events: usize, asked: u16) -> u32 {
    let kind = match wrong {
        OtherKindsPass => true,
        KindIsDecimal => own.kind == 31,
        _ => own.kind == SETTING,
    };
    let state = wrong == StatesAboveTwoAreSound || own.state <= 2;
    let falls = |other: &Seen| own.edition < other.edition;
    let fallen = match wrong {
        EditionsMayFall => false,
        EditionsMustRise => before.last().is_some_and(|other| own.edition <= other.edition),
        FallsOfOneEventOnly => before.iter().any(|other| other.event == own.event && falls(other)),
        FallsBelowTheFirstOnly => before.first().is_some_and(falls),
        _ => before.last().is_some_and(falls),
    };
    let above = own.edition > asked;
    let event = match wrong {
        EventsNotJudged => true,
        EventsUpTo1024 => (own.event as usize) < MOST_EVENTS,
        EventsOneTooMany => own.event as usize <= events,
        ThirteenOfAboveNotJudged if above => true,
        FreeEventsNotJudged if own.state == 0 => true,
        _ => (own.event as usize) < events,
    };
    let formed = kind && state && !fallen && !(own.torn && wrong != TornEndAccepted);
    match (wrong, formed, event) {
        (AboveNotJudged, ..) if above && !own.torn => 0,
        (ThirteenBeforeTwentyFour, false, false) if !own.torn => 13,
        (TwentyFourForThirteen, true, false) => 24,
        (_, false, _) => 24,
        (_, true, false) => 13,
        _ => 0,
    }
}

/// The place that a wrong program gives the fault of a record.
fn place(wrong: Wrong, own: &Seen, number: u32, tree_length: usize) -> u64 {
    let place = match wrong {
        StorePlaceZero => 0,
        StorePlaceByRecord => own.place / SETTING_BYTES,
        StorePlaceOfTheByte if number == 13 => own.place + 3,
        StorePlaceOfTheByte if own.kind == SETTING && own.state > 2 => own.place + 5,
        StorePlaceBehindTheTree => own.place + tree_length,
        _ => own.place,
    };
    place as u64
}

/// The settings that a wrong program takes from a store.
fn settings_seen(wrong: Wrong, season: Season, events: usize, tree_length: usize) -> Result<Vec<Setting>, Refusal> {
    let Season { store, edition: asked } = season;
    let mut seen = records(wrong, store);
    match wrong {
        TornEndDropped => seen.retain(|own| !own.torn),
        OtherKindsSkipped => seen.retain(|own| own.torn || own.kind == SETTING),
        AboveEndsTheJudging => {
            let end = seen.iter().position(|own| !own.torn && own.edition > asked);
            seen.truncate(end.unwrap_or(seen.len()));
        }
        EmptyStoreRefused if store.is_empty() => return refuse(24, 0),
        _ => {}
    }
    let number = |at: usize| fault(wrong, &seen[at], &seen[..at], events, asked);
    let faulty: Vec<usize> = (0..seen.len()).filter(|&at| number(at) != 0).collect();
    let decides = match wrong {
        LastFaultDecides => faulty.last(),
        TwentyFourOfAllFirst => faulty.iter().find(|&&at| number(at) == 24).or(faulty.first()),
        _ => faulty.first(),
    };
    if let Some(&at) = decides {
        return refuse(number(at), place(wrong, &seen[at], number(at), tree_length));
    }
    let setting = |own: &Seen| Setting {
        edition: own.edition,
        event: own.event,
        state: STATES.get(own.state as usize).copied().unwrap_or(Sound),
    };
    Ok(seen.iter().map(setting).collect())
}

/// The states that a wrong program takes from these settings.
fn states_seen(wrong: Wrong, settings: &[Setting], events: usize, asked: u16) -> Vec<State> {
    let latest = settings.iter().map(|setting| setting.edition).filter(|&edition| edition <= asked).max();
    let speaks = |setting: &&Setting| match wrong {
        EditionOfItsOwn => setting.edition == asked,
        BeforeTheEditionOnly => setting.edition < asked,
        LastOfAllDecides => true,
        EveryEditionStartsAnew => Some(setting.edition) == latest,
        FreeDoesNotFree => setting.edition <= asked && setting.state != Free,
        _ => setting.edition <= asked,
    };
    let of = |event: usize| {
        let own: Vec<State> =
            settings.iter().filter(speaks).filter(|own| own.event as usize == event).map(|own| own.state).collect();
        let state = match wrong {
            FirstDecides => own.first(),
            FreeWins if own.contains(&Free) => None,
            _ => own.last(),
        };
        match (wrong, state.copied().unwrap_or(Free)) {
            (StatesSwapped, Failed) => Sound,
            (StatesSwapped, Sound) => Failed,
            (_, state) => state,
        }
    };
    (0..events).map(of).collect()
}

/// The constant that an input is, if it is one.
fn constant(robdd: &Robdd, states: &[State], input: &Input) -> Option<u32> {
    let node = match *input {
        Input::Gate(gate) => robdd.gate_nodes[gate as usize],
        Input::Event(event) if states[event as usize] == Failed => TRUE,
        Input::Event(event) if states[event as usize] == Sound => FALSE,
        Input::Event(_) => return None,
    };
    (node <= TRUE).then_some(node)
}

/// Nothing is joined behind an input that decides.
fn until_decided(robdd: &Robdd, states: &[State], gate: &Gate, inputs: &[Input]) -> Vec<Input> {
    let decides = if gate.kind == AND { FALSE } else { TRUE };
    let end = inputs.iter().position(|input| constant(robdd, states, input) == Some(decides));
    match gate.kind {
        AT_LEAST => distinct(inputs),
        _ => inputs[..end.map_or(inputs.len(), |end| end + 1)].to_vec(),
    }
}

/// Forced events of one state taken for one.
fn forced_as_one(states: &[State], gate: &Gate, inputs: &[Input]) -> Vec<Input> {
    let key = |input: &Input| match *input {
        Input::Event(event) if states[event as usize] != Free => Err(states[event as usize] as u32),
        _ => Ok(*input),
    };
    let keys: Vec<Result<Input, u32>> = inputs.iter().map(key).collect();
    let first = |&place: &usize| !keys[..place].contains(&keys[place]);
    match gate.kind {
        AT_LEAST => (0..inputs.len()).filter(first).map(|place| inputs[place]).collect(),
        _ => inputs.to_vec(),
    }
}

/// At-least gates of the free inputs alone: a failed one less to ask for, a sound one left out.
fn without_forced(tree: &Tree, states: &[State]) -> Tree {
    let mut other = Tree { gates: Vec::new(), inputs: Vec::new(), ..tree.clone() };
    let is = |input: &Input, state| matches!(*input, Input::Event(event) if states[event as usize] == state);
    for (gate, inputs) in tree.gates.iter().zip(tree.inputs_by_gate()) {
        if gate.kind != AT_LEAST {
            other.add_gate(gate.kind, gate.k, &inputs);
            continue;
        }
        let own = distinct(&inputs);
        let failed = own.iter().filter(|input| is(input, Failed)).count() as u32;
        let free: Vec<Input> = own.into_iter().filter(|own| !is(own, Failed) && !is(own, Sound)).collect();
        other.add_gate(AT_LEAST, gate.k.saturating_sub(failed), &free);
    }
    other
}

pub fn wrong_season(wrong: Wrong, bytes: &[u8], season: Season, mut areas: Areas, added: &mut [u32]) -> AnalyseAnswer {
    let lengths = Lengths { added_list: added.len(), ..Mirror.lengths(&areas) };
    let states = match states_or_refusal(wrong, bytes, season, lengths) {
        Ok(states) => states,
        Err(refusal) => {
            if wrong == TwentyFourLeavesZero && refusal.number == 24 {
                areas.again().clear();
            }
            return lay_out_analysis(Err(refusal), areas, added);
        }
    };
    let tree = read(bytes).expect("it was read before");
    let early = |robdd: &Robdd, gate: &Gate, inputs: &[Input]| until_decided(robdd, &states, gate, inputs);
    let as_one = |_: &Robdd, gate: &Gate, inputs: &[Input]| forced_as_one(&states, gate, inputs);
    let right = Steps { states: &states, ..Steps::default() };
    let steps = match wrong {
        ForcedNodesMade => Steps { forced_nodes: true, ..right },
        JoinsStopEarly => Steps { taken: &early, ..right },
        ForcedTwinsAreOne => Steps { taken: &as_one, ..right },
        _ => right,
    };
    let built = if wrong == ForcedDroppedFromAtLeast { without_forced(&tree, &states) } else { tree.clone() };
    let mut done = analyse_tree(built, lengths, &steps);
    let free = || analyse_tree(tree.clone(), lengths, &Steps::default());
    match (wrong, &done) {
        (FreeNodesNeeded, Ok(_)) => done = free().and(done),
        (SeasonTenWithoutAGate, Err(Refusal { number: 10, .. })) => done = refuse(10, 0),
        (ConstantRootRefused, Ok(own)) if own.robdd.root() <= TRUE => done = refuse(8, 0),
        _ => {}
    }
    let mut answer = lay_out_analysis(done, areas.again(), added);
    match (wrong, answer.number) {
        (AddedOfTheFreeTree, 0) => {
            let built = Robdd::build(&tree, usize::MAX).expect("there is room for everything");
            added[..tree.gates.len()].copy_from_slice(&differences(&built.nodes_by_gate));
        }
        (SureRootHasNoCut, 0) if answer.cut_root == TRUE => answer.cut_root = FALSE,
        (ConstantGatesAreZero, 0) => areas.gates.iter_mut().filter(|node| **node == TRUE).for_each(|node| *node = 0),
        _ => {}
    }
    answer
}

/// Everything before 10, in the wrong program's order.
fn states_or_refusal(wrong: Wrong, bytes: &[u8], season: Season, lengths: Lengths) -> Result<Vec<State>, Refusal> {
    let tree = read(bytes);
    let events = tree.as_ref().map_or(MOST_EVENTS, Tree::events);
    let settings = settings_seen(wrong, season, events, bytes.len());
    let eight = tree.as_ref().is_err_and(|refusal| refusal.number == 8);
    if wrong == StoreBeforeTheTree || wrong == StoreBeforeEight && eight {
        if let Err(refusal) = settings {
            return Err(refusal);
        }
    }
    let tree = tree?;
    if wrong == NineBeforeTheStore && !lengths.keep_rules(&tree) {
        return refuse(9, 0);
    }
    Ok(states_seen(wrong, &settings?, events, season.edition))
}

pub fn wrong_chances(wrong: Wrong, season: Season, chances: &mut [u32]) -> SettingsAnswer {
    let before = chances.to_vec();
    let settings = settings_seen(wrong, season, before.len(), 0);
    if let (ChancesUntilTheFault, Err(refusal)) = (wrong, settings.as_ref()) {
        let good = &season.store[..refusal.place as usize];
        let states =
            states_seen(wrong, &judge_store(good, before.len()).unwrap_or_default(), before.len(), season.edition);
        chances.copy_from_slice(&chances_in(&states, &before));
    }
    lay_out_chances(chances_seen(wrong, settings, &before, season.edition), chances)
}

fn chances_seen(
    wrong: Wrong,
    settings: Result<Vec<Setting>, Refusal>,
    before: &[u32],
    asked: u16,
) -> Result<Vec<u32>, Refusal> {
    let most = match wrong {
        TooManyChancesPass => usize::MAX,
        ManyChancesRefused => MOST_EVENTS - 1,
        _ => MOST_EVENTS,
    };
    if wrong == NineBeforeTheStoreOfChances && before.len() > most {
        return refuse(9, 0);
    }
    let settings = settings?;
    if before.len() > most {
        return refuse(9, 0);
    }
    if wrong == ChancesAboveOneRefused && before.iter().any(|&chance| chance > D) {
        return refuse(7, 0);
    }
    let states = states_seen(wrong, &settings, before.len(), asked);
    let right = chances_in(&states, before);
    let own = |event: usize| match (wrong, states[event]) {
        (FailedWithChanceZero, Failed) => 0,
        (SoundKeepsItsChance, Sound) | (ForcedChancesStay, _) => before[event],
        (ChancesAboveOneCut, _) => right[event].min(D),
        _ => right[event],
    };
    Ok((0..before.len()).map(own).collect())
}
