//! The importance of events of any lent function diagram, against the second program.

use crate::compare::no_fault;
use crate::generator;
use crate::importance::{importance, Weights};
use crate::judge::Refusal;
use crate::lent::Lent;
use crate::library::*;
use crate::random::Random;
use crate::tally::Tally;
use crate::tree::D;
use crate::weights::{case_1, written_out, SHARP};

/// Nodes times events of a diagram that is weighed: every event costs passes over the nodes.
const MOST_PRICES: u64 = 30_000_000;

/// The results and the work areas, in the order of the call.
const LISTS: usize = 6;

/// The lengths that the call asks for.
fn least(library: &dyn Library, diagram: &Lent) -> [usize; LISTS] {
    let events = diagram.event_count.min(1_100) as usize;
    let [down, up, marks] = library.smallest_weigh_areas(diagram.table.len() / 3);
    [events, events, events, down, up, marks]
}

/// One call in dirty lists of these lengths.
fn one_weighing(
    library: &dyn Library,
    diagram: &Lent,
    chances: &[u32],
    lengths: [usize; LISTS],
    random: &mut Random,
    tally: &mut Tally,
) -> Result<Weights, Refusal> {
    let mut lists =
        lengths.map(|length| Guarded::new((0..length).map(|_| random.next() as u32).collect(), 0xDEAD_BEEF));
    let suffice = lengths.iter().zip(least(library, diagram)).all(|(&length, least)| length >= least);
    let expected = importance(diagram, chances, suffice);
    let [lows, highs, rank, down, up, marks] = lists.each_mut().map(Guarded::lend);
    let got = library.importance(diagram, chances, WeighAreas { lows, highs, rank, work: [down, up, marks] });
    no_fault(library, tally);
    let (number, place) = expected.as_ref().map_or_else(|&Refusal { number, place }| (number, place), |_| (0, 0));
    tally.due("importance", number);
    tally.same("importance", ImportanceAnswer { number, place }, got);
    tally.holds("guards of an importance", lists.iter().all(Guarded::guards_stand));
    match &expected {
        Ok(weights) => {
            let events = diagram.event_count as usize;
            tally.meet("importances with an event that matters not", weights.highs.contains(&0));
            for (list, own) in lists.iter().zip([&weights.lows, &weights.highs, &weights.rank]) {
                tally.holds("numbers of the events", list.now()[..events] == own[..]);
                tally.holds("what lies behind the events' stays", list.now()[events..] == list.before()[events..]);
            }
            tally.holds("work areas of an importance end zero", lists[3..].iter().all(|area| area.all(0)));
        }
        Err(_) => tally.holds("a refused importance changes nothing", lists.iter().all(Guarded::unchanged)),
    }
    expected
}

/// With the given chances or random ones; some are above D, too few, or too many, and some lists too short.
pub fn compare_importance(
    library: &dyn Library,
    diagram: &Lent,
    chances: Option<&[u32]>,
    random: &mut Random,
    tally: &mut Tally,
) {
    if diagram.node_count.saturating_mul(diagram.event_count) > MOST_PRICES {
        return;
    }
    let before = std::mem::take(&mut tally.input);
    let events = diagram.event_count.min(1_100) as usize;
    let mut chances = chances.map_or_else(|| generator::chances(random, events), <[u32]>::to_vec);
    match random.below(16) {
        0 if !chances.is_empty() => {
            let place = random.below(chances.len());
            chances[place] = random.of(&[D + 1, u32::MAX]);
        }
        1 => {
            chances.pop();
        }
        2 | 3 => chances.push(random.of(&[0, u32::MAX])),
        _ => {}
    }
    let smallest = least(library, diagram);
    let mut lengths = smallest.map(|least| least + if random.once_in(2) { random.below(20) } else { 0 });
    let place = random.below(LISTS);
    if random.once_in(8) && smallest[place] > 0 {
        lengths[place] = smallest[place] - 1;
    }
    tally.note(|| match before.as_str() {
        "" => format!("{diagram:?} chances {chances:?} lengths {lengths:?}"),
        bytes => format!("{bytes} chances {chances:?} lengths {lengths:?}"),
    });
    let _ = one_weighing(library, diagram, &chances, lengths, random, tally);
    tally.input = before;
}

/// What is written out, with chances behind those of the events that nobody looks at; then the refusals in their order.
pub fn compare_weights(library: &dyn Library, random: &mut Random, tally: &mut Tally) {
    for own in written_out() {
        tally.name = Some(own.what);
        let chances = [&own.chances[..], &[u32::MAX, D + 1]].concat();
        let lengths = least(library, &own.diagram).map(|least| least + 3);
        let weights = one_weighing(library, &own.diagram, &chances, lengths, random, tally);
        tally.same("as it is written out", Ok(own.due), weights);
    }
    compare_order(library, random, tally);
}

/// Each two faults at once, and each list too short by one number: the fault that comes first is told.
fn compare_order(library: &dyn Library, random: &mut Random, tally: &mut Tally) {
    tally.name = Some("the order of an importance's refusals");
    let good = case_1(0, 4);
    let bad = Lent { root: 9, ..good.clone() };
    // Room for more nodes than are stated: the lengths go by the room.
    let wide = Lent { table: [&good.table[..], &[7; 12]].concat(), ..good.clone() };
    for faults in 0..8usize {
        let has = |fault: usize| faults >> fault & 1 == 1;
        let diagram = if has(0) { &bad } else { &wide };
        let due = [12, 9, 7].into_iter().enumerate().find(|&(fault, _)| has(fault)).map(|(_, number)| number);
        for short in 0..=LISTS {
            // The chance above D is of the event that stands nowhere, or of the first.
            for place in [3, 0] {
                let mut chances = [&SHARP[..], &[7]].concat();
                if has(2) {
                    chances[place] = D + 1;
                }
                let mut lengths = least(library, diagram);
                if has(1) && short < LISTS {
                    lengths[short] -= 1;
                }
                if has(1) && short == LISTS {
                    chances.remove(1);
                }
                let weights = one_weighing(library, diagram, &chances, lengths, random, tally);
                tally.same("as it is written out", due, weights.err().map(|refusal| refusal.number));
            }
        }
    }
}
