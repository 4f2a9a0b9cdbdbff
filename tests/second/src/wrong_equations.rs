//! Wrong programs, continued: import and export. Most read another text than they were given, or change what the mirror answers.

use crate::equations::*;
use crate::library::*;
use crate::mirror::{lay_out, Mirror};
use crate::tree::*;
use crate::wrong::Wrong::{self, *};
use std::collections::HashSet;

/// The text with every line as `change` makes it, line feeds and all.
fn changed(text: &[u8], mut change: impl FnMut(&Line) -> Vec<u8>) -> Vec<u8> {
    lines(text).iter().flat_map(|line| change(line)).collect()
}

fn without(text: &[u8], mut gone: impl FnMut(&Line) -> bool) -> Vec<u8> {
    changed(text, |line| if gone(line) { Vec::new() } else { line.bytes.to_vec() })
}

/// The text without the lines that 15 is answered for.
fn without_bad_lines(text: &[u8]) -> Vec<u8> {
    let mut text = text.to_vec();
    loop {
        let Import { number: 15, line, .. } = typed(&text) else { return text };
        text = without(&text, |own| own.place as u64 == line);
    }
}

fn names_in_equations(text: &[u8]) -> (HashSet<Vec<u8>>, HashSet<Vec<u8>>) {
    let (mut lefts, mut rights) = (HashSet::new(), HashSet::new());
    for line in lines(text) {
        if let Some(Said::Equation { left, inputs, .. }) = line.said {
            lefts.insert(left.letters.to_vec());
            rights.extend(inputs.iter().map(|input| input.letters.to_vec()));
        }
    }
    (lefts, rights)
}

/// Each word of the text by itself, blanks and all between them.
fn by_word(text: &[u8], change: impl Fn(&[u8]) -> Vec<u8>) -> Vec<u8> {
    let is_part = |byte: &u8| byte.is_ascii_alphanumeric();
    text.chunk_by(|a, b| is_part(a) == is_part(b)).flat_map(change).collect()
}

fn is_number(word: &[u8]) -> bool {
    word.iter().all(u8::is_ascii_digit)
}

/// What the wrong program reads where the text is refused with 15.
fn mended(wrong: Wrong, text: &[u8]) -> Vec<u8> {
    let of_name = |own: &Line, bad: &dyn Fn(&[u8]) -> bool| match &own.said {
        Some(Said::Chance { name, .. }) => bad(name.letters),
        _ => false,
    };
    let (lefts, rights) = names_in_equations(text);
    match wrong {
        SecondChanceTaken => {
            // The last one counts.
            let all = lines(text);
            let later = |own: &Line, name: &[u8]| {
                all.iter().any(|line| line.place > own.place && of_name(line, &|other| other == name))
            };
            without(text, |own| of_name(own, &|name| later(own, name)))
        }
        ChanceOfNoEquationTaken => {
            without(text, |own| of_name(own, &|name| !lefts.contains(name) && !rights.contains(name)))
        }
        ChanceOfALeftNameTaken => without(text, |own| of_name(own, &|name| lefts.contains(name))),
        EmptyLinesPass => without(text, |own| own.bytes == b"\n"),
        CarriageReturnsPass => {
            changed(text, |own| own.bytes.strip_suffix(b"\r\n").map_or(own.bytes.to_vec(), |end| [end, b"\n"].concat()))
        }
        LastLineFeedLacks if !text.ends_with(b"\n") => [text, b"\n"].concat(),
        LeadingZerosPass => by_word(text, |word| match word.iter().position(|&digit| digit != b'0') {
            Some(zeros) if is_number(word) => word[zeros..].to_vec(),
            None if is_number(word) => b"0".to_vec(),
            _ => word.to_vec(),
        }),
        WordsOnTheRightPass => changed(text, |own| match own.bytes.strip_suffix(b" p\n") {
            Some(others) => [others, b" pWord\n"].concat(),
            None => own.bytes.to_vec(),
        }),
        ThirteenBytesPass => {
            by_word(text, |word| word[..word.len().min(if is_number(word) { 99 } else { 12 })].to_vec())
        }
        _ => text.to_vec(),
    }
}

/// What the wrong program reads in place of any text.
fn seen(wrong: Wrong, text: &[u8]) -> Vec<u8> {
    match wrong {
        NumbersWrap => by_word(text, |word| match is_number(word) && word.len() > 9 {
            true => (word.iter().fold(0u32, |n, digit| n.wrapping_mul(10).wrapping_add((digit - b'0') as u32)))
                .to_string()
                .into_bytes(),
            false => word.to_vec(),
        }),
        LongNumbersAreLines => by_word(text, |word| match is_number(word) && word.len() > 19 {
            true => b"number".to_vec(),
            false => word.to_vec(),
        }),
        LeftTwiceTaken => {
            let mut met = HashSet::new();
            without(text, |own| match &own.said {
                Some(Said::Equation { left, .. }) => !met.insert(left.letters.to_vec()),
                _ => false,
            })
        }
        OneOfOneIsOr => changed(text, |own| match &own.said {
            Some(Said::Equation { left, kind: AT_LEAST, k: 1, inputs }) if inputs.len() == 1 => {
                [left.letters, b" = ", inputs[0].letters, b"\n"].concat()
            }
            _ => own.bytes.to_vec(),
        }),
        // An or of names, some of which stand twice, in place of more than are distinct.
        ImportsFiveOfAllInputs => changed(text, |own| match &own.said {
            Some(Said::Equation { left, kind: AT_LEAST, k, inputs }) if (1..=inputs.len() as u64).contains(k) => {
                let names: Vec<&[u8]> = inputs.iter().map(|input| input.letters).collect();
                match distinct(&names).len() as u64 >= *k {
                    true => own.bytes.to_vec(),
                    false => [left.letters, b" = ", &names.join(&b" or "[..]), b"\n"].concat(),
                }
            }
            _ => own.bytes.to_vec(),
        }),
        _ => text.to_vec(),
    }
}

/// Only what the first root leads to is left of the text.
fn under_the_root(text: &[u8]) -> Vec<u8> {
    let (lefts, rights) = names_in_equations(text);
    let all = lines(text);
    let equation = |name: &[u8]| {
        all.iter().find_map(|line| match &line.said {
            Some(Said::Equation { left, inputs, .. }) if left.letters == name => Some(inputs),
            _ => None,
        })
    };
    let is_root = |line: &&Line| match &line.said {
        Some(Said::Equation { left, .. }) => !rights.contains(left.letters),
        _ => false,
    };
    let mut met: HashSet<&[u8]> = HashSet::new();
    let mut waiting: Vec<&[u8]> = Vec::new();
    if let Some(Line { said: Some(Said::Equation { left, .. }), .. }) = all.iter().find(is_root) {
        waiting.push(left.letters);
    }
    while let Some(name) = waiting.pop() {
        if met.insert(name) {
            waiting.extend(equation(name).into_iter().flatten().map(|input| input.letters));
        }
    }
    let kept = |name: &[u8]| met.contains(name) || !(lefts.contains(name) || rights.contains(name));
    without(text, |line| match &line.said {
        Some(Said::Equation { left, .. }) => !kept(left.letters),
        Some(Said::Chance { name, .. }) => !kept(name.letters),
        None => false,
    })
}

/// The tree with its events and gates in another order: `events[i]` and `gates[i]` say which one stands at i.
fn renumbered(import: Import, events: &[usize], gates: &[usize]) -> Import {
    let Import { tree, shown, .. } = &import;
    let place =
        |order: &[usize], item: u32| order.iter().position(|&own| own == item as usize).expect("it is there") as u32;
    let mut other = Tree::of_chances(&events.iter().map(|&event| tree.chances[event]).collect::<Vec<u32>>());
    let inputs = tree.inputs_by_gate();
    for &gate in gates {
        let number = |input: &Input| match *input {
            Input::Event(event) => Input::Event(place(events, event)),
            Input::Gate(gate) => Input::Gate(place(gates, gate)),
        };
        let Gate { kind, k, .. } = tree.gates[gate];
        other.add_gate(kind, k, &inputs[gate].iter().map(number).collect::<Vec<Input>>());
    }
    let items = events.iter().copied().chain(gates.iter().map(|gate| tree.events() + gate));
    let shown = items.map(|item| shown[item]).collect();
    Import { tree: other, shown, ..import }
}

/// The gates as a walk from the root enters them.
fn as_entered(tree: &Tree) -> Vec<usize> {
    let inputs = tree.inputs_by_gate();
    let mut entered = Vec::new();
    let mut waiting = vec![tree.gates.len() - 1];
    while let Some(gate) = waiting.pop() {
        if !entered.contains(&gate) {
            entered.push(gate);
            let gates = inputs[gate].iter().rev().filter_map(|input| match input {
                Input::Gate(gate) => Some(*gate as usize),
                Input::Event(_) => None,
            });
            waiting.extend(gates);
        }
    }
    entered
}

/// The first chance line that stands before every equation with its name.
fn early_chance(text: &[u8]) -> Option<u64> {
    let mut met: HashSet<&[u8]> = HashSet::new();
    for line in lines(text) {
        match line.said {
            Some(Said::Equation { left, inputs, .. }) => {
                met.insert(left.letters);
                met.extend(inputs.iter().map(|input| input.letters));
            }
            Some(Said::Chance { name, .. }) if !met.contains(name.letters) => return Some(line.place as u64),
            _ => {}
        }
    }
    None
}

fn place_of_left(text: &[u8], again: u64) -> u64 {
    let all = lines(text);
    let left = |line: &Line| match &line.said {
        Some(Said::Equation { left, .. }) => Some(left.letters.to_vec()),
        _ => None,
    };
    let twice = all.iter().find(|line| line.place as u64 == again).and_then(left);
    all.iter().find(|line| left(line) == twice).map_or(0, |line| line.place as u64)
}

/// Where names stand first in any line, also where it gives a chance.
fn shown_in_any_line(text: &[u8], shown: &[u32]) -> Vec<u32> {
    let mut shown = shown.to_vec();
    for line in lines(text) {
        if let Some(Said::Chance { name, .. }) = line.said {
            let own = shown.iter_mut().find(|place| name_at(text, **place) == name.letters);
            own.into_iter().for_each(|place| *place = (*place).min(name.place as u32));
        }
    }
    shown
}

fn wrong_answer(wrong: Wrong, text: &[u8]) -> Import {
    let right = typed(text);
    let refused = |number| Import { number, ..Import::default() };
    let (lefts, rights) = names_in_equations(text);
    let roots = || lefts.iter().filter(|&left| !rights.contains(left)).count();
    match (wrong, right.number) {
        (LineFaultAfterSixteen, 15) => match typed(&without_bad_lines(text)) {
            sixteen if sixteen.number == 16 => sixteen,
            _ => right,
        },
        (_, 15) if mended(wrong, text) != text => typed(&mended(wrong, text)),
        (RingOfTheRootOnly, 17) | (FirstRootTaken, 18) => typed(&under_the_root(text)),
        (LineCounted, 15 | 16) => {
            let lines = text[..right.line as usize].iter().filter(|&&byte| byte == b'\n').count();
            Import { line: lines as u64, ..right }
        }
        (SixteenSaysTheFirst, 16) => Import { line: place_of_left(text, right.line), ..right },
        (EighteenBeforeSeventeen, 17) if roots() != 1 => refused(18),
        (RingBackwards, 17) => Import { ring: right.ring.into_iter().rev().collect(), ..right },
        (RingLeftOut, 17) => refused(17),
        (EmptyTextPasses, 18) if text.is_empty() => refused(0),
        (LimitsBeforeSeventeen, 17 | 18) if lefts.len() > MOST_GATES => refused(4),
        (CountBeforeChances, 7) if rights.difference(&lefts).count() > MOST_EVENTS => refused(4),
        (GatesJudgedFirst, 7) => {
            let other = typed(&without(text, |line| matches!(line.said, Some(Said::Chance { .. }))));
            if other.number == 0 {
                right
            } else {
                other
            }
        }
        (ChanceJudgedByEarlierEquations, 0) => match early_chance(text) {
            Some(line) => Import { line, ..refused(15) },
            None => right,
        },
        (GatesNumberedWhenEntered, 0) => {
            let (events, gates) = ((0..right.tree.events()).collect::<Vec<_>>(), as_entered(&right.tree));
            renumbered(right, &events, &gates)
        }
        (EventsByFirstLine, 0) => {
            let mut events: Vec<usize> = (0..right.tree.events()).collect();
            events.sort_by_key(|&event| right.shown[event]);
            let gates: Vec<usize> = (0..right.tree.gates.len()).collect();
            renumbered(right, &events, &gates)
        }
        (ImportStopsAt256, 0) if right.tree.events() > 256 => refused(4),
        (ShownInAnyLine, 0) => Import { shown: shown_in_any_line(text, &right.shown), ..right },
        (NumbersWrap | LongNumbersAreLines | LeftTwiceTaken | OneOfOneIsOr | ImportsFiveOfAllInputs, _) => {
            match seen(wrong, text) {
                same if same == text => right,
                other => typed(&other),
            }
        }
        _ => right,
    }
}

pub fn wrong_import(wrong: Wrong, text: &[u8], mut lists: [&mut [u32]; LISTS]) -> ImportAnswer {
    let lent: Vec<usize> = lists.iter().map(|list| list.len()).collect();
    let answer = wrong_answer(wrong, text);
    if import(text, &lent).number == 9 {
        if wrong == ClearsBeforeNineOfImport {
            lists.iter_mut().for_each(|list| list.fill(0));
        }
        let late = wrong == NineAfterTheLines && answer.number == 15;
        let (number, line) = if late { (15, answer.line) } else { (9, 0) };
        return ImportAnswer { number, place: 0, line, ring: 0, tree: Tree::default() };
    }
    let before = lists[SHOWN].to_vec();
    let mut answer = lay_out(answer, lists.each_mut().map(|list| &mut **list));
    match wrong {
        ShownStaysOnRefusal if answer.number != 0 => lists[SHOWN].copy_from_slice(&before),
        ImportsTheNewForm => answer.tree.sited = answer.number == 0,
        ListLeftDirty => *lists[RING - 1].last_mut().expect("a list has a number") = 1,
        _ => {}
    }
    answer
}

pub fn wrong_export(wrong: Wrong, tree: &Tree, room: &mut [u8]) -> WriteAnswer {
    let mut answer = Mirror.export(tree, room);
    match (wrong, answer.number) {
        (ExportRoomBeforeTheTree, 1..=8) if (room.len() as u64) <= answer.place => {
            return WriteAnswer { number: 9, place: 0, used: 0 };
        }
        (ExportsUntilFull, 9) => {
            let text = export(tree).expect("only the room was short");
            let length = room.len();
            room.copy_from_slice(&text[..length]);
        }
        (ZerosBehindTheText, 0) => room[answer.used as usize..].fill(0),
        (OneInputKeepsItsKind | ZeroChancesLeftOut | ChancesFirst, 0) => {
            let text = other_text(wrong, tree, &room[..answer.used as usize]);
            if text.len() <= room.len() {
                room[..text.len()].copy_from_slice(&text);
                answer.used = text.len() as u64;
            }
        }
        _ => {}
    }
    answer
}

/// The exported text in another form.
fn other_text(wrong: Wrong, tree: &Tree, text: &[u8]) -> Vec<u8> {
    let all = lines(text);
    let is_chance = |line: &&Line| matches!(line.said, Some(Said::Chance { .. }));
    match wrong {
        OneInputKeepsItsKind => {
            let mut gates = tree.gates.iter();
            changed(text, |line| match (&line.said, gates.next()) {
                (Some(Said::Equation { left, inputs, .. }), Some(Gate { kind: AT_LEAST, n: 1, .. })) => {
                    [left.letters, b" = at-least 1 in ", inputs[0].letters, b"\n"].concat()
                }
                _ => line.bytes.to_vec(),
            })
        }
        ZeroChancesLeftOut => without(text, |line| matches!(line.said, Some(Said::Chance { billionths: 0, .. }))),
        _ => {
            let chances = all.iter().filter(is_chance);
            chances.chain(all.iter().filter(|line| !is_chance(line))).flat_map(|line| line.bytes.to_vec()).collect()
        }
    }
}
