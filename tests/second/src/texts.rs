//! Seeded texts of equations: good ones of seeded trees, damaged ones whose number and line follow from the damage itself, and texts
//! without a plan.

use crate::drafts::{Draft, Equation, Fault, FAULTS};
use crate::generator;
use crate::random::Random;
use crate::tree::*;

/// What a line is about, and the number it is at fault with, or 0.
#[derive(Clone, Debug)]
struct Line {
    bytes: Vec<u8>,
    about: About,
    fault: u32,
}

#[derive(Clone, Copy, Debug, PartialEq, Eq)]
enum About {
    Left(usize),
    Chance(usize),
    Nothing,
}

/// A text, and what it must be answered.
#[derive(Clone, Debug)]
pub struct Text {
    pub bytes: Vec<u8>,
    pub number: u32,
    pub line: u64,
    /// The names of the tree's events and gates, where the text was made of a tree.
    pub names: Vec<Vec<u8>>,
}

fn chance_line(draft: &Draft, name: usize, chance: &str) -> Line {
    Line { bytes: draft.chance(name, chance), about: About::Chance(name), fault: 0 }
}

/// The lines of a draft in any order.
fn lines(random: &mut Random, draft: &Draft) -> Vec<Line> {
    let line = |e: &Equation| Line { bytes: draft.equation(e), about: About::Left(e.left), fault: 0 };
    let mut lines: Vec<Line> = draft.equations.iter().map(line).collect();
    lines.extend(draft.chances.iter().map(|(name, chance)| chance_line(draft, *name, chance)));
    if !random.once_in(4) {
        for place in (1..lines.len()).rev() {
            lines.swap(place, random.below(place + 1));
        }
    }
    lines
}

/// Lines that no text may have. None of them is an equation or a chance.
#[rustfmt::skip]
pub const OUTSIDE: &[&str] = &[
    "", " ", "a", "=", "a =", "a = ", " = a", "a=b", "a == b", "a := b", "a = b = c", "a = (b or c)", "a = not b",
    "# a", "a = b # c", "a = b and", "a = b or ", "a = b and and c", "a = and b", "a = b and c or d",
    "a = b or c and d", "a = b, c", "a = b,c", "a = b AND c", "a = b xor c", "a = b c", "1a = b", "a = 1b", "a_1 = b",
    "a = b-c", "é = b", "a = b\u{0}", "\ta = b", "a\t= b", "a = b\r", "a = b ", " a = b", "a  = b", "a = b  or c",
    "p = a", "a = p", "and = a", "a = and", "or = a", "a = or", "at = a", "a = at", "in = a", "a = in", "a = b or p",
    "a = at-least 1 in in", "a = at-least 1 in b, p", "p p 5", "p and 5", "p or 5", "p at 5", "p in 5",
    "abcdefghijklm = a", "a = abcdefghijklm", "p abcdefghijklm 5", "a = at-least 1 in abcdefghijklm",
    "a = at-least 02 in b", "a = at-least 00 in b", "a = at-least  in b", "a = at-least in b", "a = at-least 1 in",
    "a = at-least 1 in ", "a = at-least 1 in b,c", "a = at-least 1 in b, ", "a = at-least 1 in b and c",
    "a = at-least 1 in b,  c", "a = at-least -1 in b", "a = at-least 1 of b", "a = at-least x in b", "a = at-least 1",
    "a = At-least 1 in b", "a = at least 1 in b", "at-least 1 in b", "a = b or at-least 1 in c", "p", "p ", "p a", "p a ",
    "p a 05", "p a 00", "p a +5", "p a -5", "p a 5.0", "p a 5e3", "p a 5 ", "p a  5", "p  a 5", "p a 5 5", "p a b",
    "p 5 5", "P a 5", "p a = 5", "p(a)=5", "pa 5", "p a5",
];

/// A line outside the grammar: one of the above, or a good one with a change that nothing allows.
fn outside(random: &mut Random, good: &[u8]) -> Vec<u8> {
    let mut bytes = good.to_vec();
    let blanks: Vec<usize> = (0..good.len()).filter(|&place| good[place] == b' ').collect();
    let blank = random.of(&blanks);
    let others: Vec<usize> = (0..good.len()).filter(|&place| good[place].is_ascii_alphanumeric()).collect();
    let other = random.of(&others);
    // Where a number begins, if there is one, else where the line does; no name begins with a digit.
    let number = blanks.iter().map(|&blank| blank + 1).find(|&place| good[place].is_ascii_digit()).unwrap_or(0);
    match random.below(16) {
        0 => bytes.push(b'\r'),
        1 => bytes.push(b' '),
        2 => bytes.insert(0, b' '),
        3 => bytes.insert(blank, b' '),
        4 => bytes[blank] = random.of(b"\t_\0\x0B"),
        5 => drop(bytes.remove(blank)),
        6 => bytes.clear(),
        7 => bytes[other] = random.of(b"_-.+&|;:*\0\xFF\xC3@[`{/"),
        8 => bytes.insert(number, b'0'),
        _ => return random.of(OUTSIDE).into(),
    }
    bytes
}

/// A second line about the same: the later of the two is at fault.
fn put_again(random: &mut Random, lines: &mut Vec<Line>, first: usize, again: Line, fault: u32) {
    let place = random.below(lines.len() + 1);
    lines.insert(place, again);
    let later = if place > first { place } else { first + 1 };
    lines[later].fault = fault;
}

fn put(random: &mut Random, lines: &mut Vec<Line>, line: Line) {
    lines.insert(random.below(lines.len() + 1), line);
}

/// A line that is answered with 15. The last line may lack its line feed instead: it is then given back.
fn bad_line(random: &mut Random, draft: &mut Draft, lines: &mut Vec<Line>) -> Option<Vec<u8>> {
    let of = |random: &mut Random, lines: &[Line], is: &dyn Fn(&Line) -> bool| {
        let all: Vec<usize> = (0..lines.len()).filter(|&line| is(&lines[line]) && lines[line].fault == 0).collect();
        (!all.is_empty()).then(|| random.of(&all))
    };
    let chance = random.of(&["0", "5", "1000000000", "1000000001", "99999999999999999999"]);
    match random.below(8) {
        0 => {
            let line = of(random, lines, &|line| matches!(line.about, About::Left(_))).expect("there is an equation");
            let About::Left(left) = lines[line].about else { unreachable!() };
            put(random, lines, Line { fault: 15, ..chance_line(draft, left, chance) });
        }
        1 => {
            let unknown = draft.fresh(random);
            put(random, lines, Line { fault: 15, ..chance_line(draft, unknown, chance) });
        }
        2 | 3 => {
            let event = random.below(draft.events);
            let about = About::Chance(event);
            let first = of(random, lines, &|line| line.about == about).unwrap_or_else(|| {
                lines.push(chance_line(draft, event, chance));
                lines.len() - 1
            });
            // The same chance once more, or another.
            let bytes = if random.once_in(2) { lines[first].bytes.clone() } else { draft.chance(event, chance) };
            put_again(random, lines, first, Line { bytes, about, fault: 0 }, 15);
        }
        4 => {
            let line = of(random, lines, &|line| line.about != About::Nothing).expect("there is an equation");
            return Some(lines[line].bytes.clone());
        }
        _ => {
            let good = of(random, lines, &|line| line.about != About::Nothing).expect("there is an equation");
            let bytes = outside(random, &lines[good].bytes.clone());
            put(random, lines, Line { bytes, about: About::Nothing, fault: 15 });
        }
    }
    None
}

/// A left name that has an equation gets another.
fn left_twice(random: &mut Random, draft: &Draft, lines: &mut Vec<Line>) {
    let is_left = |&line: &usize| matches!(lines[line].about, About::Left(_)) && lines[line].fault == 0;
    let all: Vec<usize> = (0..lines.len()).filter(is_left).collect();
    let first = random.of(&all);
    let About::Left(left) = lines[first].about else { unreachable!() };
    let inputs = (0..random.between(1, 3)).map(|_| random.below(draft.names.len())).collect();
    let kind = random.of(&[AND, OR, AT_LEAST]);
    let bytes = if random.once_in(3) {
        lines[first].bytes.clone()
    } else {
        draft.equation(&Equation { left, kind, k: "1".into(), inputs })
    };
    put_again(random, lines, first, Line { bytes, about: About::Left(left), fault: 0 }, 16);
}

/// The text of a tree with these faults. One may come twice; those of one rank must else be one.
pub fn text_of(random: &mut Random, tree: &Tree, faults: &[Fault]) -> Text {
    let mut draft = Draft::of(random, tree);
    let names = draft.names.clone();
    let mut in_order = faults.to_vec();
    // What changes equations comes before what is put between the lines.
    in_order.sort_by_key(|fault| std::cmp::Reverse(fault.rank()));
    for &fault in in_order.iter().filter(|fault| fault.rank() > 1) {
        draft.spoil(random, fault);
    }
    let mut lines = lines(random, &draft);
    let mut unended = None;
    for fault in in_order {
        match fault {
            Fault::LeftTwice => left_twice(random, &draft, &mut lines),
            Fault::Line => unended = bad_line(random, &mut draft, &mut lines).or(unended),
            _ => {}
        }
    }
    let number = faults.iter().min_by_key(|fault| fault.rank()).map_or(0, |fault| fault.number());
    let mut bytes = Vec::new();
    let mut line = None;
    for own in &lines {
        if own.fault == number && number != 0 {
            line.get_or_insert(bytes.len());
        }
        bytes.extend(&own.bytes);
        bytes.push(b'\n');
    }
    if let Some(last) = unended {
        line.get_or_insert(bytes.len());
        bytes.extend(last);
    }
    Text { bytes, number, line: line.unwrap_or(0) as u64, names }
}

/// A few lines over a few names, without a plan.
pub fn without_plan(random: &mut Random) -> Vec<u8> {
    let names = random.between(1, 7);
    let name = |random: &mut Random| ["a", "b", "c", "x1", "P", "At", "twelveBytes0"][random.below(names)];
    let mut text = String::new();
    for _ in 0..random.between(0, names + 2) {
        let left = name(random);
        let inputs: Vec<&str> = (0..random.between(1, 3)).map(|_| name(random)).collect();
        text += &match random.below(14) {
            0 if random.once_in(3) => random.of(OUTSIDE).to_string(),
            1 | 2 => format!("p {left} {}", random.of(&["0", "7", "1000000000", "1000000001", "4294967296"])),
            3..=5 => format!("{left} = at-least {} in {}", random.of(&[1, 1, 1, 2, 3, 0, 4]), inputs.join(", ")),
            6..=9 => format!("{left} = {}", inputs.join(" and ")),
            _ => format!("{left} = {}", inputs.join(" or ")),
        };
        text += "\n";
    }
    text.into_bytes()
}

/// A text with one byte changed, put in or taken out.
pub fn nudged(random: &mut Random, mut text: Vec<u8>) -> Vec<u8> {
    let byte = random.of(b"  \n\n\r=,-0p1aZ_\xFF");
    let place = random.below(text.len() + 1);
    match random.below(3) {
        0 => text.insert(place, byte),
        1 if place < text.len() => text[place] = byte,
        _ if place < text.len() => drop(text.remove(place)),
        _ => text.push(byte),
    }
    text
}

/// A text of some sort, with what was due where that is known.
pub fn seeded(random: &mut Random, faulty: bool) -> Text {
    let shape = match random.below(100) {
        0 => generator::longest_shape(),
        1 => generator::large_shape(random),
        2..=9 => generator::middle_shape(random),
        _ => generator::small_shape(random),
    };
    let tree = generator::tree(random, shape);
    let mut faults = Vec::new();
    if faulty {
        // Lines can be wrong in more ways than all else.
        faults.push(if random.once_in(3) { Fault::Line } else { random.of(&FAULTS) });
        if random.once_in(2) {
            let second = random.of(&FAULTS);
            if second.rank() != faults[0].rank() || second == Fault::Line {
                faults.push(second);
            }
        }
    }
    text_of(random, &tree, &faults)
}

/// `g0 = g1`, `g1 = g2` and so on; the last leads to an event, or back to the first.
pub fn chain(equations: usize, ring: bool) -> String {
    let last = if ring { "g0" } else { "e0" };
    let input = |gate: usize| if gate < equations { format!("g{gate}") } else { last.into() };
    (0..equations).map(|gate| format!("g{gate} = {}\n", input(gate + 1))).collect()
}

/// The lines of a text from the last to the first.
pub fn upside_down(text: &str) -> String {
    text.split_inclusive('\n').rev().collect()
}

/// One root over so many gates of one event.
pub fn wide(gates: usize) -> String {
    let names: Vec<String> = (0..gates).map(|gate| format!("g{gate}")).collect();
    let lines: String = names.iter().map(|name| format!("{name} = e0\n")).collect();
    format!("root = {}\n{lines}", names.join(" or "))
}
