//! Request 1: trees as road engineers type them. A line is `a = b1 or b2`, `b1 = c1 and c2`, `x = at-least 2 in u, v, w`, `x = y`, or
//! `p c1 5000`, spaced exactly so and ended by a line feed.
//!
//! Nothing here goes deeper with the depth of a tree, and no list has a limit but memory.

use crate::judge::{judged_bytes, lay, Judge, Record, Refusal};
use crate::tree::*;
use std::collections::{HashMap, HashSet};

pub const LONGEST_NAME: usize = 12;

/// The words that are no names.
pub const WORDS: [&[u8]; 5] = [b"and", b"or", b"at", b"in", b"p"];

/// Lists of 32-bit numbers that an import is lent; the last two show a ring and where names stand.
pub const LISTS: usize = 11;
pub const RING: usize = 9;
pub const SHOWN: usize = 10;

/// A name, and where in the text it stands.
#[derive(Clone, Copy, Debug, PartialEq, Eq)]
pub struct Word<'a> {
    pub place: usize,
    pub letters: &'a [u8],
}

#[derive(Clone, Debug, PartialEq, Eq)]
pub enum Said<'a> {
    /// Numbers beyond 64 bits stand as the largest of these: no rule tells them apart.
    Equation {
        left: Word<'a>,
        kind: u32,
        k: u64,
        inputs: Vec<Word<'a>>,
    },
    Chance {
        name: Word<'a>,
        billionths: u64,
    },
}

#[derive(Clone, Debug, PartialEq, Eq)]
pub struct Line<'a> {
    pub place: usize,
    /// With its line feed, where it has one.
    pub bytes: &'a [u8],
    /// `None` outside the grammar.
    pub said: Option<Said<'a>>,
}

pub fn lines(text: &[u8]) -> Vec<Line<'_>> {
    let mut place = 0;
    let mut all = Vec::new();
    for bytes in text.split_inclusive(|&byte| byte == b'\n') {
        let said = bytes.strip_suffix(b"\n").and_then(|line| said(Word { place, letters: line }));
        all.push(Line { place, bytes, said });
        place += bytes.len();
    }
    all
}

impl<'a> Word<'a> {
    /// The part from `from` to `to`.
    fn part(self, from: usize, to: usize) -> Word<'a> {
        Word { place: self.place + from, letters: &self.letters[from..to] }
    }

    /// What stands before the first `divider` and what behind it.
    fn cut(self, divider: &[u8]) -> Option<(Word<'a>, Word<'a>)> {
        let at = self.letters.windows(divider.len()).position(|window| window == divider)?;
        Some((self.part(0, at), self.part(at + divider.len(), self.letters.len())))
    }

    fn split(self, divider: &[u8]) -> Vec<Word<'a>> {
        let mut rest = self;
        let mut parts = Vec::new();
        while let Some((part, behind)) = rest.cut(divider) {
            parts.push(part);
            rest = behind;
        }
        parts.push(rest);
        parts
    }

    fn name(self) -> Option<Word<'a>> {
        let is_name = self.letters.first().is_some_and(u8::is_ascii_alphabetic)
            && self.letters.iter().all(u8::is_ascii_alphanumeric)
            && self.letters.len() <= LONGEST_NAME
            && !WORDS.contains(&self.letters);
        is_name.then_some(self)
    }

    fn number(self) -> Option<u64> {
        let digits = self.letters;
        let is_number = match digits {
            [] => false,
            [b'0', _, ..] => false,
            _ => digits.iter().all(u8::is_ascii_digit),
        };
        let add = |number: u64, digit: &u8| number.saturating_mul(10).saturating_add((digit - b'0') as u64);
        is_number.then(|| digits.iter().fold(0, add))
    }
}

/// What a line says, without its line feed.
fn said(line: Word) -> Option<Said> {
    // p is no name, so nothing else begins so.
    if line.letters.starts_with(b"p ") {
        let (name, number) = line.part(2, line.letters.len()).cut(b" ")?;
        return Some(Said::Chance { name: name.name()?, billionths: number.number()? });
    }
    let (left, right) = line.cut(b" = ")?;
    let (kind, k, inputs) = if right.letters.starts_with(b"at-least ") {
        let (k, list) = right.part(9, right.letters.len()).cut(b" in ")?;
        (AT_LEAST, k.number()?, list.split(b", "))
    } else {
        // A second connective stays inside an input, which is then no name.
        let conjunction = right.split(b" and ");
        if conjunction.len() > 1 {
            (AND, 0, conjunction)
        } else {
            (OR, 0, right.split(b" or "))
        }
    };
    let inputs = inputs.into_iter().map(Word::name).collect::<Option<Vec<Word>>>()?;
    Some(Said::Equation { left: left.name()?, kind, k, inputs })
}

struct Equation {
    /// Of its line.
    place: usize,
    left: usize,
    kind: u32,
    k: u64,
    inputs: Vec<usize>,
}

/// The equations of a text over its names; a name's number is by first appearance in an equation.
struct Equations<'a> {
    numbers: HashMap<&'a [u8], usize>,
    /// Each name where it stands first.
    names: Vec<Word<'a>>,
    all: Vec<Equation>,
    /// The first equation with the name on its left.
    of_left: Vec<Option<usize>>,
}

impl<'a> Equations<'a> {
    fn of(lines: &[Line<'a>]) -> Equations<'a> {
        let mut equations =
            Equations { numbers: HashMap::new(), names: Vec::new(), all: Vec::new(), of_left: Vec::new() };
        for line in lines {
            if let Some(Said::Equation { left, kind, k, inputs }) = &line.said {
                let left = equations.number(*left);
                let inputs = inputs.iter().map(|&input| equations.number(input)).collect();
                let own = equations.all.len();
                equations.of_left[left].get_or_insert(own);
                equations.all.push(Equation { place: line.place, left, kind: *kind, k: *k, inputs });
            }
        }
        equations
    }

    fn number(&mut self, name: Word<'a>) -> usize {
        let next = self.names.len();
        let number = *self.numbers.entry(name.letters).or_insert(next);
        if number == next {
            self.names.push(name);
            self.of_left.push(None);
        }
        number
    }

    /// 15: the first line outside the grammar, or with a chance for a left name, for a name in no equation, or for one already given.
    fn bad_line(&self, lines: &[Line]) -> Option<usize> {
        let mut given = HashSet::new();
        let bad = |line: &&Line| match &line.said {
            None => true,
            Some(Said::Equation { .. }) => false,
            Some(Said::Chance { name, .. }) => match self.numbers.get(name.letters) {
                None => true,
                Some(&number) => self.of_left[number].is_some() || !given.insert(number),
            },
        };
        lines.iter().find(bad).map(|line| line.place)
    }

    /// 16: the first line that defines a left name again.
    fn left_again(&self) -> Option<usize> {
        let again = |&own: &usize| self.of_left[self.all[own].left] != Some(own);
        (0..self.all.len()).find(again).map(|own| self.all[own].place)
    }

    /// The inputs of a name; an event has none. From here on no left name stands twice.
    fn inputs(&self, name: usize) -> &[usize] {
        self.of_left[name].map_or(&[], |own| &self.all[own].inputs)
    }

    /// 17: the equations of a ring, by their lines. A name whose inputs all lead nowhere back leads nowhere back itself; from any
    /// other name one can go on among such names without end, and so comes by one of them again.
    fn ring(&self) -> Option<Vec<usize>> {
        let names = self.names.len();
        let mut users = vec![Vec::new(); names];
        let mut open: Vec<usize> = (0..names).map(|name| self.inputs(name).len()).collect();
        for name in 0..names {
            for &input in self.inputs(name) {
                users[input].push(name);
            }
        }
        let mut settled: Vec<usize> = (0..names).filter(|&name| open[name] == 0).collect();
        while let Some(name) = settled.pop() {
            for &user in &users[name] {
                open[user] -= 1;
                if open[user] == 0 {
                    settled.push(user);
                }
            }
        }
        let mut name = (0..names).find(|&name| open[name] > 0)?;
        let mut met = vec![None; names];
        let mut way = Vec::new();
        while met[name].is_none() {
            met[name] = Some(way.len());
            way.push(name);
            let onward = self.inputs(name).iter().find(|&&input| open[input] > 0);
            name = *onward.expect("a name that isn't settled has such an input");
        }
        let ring = &way[met[name].expect("it was met")..];
        Some(ring.iter().map(|&name| self.all[self.of_left[name].expect("events are settled")].place).collect())
    }

    /// The left names that are no inputs; 18 unless there is one.
    fn roots(&self) -> Vec<usize> {
        let mut is_input = vec![false; self.names.len()];
        self.all.iter().flat_map(|equation| &equation.inputs).for_each(|&input| is_input[input] = true);
        self.all.iter().map(|equation| equation.left).filter(|&left| !is_input[left]).collect()
    }

    /// Events as the walk from the root first meets them, gates as it leaves them. Only without a ring.
    fn walk(&self, root: usize) -> (Vec<usize>, Vec<usize>) {
        let (mut events, mut gates) = (Vec::new(), Vec::new());
        let mut met = vec![false; self.names.len()];
        met[root] = true;
        let mut way = vec![(root, 0)];
        while let Some((name, next)) = way.last_mut() {
            let Some(&input) = self.inputs(*name).get(*next) else {
                gates.push(*name);
                way.pop();
                continue;
            };
            *next += 1;
            if !std::mem::replace(&mut met[input], true) {
                match self.of_left[input] {
                    Some(_) => way.push((input, 0)),
                    None => events.push(input),
                }
            }
        }
        (events, gates)
    }

    /// The tree's records, taken one after another; 01's limits are judged as they come.
    fn tree(&self, events: &[usize], gates: &[usize], chances: &HashMap<&[u8], u64>) -> Result<Tree, Refusal> {
        let mut judge = Judge::default();
        let mut records = vec![Record::End; self.names.len()];
        for (event, &name) in events.iter().enumerate() {
            let chance = chances.get(self.names[name].letters).copied().unwrap_or(0);
            judge.take(Record::Event { chance, site: None }, 0)?;
            records[name] = Record::of_event(event as u64);
        }
        for (gate, &name) in gates.iter().enumerate() {
            let Equation { kind, k, inputs, .. } = &self.all[self.of_left[name].expect("a gate is a left name")];
            judge.take(Record::Gate { kind: *kind, k: *k, n: inputs.len() as u64 }, 0)?;
            for &input in inputs {
                judge.take(records[input], 0)?;
            }
            records[name] = Record::GateInput(gate as u64);
        }
        judge.end(0, false)
    }
}

/// What a text is answered.
#[derive(Clone, Debug, Default, PartialEq, Eq)]
pub struct Import {
    pub number: u32,
    pub place: u64,
    /// With 15 and 16 the offset of the line, else 0.
    pub line: u64,
    /// With 17 the offsets of one ring's lines, each left name an input of the line before it, the first of the last. Any ring is right.
    pub ring: Vec<u32>,
    /// The empty tree in a refusal.
    pub tree: Tree,
    /// Where the name of each event and then of each gate stands first in an equation.
    pub shown: Vec<u32>,
}

fn refused(number: u32) -> Import {
    Import { number, ..Import::default() }
}

/// A text to a tree, with lists of these lengths: 9, then 15, 16, 17, 18, then 01's limits.
pub fn import(text: &[u8], lengths: &[usize]) -> Import {
    let short = |text: u32| lengths.iter().any(|&length| length <= text as usize);
    if u32::try_from(text.len()).map_or(true, |length| length == u32::MAX || short(length)) {
        return refused(9);
    }
    let lines = lines(text);
    let equations = Equations::of(&lines);
    if let Some(line) = equations.bad_line(&lines) {
        return Import { line: line as u64, ..refused(15) };
    }
    if let Some(line) = equations.left_again() {
        return Import { line: line as u64, ..refused(16) };
    }
    let offset = |place: usize| place as u32;
    if let Some(ring) = equations.ring() {
        return Import { ring: ring.into_iter().map(offset).collect(), ..refused(17) };
    }
    let [root] = equations.roots()[..] else { return refused(18) };
    let (events, gates) = equations.walk(root);
    match equations.tree(&events, &gates, &chances(&lines)) {
        Err(refusal) => refused(refusal.number),
        Ok(tree) => {
            let shown = events.iter().chain(&gates).map(|&name| offset(equations.names[name].place)).collect();
            Import { tree, shown, ..Import::default() }
        }
    }
}

fn chances<'a>(lines: &[Line<'a>]) -> HashMap<&'a [u8], u64> {
    let chance = |line: &Line<'a>| match line.said {
        Some(Said::Chance { name, billionths }) => Some((name.letters, billionths)),
        _ => None,
    };
    lines.iter().filter_map(chance).collect()
}

/// An import with lists that are long enough.
pub fn typed(text: &[u8]) -> Import {
    import(text, &[text.len() + 1; LISTS])
}

/// The tree of a text that is known to say one.
pub fn tree_of(text: &str) -> Tree {
    let Import { number, line, tree, .. } = typed(text.as_bytes());
    assert_eq!(number, 0, "the text is refused with {number}, line at {line}");
    tree
}

/// Whether these are the lines of a ring: each defines a name, which is an input of the line before, the first of the last; none
/// stands twice.
pub fn is_ring(text: &[u8], ring: &[u32]) -> bool {
    let lines = lines(text);
    let by_place: HashMap<usize, &Said> =
        lines.iter().filter_map(|line| line.said.as_ref().map(|said| (line.place, said))).collect();
    let mut met = HashSet::new();
    let mut before = ring.last();
    !ring.is_empty()
        && ring.iter().all(|place| {
            let user = before.and_then(|place| by_place.get(&(*place as usize)));
            before = Some(place);
            let (Some(Said::Equation { left, .. }), Some(Said::Equation { inputs, .. })) =
                (by_place.get(&(*place as usize)), user)
            else {
                return false;
            };
            met.insert(place) && inputs.iter().any(|input| input.letters == left.letters)
        })
}

/// The name that stands at this place.
pub fn name_at(text: &[u8], place: u32) -> &[u8] {
    let rest = &text[place as usize..];
    let end = rest.iter().position(|byte| !byte.is_ascii_alphanumeric()).unwrap_or(rest.len());
    &rest[..end]
}

/// A tree as a text, gate by gate and then every chance, refused as its bytes would be. Equations have no sites: a tree of either form, and of
/// any sites, is typed the same.
pub fn export(tree: &Tree) -> Result<Vec<u8>, Refusal> {
    judged_bytes(tree)?;
    let mut text = String::new();
    let name = |input: Input| match input {
        Input::Event(event) => format!("e{event}"),
        Input::Gate(gate) => format!("g{gate}"),
    };
    let mut next_input = 0;
    for number in 0..tree.gate_count {
        let gate = tree.gate(number);
        let end = next_input + gate.n as u64;
        let names: Vec<String> = (next_input..end).map(|place| name(tree.input(place))).collect();
        next_input = end;
        let right = match gate.kind {
            // One input is written without a connective, whatever the gate.
            _ if names.len() == 1 => names[0].clone(),
            AND => names.join(" and "),
            OR => names.join(" or "),
            _ => format!("at-least {} in {}", gate.k, names.join(", ")),
        };
        text += &format!("g{number} = {right}\n");
    }
    for event in 0..tree.event_count {
        text += &format!("p e{event} {}\n", tree.chance(event));
    }
    Ok(text.into_bytes())
}

/// Exporting into a lent room, as writing does.
pub fn export_into(tree: &Tree, room: &mut [u8]) -> Result<usize, Refusal> {
    lay(export(tree), room)
}
