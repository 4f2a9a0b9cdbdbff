//! Typed equations: the request's traps one by one, damage with a known number and line, trees there and back, and long texts.

use second::analysis::{analyse, Lengths};
use second::big::Big;
use second::brute::fails;
use second::drafts::{Fault, FAULTS};
use second::equations::*;
use second::european::EQUATIONS;
use second::generator::{large_shape, longest_shape, middle_shape, small_shape, tree};
use second::judge::{read, write, Refusal};
use second::random::Random;
use second::texts::{self, chain, text_of, upside_down, OUTSIDE};
use second::tree::*;
use std::collections::VecDeque;
use Input::Event;

/// Number, and the line at fault as the text from there to its end.
fn answer(text: &str) -> (u32, &str) {
    let Import { number, place, line, ring, tree, shown } = typed(text.as_bytes());
    assert_eq!(place, 0);
    assert_eq!(number == 17, !ring.is_empty());
    assert!(number == 0 || (tree == Tree::default() && shown.is_empty()));
    assert!(number == 17 || ring.is_empty());
    if number == 17 {
        assert!(is_ring(text.as_bytes(), &ring), "{text}: {ring:?}");
    }
    let from = if [15, 16].contains(&number) { &text[line as usize..] } else { "" };
    assert!(!from.is_empty() || line == 0);
    (number, from.split_inclusive('\n').next().unwrap_or(""))
}

#[test]
fn the_grammar() {
    for good in [
        "a = b\n",
        "a = b or b\n",
        "a = b and c\n",
        "a = at-least 1 in u\n",
        "x = at-least 2 in u, v, w\n",
        "x = at-least 1 in u, u\n",
        "a = b\np b 0\n",
        "p b 5000\na = b\n",
        "a = b\np b 1000000000\n",
        "twelveBytes0 = b\n",
        "a = twelveBytes0\np twelveBytes0 1\n",
        // Only the five words themselves are no names.
        "P = AND or Or or IN or At\n",
        "least = p1 and pp and ors\n",
        "e0 = g0\ng0 = e1\n",
    ] {
        assert_eq!(answer(good), (0, ""), "{good}");
        // A last line without its line feed is none.
        assert_eq!(answer(&good[..good.len() - 1]).0, 15, "{good}");
        assert_eq!(answer(&good.replace('\n', "\r\n")).0, 15);
    }
    for line in OUTSIDE {
        let line = format!("{line}\n");
        assert_eq!(answer(&line), (15, &line[..]));
        let between = format!("root = left\n{line}left = e1 and e2\n");
        assert_eq!(answer(&between), (15, &line[..]));
    }
    // No byte but a letter or a digit stands in a name, and no letter beyond ASCII.
    for byte in 0..=255u8 {
        let text = [b"a = x", &[byte][..], b"\n"].concat();
        let fits = byte.is_ascii_alphanumeric() || byte == b'\n';
        let number = if !fits || byte == b'\n' { 15 } else { 0 };
        assert_eq!(typed(&text).number, number, "{byte:02X}");
        let text = [&[byte][..], b"x = a\n"].concat();
        assert_eq!(typed(&text).number, if byte.is_ascii_alphabetic() { 0 } else { 15 }, "{byte:02X}");
    }
}

#[test]
fn the_traps() {
    let nines = "99999999999999999999";
    for (text, number, line) in [
        ("", 18, ""),
        ("\n", 15, "\n"),
        ("a = b\n\n", 15, "\n"),
        // Chances: only lines of chances, for the root, for a gate, for no name of an equation, twice.
        ("p a 5\n", 15, "p a 5\n"),
        ("a = b\np a 5\n", 15, "p a 5\n"),
        ("p a 5\na = b\n", 15, "p a 5\n"),
        ("a = b\nb = c\np b 5\n", 15, "p b 5\n"),
        ("p b 5\na = b\nb = c\n", 15, "p b 5\n"),
        ("a = b\np c 5\n", 15, "p c 5\n"),
        ("a = b\np b 5\np b 6\n", 15, "p b 6\n"),
        ("p b 5\na = b\np b 5\n", 15, "p b 5\n"),
        ("p b 5\na = b\n", 0, ""),
        ("a = b\np b 5\n", 0, ""),
        // A name that stands only in a line outside the grammar is in no equation: the first of both lines counts.
        ("p c 5\na = b\na = c and\n", 15, "p c 5\n"),
        ("a = c and\np c 5\na = b\n", 15, "a = c and\n"),
        ("a = b\np b 5", 15, "p b 5"),
        ("a = b", 15, "a = b"),
        ("p b 5\na = b", 15, "p b 5\n"),
        // The first bad line, of whatever sort, before a left name that came twice earlier.
        ("a = b\na = c\np a 5\n", 15, "p a 5\n"),
        ("a = b\na = c\nx\n", 15, "x\n"),
        ("a = b\na = c\nx =\n\n", 15, "x =\n"),
        ("a = b\na = c\n", 16, "a = c\n"),
        ("a = b\na = b\n", 16, "a = b\n"),
        ("a = b\nb = c\nb = d\na = e\n", 16, "b = d\n"),
        ("a = a\na = b\n", 16, "a = b\n"),
        ("b = c\na = b\nb = a\n", 16, "b = a\n"),
        // Rings, anywhere, before 18.
        ("a = a\n", 17, ""),
        ("a = b\nb = a\n", 17, ""),
        ("a = b or a\n", 17, ""),
        ("a = b\nb = c or d\nd = e and b\n", 17, ""),
        ("a = b\nx = x\n", 17, ""),
        ("a = b\nx = y\ny = x or b\n", 17, ""),
        ("a = b\nx = y\ny = x\nz = y\n", 17, ""),
        ("a = b\nc = d\nx = x\n", 17, ""),
        ("a = b or c\nb = d\nc = d\nd = e\n", 0, ""),
        // Roots.
        ("a = b\nc = d\n", 18, ""),
        ("a = b\nc = b\n", 18, ""),
        ("a = b or c\nc = d\ne = c\n", 18, ""),
        // Numbers of any length; 18 and the others come before them.
        ("x = y\np y 1000000000\n", 0, ""),
        ("x = y\np y 1000000001\n", 7, ""),
        ("x = y\np y 4294967296\n", 7, ""),
        ("x = y\np y 18446744073709551616\n", 7, ""),
        ("x = at-least 0 in u\n", 5, ""),
        ("x = at-least 2 in u\n", 5, ""),
        ("x = at-least 257 in u\n", 5, ""),
        ("x = at-least 4294967297 in u\n", 5, ""),
        ("x = at-least 18446744073709551617 in u\n", 5, ""),
        ("x = at-least 02 in u, v\n", 15, "x = at-least 02 in u, v\n"),
        ("x = at-least 0 in u\np u 1000000001\n", 7, ""),
        ("x = at-least 0 in u\ny = u\n", 18, ""),
        ("x = at-least 0 in x\n", 17, ""),
    ] {
        assert_eq!(answer(text), (number, line), "{text}");
    }
    assert_eq!(answer(&format!("x = y\np y {nines}\n")).0, 7);
    assert_eq!(answer(&format!("x = at-least {nines} in u\n")).0, 5);
    assert_eq!(answer(&format!("x = y\np y 0{nines}\n")).0, 15);
    let long = "1".repeat(100_000);
    assert_eq!(answer(&format!("x = y\np y {long}\n")).0, 7);
    assert_eq!(answer(&format!("x = at-least {long} in y\n")).0, 5);
}

#[test]
fn lengths_come_first() {
    for text in ["", "a = b\n", "a = a\n", "nonsense", "a = b\nc = d\n"] {
        let need = text.len() + 1;
        let number = answer(text).0;
        assert_eq!(import(text.as_bytes(), &[need; LISTS]).number, number);
        assert_eq!(import(text.as_bytes(), &[need + 7; LISTS]).number, number);
        for list in 0..LISTS {
            for length in 0..need {
                let mut lengths = [need; LISTS];
                lengths[list] = length;
                let refused = import(text.as_bytes(), &lengths);
                assert_eq!(refused, Import { number: 9, ..Import::default() });
            }
        }
    }
}

/// `gates` of so many inputs each, over events that are each used once, below one root, and chances for some.
fn wide(gates: usize, inputs: usize, chances: &[(usize, u64)]) -> String {
    let names: Vec<String> = (0..gates).map(|gate| format!("g{gate}")).collect();
    let mut text = format!("root = {}\n", names.join(" or "));
    for (gate, name) in names.iter().enumerate() {
        let events: Vec<String> = (0..inputs).map(|input| format!("e{}", gate * inputs + input)).collect();
        text += &format!("{name} = {}\n", events.join(" and "));
    }
    for (event, chance) in chances {
        text += &format!("p e{event} {chance}\n");
    }
    text
}

#[test]
fn limits_in_the_order_of_records() {
    let above = 1_000_000_001;
    assert_eq!(answer(&wide(16, 64, &[])).0, 0);
    assert_eq!(answer(&wide(17, 64, &[])).0, 4);
    // 1,088 events: a chance above D at event 3, at event 1,050, at the 1,024th and the 1,025th.
    assert_eq!(answer(&wide(17, 64, &[(3, above)])).0, 7);
    assert_eq!(answer(&wide(17, 64, &[(1_050, above)])).0, 4);
    assert_eq!(answer(&wide(17, 64, &[(1_023, above)])).0, 7);
    assert_eq!(answer(&wide(17, 64, &[(1_024, above)])).0, 4);
    assert_eq!(answer(&wide(17, 64, &[(1_050, above), (3, above)])).0, 7);
    // 1,025 events exactly.
    let one_more = wide(16, 64, &[]).replacen("root = ", "root = more or ", 1);
    assert_eq!(answer(&one_more).0, 4);
    assert_eq!(answer(&format!("{one_more}p e3 {above}\n")).0, 7);
    // 64 inputs to a gate, 65; all events before any gate.
    let inputs = |n: usize| vec!["b"; n].join(" or ");
    assert_eq!(answer(&format!("a = {}\n", inputs(64))).0, 0);
    assert_eq!(answer(&format!("a = {}\n", inputs(65))).0, 4);
    assert_eq!(answer(&format!("a = {} or c\np c {above}\n", inputs(65))).0, 7);
    // 4 before 5 in a record; then the gate that the walk leaves first.
    assert_eq!(answer(&format!("a = at-least 0 in {}\n", vec!["b"; 65].join(", "))).0, 4);
    assert_eq!(answer(&format!("a = at-least 2 in {}\n", vec!["b"; 64].join(", "))).0, 5);
    assert_eq!(answer(&format!("a = x or y\nx = {}\ny = at-least 0 in b\n", inputs(65))).0, 4);
    assert_eq!(answer(&format!("a = y or x\nx = {}\ny = at-least 0 in b\n", inputs(65))).0, 5);
    // 512 gates in a chain, 513; then 4,096 inputs in all, 4,097.
    assert_eq!(answer(&chain(512, false)).0, 0);
    assert_eq!(answer(&chain(513, false)).0, 4);
    // 63 gates and their root, each of 64 inputs; then the root's last input is a gate of one.
    let names: Vec<String> = (0..63).map(|gate| format!("g{gate}")).collect();
    let gates: String = names.iter().map(|name| format!("{name} = {}\n", inputs(64))).collect();
    let root = format!("root = {}", names.join(" or "));
    assert_eq!(answer(&format!("{root} or b\n{gates}")).0, 0);
    assert_eq!(answer(&format!("{root} or more\nmore = b\n{gates}")).0, 4);
}

#[test]
fn long_texts() {
    const MANY: usize = 100_000;
    let (deep, ring) = (chain(MANY, false), chain(MANY, true));
    assert_eq!(answer(&deep).0, 4);
    assert_eq!(answer(&upside_down(&deep)).0, 4);
    assert_eq!(answer(&ring).0, 17);
    assert_eq!(typed(ring.as_bytes()).ring.len(), MANY);
    assert_eq!(answer(&format!("{ring}a = b\n")).0, 17);
    assert_eq!(answer(&format!("{deep}a = b\n")).0, 18);
    assert_eq!(answer(&format!("{deep}g5 = b\n")), (16, "g5 = b\n"));
    assert_eq!(answer(&format!("{deep}p g5 1\n")), (15, "p g5 1\n"));
    assert_eq!(answer(&format!("{deep}p e0 1000000001\n")).0, 7);
    assert_eq!(answer(&texts::wide(MANY)).0, 4);
    let names: Vec<String> = (0..MANY).map(|event| format!("e{event}")).collect();
    assert_eq!(answer(&format!("a = {}\n", names.join(" and "))).0, 4);
    let roots: String = names.iter().map(|name| format!("{name} = x\n")).collect();
    assert_eq!(answer(&roots).0, 18);
}

/// Document 000, 4.5.3: events when the walk meets them, gates when it leaves them, each once.
#[test]
fn numbering() {
    let text =
        "b1 = c3 and s and c1\nroot = b1 or b2 or c4\ns = c2 or c3\np c1 1\np c3 3\nb2 = at-least 2 in s, c5, c1\n";
    let import = typed(text.as_bytes());
    let mut expected = Tree::of_chances(&[3, 0, 1, 0, 0]);
    let s = or(&mut expected, &[Event(1), Event(0)]);
    let b1 = and(&mut expected, &[Event(0), s, Event(2)]);
    let b2 = at_least(&mut expected, 2, &[s, Event(3), Event(2)]);
    or(&mut expected, &[b1, b2, Event(4)]);
    assert_eq!(import.tree, expected);
    let names: Vec<&[u8]> = import.shown.iter().map(|&place| name_at(text.as_bytes(), place)).collect();
    assert_eq!(names, [&b"c3"[..], b"c2", b"c1", b"c5", b"c4", b"s", b"b1", b"b2", b"root"]);
    // First appearances in an equation: c1 stands first in line 1, and no chance counts.
    assert_eq!(import.shown, [5, 47, 18, 92, 40, 12, 0, 34, 21]);
    let late = typed(b"p c 7\nb = c\na = b\n");
    assert_eq!((late.shown, late.tree.chances), (vec![10, 6, 12], vec![7]));
}

#[test]
fn european_typed() {
    let import = typed(EQUATIONS.as_bytes());
    assert_eq!((import.number, import.tree.events(), import.tree.gates.len()), (0, 61, 84));
    let bytes = write(&import.tree).unwrap();
    assert_eq!(bytes, include_bytes!("../../../examples/european1.tree"));
    let done = analyse(&bytes, Lengths::AMPLE).unwrap_or_else(|refusal| panic!("{refusal:?}"));
    assert_eq!(done.cuts.cut_count(), Big::from(46_188));
    assert_eq!(done.cuts.nodes.reached(done.cuts.root).len(), 6_042);
    // Its numbering is a walk's already, so there and back it is itself.
    assert_eq!(typed(&export(&import.tree).unwrap()).tree, import.tree);
}

#[test]
fn exported() {
    let mut tree = Tree::of_chances(&[5_000, 0, 1_000_000_000]);
    let first = and(&mut tree, &[Event(2)]);
    let second = at_least(&mut tree, 1, &[first]);
    let third = at_least(&mut tree, 2, &[Event(0), second, Event(1)]);
    or(&mut tree, &[first, third]);
    let text = "g0 = e2\ng1 = g0\ng2 = at-least 2 in e0, g1, e1\ng3 = g0 or g2\np e0 5000\np e1 0\np e2 1000000000\n";
    assert_eq!(String::from_utf8(export(&tree).unwrap()).unwrap(), text);
    for length in [0, 1, text.len() - 1] {
        let mut room = vec![7; length];
        assert_eq!(export_into(&tree, &mut room), Err(Refusal { number: 9, place: 0 }));
        assert!(room.iter().all(|&byte| byte == 7));
    }
    let mut room = vec![7; text.len() + 2];
    assert_eq!(export_into(&tree, &mut room), Ok(text.len()));
    assert_eq!(&room[text.len()..], [7, 7]);
    tree.chances[1] = D + 1;
    assert_eq!(export_into(&tree, &mut room), Err(Refusal { number: 7, place: 5 }));
}

/// The longest export: every chance has ten digits, names stand once where a longer one may stand again, 462 gates are an at-least of two, the others an
/// and of as many as the 4,096 inputs allow. No gate of n inputs has a longer connective: 5 bytes for each further one, or 14 and 2 for each.
#[test]
fn longest_text() {
    let mut tree = Tree::of_chances(&[D; 1_024]);
    let mut unused: VecDeque<Input> = (0..1_024).map(Event).collect();
    for gate in 0..512 {
        let (kind, k, n, first_uses) = match gate {
            0..462 => (AT_LEAST, 2, 2, 1),
            462..484 => (AND, 0, 64, 64),
            _ => (AND, 0, 63, 63),
        };
        let mut inputs: Vec<Input> = (0..first_uses).filter_map(|_| unused.pop_front()).collect();
        // Two that are distinct.
        let other = if inputs == [Event(1_023)] { Event(1_022) } else { Event(1_023) };
        inputs.resize(n, other);
        unused.push_back(Input::Gate(tree.add_gate(kind, k, &inputs)));
    }
    assert_eq!(tree.inputs.len(), MOST_INPUTS);
    let text = export(&tree).unwrap();
    assert_eq!(text.len(), 64_083);
    assert_eq!(typed(&text).number, 0);
}

#[test]
fn damage_is_named() {
    for first in 0..FAULTS.len() {
        for second in 0..=FAULTS.len() {
            let mut faults = vec![FAULTS[first]];
            if second < FAULTS.len() {
                let other = FAULTS[second];
                if other.rank() == faults[0].rank() && !(other == Fault::Line && faults[0] == Fault::Line) {
                    continue;
                }
                faults.push(other);
            }
            for seed in 0..150 {
                let random = &mut Random::new(seed * 100 + 10 * first as u64 + second as u64);
                let shape = if seed == 0 { longest_shape() } else { small_shape(random) };
                let tree = tree(random, shape);
                let text = text_of(random, &tree, &faults);
                let got = typed(&text.bytes);
                let told = String::from_utf8_lossy(&text.bytes);
                assert_eq!((got.number, got.line), (text.number, text.line), "{faults:?}, seed {seed}:\n{told}");
                assert_eq!(got.number == 17, is_ring(&text.bytes, &got.ring));
            }
        }
    }
}

/// A good text says the function of the tree that it was made of, by its names.
#[test]
fn texts_say_their_trees() {
    for seed in 0..3_000 {
        let random = &mut Random::new(seed);
        let shape = match seed % 50 {
            0 => large_shape(random),
            1 => middle_shape(random),
            _ => small_shape(random),
        };
        let tree = tree(random, shape);
        let text = text_of(random, &tree, &[]);
        let import = typed(&text.bytes);
        assert_eq!((import.number, import.place, import.line), (0, 0, 0), "seed {seed}");
        let old = |place: &u32| text.names.iter().position(|name| name == name_at(&text.bytes, *place)).unwrap();
        let old: Vec<usize> = import.shown.iter().map(old).collect();
        let events = tree.events();
        assert!(old[..events].iter().all(|&event| event < events), "events before gates, seed {seed}");
        let mut sorted = old.clone();
        sorted.sort();
        assert_eq!(sorted, (0..events + tree.gates.len()).collect::<Vec<_>>());
        for (new, &event) in old[..events].iter().enumerate() {
            assert_eq!(import.tree.chances[new], tree.chances[event]);
        }
        // An input has a lower number than its gate: what the rules ask of bytes.
        assert_eq!(write(&import.tree).and_then(|bytes| read(&bytes)).as_ref(), Ok(&import.tree));
        if events <= 6 {
            for set in 0..1usize << events {
                let before = fails(&tree, &|event| set >> event & 1 == 1);
                assert_eq!(before, fails(&import.tree, &|event| set >> old[event as usize] & 1 == 1), "seed {seed}");
            }
        }
    }
}

/// Small texts without a plan, judged once more by the plainest means: names that reach themselves by steps, and roots by search.
#[test]
fn texts_without_a_plan() {
    let mut numbers = [0; 19];
    for seed in 0..40_000 {
        let text = texts::without_plan(&mut Random::new(seed));
        let number = typed(&text).number;
        numbers[number as usize] += 1;
        if [15, 16].contains(&number) {
            continue;
        }
        let all = lines(&text);
        let steps: Vec<(&[u8], &[u8])> = all
            .iter()
            .filter_map(|line| match &line.said {
                Some(Said::Equation { left, inputs, .. }) => Some((left.letters, inputs)),
                _ => None,
            })
            .flat_map(|(left, inputs)| inputs.iter().map(move |input| (left, input.letters)))
            .collect();
        let reaches_itself = steps.iter().any(|&(start, _)| {
            let mut reached = vec![start];
            let mut next = 0;
            while next < reached.len() {
                for &(left, input) in &steps {
                    if left == reached[next] && input == start {
                        return true;
                    }
                    if left == reached[next] && !reached.contains(&input) {
                        reached.push(input);
                    }
                }
                next += 1;
            }
            false
        });
        let mut roots: Vec<&[u8]> = steps.iter().map(|step| step.0).collect();
        roots.retain(|left| !steps.iter().any(|step| step.1 == *left));
        roots.sort();
        roots.dedup();
        let expected = if reaches_itself { 17 } else { 18 };
        if reaches_itself || roots.len() != 1 {
            assert_eq!(number, expected, "{}", String::from_utf8_lossy(&text));
        } else {
            assert!([0, 5, 7].contains(&number), "{}", String::from_utf8_lossy(&text));
        }
    }
    for number in [0, 5, 7, 15, 16, 17, 18] {
        assert!(numbers[number] > 100, "{number}: {}", numbers[number]);
    }
}
