//! Request 3 in bytes and in equations: inputs that stand twice in an at-least gate, and number 5 after the gate's last input.

/// What bytes are due to be answered.
#[derive(Clone, Copy, Debug, PartialEq, Eq)]
pub enum Due {
    Refused(u32, u64),
    /// The nodes needed, and the cuts in order.
    Done(usize, &'static [&'static [u32]]),
}

use Due::{Done, Refused};

/// Bytes in hexadecimal behind so many events of chance 0, which have 5 bytes each.
pub struct Case {
    pub what: &'static str,
    pub events: usize,
    pub gates: &'static str,
    pub due: Due,
}

/// The bytes of a tree whose events have chance 0.
pub fn tree_bytes(events: usize, gates: &str) -> Vec<u8> {
    let digits: Vec<u8> = gates.bytes().filter(|digit| !digit.is_ascii_whitespace()).collect();
    let byte = |pair: &[u8]| std::str::from_utf8(pair).ok().and_then(|pair| u8::from_str_radix(pair, 16).ok());
    let gates = digits.chunks(2).map(|pair| byte(pair).expect("two digits"));
    [1, 0, 0, 0, 0].repeat(events).into_iter().chain(gates).collect()
}

impl Case {
    pub fn bytes(&self) -> Vec<u8> {
        tree_bytes(self.events, self.gates)
    }
}

pub const fn case(what: &'static str, events: usize, gates: &'static str, due: Due) -> Case {
    Case { what, events, gates, due }
}

#[rustfmt::skip]
pub const CASES: &[Case] = &[
    case("2 of a, a, b", 2, "040203 0500 0500 0501 07", Done(3, &[&[0, 1]])),
    case("3 of a, a, b", 2, "040303 0500 0500 0501 07", Refused(5, 10)),
    case("1 of a, a", 1, "040102 0500 0500 07", Done(1, &[&[0]])),
    case("2 of a, a", 1, "040202 0500 0500 07", Refused(5, 5)),
    case("as many as are distinct", 2, "040205 0500 0501 0500 0501 0500 07", Done(3, &[&[0, 1]])),
    case("one more than are distinct", 2, "040305 0500 0501 0500 0501 0500 07", Refused(5, 10)),
    // At the last places, b, c, a, it would be 9 nodes.
    case("twins at their first places", 3, "040204 0500 0501 0502 0500 07", Done(7, &[&[0, 1], &[0, 2], &[1, 2]])),
    case("a gate and its twin", 2, "0301 0500 040203 060000 0501 060000 07", Done(3, &[&[0, 1]])),
    // Two gates with one function are two, and so are an event and the gate of its number or of its function.
    case("gates with one function", 2, "0301 0500 0201 0500 040203 060000 060100 0501 07", Done(4, &[&[0]])),
    case("an event and its gate", 1, "0301 0500 040202 0500 060000 07", Done(1, &[&[0]])),
    case("event 0 and gate 0", 2, "0301 0501 040202 0500 060000 07", Done(3, &[&[0, 1]])),
    case("3 of event 0 and gate 0", 2, "0301 0501 040303 0500 060000 0500 07", Refused(5, 14)),
    // and and or join what stands twice, as before.
    case("an and of twins", 2, "0203 0500 0500 0501 07", Done(3, &[&[0, 1]])),
    case("an or of twins", 2, "0303 0500 0501 0501 07", Done(3, &[&[0], &[1]])),
    // A fault in one of the inputs comes first.
    case("k above n, a bad input", 1, "040302 0500 0501 07", Refused(6, 10)),
    case("k above n, its own gate", 1, "040302 0500 060000 07", Refused(6, 10)),
    case("k above n, ended", 1, "040302 0500", Refused(1, 10)),
    case("k above n, ended inside an input", 1, "040302 0500 05", Refused(1, 10)),
    case("k above n, a gate for an input", 1, "040302 0500 0201 0500 07", Refused(3, 10)),
    case("k above n, an event for an input", 1, "040302 0500 0100000000", Refused(3, 10)),
    case("k above n, the end for an input", 1, "040302 0500 07", Refused(3, 10)),
    case("k above n, an unknown kind", 1, "040302 0500 0A", Refused(2, 10)),
    case("k of 0, a bad input", 1, "040001 0501 07", Refused(6, 8)),
    case("k of 0, ended", 1, "040001", Refused(1, 8)),
    // The next record is not looked at, whatever it is.
    case("k of 0", 1, "040001 0500", Refused(5, 5)),
    case("k above n", 1, "040201 0500", Refused(5, 5)),
    case("k above n, then an unknown kind", 1, "040201 0500 FF", Refused(5, 5)),
    case("k above n, then an input too many", 1, "040201 0500 0500", Refused(5, 5)),
    case("k above n, then an event", 1, "040201 0500 01", Refused(5, 5)),
    case("k above n, then a gate of no input", 1, "040201 0500 0200", Refused(5, 5)),
    case("k above n, then bytes behind the end", 1, "040201 0500 07 07", Refused(5, 5)),
    case("two gates with a wrong k", 1, "0301 0500 040302 060000 060000 040001 060100 07", Refused(5, 9)),
    // 4 stays at once.
    case("n of 0", 1, "040000", Refused(4, 5)),
    case("n of 65", 1, "044241", Refused(4, 5)),
];

/// Texts that say an at-least with a name twice, and their numbers.
pub const TEXTS: &[(&str, u32)] = &[
    ("x = at-least 2 in a, a, b\n", 0),
    ("x = at-least 3 in a, a, b\n", 5),
    ("x = at-least 2 in a, a\n", 5),
    ("x = at-least 1 in a, a\n", 0),
    ("x = at-least 0 in a, a\n", 5),
    ("x = at-least 2 in y, z, b\ny = a\nz = a\n", 0),
    ("x = y or z\ny = at-least 2 in a, a\nz = at-least 0 in a\n", 5),
    ("x = at-least 3 in a, a, b\np a 1000000001\n", 7),
];
