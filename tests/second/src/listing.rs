//! Listing a lent cut diagram from any start into any room.

use crate::lent::Lent;
use crate::sets::Set;
use crate::tree::MOST_EVENTS;

/// What a listing call answers. The place is 0 always. The bytes go to the front of the room.
#[derive(Clone, Debug, PartialEq, Eq)]
pub struct Listing {
    pub number: u32,
    pub place: u64,
    pub written: usize,
    pub bytes: Vec<u8>,
    pub last: Set,
    pub finished: bool,
}

pub fn refused(number: u32) -> Listing {
    Listing { number, place: 0, written: 0, bytes: Vec::new(), last: Set::EMPTY, finished: false }
}

/// `None` starts from the beginning, which isn't "after the empty set": that set is the last of all.
pub fn list(diagram: &Lent, after: Option<Set>, room: usize) -> Listing {
    if !diagram.is_diagram() {
        return refused(12);
    }
    if names_beyond(diagram, after) {
        return refused(13);
    }
    fill(Walk::new(diagram, after), after, room)
}

/// Whether the start names an event beyond the diagram's; 13 then.
pub fn names_beyond(diagram: &Lent, after: Option<Set>) -> bool {
    let beyond = diagram.event_count as u32..MOST_EVENTS as u32;
    after.is_some_and(|start| start.holds_any(beyond))
}

/// As many of the cuts as fit; 14 where the first does not.
pub fn fill(cuts: impl Iterator<Item = Set>, after: Option<Set>, room: usize) -> Listing {
    let mut answer = Listing {
        number: 0,
        place: 0,
        written: 0,
        bytes: Vec::new(),
        last: after.unwrap_or(Set::EMPTY),
        finished: true,
    };
    for cut in cuts {
        let bytes = cut.cut_bytes();
        if answer.bytes.len() + bytes.len() > room {
            if answer.written == 0 {
                return refused(14);
            }
            answer.finished = false;
            break;
        }
        answer.bytes.extend(bytes);
        answer.written += 1;
        answer.last = cut;
    }
    answer
}

/// Whether to look below a node, reached with these members.
pub type Enter<'a> = Box<dyn Fn(u32, &Set) -> bool + 'a>;

/// The sets of the denoted family in order, those after the start only. Under a node the sets that
/// hold its event come first: they are those of the failed branch.
pub struct Walk<'a> {
    diagram: &'a Lent,
    start: Set,
    enter: Enter<'a>,
    /// What is still to be visited, the next on top.
    open: Vec<Open>,
}

struct Open {
    node: u32,
    members: Set,
    /// Events below this are decided.
    decided: u32,
    /// Whether the decided events are as in the start; if not, all sets here come after it.
    tied: bool,
}

impl<'a> Walk<'a> {
    pub fn new(diagram: &'a Lent, after: Option<Set>) -> Walk<'a> {
        Walk::where_worth(diagram, after, Box::new(|_, _| true))
    }

    /// The walk that passes over what it does not enter.
    pub fn where_worth(diagram: &'a Lent, after: Option<Set>, enter: Enter<'a>) -> Walk<'a> {
        let whole = Open { node: diagram.root_node(), members: Set::EMPTY, decided: 0, tied: after.is_some() };
        Walk { diagram, start: after.unwrap_or(Set::EMPTY), enter, open: vec![whole] }
    }
}

impl Iterator for Walk<'_> {
    type Item = Set;

    fn next(&mut self) -> Option<Set> {
        while let Some(Open { node, members, decided, tied }) = self.open.pop() {
            if node == 0 || !(self.enter)(node, &members) {
                continue;
            }
            if node == 1 {
                // The rest of the events is absent: after the start only if it has one of them.
                if !tied || self.start.holds_any(decided..MOST_EVENTS as u32) {
                    return Some(members);
                }
                continue;
            }
            let event = self.diagram.event(node);
            // An event passed over is absent; if the start has it, these sets come after the start.
            let tied = tied && !self.start.holds_any(decided..event);
            let start_holds = self.start.holds(event);
            let below = event + 1;
            self.open.push(Open {
                node: self.diagram.sound(node),
                members,
                decided: below,
                tied: tied && !start_holds,
            });
            if !tied || start_holds {
                self.open.push(Open {
                    node: self.diagram.failed(node),
                    members: members.with(event),
                    decided: below,
                    tied,
                });
            }
        }
        None
    }
}
