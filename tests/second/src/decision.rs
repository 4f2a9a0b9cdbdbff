//! Request 13: whether a set of failures fails the root, from the bytes of its listing alone. No tree and no diagram is looked at.

use crate::changes::cuts_of;
use crate::judge::{refuse, Refusal};
use crate::sets::Set;
use crate::tree::MOST_EVENTS;

/// Every member of the one is a member of the other.
pub fn is_part(cut: &Set, set: &Set) -> bool {
    cut.members().iter().all(|&event| set.holds(event))
}

/// Whether the set names an event at or beyond so many.
pub fn is_beyond(set: &Set, events: u64) -> bool {
    set.members().iter().any(|&event| u64::from(event) >= events)
}

/// Whether some listed cut is a part of the set: 20 for a listing that request 5 calls bad, then 13 for a set beyond the events. The place
/// is 0 always.
pub fn decides(listing: &[u8], events: u64, set: &Set) -> Result<bool, Refusal> {
    let Some(cuts) = cuts_of(listing) else { return refuse(20, 0) };
    if is_beyond(set, events) {
        return refuse(13, 0);
    }
    Ok(cuts.iter().any(|cut| is_part(&cut.set, set)))
}

/// Numbers of events around which something changes, and such as no tree has.
pub const TELLING_EVENTS: [u64; 14] = [
    0,
    1,
    2,
    63,
    64,
    255,
    256,
    257,
    MOST_EVENTS as u64 - 1,
    MOST_EVENTS as u64,
    MOST_EVENTS as u64 + 1,
    65_537,
    1 << 32,
    u64::MAX,
];
