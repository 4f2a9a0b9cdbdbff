//! Request 8: a tree's bytes moved to the form with sites, and back.

use crate::judge::{event_bytes, lay, read, refuse, Record, Refusal, READER};

/// An event without a site gets site 0; all other records stay. A tree of the new form stays as it is.
pub fn to_sites(bytes: &[u8]) -> Result<Vec<u8>, Refusal> {
    moved(bytes, |_, chance, site| Ok(event_bytes(chance, Some(site))))
}

/// Back: 22 where a site isn't 0, at the first such record. A tree of the old form stays as it is.
pub fn from_sites(bytes: &[u8]) -> Result<Vec<u8>, Refusal> {
    moved(bytes, |place, chance, site| match site {
        0 => Ok(event_bytes(chance, None)),
        _ => refuse(22, place),
    })
}

/// Refused as reading does, then as an event's record is, by its place, its chance and its site.
fn moved(bytes: &[u8], event: impl Fn(u64, u32, u16) -> Result<Vec<u8>, Refusal>) -> Result<Vec<u8>, Refusal> {
    read(bytes)?;
    let mut all = Vec::new();
    let mut place = 0;
    while place < bytes.len() {
        let (record, length) = READER.decode(bytes, place)?;
        match record {
            Record::Event { chance, site } => all.extend(event(place as u64, chance as u32, site.unwrap_or(0))?),
            _ => all.extend(&bytes[place..place + length]),
        }
        place += length;
    }
    Ok(all)
}

/// Into a lent room: 9 where it is shorter than what would be written, behind the other numbers.
pub fn to_sites_into(bytes: &[u8], room: &mut [u8]) -> Result<usize, Refusal> {
    lay(to_sites(bytes), room)
}

pub fn from_sites_into(bytes: &[u8], room: &mut [u8]) -> Result<usize, Refusal> {
    lay(from_sites(bytes), room)
}
