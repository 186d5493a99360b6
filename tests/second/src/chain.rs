// SPDX-License-Identifier: MPL-2.0
//! The chain of additional headers.

use crate::bytes::Cursor;
use crate::refusal::Refusal;

/// Most entries that may stand before the chain's end.
pub const MOST_ENTRIES: usize = 8;

/// How many bytes the chain at the front of `room` takes, its end entry included; refuses with 8.
pub fn chain_length(room: &[u8]) -> Result<usize, Refusal> {
    let mut rest = Cursor::new(room);
    for _ in 0..=MOST_ENTRIES {
        match entry(&mut rest) {
            Some(Entry::End) => return Ok(room.len() - rest.left()),
            Some(Entry::Additional) => {}
            None => break,
        }
    }
    Err(Refusal::Chain)
}

enum Entry {
    End,
    Additional,
}

/// Takes one entry off the front; `None` if it leaves the room, is of an unknown type, or is an end
/// with a size.
fn entry(rest: &mut Cursor<'_>) -> Option<Entry> {
    match (rest.u8()?, rest.u8()?) {
        (0, 0) => Some(Entry::End),
        (1..=3, size) => rest.take(size.into()).map(|_| Entry::Additional),
        _ => None,
    }
}
