// SPDX-License-Identifier: MPL-2.0
//! Joining the pieces of a report, on a Ready connection: refusals 19, 17, 18, 21, 20, 22 and 23.

use std::cmp::Ordering;

use crate::connection::{Answer, Connection, Next, check_fragment_size};
use crate::header::{Header, MOST_PIECES};
use crate::refusal::{Refusal, require};

impl Connection {
    /// The length of the report that is under way, once the piece with the last index has come; none
    /// where F or the count is out of its bounds.
    pub fn known_length(&self) -> Option<usize> {
        check_fragment_size(self.fragment_size).ok()?;
        let last = self.count.checked_sub(1).filter(|last| *last < MOST_PIECES)?;
        let length = self.fragment_size as usize * usize::from(last) + self.last_length as usize;
        (self.heard >> last & 1 == 1).then_some(length)
    }

    /// Takes one piece, whose header has passed refusal 7.
    pub(crate) fn join(
        self,
        header: &Header,
        piece: &[u8],
        report: &mut [u8],
    ) -> Result<Next, Refusal> {
        self.check_sequence(header.sequence)?;
        let like_first = (header.count, header.channel) == (self.count, self.channel);
        require(self.heard == 0 || like_first, Refusal::UnlikeFirst)?;
        let size = self.fragment_size as usize;
        require(length_allowed(header, piece.len(), size), Refusal::PieceLength)?;
        let start = size * usize::from(header.index);
        let room = report.get_mut(start..start + piece.len()).ok_or(Refusal::Room)?;
        if self.heard & bit(header) != 0 {
            let taken = if is_last(header) { self.last_length as usize } else { size };
            require(piece.len() == taken && piece == room, Refusal::Conflict)?;
            return Ok((self, Answer::Repeat(come(self.heard, header.count))));
        }
        room.copy_from_slice(piece);
        Ok(self.take(header, piece.len()))
    }

    /// Refusals 19, 17 and 18.
    fn check_sequence(&self, sequence: u32) -> Result<(), Refusal> {
        require(sequence != u32::MAX, Refusal::SequenceLast)?;
        match sequence.cmp(&self.expected) {
            Ordering::Less => Err(Refusal::SequenceBelow),
            Ordering::Equal => Ok(()),
            Ordering::Greater => Err(Refusal::SequenceAbove),
        }
    }

    /// Remembers a piece that is new; at the last missing one, the report is complete.
    fn take(self, header: &Header, length: usize) -> Next {
        let heard = self.heard | bit(header);
        let last_length = if is_last(header) { length as u32 } else { self.last_length };
        let (count, channel) = (header.count, header.channel);
        let come = come(heard, count);
        if come == u32::from(count) {
            let whole = self.fragment_size as usize * usize::from(count - 1);
            let next = Connection {
                expected: self.expected + 1,
                heard: 0,
                count: 0,
                channel: 0,
                last_length: 0,
                ..self
            };
            return (next, Answer::Complete(whole + last_length as usize, come));
        }
        let next = Connection { heard, count, channel, last_length, ..self };
        (next, Answer::Taken(come))
    }
}

/// How many different pieces of a message have come: the indexes below its count that are heard. (A
/// connection that is made up may have heard others.)
fn come(heard: u64, count: u16) -> u32 {
    (0..count).map(|index| (heard >> index & 1) as u32).sum()
}

fn bit(header: &Header) -> u64 {
    1 << header.index
}

fn is_last(header: &Header) -> bool {
    header.index + 1 == header.count
}

/// All pieces but the last hold F bytes, the last 1 to F; a report of one piece may be empty.
fn length_allowed(header: &Header, length: usize, size: usize) -> bool {
    match (is_last(header), header.count) {
        (false, _) => length == size,
        (true, 1) => length <= size,
        (true, _) => (1..=size).contains(&length),
    }
}
