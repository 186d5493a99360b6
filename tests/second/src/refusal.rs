// SPDX-License-Identifier: MPL-2.0
//! Why something is refused: document 01's table of refusal numbers.

use std::fmt;

/// A row of the table "Refusal numbers"; its value is the row's number.
#[derive(Clone, Copy, Debug, PartialEq, Eq, PartialOrd, Ord, Hash)]
#[repr(u8)]
pub enum Refusal {
    /// Fewer than 42 bytes.
    TooShort = 1,
    /// Wrong signature.
    Signature = 2,
    /// MessageLength under 42 or not the bytes given.
    Length = 3,
    /// Version not 3.
    Version = 4,
    /// Type not 1, 2, 4.
    Type = 5,
    /// A flag above 8; flags 2 and 4 not alike; sealed Discovery; plain Session.
    Flags = 6,
    /// Count 0 or over 64; index not under count; count not 1 outside Session.
    Fragment = 7,
    /// The chain leaves its room, an unknown type, type 0 with a size, over 8 entries.
    Chain = 8,
    /// Sealed part empty or no multiple of 16.
    SealedPart = 9,
    /// Keys not 64 bytes.
    Keys = 10,
    /// Tag differs.
    Tag = 11,
    /// Working buffer shorter than the sealed part.
    WorkingRoom = 12,
    /// Size or padding not as the rule gives.
    Padding = 13,
    /// Discovery or Connect payload not as it should be.
    Payload = 14,
    /// Message not allowed in this state, by role.
    State = 15,
    /// State not 0 and another SessionID; on the gateway's side another SessionID in every state.
    Session = 16,
    /// SequenceNumber below the expected one.
    SequenceBelow = 17,
    /// SequenceNumber above the expected one.
    SequenceAbove = 18,
    /// SequenceNumber is 2^32 - 1.
    SequenceLast = 19,
    /// The piece's length is not what its index, count and F give; in the writer: Session payload
    /// over 16,384.
    PieceLength = 20,
    /// Count or channel unlike the first piece taken of this message.
    UnlikeFirst = 21,
    /// The piece leaves the report buffer; or the writer's output is too small.
    Room = 22,
    /// Index already heard, with other bytes or another length.
    Conflict = 23,
    /// F outside 1 to 16,384.
    FragmentSize = 24,
    /// Verdict not 0 or 1.
    Verdict = 25,
}

impl Refusal {
    /// All rows, in the table's order.
    pub const ALL: [Refusal; 25] = [
        Refusal::TooShort,
        Refusal::Signature,
        Refusal::Length,
        Refusal::Version,
        Refusal::Type,
        Refusal::Flags,
        Refusal::Fragment,
        Refusal::Chain,
        Refusal::SealedPart,
        Refusal::Keys,
        Refusal::Tag,
        Refusal::WorkingRoom,
        Refusal::Padding,
        Refusal::Payload,
        Refusal::State,
        Refusal::Session,
        Refusal::SequenceBelow,
        Refusal::SequenceAbove,
        Refusal::SequenceLast,
        Refusal::PieceLength,
        Refusal::UnlikeFirst,
        Refusal::Room,
        Refusal::Conflict,
        Refusal::FragmentSize,
        Refusal::Verdict,
    ];

    /// The row with this number.
    pub fn from_number(number: u8) -> Option<Refusal> {
        Refusal::ALL.into_iter().find(|refusal| refusal.number() == number)
    }

    /// The number of the table's row.
    pub fn number(self) -> u8 {
        self as u8
    }
}

/// As the programs print it.
impl fmt::Display for Refusal {
    fn fmt(&self, f: &mut fmt::Formatter<'_>) -> fmt::Result {
        write!(f, "refused {}", self.number())
    }
}

/// Refuses with `refusal` unless `holds`.
pub(crate) fn require(holds: bool, refusal: Refusal) -> Result<(), Refusal> {
    if holds { Ok(()) } else { Err(refusal) }
}
