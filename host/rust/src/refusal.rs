// SPDX-License-Identifier: MPL-2.0
//! Why something is refused.

use core::error::Error;
use core::fmt;

/// Why a call refuses: a row of document 01's table "Refusal numbers", the first that applies.
///
/// A later version may have further ones: treat one that you do not know as a refusal.
///
/// ```
/// # use hlidunsk::{read_header, Refusal};
/// let refusal = read_header(b"too short").unwrap_err();
/// assert_eq!(refusal, Refusal::TooShort);
/// assert_eq!(refusal.number(), 1);
/// assert_eq!(refusal.to_string(), "refused 1: fewer than 42 bytes");
/// ```
///
/// Most refusals of a step are harmless: hub and gateway drop the message and go on, for connection
/// and report buffer are as they were. To a gateway 16 is another SessionID, in every state, and 15 a
/// reply out of order, any message but a reply, and all that comes after
/// [`Failed`](crate::GatewayAnswer::Failed).
///
/// | Number | What it says to a hub |
/// |---|---|
/// | 17 | a late copy of a report that is complete |
/// | 11 | damaged or foreign bytes. Of every sealed message: the two sides have different keys |
/// | 15, 16 | a stranger, an old request, or a gateway that starts over: try it on a new connection ([Strangers](crate#strangers)). 15 is also what every well-formed Discovery message gets ([Presence](crate#presence)) |
/// | 18 | a report that comes too early: it is sent again, or lost. Again and again: the expected report will never be finished, and nothing later is taken; open anew, with new keys |
/// | 2, 3 | in a stream: framing is lost; close it |
/// | 20 | of a piece: the two sides have a different F |
/// | 13, 14, 21, 23 | of a sealed message: the gateway is wrong, or used a number twice; or (23) the report buffer was touched |
/// | 10, 12, 22, 24, 255 | the caller's own: keys, a buffer or F are not as they should be. But until there are keys 10 is a sealed message that comes too early; and a gateway can bring about 12 and 22 where `working` is shorter than [`MOST_SEALED`](crate::MOST_SEALED), or `report` than 64 times F |
/// | 19 | no report has this number: after report 2^32 - 2, or before one whose number a Connect message has ([Vectors and numbers](crate#vectors-and-numbers)), open a new connection, with new keys |
#[derive(Clone, Copy, Debug, PartialEq, Eq, PartialOrd, Ord, Hash)]
#[non_exhaustive]
#[repr(u8)]
pub enum Refusal {
    // tests/refusals/write: variants
    /// Fewer than 42 bytes.
    TooShort = 1,
    /// Wrong signature.
    WrongSignature = 2,
    /// MessageLength under 42 or not the bytes given.
    WrongLength = 3,
    /// Version not 3.
    WrongVersion = 4,
    /// Type not 1, 2, 4.
    WrongType = 5,
    /// A flag above 8; flags 2 and 4 not alike; sealed Discovery; plain Session.
    WrongFlags = 6,
    /// Count 0 or over 64; index not under count; count not 1 outside Session.
    WrongPiece = 7,
    /// Chain leaves its room, unknown type, type 0 with a size, over 8 entries.
    WrongChain = 8,
    /// Sealed part empty or no multiple of 16.
    WrongSealedSize = 9,
    /// Keys not 64 bytes: here, no keys.
    WrongKeys = 10,
    /// Tag differs.
    WrongTag = 11,
    /// Working buffer shorter than the sealed part.
    ShortWorking = 12,
    /// Size or padding not as the rule gives.
    WrongPadding = 13,
    /// Discovery or Connect payload not as document 01 says.
    WrongPayload = 14,
    /// Message not allowed in this state, by role.
    NotAllowed = 15,
    /// State not 0 and another SessionID; on the gateway's side another SessionID in every state.
    OtherSession = 16,
    /// SequenceNumber below the expected one.
    PastSequence = 17,
    /// SequenceNumber above the expected one.
    FutureSequence = 18,
    /// SequenceNumber is 2^32 - 1.
    LastSequence = 19,
    /// The piece's size is not that of its place; in the writer: Session payload over 16,384.
    WrongPieceSize = 20,
    /// Count or channel unlike the first piece taken of this message.
    UnlikeFirstPiece = 21,
    /// The piece leaves the report buffer; or the writer's output is too small.
    NoRoom = 22,
    /// Index already heard, with other bytes or another length.
    UnlikeRepeat = 23,
    /// F outside 1 to 16,384.
    WrongFragmentSize = 24,
    /// Verdict not 0 or 1. The types of this crate rule it out.
    WrongVerdict = 25,
    // tests/refusals/write: end
    /// The library's answer has no meaning in this version of the crate. No call of a library of
    /// the same version gives one. Not a number of document 01, nor of hub.h.
    Unknown = 254,
    /// The report buffer is shorter than the report. Not a number of document 01: it is hub.h's
    /// `HUB_WRONG_BUFFER`, the other grounds of which the types of this crate rule out.
    WrongBuffer = 255,
}

use Refusal::*;

// tests/refusals/write: all
const ALL: [Refusal; 25] = [
    TooShort,
    WrongSignature,
    WrongLength,
    WrongVersion,
    WrongType,
    WrongFlags,
    WrongPiece,
    WrongChain,
    WrongSealedSize,
    WrongKeys,
    WrongTag,
    ShortWorking,
    WrongPadding,
    WrongPayload,
    NotAllowed,
    OtherSession,
    PastSequence,
    FutureSequence,
    LastSequence,
    WrongPieceSize,
    UnlikeFirstPiece,
    NoRoom,
    UnlikeRepeat,
    WrongFragmentSize,
    WrongVerdict,
];
// tests/refusals/write: end

// tests/refusals/write: sentences
const SENTENCES: [&str; 25] = [
    "fewer than 42 bytes",
    "wrong signature",
    "MessageLength under 42 or not the bytes given",
    "version not 3",
    "type not 1, 2, 4",
    "a flag above 8; flags 2 and 4 not alike; sealed Discovery; plain Session",
    "count 0 or over 64; index not under count; count not 1 outside Session",
    "chain leaves its room, unknown type, type 0 with a size, over 8 entries",
    "sealed part empty or no multiple of 16",
    "keys not 64 bytes",
    "tag differs",
    "working buffer shorter than the sealed part",
    "size or padding not as the rule gives",
    "Discovery or Connect payload not as document 01 says",
    "message not allowed in this state, by role",
    "state not 0 and another SessionID; on the gateway's side another SessionID in every state",
    "SequenceNumber below the expected one",
    "SequenceNumber above the expected one",
    "SequenceNumber is 2^32 - 1",
    "piece not F bytes and not last; last over F; last empty with count over 1; in the writer: Session payload over 16,384",
    "count or channel unlike the first piece taken of this message",
    "F times index + piece length exceeds the report buffer; or out too small",
    "index already heard, and the bytes differ from the report buffer's there, or the length from the one taken",
    "F outside 1 to 16,384",
    "verdict not 0 or 1",
];
// tests/refusals/write: end

impl Refusal {
    /// Its number: 1 to 25 are the rows of document 01.
    pub fn number(self) -> u32 {
        self as u32
    }

    /// The refusal with this number.
    pub fn from_number(number: u32) -> Option<Refusal> {
        match number {
            254 => Some(Unknown),
            255 => Some(WrongBuffer),
            _ => ALL.get((number as usize).checked_sub(1)?).copied(),
        }
    }

    /// Why, in English: document 01's sentence. `Display` has the number before it.
    pub fn text(self) -> &'static str {
        match self {
            Unknown => "an answer that this version of the crate does not know",
            WrongBuffer => "the report buffer is shorter than the report",
            row => SENTENCES.get(row as usize - 1).copied().unwrap_or_default(),
        }
    }

    /// What a call returned. A number that is not known is a refusal too.
    pub(crate) fn of(number: u32) -> Result<(), Refusal> {
        match number {
            0 => Ok(()),
            _ => Err(Refusal::from_number(number).unwrap_or(Unknown)),
        }
    }
}

impl fmt::Display for Refusal {
    fn fmt(&self, f: &mut fmt::Formatter<'_>) -> fmt::Result {
        write!(f, "refused {}: {}", self.number(), self.text())
    }
}

impl Error for Refusal {}
