// SPDX-License-Identifier: MPL-2.0
//! The common header, and what a message's first reading tells: refusals 1 to 9.

use std::ops::Range;

use crate::bytes::Cursor;
use crate::chain::chain_length;
use crate::crypto::BLOCK;
use crate::refusal::{Refusal, require};

/// Bytes before the chain.
pub const HEADER: usize = 40;
/// The shortest message: a header and the chain's end.
pub const SHORTEST: usize = HEADER + 2;
/// Bytes of the tag that ends a message with flag 2.
pub const TAG: usize = 32;
/// Signature.
pub const SIGNATURE: [u8; 2] = [0x30, 0x30];
/// Version.
pub const VERSION: u8 = 3;
/// Most pieces of a report.
pub const MOST_PIECES: u16 = 64;

/// MessageFlags: acknowledge.
pub const ACKNOWLEDGE: u16 = 1;
/// MessageFlags: HMAC present.
pub const HMAC_PRESENT: u16 = 2;
/// MessageFlags: encrypted.
pub const ENCRYPTED: u16 = 4;
/// MessageFlags: wake.
pub const WAKE: u16 = 8;
/// Both flags of a sealed message.
pub const SEALED: u16 = HMAC_PRESENT | ENCRYPTED;

/// What a message is about.
#[derive(Clone, Copy, Debug, PartialEq, Eq)]
pub enum Kind {
    /// MessageType 1.
    Discovery,
    /// MessageType 2.
    Connect,
    /// MessageType 4.
    Session,
}

impl Kind {
    /// The kind a MessageType names.
    pub fn from_number(number: u8) -> Option<Kind> {
        match number {
            1 => Some(Kind::Discovery),
            2 => Some(Kind::Connect),
            4 => Some(Kind::Session),
            _ => None,
        }
    }

    /// Its MessageType.
    pub fn number(self) -> u8 {
        match self {
            Kind::Discovery => 1,
            Kind::Connect => 2,
            Kind::Session => 4,
        }
    }
}

/// The header's fields that a sender chooses.
#[derive(Clone, Copy, Debug, Default, PartialEq, Eq)]
pub struct Header {
    /// MessageType, any number.
    pub message_type: u8,
    /// MessageFlags.
    pub flags: u16,
    /// SequenceNumber.
    pub sequence: u32,
    /// RequestID.
    pub request: u64,
    /// FragmentIndex.
    pub index: u16,
    /// FragmentCount.
    pub count: u16,
    /// SessionID.
    pub session: u64,
    /// ChannelID.
    pub channel: u64,
}

impl Header {
    /// "Sealed" means flags 2 and 4 both set.
    pub fn sealed(&self) -> bool {
        self.flags & SEALED == SEALED
    }

    /// Refusals 5, 6 and 7, which look at these fields alone; else the message's kind.
    pub fn check(&self) -> Result<Kind, Refusal> {
        let kind = Kind::from_number(self.message_type).ok_or(Refusal::Type)?;
        require(self.flags_allowed(kind), Refusal::Flags)?;
        require(self.fragment_allowed(kind), Refusal::Fragment)?;
        Ok(kind)
    }

    fn flags_allowed(&self, kind: Kind) -> bool {
        let known = self.flags & !(ACKNOWLEDGE | SEALED | WAKE) == 0;
        let alike = matches!(self.flags & SEALED, 0 | SEALED);
        let fitting = match kind {
            Kind::Discovery => !self.sealed(),
            Kind::Connect => true,
            Kind::Session => self.sealed(),
        };
        known && alike && fitting
    }

    fn fragment_allowed(&self, kind: Kind) -> bool {
        let most = if kind == Kind::Session { MOST_PIECES } else { 1 };
        (1..=most).contains(&self.count) && self.index < self.count
    }
}

/// A message past refusals 1 to 9.
#[derive(Clone, Debug, PartialEq, Eq)]
pub struct Framed {
    /// Its header.
    pub header: Header,
    /// What the header's MessageType names.
    pub kind: Kind,
    /// Where in the message its payload lies, or its sealed part.
    pub body: Range<usize>,
}

/// The first reading of a message: refusals 1 to 9, in this order.
pub fn read_header(message: &[u8]) -> Result<Framed, Refusal> {
    require(message.len() >= SHORTEST, Refusal::TooShort)?;
    let mut fields = Cursor::new(message);
    let fields = raw_fields(&mut fields).ok_or(Refusal::TooShort)?;
    let length = usize::from(fields.message_length);
    require(fields.signature == SIGNATURE, Refusal::Signature)?;
    require(length >= SHORTEST && length == message.len(), Refusal::Length)?;
    require(fields.version == VERSION, Refusal::Version)?;
    let header = fields.header;
    let kind = header.check()?;
    let body = body(message, header.sealed())?;
    Ok(Framed { header, kind, body })
}

/// Refusals 8 and 9; else what stands between the chain and the tag.
fn body(message: &[u8], sealed: bool) -> Result<Range<usize>, Refusal> {
    let end = if sealed { message.len() - TAG } else { message.len() };
    let room = message.get(HEADER..end).ok_or(Refusal::Chain)?;
    let start = HEADER + chain_length(room)?;
    let whole_blocks = start < end && (end - start).is_multiple_of(BLOCK);
    require(!sealed || whole_blocks, Refusal::SealedPart)?;
    Ok(start..end)
}

struct RawFields {
    signature: [u8; 2],
    message_length: u16,
    version: u8,
    header: Header,
}

/// The 40 bytes of the table "The message on the wire", in its order.
fn raw_fields(from: &mut Cursor<'_>) -> Option<RawFields> {
    Some(RawFields {
        signature: from.array()?,
        message_length: from.u16()?,
        version: from.u8()?,
        header: Header {
            message_type: from.u8()?,
            flags: from.u16()?,
            sequence: from.u32()?,
            request: from.u64()?,
            index: from.u16()?,
            count: from.u16()?,
            session: from.u64()?,
            channel: from.u64()?,
        },
    })
}
