// SPDX-License-Identifier: MPL-2.0
//! The reader of whole messages: refusals 1 to 14, and where the payload lies.

use std::ops::Range;

use crate::header::{Header, Kind, read_header};
use crate::payload::read_payload;
use crate::refusal::Refusal;
use crate::seal::open;

/// Where a payload lies.
#[derive(Clone, Debug, PartialEq, Eq)]
pub enum Place {
    /// In the message: it was plain.
    Message(Range<usize>),
    /// In the working buffer: it was sealed.
    Working(Range<usize>),
}

/// A message that was read.
#[derive(Clone, Debug, PartialEq, Eq)]
pub struct Message {
    /// Its header.
    pub header: Header,
    /// What it is about.
    pub kind: Kind,
    /// Where its payload lies.
    pub payload: Place,
}

/// Reads one message. A sealed one that gets past 13 leaves its opened sealed part at the front of
/// the working buffer; nothing else changes it.
pub fn read_message(message: &[u8], keys: &[u8], working: &mut [u8]) -> Result<Message, Refusal> {
    let framed = read_header(message)?;
    let header = framed.header;
    let payload = if header.sealed() {
        Place::Working(open(keys, &header, message, framed.body, working)?)
    } else {
        Place::Message(framed.body)
    };
    read_payload(framed.kind, header.sealed(), part(Some(&payload), message, working))?;
    Ok(Message { header, kind: framed.kind, payload })
}

/// The part of the message or of the working buffer that a place names. No place (a refusal), or
/// one that these buffers do not have, is the empty part at the message's start.
pub fn part<'a>(place: Option<&Place>, message: &'a [u8], working: &'a [u8]) -> &'a [u8] {
    let part = match place {
        Some(Place::Message(range)) => message.get(range.clone()),
        Some(Place::Working(range)) => working.get(range.clone()),
        None => None,
    };
    part.unwrap_or(&message[..0])
}
