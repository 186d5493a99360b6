// SPDX-License-Identifier: MPL-2.0
//! What a gateway hears, and what must come of it: messages that are described as document 01's
//! "Gateway states" looks at them, and that section as a table. The table and the bytes of a
//! gateway are laid out here, beside the second implementation's.

use second::compare::{Comparison, Difference};
use second::draft::Draft;
use second::generate::ClientCase;
use second::header::{Header, Kind, SEALED};

use super::as_expected;
use super::trial::{KEYS, fields, noise};
use super::values::{call, device, laid_out};
use crate::gateways::gateway_step_on;
use crate::hub_h::Hub;
use crate::payloads::Writer::{ConnectionRequest, ConnectionResponse, DoneRequest, DoneResponse};
use crate::state::{GATEWAY, decode_gateway};

/// What a message is to a gateway.
#[derive(Clone, Copy, Debug, PartialEq, Eq)]
pub enum Heard {
    /// Type 1 with this Result.
    Response(u8),
    /// Type 3.
    Authentication,
    /// Type 7 with this Status.
    Done(u8),
    /// Nothing that it takes: a request, a piece of a report, a Discovery message.
    Other,
}

use Heard::{Authentication, Done, Other, Response};

/// The state after a message, and the words of the answer; nothing is 15.
type Cell = Option<(u8, [u64; 3])>;

/// Another Result or Status, or a verdict of 0: Failed, but for the state that already is.
const FAILS: [Cell; 5] = {
    let failed = Some((4, [9, 0, 0]));
    [failed, failed, failed, failed, None]
};

/// "Gateway states": what a message does in states 0 to 4.
fn row(heard: Heard, verdict: u64) -> [Cell; 5] {
    let next = |state, value| Some((state, [7, value, 0]));
    let again = |state, value| Some((state, [2, value, 0]));
    match (heard, verdict) {
        (Response(1), _) => [next(1, 2), again(1, 2), again(2, 2), again(3, 2), None],
        (Authentication, 1) => [None, next(2, 6), again(2, 6), again(3, 6), None],
        (Done(0), _) => [None, None, Some((3, [8, 0, 0])), again(3, 256), None],
        (Other, _) => [None; 5],
        _ => FAILS,
    }
}

/// The bytes of a gateway: F, state, SessionID.
pub fn bytes(size: u64, state: u8, session: u64) -> [u8; GATEWAY] {
    let mut bytes = [0; GATEWAY];
    for place in 0..8 {
        bytes[place] = (size >> (56 - 8 * place)) as u8;
        bytes[9 + place] = (session >> (56 - 8 * place)) as u8;
    }
    bytes[8] = state;
    bytes
}

/// A message, and all that its hearing depends on.
#[derive(Clone, Debug)]
pub struct Message {
    /// What it is.
    pub heard: Heard,
    /// The number that it is refused with before its SessionID is looked at, given keys and a
    /// working buffer that are as they should be; 0 where it is a good message.
    pub refused: u32,
    /// Its SessionID; Discovery's is not looked at.
    pub session: Option<u64>,
    /// Size, payload and padding of one that is sealed.
    pub opened: Vec<u8>,
    /// Its bytes.
    pub bytes: Vec<u8>,
}

impl Message {
    /// A good message.
    pub fn new(heard: Heard, header: Header, payload: &[u8]) -> Message {
        let draft = Draft::new(header, payload.to_vec());
        Message::of_draft(heard, 0, &draft)
    }

    /// A message by its draft, sealed as the rules give it.
    pub fn of_draft(heard: Heard, refused: u32, draft: &Draft) -> Message {
        let Draft { header, payload, .. } = draft;
        let mut opened = Vec::new();
        if header.sealed() {
            opened = [&(payload.len() as u32).to_be_bytes()[..], payload].concat();
            let pad = (16 - opened.len() % 16) % 16;
            opened.resize(opened.len() + pad, pad as u8);
        }
        let discovery = header.message_type == Kind::Discovery.number();
        let session = (!discovery).then_some(header.session);
        Message { heard, refused, session, opened, bytes: draft.bytes(&KEYS) }
    }
}

/// The SessionID of a gateway and its messages, where a sweep has but one.
pub fn session() -> u64 {
    fields(Kind::Connect, 0).session
}

/// The fields of a Connect message, plain or sealed, with this SessionID.
pub fn connect_fields(flags: u16, session: u64) -> Header {
    Header { session, ..fields(Kind::Connect, flags) }
}

/// The payload of a reply.
pub fn reply_payload(heard: Heard, mode: u64) -> Vec<u8> {
    laid_out(&match heard {
        Response(result) => call(ConnectionResponse, mode, result.into()),
        Authentication => device(3, mode, 11, 5),
        Done(status) => call(DoneResponse, mode, status.into()),
        Other => unreachable!("no reply"),
    })
}

/// The flags of a reply's message.
pub fn reply_flags(heard: Heard) -> u16 {
    if matches!(heard, Response(_)) { 0 } else { SEALED }
}

/// A reply with this SessionID.
pub fn reply(heard: Heard, session: u64) -> Message {
    Message::new(heard, connect_fields(reply_flags(heard), session), &reply_payload(heard, 1))
}

/// Every reply: each Result, type 3, each Status.
pub const REPLIES: [Heard; 10] = [
    Response(0),
    Response(1),
    Response(2),
    Response(3),
    Authentication,
    Done(0),
    Done(1),
    Done(2),
    Done(3),
    Done(4),
];

/// The messages with this SessionID that no gateway takes: the three requests, a piece of a report,
/// a Presence Request and a Presence Response.
pub fn others(session: u64) -> Vec<Message> {
    let other = |header: Header, payload: &[u8]| Message::new(Other, header, payload);
    let connect = |flags, payload| other(connect_fields(flags, session), payload);
    let piece = Header { session, ..fields(Kind::Session, SEALED) };
    let discovery = Header { session, ..fields(Kind::Discovery, 0) };
    vec![
        connect(0, &laid_out(&call(ConnectionRequest, 1, 0))),
        connect(SEALED, &laid_out(&device(2, 1, 11, 5))),
        connect(SEALED, &laid_out(&call(DoneRequest, 1, 0))),
        other(piece, &noise(10)),
        other(discovery, &[0]),
        other(discovery, b"\x01\0\x02\0\x0E\0\x05a hubsalthash"),
    ]
}

/// Every kind of message with this SessionID.
pub fn kinds(session: u64) -> Vec<Message> {
    let mut kinds: Vec<_> = REPLIES.map(|heard| reply(heard, session)).to_vec();
    kinds.extend(others(session));
    kinds
}

/// A gateway hears a message.
#[derive(Clone, Copy, Debug)]
pub struct Hearing<'a> {
    /// F, as wide as its eight bytes.
    pub size: u64,
    /// Its state, any byte.
    pub state: u8,
    /// Its SessionID.
    pub session: u64,
    /// The message.
    pub message: &'a Message,
    /// The keys.
    pub keys: &'a [u8],
    /// The working buffer's bytes.
    pub room: usize,
    /// The verdict.
    pub verdict: u64,
}

impl<'a> Hearing<'a> {
    /// A message comes to a gateway of F = 16 with the message's own SessionID.
    pub fn new(state: u8, message: &'a Message, verdict: u64) -> Hearing<'a> {
        let session = message.session.unwrap_or(session());
        let room = message.opened.len() + 3;
        Hearing { size: 16, state, session, message, keys: &KEYS, room, verdict }
    }

    /// What must be returned: the first of 25; 24; 1 to 9; 10 to 13; 14; 16; 15.
    pub fn number(&self) -> u32 {
        let Message { refused, session, opened, .. } = self.message;
        let sealed = !opened.is_empty();
        match *refused {
            _ if self.verdict > 1 => 25,
            _ if self.size == 0 || self.size > 16_384 => 24,
            number @ 1..=9 => number,
            _ if sealed && self.keys.len() != 64 => 10,
            11 => 11,
            _ if sealed && self.room < opened.len() => 12,
            number @ 13..=14 => number,
            _ if session.is_some_and(|session| session != self.session) => 16,
            _ if self.cell().is_none() => 15,
            _ => 0,
        }
    }

    /// What the table has for it; a state that there is not is as Failed.
    fn cell(&self) -> Cell {
        row(self.message.heard, self.verdict)[usize::from(self.state.min(4))]
    }

    /// The gateway that hears it.
    pub fn gateway(&self) -> [u8; GATEWAY] {
        bytes(self.size, self.state, self.session)
    }

    /// The step answers and leaves what is reckoned here, and what the second implementation does.
    /// Answers the gateway after it.
    pub fn judge(&self, comparison: &mut Comparison<Hub>) -> Result<[u8; GATEWAY], Difference> {
        let before = self.gateway();
        let number = self.number();
        let (state, words) = match self.cell() {
            Some(cell) if number == 0 => cell,
            _ => (self.state, [0; 3]),
        };
        let after = bytes(self.size, state, self.session);
        let mut working = vec![0xAA; self.room];
        if number == 0 || (14..=16).contains(&number) {
            let opened = &self.message.opened;
            working[..opened.len()].copy_from_slice(opened);
        }
        let case = ClientCase {
            client: decode_gateway(&before),
            message: self.message.bytes.clone(),
            keys: self.keys.to_vec(),
            working: vec![0xAA; self.room],
            verdict: self.verdict,
        };
        let found = gateway_step_on(&mut comparison.other, &before, &case);
        let answered = (found.number, found.gateway, found.words);
        as_expected(self, &(number, after, words), &answered)?;
        as_expected(self, &working, &found.working)?;
        Ok(after)
    }
}
