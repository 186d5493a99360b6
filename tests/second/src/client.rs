// SPDX-License-Identifier: MPL-2.0
//! The gateway's side of one connection, the connecting role (A2): opening it, one step for each
//! message that comes, and the request that is due.

use std::cmp::Ordering;
use std::fmt;

use crate::admit::admit;
use crate::connection::check_fragment_size;
use crate::payload::{Connect, Payload};
use crate::refusal::Refusal;

/// The state once all three replies have been taken. A state up to it is how many of them have.
pub const READY: u8 = 3;
/// The state after another Result or Status, or verdict 0.
pub const FAILED: u8 = 4;
/// The C boundary's number for no request: no type byte has it.
pub const NOTHING_DUE: u64 = 256;

/// The types of the three requests, by the state in which each is due.
const REQUESTS: [u8; 3] = [0, 2, 6];

/// All that a gateway remembers of a connection. A caller may make up any value of it.
#[derive(Clone, Copy, Debug, Default, PartialEq, Eq)]
pub struct Client {
    /// F, good from 1 to 16,384.
    pub fragment_size: u32,
    /// 0 waiting for the Connection Response, 1 and 2 waiting for authentication (1 for type 3, 2
    /// for type 7), 3 Ready, 4 Failed; any other is made up, and all is refused there as in Failed.
    pub state: u8,
    /// SessionID of its Connection Request.
    pub session: u64,
}

/// The answer to a step.
#[derive(Clone, Copy, Debug, PartialEq, Eq)]
pub enum Answer {
    /// Refused; the connection is as it was.
    Refused(Refusal),
    /// The reply was taken; send the request of this type, 2 or 6.
    Next(u8),
    /// The last reply was taken; reports may be sent.
    Ready,
    /// The hub or the verdict says no; the connection is over.
    Failed,
    /// The reply had been taken before; send the request that follows it, if one does.
    Again(Option<u8>),
}

impl Answer {
    /// Its kind and its value, as the C boundary numbers them. (A refusal's own number is told
    /// apart from these.)
    pub fn numbers(self) -> (u64, u64) {
        match self {
            Answer::Refused(_) => (0, 0),
            Answer::Again(request) => (2, due_number(request)),
            Answer::Next(request) => (7, request.into()),
            Answer::Ready => (8, 0),
            Answer::Failed => (9, 0),
        }
    }
}

/// In the words of a hub's answers.
impl fmt::Display for Answer {
    fn fmt(&self, f: &mut fmt::Formatter<'_>) -> fmt::Result {
        match self {
            Answer::Refused(refusal) => refusal.fmt(f),
            Answer::Next(request) => write!(f, "next {request}"),
            Answer::Ready => write!(f, "ready"),
            Answer::Failed => write!(f, "failed"),
            Answer::Again(Some(request)) => write!(f, "again {request}"),
            Answer::Again(None) => write!(f, "again"),
        }
    }
}

/// The C boundary's number of a request, or of none.
pub fn due_number(request: Option<u8>) -> u64 {
    request.map_or(NOTHING_DUE, u64::from)
}

/// What a step needs of a reply.
struct Reply {
    /// The state that waits for it.
    awaited_in: u8,
    /// Whether the connection goes on: Pending, Status 0, or verdict 1 on a certificate.
    good: bool,
}

impl Reply {
    /// None where the payload is no reply of a hub.
    fn of(payload: Payload<'_>, passes: bool) -> Option<Reply> {
        let Payload::Connect(_, connect) = payload else { return None };
        let (awaited_in, good) = match connect {
            Connect::ConnectionPending(_) => (0, true),
            Connect::ConnectionResult(_) => (0, false),
            Connect::AuthenticationResponse(_) => (1, passes),
            Connect::DoneResponse(status) => (2, status == 0),
            Connect::ConnectionRequest(_)
            | Connect::AuthenticationRequest(_)
            | Connect::DoneRequest => return None,
        };
        Some(Reply { awaited_in, good })
    }
}

impl Client {
    /// Opens a connection with fragment size F and the SessionID of its request. Refused with 24,
    /// the connection is all zero, F and SessionID too.
    pub fn open(fragment_size: u32, session: u64) -> (Client, Result<(), Refusal>) {
        let opened = check_fragment_size(fragment_size);
        let fresh = Client { fragment_size, state: 0, session };
        (if opened.is_ok() { fresh } else { Client::default() }, opened)
    }

    /// The type of the request that is due, if one is.
    pub fn due(self) -> Option<u8> {
        REQUESTS.get(usize::from(self.state)).copied()
    }

    /// Takes one message.
    pub fn step(
        self,
        message: &[u8],
        keys: &[u8],
        working: &mut [u8],
        verdict: u64,
    ) -> (Client, Answer) {
        self.try_step(message, keys, working, verdict)
            .unwrap_or_else(|refusal| (self, Answer::Refused(refusal)))
    }

    fn try_step(
        self,
        message: &[u8],
        keys: &[u8],
        working: &mut [u8],
        verdict: u64,
    ) -> Result<(Client, Answer), Refusal> {
        let read = admit(self.fragment_size, Some(self.session), message, keys, working, verdict)?;
        let reply = Reply::of(read.payload, read.passes).ok_or(Refusal::State)?;
        self.hear(reply).ok_or(Refusal::State)
    }

    /// "Gateway states": a reply in each state; none for refusal 15.
    fn hear(self, reply: Reply) -> Option<(Client, Answer)> {
        if self.state > READY {
            return None;
        }
        if !reply.good {
            return Some((self.go(FAILED), Answer::Failed));
        }
        let after = self.go(reply.awaited_in + 1);
        match reply.awaited_in.cmp(&self.state) {
            Ordering::Less => Some((self, Answer::Again(after.due()))),
            Ordering::Equal => Some((after, after.due().map_or(Answer::Ready, Answer::Next))),
            Ordering::Greater => None,
        }
    }

    fn go(self, state: u8) -> Client {
        Client { state, ..self }
    }
}
