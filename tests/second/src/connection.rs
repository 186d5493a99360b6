// SPDX-License-Identifier: MPL-2.0
//! The host's side of one connection: opening it, and one step for each message that comes.

use std::fmt;

use crate::admit::admit;
use crate::crypto::sha256;
use crate::payload::{Connect, FRAGMENT_SIZE, Offer, Payload};
use crate::refusal::{Refusal, require};

/// The states of a host; the value is document 01's number.
#[derive(Clone, Copy, Debug, PartialEq, Eq)]
#[repr(u8)]
pub enum State {
    /// Waiting for a request.
    AwaitingRequest = 0,
    /// Waiting for authentication.
    AwaitingAuthentication = 1,
    /// Passed.
    Passed = 2,
    /// Ready.
    Ready = 3,
    /// Failed.
    Failed = 4,
}

impl State {
    /// All of them, by number.
    pub const ALL: [State; 5] = [
        State::AwaitingRequest,
        State::AwaitingAuthentication,
        State::Passed,
        State::Ready,
        State::Failed,
    ];

    /// The state with this number.
    pub fn from_number(number: u8) -> Option<State> {
        State::ALL.get(usize::from(number)).copied()
    }
}

/// All that a host remembers of a connection. A caller may make up any value of it.
#[derive(Clone, Copy, Debug, Default, PartialEq, Eq)]
pub struct Connection {
    /// F, good from 1 to 16,384.
    pub fragment_size: u32,
    /// A [`State`]'s number; nothing is allowed in any other.
    pub state: u8,
    /// SessionID of the Connection Request.
    pub session: u64,
    /// Nonce of the Connection Request.
    pub nonce: [u8; 8],
    /// X of the Connection Request.
    pub x: [u8; 32],
    /// Y of the Connection Request.
    pub y: [u8; 32],
    /// SHA-256 of the gateway's certificate.
    pub certificate: [u8; 32],
    /// The expected SequenceNumber of a Session message.
    pub expected: u32,
    /// The heard set: bit i for the index i.
    pub heard: u64,
    /// FragmentCount of the first piece taken of the expected message.
    pub count: u16,
    /// ChannelID of the first piece taken of the expected message.
    pub channel: u64,
    /// Length of the piece with the last index, once taken.
    pub last_length: u32,
}

/// The answer to a step.
#[derive(Clone, Copy, Debug, PartialEq, Eq)]
pub enum Answer {
    /// Refused; connection and report buffer are as they were.
    Refused(Refusal),
    /// Send the Connect payload of this type: 1, 3, or 7 with Status 0.
    Reply(u8),
    /// The message came before; send the same reply again.
    Again(u8),
    /// Authentication failed; say so.
    Failure,
    /// A new piece; how many different ones have come, it with them.
    Taken(u32),
    /// A piece that had come; how many different ones have come.
    Repeat(u32),
    /// The last missing piece; the report's length, and how many different pieces have come: all.
    Complete(usize, u32),
}

/// As the replay program prints it.
impl fmt::Display for Answer {
    fn fmt(&self, f: &mut fmt::Formatter<'_>) -> fmt::Result {
        match self {
            Answer::Refused(refusal) => refusal.fmt(f),
            Answer::Reply(reply) => write!(f, "reply {reply}"),
            Answer::Again(reply) => write!(f, "again {reply}"),
            Answer::Failure => write!(f, "failure"),
            Answer::Taken(heard) => write!(f, "taken {heard}"),
            Answer::Repeat(heard) => write!(f, "repeat {heard}"),
            Answer::Complete(length, _) => write!(f, "complete {length}"),
        }
    }
}

/// What a step that was not refused gives.
pub(crate) type Next = (Connection, Answer);

/// Refusal 24.
pub(crate) fn check_fragment_size(fragment_size: u32) -> Result<(), Refusal> {
    require((1..=FRAGMENT_SIZE).contains(&fragment_size), Refusal::FragmentSize)
}

impl Connection {
    /// Opens a connection with fragment size F. Refused with 24, the connection is all zero, F too.
    pub fn open(fragment_size: u32) -> (Connection, Result<(), Refusal>) {
        match check_fragment_size(fragment_size) {
            Ok(()) => (Connection { fragment_size, ..Connection::default() }, Ok(())),
            refused => (Connection::default(), refused),
        }
    }

    /// Takes one message.
    pub fn step(
        self,
        message: &[u8],
        keys: &[u8],
        working: &mut [u8],
        report: &mut [u8],
        verdict: u64,
    ) -> (Connection, Answer) {
        self.try_step(message, keys, working, report, verdict)
            .unwrap_or_else(|refusal| (self, Answer::Refused(refusal)))
    }

    /// A step's checks up to 16, then what the state makes of the message.
    fn try_step(
        self,
        message: &[u8],
        keys: &[u8],
        working: &mut [u8],
        report: &mut [u8],
        verdict: u64,
    ) -> Result<Next, Refusal> {
        let bound = (self.state != State::AwaitingRequest as u8).then_some(self.session);
        let read = admit(self.fragment_size, bound, message, keys, working, verdict)?;
        match read.payload {
            Payload::PresenceRequest | Payload::PresenceResponse(_) => Err(Refusal::State),
            Payload::Connect(_, connect) => self.enrol(read.header.session, connect, read.passes),
            Payload::Piece(piece) if self.state == State::Ready as u8 => {
                self.join(&read.header, piece, report)
            }
            Payload::Piece(_) => Err(Refusal::State),
        }
    }

    /// "Host states": a Connect message in each state; refusal 15 for all that is not named there.
    fn enrol(self, session: u64, connect: Connect<'_>, passes: bool) -> Result<Next, Refusal> {
        use State::{AwaitingAuthentication, AwaitingRequest, Failed, Passed, Ready};
        let state = State::from_number(self.state).ok_or(Refusal::State)?;
        match (state, connect) {
            (AwaitingRequest, Connect::ConnectionRequest(offer)) => {
                let Offer { nonce, x, y } = offer;
                let next = Connection { session, nonce, x, y, ..self };
                Ok((next.go(AwaitingAuthentication), Answer::Reply(1)))
            }
            (AwaitingAuthentication | Passed | Ready, Connect::ConnectionRequest(offer)) => {
                require(
                    (offer.nonce, offer.x, offer.y) == (self.nonce, self.x, self.y),
                    Refusal::State,
                )?;
                Ok((self, Answer::Again(1)))
            }
            (AwaitingAuthentication, Connect::AuthenticationRequest(shown)) => {
                let next = Connection { certificate: sha256(shown.certificate), ..self };
                if passes {
                    Ok((next.go(Passed), Answer::Reply(3)))
                } else {
                    Ok((next.go(Failed), Answer::Failure))
                }
            }
            (Passed | Ready, Connect::AuthenticationRequest(shown)) => {
                require(sha256(shown.certificate) == self.certificate, Refusal::State)?;
                Ok((self, Answer::Again(3)))
            }
            (Passed, Connect::DoneRequest) => Ok((self.go(Ready), Answer::Reply(7))),
            (Ready, Connect::DoneRequest) => Ok((self, Answer::Again(7))),
            _ => Err(Refusal::State),
        }
    }

    fn go(self, state: State) -> Connection {
        Connection { state: state as u8, ..self }
    }
}
