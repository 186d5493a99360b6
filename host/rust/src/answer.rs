// SPDX-License-Identifier: MPL-2.0
//! What a step answers.

use crate::message::part;
use crate::payload::{Status, AUTHENTICATION_RESPONSE, CONNECTION_RESPONSE, DONE_RESPONSE};
use crate::Refusal;

/// Which Connect payload the hub is to send.
#[derive(Clone, Copy, Debug, PartialEq, Eq, Hash)]
pub enum Reply {
    /// A Connection Response: Result, nonce and key in it are the caller's. The gateway can go on
    /// only where the Result is Pending.
    ConnectionResponse,
    /// A Device Authentication Response, with the hub's own certificate.
    DeviceAuthenticationResponse,
    /// An Authentication Done Response, with this Status: Success.
    DoneResponse(Status),
}

impl Reply {
    fn from_words(connect: u64, status: u64) -> Result<Reply, Refusal> {
        match connect {
            CONNECTION_RESPONSE => Ok(Reply::ConnectionResponse),
            AUTHENTICATION_RESPONSE => Ok(Reply::DeviceAuthenticationResponse),
            DONE_RESPONSE => Ok(Reply::DoneResponse(Status::from_word(status)?)),
            _ => Err(Refusal::Unknown),
        }
    }
}

/// What a step that was not refused answers: what to do.
#[derive(Clone, Copy, Debug, PartialEq, Eq, Hash)]
pub enum Answer<'a> {
    /// Send this reply, and keep its bytes.
    Reply(Reply),
    /// The message asks for a step that was made, and nothing has changed: the gateway has not
    /// heard this reply, or an old request has come once more. Send the same bytes again, never a
    /// Connection Response of a new nonce, X or Y.
    Again(Reply),
    /// The certificate was not accepted: send Authentication Failure, which the caller makes. From
    /// here on every message is refused; there is no Again for it.
    Failure,
    /// A new piece is in the report buffer, others are missing.
    Taken {
        /// How many different pieces have come, this one with them.
        heard: usize,
    },
    /// A piece that had come, with the same bytes; nothing has changed.
    Repeat {
        /// How many different pieces have come.
        heard: usize,
    },
    /// The last missing piece: here is the report.
    Complete {
        /// How many different pieces have come: all of them.
        heard: usize,
        /// The report: the first bytes of the report buffer, so that its length is enough to find it
        /// there again. Take it before the next step, and store it together with the connection.
        report: &'a [u8],
    },
}

impl<'a> Answer<'a> {
    /// The library's words are those of hub.h, and the length is never more than the report
    /// buffer's.
    pub(crate) fn from_words(words: [u64; 3], report: &'a [u8]) -> Result<Answer<'a>, Refusal> {
        let [kind, value, detail] = words;
        let heard = value as usize;
        Ok(match kind {
            1 => Answer::Reply(Reply::from_words(value, detail)?),
            2 => Answer::Again(Reply::from_words(value, detail)?),
            3 => Answer::Failure,
            4 => Answer::Taken { heard },
            5 => Answer::Repeat { heard },
            6 => Answer::Complete { heard, report: part(report, 0, detail)? },
            _ => return Err(Refusal::Unknown),
        })
    }
}
