// SPDX-License-Identifier: MPL-2.0
//! A gateway that enrols with the hub and sends it reports.

use crate::connection::{Connection, State};
use crate::crypto::sha256;
use crate::cutter::cut;
use crate::draft::Draft;
use crate::header::{Header, Kind, SEALED};
use crate::payload::{Connect, Credentials, Offer, Payload, Presence};
use crate::prng::Prng;

/// All that makes a gateway this one.
#[derive(Clone, Debug, PartialEq, Eq)]
pub struct Gateway {
    /// The 64 key bytes it shares with the hub.
    pub keys: [u8; 64],
    /// Its SessionID.
    pub session: u64,
    /// Its reports' ChannelID.
    pub channel: u64,
    /// Its ConnectionMode.
    pub mode: u16,
    /// Its nonce, X and Y.
    pub offer: Offer,
    /// Its certificate.
    pub certificate: Vec<u8>,
    /// Its certificate's thumbprint.
    pub thumbprint: Vec<u8>,
}

/// The header of an unfragmented message of this kind.
pub fn plain_header(kind: Kind) -> Header {
    Header { message_type: kind.number(), count: 1, ..Header::default() }
}

/// The header of a sealed unfragmented message of this kind.
pub fn sealed_header(kind: Kind) -> Header {
    Header { flags: SEALED, ..plain_header(kind) }
}

/// A Presence Request.
pub fn presence_request() -> Draft {
    Draft::new(plain_header(Kind::Discovery), Payload::PresenceRequest.to_bytes())
}

/// A Presence Response, whatever its values are.
pub fn presence_response(presence: Presence<'_>) -> Draft {
    Draft::new(plain_header(Kind::Discovery), Payload::PresenceResponse(presence).to_bytes())
}

impl Gateway {
    /// Any gateway, its certificate and thumbprint of these lengths.
    pub fn new(prng: &mut Prng, certificate: usize, thumbprint: usize) -> Gateway {
        Gateway {
            keys: prng.array(),
            session: prng.word(),
            channel: prng.word(),
            mode: prng.below(3) as u16,
            offer: Offer { nonce: prng.array(), x: prng.array(), y: prng.array() },
            certificate: prng.bytes(certificate),
            thumbprint: prng.bytes(thumbprint),
        }
    }

    /// The message with this Connect payload, plain or sealed as its type asks.
    pub fn connect(&self, connect: Connect<'_>) -> Draft {
        use Connect::{ConnectionPending, ConnectionRequest, ConnectionResult};
        let header = match connect {
            ConnectionRequest(_) | ConnectionPending(_) | ConnectionResult(_) => {
                plain_header(Kind::Connect)
            }
            _ => sealed_header(Kind::Connect),
        };
        let header = Header { session: self.session, ..header };
        Draft::new(header, Payload::Connect(self.mode, connect).to_bytes())
    }

    fn credentials(&self) -> Credentials<'_> {
        Credentials { certificate: &self.certificate, thumbprint: &self.thumbprint }
    }

    /// The three requests of its enrolment, each with the type of its reply.
    pub fn enrolment(&self) -> [(Draft, u8); 3] {
        [
            (self.connect(Connect::ConnectionRequest(self.offer)), 1),
            (self.connect(Connect::AuthenticationRequest(self.credentials())), 3),
            (self.connect(Connect::DoneRequest), 7),
        ]
    }

    /// The replies that a hub would send it: Connection Response for each Result, Device
    /// Authentication Response, Authentication Done Response for each Status.
    pub fn replies(&self) -> Vec<Draft> {
        let [pending, shown, _] = self.good_replies();
        let mut replies = vec![pending, shown];
        replies.extend([0, 2, 3].map(|result| self.connect(Connect::ConnectionResult(result))));
        replies.extend((0..=4).map(|status| self.connect(Connect::DoneResponse(status))));
        replies
    }

    /// The three replies that take it through its enrolment: Pending, a certificate, Status 0.
    pub fn good_replies(&self) -> [Draft; 3] {
        [
            self.connect(Connect::ConnectionPending(self.offer)),
            self.connect(Connect::AuthenticationResponse(self.credentials())),
            self.connect(Connect::DoneResponse(0)),
        ]
    }

    /// A Session message with any index, count and payload.
    pub fn piece(&self, sequence: u32, index: u16, count: u16, payload: &[u8]) -> Draft {
        let (session, channel) = (self.session, self.channel);
        let header = sealed_header(Kind::Session);
        let header = Header { sequence, index, count, session, channel, ..header };
        Draft::new(header, payload.to_vec())
    }

    /// A report in pieces, cut by F; none if it cannot be cut.
    pub fn pieces(&self, sequence: u32, fragment_size: u32, report: &[u8]) -> Vec<Draft> {
        let count = cut(report, fragment_size, 0).0.count;
        let piece = |index| cut(report, fragment_size, u32::from(index)).0.piece;
        (0..count).map(|index| self.piece(sequence, index, count, piece(index))).collect()
    }

    /// What a hub remembers of it in this state, having heard nothing of its next report.
    pub fn connection(&self, fragment_size: u32, state: State) -> Connection {
        let mut connection = Connection::open(fragment_size).0;
        if state != State::AwaitingRequest {
            let Offer { nonce, x, y } = self.offer;
            connection = Connection { session: self.session, nonce, x, y, ..connection };
        }
        if matches!(state, State::Passed | State::Ready | State::Failed) {
            connection.certificate = sha256(&self.certificate);
        }
        Connection { state: state as u8, ..connection }
    }
}
