// SPDX-License-Identifier: MPL-2.0
//! Document 01's calls by the Rust wrapper, host/rust. What its types rule out (keys that are neither
//! 64 bytes nor none, another verdict than 0 and 1, a type, mode, Result or Status that document 01
//! does not have) is answered by the second implementation.

use hlidunsk as h;
use hlidunsk::payload as p;
use second::client::{self, Client};
use second::compare::{Implementation, Piece, Second};
use second::connection::{Answer, Connection};
use second::header::{Framed, Header, Kind};
use second::message::{Message, Place};
use second::payload::{Connect, Credentials, DiscoveryParts, Offer, Parts, Presence};
use second::refusal::Refusal;

use crate::hub::refusal;
use crate::state::{decode, decode_gateway, encode, encode_gateway};

/// The wrapper.
pub struct Wrapper;

fn refused(by: h::Refusal) -> Refusal {
    refusal(by.number()).expect_err("a refusal")
}

fn header(of: h::Header) -> Header {
    let h::Header { message_type, flags, sequence, request, index, count, session, channel } = of;
    let message_type = message_type.number();
    Header { message_type, flags, sequence, request, index, count, session, channel }
}

fn kind(of: h::Header) -> Kind {
    Kind::from_number(of.message_type.number()).expect("a kind")
}

/// The keys as the wrapper takes them: 64 bytes, or none.
fn keys_of(keys: &[u8]) -> Option<Option<&h::Keys>> {
    if keys.is_empty() { Some(None) } else { keys.try_into().ok().map(Some) }
}

/// Where in `whole` a part of it lies.
fn place(part: &[u8], whole: &[u8]) -> Option<std::ops::Range<usize>> {
    let start = (part.as_ptr() as usize).checked_sub(whole.as_ptr() as usize)?;
    (start + part.len() <= whole.len()).then_some(start..start + part.len())
}

/// The type of a reply.
fn type_of(reply: h::Reply) -> u8 {
    match reply {
        h::Reply::ConnectionResponse => 1,
        h::Reply::DeviceAuthenticationResponse => 3,
        h::Reply::DoneResponse(p::Status::Success) => 7,
        h::Reply::DoneResponse(status) => panic!("{status:?}"),
    }
}

/// The type of a request.
fn type_of_request(request: h::Request) -> u8 {
    match request {
        h::Request::ConnectionRequest => 0,
        h::Request::DeviceAuthenticationRequest => 2,
        h::Request::DoneRequest => 6,
    }
}

/// A gateway's connection, by its bytes and by what it says of itself.
fn client_of(gateway: &h::Gateway) -> Client {
    let client = decode_gateway(gateway.as_bytes());
    let said = (gateway.fragment_size(), gateway.state().number(), gateway.session());
    assert_eq!(said, (client.fragment_size as usize, client.state, client.session));
    client
}

/// A Connect payload in the wrapper's types, where they have it.
fn typed(mode: u16, connect: Connect<'_>) -> Option<p::Connect<'_>> {
    use p::{Connect as Typed, ConnectionResult};
    let mode = p::Mode::from_number(mode)?;
    let half = |offer: Offer| p::Exchange { nonce: offer.nonce, x: offer.x, y: offer.y };
    let response = |result| Typed::ConnectionResponse { mode, result };
    Some(match connect {
        Connect::ConnectionRequest(offer) => {
            Typed::ConnectionRequest { mode, exchange: half(offer) }
        }
        Connect::ConnectionPending(offer) => response(ConnectionResult::Pending(half(offer))),
        Connect::ConnectionResult(0) => response(ConnectionResult::Success),
        Connect::ConnectionResult(2) => response(ConnectionResult::FailureAuthentication),
        Connect::ConnectionResult(3) => response(ConnectionResult::FailureNotAllowed),
        Connect::ConnectionResult(_) => return None,
        Connect::AuthenticationRequest(Credentials { certificate, thumbprint }) => {
            Typed::DeviceAuthenticationRequest { mode, certificate, thumbprint }
        }
        Connect::AuthenticationResponse(Credentials { certificate, thumbprint }) => {
            Typed::DeviceAuthenticationResponse { mode, certificate, thumbprint }
        }
        Connect::DoneRequest => Typed::DoneRequest { mode },
        Connect::DoneResponse(status) => {
            Typed::DoneResponse { mode, status: p::Status::from_number(status)? }
        }
    })
}

/// The numbers of a Connect payload that was read, and where in it its parts lie. The wrapper copies
/// nonce, X and Y, so their places are those of document 01, and the bytes there are compared.
fn parts_of(read: p::Connect<'_>, payload: &[u8]) -> Parts {
    use p::{Connect as Typed, ConnectionResult};
    let numbers = |kind, code| Parts {
        kind,
        mode: read.mode().number(),
        code,
        nonce: 0..0,
        x: 0..0,
        y: 0..0,
        certificate: 0..0,
        thumbprint: 0..0,
    };
    let exchanged = |kind, code, half: p::Exchange| {
        let (nonce, x, y) = (6..14, 20..52, 54..86);
        assert_eq!(payload[nonce.clone()], half.nonce);
        assert_eq!(payload[x.clone()], half.x);
        assert_eq!(payload[y.clone()], half.y);
        Parts { nonce, x, y, ..numbers(kind, code) }
    };
    let shown = |kind, certificate, thumbprint| Parts {
        certificate: place(certificate, payload).expect("a part of the payload"),
        thumbprint: place(thumbprint, payload).expect("a part of the payload"),
        ..numbers(kind, 0)
    };
    match read {
        Typed::ConnectionRequest { exchange, .. } => exchanged(0, 0, exchange),
        Typed::ConnectionResponse { result, .. } => match result {
            ConnectionResult::Success => numbers(1, 0),
            ConnectionResult::Pending(exchange) => exchanged(1, 1, exchange),
            ConnectionResult::FailureAuthentication => numbers(1, 2),
            ConnectionResult::FailureNotAllowed => numbers(1, 3),
        },
        Typed::DeviceAuthenticationRequest { certificate, thumbprint, .. } => {
            shown(2, certificate, thumbprint)
        }
        Typed::DeviceAuthenticationResponse { certificate, thumbprint, .. } => {
            shown(3, certificate, thumbprint)
        }
        Typed::DoneRequest { .. } => numbers(6, 0),
        Typed::DoneResponse { status, .. } => numbers(7, status.number()),
        other => panic!("{other:?}"),
    }
}

/// The same for a Presence Response, of which the wrapper copies salt and hash.
fn presence_parts_of(read: p::Presence<'_>, payload: &[u8]) -> DiscoveryParts {
    let p::Presence { mode, device, name, salt, hash } = read;
    let name = place(name, payload).expect("a part of the payload");
    let parts = DiscoveryParts {
        kind: 1,
        mode: mode.number(),
        device: device.0,
        salt: name.end..name.end + 4,
        hash: name.end + 4..name.end + 8,
        name,
    };
    assert_eq!(payload[parts.salt.clone()], salt);
    assert_eq!(payload[parts.hash.clone()], hash);
    parts
}

impl Implementation for Wrapper {
    fn read_header(&mut self, message: &[u8]) -> Result<Framed, Refusal> {
        let framed = h::read_header(message).map_err(refused)?;
        assert_eq!(matches!(framed.body, h::Body::Sealed(_)), framed.header.is_sealed());
        let body = place(framed.body.on_wire(), message).expect("a part of the message");
        Ok(Framed { header: header(framed.header), kind: kind(framed.header), body })
    }

    fn read_message(
        &mut self,
        message: &[u8],
        keys: &[u8],
        working: &mut [u8],
    ) -> Result<Message, Refusal> {
        let Some(keys) = keys_of(keys) else {
            return Second.read_message(message, keys, working);
        };
        let (start, length) = (working.as_ptr() as usize, working.len());
        let read = h::read(message, keys, working).map_err(refused)?;
        let payload = if read.header.is_sealed() {
            let from = read.payload.as_ptr() as usize - start;
            assert!(from + read.payload.len() <= length);
            Place::Working(from..from + read.payload.len())
        } else {
            Place::Message(place(read.payload, message).expect("a part of the message"))
        };
        Ok(Message { header: header(read.header), kind: kind(read.header), payload })
    }

    fn write_message(
        &mut self,
        header: &Header,
        chain: &[u8],
        payload: &[u8],
        keys: &[u8],
        output: &mut [u8],
    ) -> Result<usize, Refusal> {
        let (Some(keys), Some(kind)) =
            (keys_of(keys), h::MessageType::from_number(header.message_type))
        else {
            return Second.write_message(header, chain, payload, keys, output);
        };
        let Header { message_type: _, flags, sequence, request, index, count, session, channel } =
            *header;
        let header = h::Header {
            message_type: kind,
            flags,
            sequence,
            request,
            index,
            count,
            session,
            channel,
        };
        h::write(&header, chain, payload, keys, output).map_err(refused)
    }

    fn write_presence_request(&mut self, output: &mut [u8]) -> Result<usize, Refusal> {
        p::PresenceRequest.write(output).map_err(refused)
    }

    fn write_presence_response(
        &mut self,
        presence: Presence<'_>,
        output: &mut [u8],
    ) -> Result<usize, Refusal> {
        let Presence { mode, device, name, salt, hash } = presence;
        let Some(mode) = p::Mode::from_number(mode) else {
            return Second.write_presence_response(presence, output);
        };
        let device = p::DeviceType(device);
        let typed = p::Discovery::PresenceResponse(p::Presence { mode, device, name, salt, hash });
        typed.write(output).map_err(refused)
    }

    fn write_connect(
        &mut self,
        mode: u16,
        connect: Connect<'_>,
        output: &mut [u8],
    ) -> Result<usize, Refusal> {
        let Some(typed) = typed(mode, connect) else {
            return Second.write_connect(mode, connect, output);
        };
        typed.write(output).map_err(refused)
    }

    fn read_connect(&mut self, payload: &[u8]) -> Result<Parts, Refusal> {
        let read = p::Connect::read(payload).map_err(refused)?;
        Ok(parts_of(read, payload))
    }

    fn read_discovery(&mut self, payload: &[u8]) -> Result<DiscoveryParts, Refusal> {
        Ok(match p::Discovery::read(payload).map_err(refused)? {
            p::Discovery::PresenceRequest => DiscoveryParts::default(),
            p::Discovery::PresenceResponse(read) => presence_parts_of(read, payload),
            other => panic!("{other:?}"),
        })
    }

    fn wanted(&mut self, bytes: &[u8]) -> usize {
        h::wanted(bytes)
    }

    fn open(&mut self, fragment_size: u32) -> (Connection, Result<(), Refusal>) {
        match h::Connection::open(fragment_size as usize) {
            Ok(opened) => (decode(opened.as_bytes()), Ok(())),
            Err(by) => (Connection::default(), Err(refused(by))),
        }
    }

    fn step(
        &mut self,
        connection: Connection,
        message: &[u8],
        keys: &[u8],
        working: &mut [u8],
        report: &mut [u8],
        verdict: u64,
    ) -> (Connection, Answer) {
        let (Some(typed), 0..=1) = (keys_of(keys), verdict) else {
            return Second.step(connection, message, keys, working, report, verdict);
        };
        let mut hub = h::Connection::from_bytes(encode(&connection));
        let start = report.as_ptr();
        let short = connection.known_length().is_some_and(|length| report.len() < length);
        let stepped = hub.step(message, typed, working, report, verdict == 1);
        if short {
            assert_eq!(stepped, Err(h::Refusal::WrongBuffer));
            assert_eq!(*hub.as_bytes(), encode(&connection), "written beside a wrong buffer");
            return Second.step(connection, message, keys, working, report, verdict);
        }
        let answer = match stepped {
            Err(by) => Answer::Refused(refused(by)),
            Ok(h::Answer::Reply(reply)) => Answer::Reply(type_of(reply)),
            Ok(h::Answer::Again(reply)) => Answer::Again(type_of(reply)),
            Ok(h::Answer::Failure) => Answer::Failure,
            Ok(h::Answer::Taken { heard }) => Answer::Taken(heard as u32),
            Ok(h::Answer::Repeat { heard }) => Answer::Repeat(heard as u32),
            Ok(h::Answer::Complete { heard, report }) => {
                assert_eq!(report.as_ptr(), start, "the report does not begin with its buffer");
                Answer::Complete(report.len(), heard as u32)
            }
        };
        (decode(hub.as_bytes()), answer)
    }

    fn gateway_open(&mut self, fragment_size: u32, session: u64) -> (Client, Result<(), Refusal>) {
        match h::Gateway::open(fragment_size as usize, session) {
            Ok(opened) => (client_of(&opened), Ok(())),
            Err(by) => (Client::default(), Err(refused(by))),
        }
    }

    fn gateway_step(
        &mut self,
        client: Client,
        message: &[u8],
        keys: &[u8],
        working: &mut [u8],
        verdict: u64,
    ) -> (Client, client::Answer) {
        let (Some(typed), 0..=1) = (keys_of(keys), verdict) else {
            return Second.gateway_step(client, message, keys, working, verdict);
        };
        let mut gateway = h::Gateway::from_bytes(encode_gateway(&client));
        let answer = match gateway.step(message, typed, working, verdict == 1) {
            Err(by) => client::Answer::Refused(refused(by)),
            Ok(h::GatewayAnswer::Next(request)) => client::Answer::Next(type_of_request(request)),
            Ok(h::GatewayAnswer::Ready) => client::Answer::Ready,
            Ok(h::GatewayAnswer::Failed) => client::Answer::Failed,
            Ok(h::GatewayAnswer::Again(request)) => {
                client::Answer::Again(request.map(type_of_request))
            }
        };
        (client_of(&gateway), answer)
    }

    fn gateway_due(&mut self, client: Client) -> Option<u8> {
        h::Gateway::from_bytes(encode_gateway(&client)).due().map(type_of_request)
    }

    fn cut(&mut self, report: &[u8], fragment_size: u32, index: u32) -> Piece {
        match h::cut(report, fragment_size as usize, index as usize) {
            Ok(piece) => (piece.count, place(piece.bytes, report).expect("a part"), Ok(())),
            Err(by) => (0, 0..0, Err(refused(by))),
        }
    }

    fn line(&mut self, message: &[u8]) -> Result<String, Refusal> {
        h::list(message).map(|line| line.to_string()).map_err(refused)
    }

    fn sha256(&mut self, data: &[u8]) -> [u8; 32] {
        h::digest(data)
    }

    fn hmac(&mut self, key: &[u8; 32], data: &[u8]) -> [u8; 32] {
        h::hmac(key, data)
    }
}
