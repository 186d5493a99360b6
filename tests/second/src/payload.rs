// SPDX-License-Identifier: MPL-2.0
//! What a payload may be: the Presence Request or Response, six Connect payloads, or a piece of a
//! report. Reading and judging them, where the parts of a Discovery or Connect payload lie, and
//! writing them: refusals 14 and 22.

use std::ops::Range;

use crate::bytes::Cursor;
use crate::header::Kind;
use crate::refusal::{Refusal, require};

/// HMACSize in every Connection Request and Response.
pub const HMAC_SIZE: u16 = 32;
/// The fragment size that every Connection Request and Response names, and the largest F.
pub const FRAGMENT_SIZE: u32 = 16_384;
/// Most of ConnectionMode, of a Result, and of a Status.
const MOST_MODE: u16 = 2;
const MOST_RESULT: u8 = 3;
const MOST_STATUS: u8 = 4;
/// Length of X and of Y.
pub const KEY_LENGTH: u16 = 32;
/// Longest certificate.
pub const MOST_CERTIFICATE: u16 = 2_048;
/// Longest thumbprint.
pub const MOST_THUMBPRINT: u16 = 512;
/// Longest name of a device.
pub const MOST_NAME: u16 = 64;

/// What one side brings to the key agreement.
#[derive(Clone, Copy, Debug, PartialEq, Eq)]
pub struct Offer {
    /// Nonce.
    pub nonce: [u8; 8],
    /// X.
    pub x: [u8; 32],
    /// Y.
    pub y: [u8; 32],
}

/// A certificate and its thumbprint.
#[derive(Clone, Copy, Debug, PartialEq, Eq)]
pub struct Credentials<'a> {
    /// 1 to 2,048 bytes.
    pub certificate: &'a [u8],
    /// 0 to 512 bytes.
    pub thumbprint: &'a [u8],
}

/// What comes after a Connect payload's ConnectionMode and type byte.
#[derive(Clone, Copy, Debug, PartialEq, Eq)]
pub enum Connect<'a> {
    /// Type 0, plain.
    ConnectionRequest(Offer),
    /// Type 1 with Result 1, plain.
    ConnectionPending(Offer),
    /// Type 1 with another Result (0, 2 or 3), plain.
    ConnectionResult(u8),
    /// Type 2, sealed.
    AuthenticationRequest(Credentials<'a>),
    /// Type 3, sealed.
    AuthenticationResponse(Credentials<'a>),
    /// Type 6, sealed.
    DoneRequest,
    /// Type 7 with its Status, sealed.
    DoneResponse(u8),
}

/// What comes after a Presence Response's DiscoveryType.
#[derive(Clone, Copy, Debug, PartialEq, Eq)]
pub struct Presence<'a> {
    /// ConnectionMode, 0 to 2.
    pub mode: u16,
    /// DeviceType, any number.
    pub device: u16,
    /// 0 to 64 bytes, whatever they are.
    pub name: &'a [u8],
    /// DeviceIdSalt.
    pub salt: [u8; 4],
    /// DeviceIdHash: 000's text has 4 bytes, its example 32.
    pub hash: [u8; 4],
}

/// A payload as it should be.
#[derive(Clone, Copy, Debug, PartialEq, Eq)]
pub enum Payload<'a> {
    /// Discovery's payload of DiscoveryType 0.
    PresenceRequest,
    /// Discovery's payload of DiscoveryType 1.
    PresenceResponse(Presence<'a>),
    /// A Connect payload with its ConnectionMode.
    Connect(u16, Connect<'a>),
    /// A Session payload: any bytes.
    Piece(&'a [u8]),
}

/// What `bytes` say as the payload of a message of this kind; refuses with 14.
pub fn read_payload(kind: Kind, sealed: bool, bytes: &[u8]) -> Result<Payload<'_>, Refusal> {
    let payload = match kind {
        Kind::Discovery => discovery(bytes),
        Kind::Connect => connect(sealed, bytes).map(|(mode, read)| Payload::Connect(mode, read)),
        Kind::Session => Some(Payload::Piece(bytes)),
    };
    payload.ok_or(Refusal::Payload)
}

fn discovery(bytes: &[u8]) -> Option<Payload<'_>> {
    let mut rest = Cursor::new(bytes);
    let payload = match rest.u8()? {
        0 => Payload::PresenceRequest,
        1 => Payload::PresenceResponse(presence(&mut rest)?),
        _ => return None,
    };
    (rest.left() == 0).then_some(payload)
}

fn presence<'a>(rest: &mut Cursor<'a>) -> Option<Presence<'a>> {
    let mode = rest.u16().filter(|mode| *mode <= MOST_MODE)?;
    let device = rest.u16()?;
    let length = rest.u16().filter(|n| *n <= MOST_NAME)?;
    let name = rest.take(length.into())?;
    Some(Presence { mode, device, name, salt: rest.array()?, hash: rest.array()? })
}

fn connect(sealed: bool, bytes: &[u8]) -> Option<(u16, Connect<'_>)> {
    let mut rest = Cursor::new(bytes);
    let mode = rest.u16().filter(|mode| *mode <= MOST_MODE)?;
    let connect = match (rest.u8()?, sealed) {
        (0, false) => {
            fixed(rest.u8()?, 0)?;
            Connect::ConnectionRequest(offer(&mut rest)?)
        }
        (1, false) => match rest.u8()? {
            1 => Connect::ConnectionPending(offer(&mut rest)?),
            result => Connect::ConnectionResult(Some(result).filter(|r| *r <= MOST_RESULT)?),
        },
        (2, true) => Connect::AuthenticationRequest(credentials(&mut rest)?),
        (3, true) => Connect::AuthenticationResponse(credentials(&mut rest)?),
        (6, true) => Connect::DoneRequest,
        (7, true) => Connect::DoneResponse(rest.u8().filter(|status| *status <= MOST_STATUS)?),
        _ => return None,
    };
    (rest.left() == 0).then_some((mode, connect))
}

/// The fields from HMACSize on.
fn offer(rest: &mut Cursor<'_>) -> Option<Offer> {
    fixed(rest.u16()?, HMAC_SIZE)?;
    let nonce = rest.array()?;
    fixed(rest.u32()?, FRAGMENT_SIZE)?;
    fixed(rest.u16()?, KEY_LENGTH)?;
    let x = rest.array()?;
    fixed(rest.u16()?, KEY_LENGTH)?;
    let y = rest.array()?;
    Some(Offer { nonce, x, y })
}

fn credentials<'a>(rest: &mut Cursor<'a>) -> Option<Credentials<'a>> {
    let length = rest.u16().filter(|c| (1..=MOST_CERTIFICATE).contains(c))?;
    let certificate = rest.take(length.into())?;
    let length = rest.u16().filter(|t| *t <= MOST_THUMBPRINT)?;
    let thumbprint = rest.take(length.into())?;
    Some(Credentials { certificate, thumbprint })
}

/// A field that has but one value.
fn fixed<T: PartialEq>(found: T, value: T) -> Option<()> {
    (found == value).then_some(())
}

/// What stands in a Connect payload, and where: a part that its type does not have is empty, at the
/// payload's start.
#[derive(Clone, Debug, Default, PartialEq, Eq)]
pub struct Parts {
    /// Its type.
    pub kind: u8,
    /// ConnectionMode.
    pub mode: u16,
    /// Result or Status; 0 where the type has neither.
    pub code: u8,
    /// Nonce.
    pub nonce: Range<usize>,
    /// X.
    pub x: Range<usize>,
    /// Y.
    pub y: Range<usize>,
    /// Certificate.
    pub certificate: Range<usize>,
    /// Thumbprint.
    pub thumbprint: Range<usize>,
}

/// The parts of a Connect payload, whether it came plain or sealed; refuses with 14.
pub fn read_connect(bytes: &[u8]) -> Result<Parts, Refusal> {
    let (mode, connect) =
        connect(false, bytes).or_else(|| connect(true, bytes)).ok_or(Refusal::Payload)?;
    let parts = match connect {
        Connect::ConnectionRequest(_) => offered(0, 0),
        Connect::ConnectionPending(_) => offered(1, 1),
        Connect::ConnectionResult(result) => Parts { kind: 1, code: result, ..Parts::default() },
        Connect::AuthenticationRequest(shown) => shown.parts(2),
        Connect::AuthenticationResponse(shown) => shown.parts(3),
        Connect::DoneRequest => Parts { kind: 6, ..Parts::default() },
        Connect::DoneResponse(status) => Parts { kind: 7, code: status, ..Parts::default() },
    };
    Ok(Parts { mode, ..parts })
}

/// The parts of a payload of 86 bytes: 4 before HMACSize (2), the nonce, the fragment size (4), and
/// X and Y, each with its length (2) in front.
fn offered(kind: u8, code: u8) -> Parts {
    Parts { kind, code, nonce: 6..14, x: 20..52, y: 54..86, ..Parts::default() }
}

/// What stands in a Discovery payload, and where: of a Presence Request all is 0, each part empty at
/// the payload's start.
#[derive(Clone, Debug, Default, PartialEq, Eq)]
pub struct DiscoveryParts {
    /// DiscoveryType.
    pub kind: u8,
    /// ConnectionMode.
    pub mode: u16,
    /// DeviceType.
    pub device: u16,
    /// Name.
    pub name: Range<usize>,
    /// DeviceIdSalt.
    pub salt: Range<usize>,
    /// DeviceIdHash.
    pub hash: Range<usize>,
}

/// The parts of a Discovery payload; refuses with 14.
pub fn read_discovery(bytes: &[u8]) -> Result<DiscoveryParts, Refusal> {
    match discovery(bytes).ok_or(Refusal::Payload)? {
        Payload::PresenceResponse(presence) => Ok(presence.parts()),
        _ => Ok(DiscoveryParts::default()),
    }
}

/// Writes a Presence Request's payload at the front of `output` and answers its length; refuses with
/// 22. A refusal leaves the output as it was, a success what is beyond the payload.
pub fn write_presence_request(output: &mut [u8]) -> Result<usize, Refusal> {
    put(&Payload::PresenceRequest.to_bytes(), output)
}

/// The same for a Presence Response's payload; refuses with 14 what [`read_payload`] would, then
/// with 22.
pub fn write_presence_response(
    presence: Presence<'_>,
    output: &mut [u8],
) -> Result<usize, Refusal> {
    require(presence.is_allowed(), Refusal::Payload)?;
    put(&Payload::PresenceResponse(presence).to_bytes(), output)
}

/// The same for a Connect payload; refuses with 14 what [`read_payload`] would, then with 22.
pub fn write_connect(mode: u16, connect: Connect<'_>, output: &mut [u8]) -> Result<usize, Refusal> {
    require(mode <= MOST_MODE && connect.is_allowed(), Refusal::Payload)?;
    put(&Payload::Connect(mode, connect).to_bytes(), output)
}

fn put(bytes: &[u8], output: &mut [u8]) -> Result<usize, Refusal> {
    output.get_mut(..bytes.len()).ok_or(Refusal::Room)?.copy_from_slice(bytes);
    Ok(bytes.len())
}

impl Payload<'_> {
    /// The payload's bytes.
    pub fn to_bytes(&self) -> Vec<u8> {
        match self {
            Payload::PresenceRequest => vec![0],
            Payload::PresenceResponse(presence) => [&[1][..], &presence.to_bytes()].concat(),
            Payload::Connect(mode, connect) => {
                [&mode.to_be_bytes()[..], &connect.to_bytes()].concat()
            }
            Payload::Piece(bytes) => bytes.to_vec(),
        }
    }
}

impl Presence<'_> {
    /// Whether its values are within their bounds.
    fn is_allowed(&self) -> bool {
        self.mode <= MOST_MODE && self.name.len() <= MOST_NAME.into()
    }

    /// Where they lie: 7 bytes, the last 2 of them the name's length, then one after the other.
    fn parts(&self) -> DiscoveryParts {
        let (mode, device) = (self.mode, self.device);
        let name = 7..7 + self.name.len();
        let salt = name.end..name.end + 4;
        let hash = salt.end..salt.end + 4;
        DiscoveryParts { kind: 1, mode, device, name, salt, hash }
    }

    fn to_bytes(self) -> Vec<u8> {
        let length = (self.name.len() as u16).to_be_bytes();
        let (mode, device) = (self.mode.to_be_bytes(), self.device.to_be_bytes());
        [&mode[..], &device, &length, self.name, &self.salt, &self.hash].concat()
    }
}

impl Connect<'_> {
    /// Whether its values are within their bounds. (Result 1 has an offer.)
    fn is_allowed(&self) -> bool {
        match self {
            Connect::ConnectionRequest(_) | Connect::ConnectionPending(_) => true,
            Connect::ConnectionResult(result) => *result != 1 && *result <= MOST_RESULT,
            Connect::AuthenticationRequest(shown) | Connect::AuthenticationResponse(shown) => {
                (1..=MOST_CERTIFICATE.into()).contains(&shown.certificate.len())
                    && shown.thumbprint.len() <= MOST_THUMBPRINT.into()
            }
            Connect::DoneRequest => true,
            Connect::DoneResponse(status) => *status <= MOST_STATUS,
        }
    }

    fn to_bytes(self) -> Vec<u8> {
        match self {
            Connect::ConnectionRequest(offer) => [&[0, 0][..], &offer.to_bytes()].concat(),
            Connect::ConnectionPending(offer) => [&[1, 1][..], &offer.to_bytes()].concat(),
            Connect::ConnectionResult(result) => vec![1, result],
            Connect::AuthenticationRequest(shown) => [&[2][..], &shown.to_bytes()].concat(),
            Connect::AuthenticationResponse(shown) => [&[3][..], &shown.to_bytes()].concat(),
            Connect::DoneRequest => vec![6],
            Connect::DoneResponse(status) => vec![7, status],
        }
    }
}

impl Offer {
    fn to_bytes(self) -> Vec<u8> {
        let (hmac_size, key_length) = (HMAC_SIZE.to_be_bytes(), KEY_LENGTH.to_be_bytes());
        let fragment_size = FRAGMENT_SIZE.to_be_bytes();
        [&hmac_size[..], &self.nonce, &fragment_size, &key_length, &self.x, &key_length, &self.y]
            .concat()
    }
}

impl Credentials<'_> {
    /// Where they lie: 3 bytes, then each with its length (2) in front.
    fn parts(&self, kind: u8) -> Parts {
        let certificate = 5..5 + self.certificate.len();
        let thumbprint = certificate.end + 2..certificate.end + 2 + self.thumbprint.len();
        Parts { kind, certificate, thumbprint, ..Parts::default() }
    }

    fn to_bytes(self) -> Vec<u8> {
        let length = |part: &[u8]| (part.len() as u16).to_be_bytes();
        let (certificate, thumbprint) = (self.certificate, self.thumbprint);
        [&length(certificate), certificate, &length(thumbprint), thumbprint].concat()
    }
}
