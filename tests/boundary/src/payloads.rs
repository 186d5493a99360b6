// SPDX-License-Identifier: MPL-2.0
//! The payloads' writers with words of any value and buffers of any size, and the reader of Discovery
//! payloads with any number of words. What they must answer is include/hub.h's rule of wrong buffers,
//! and for all else the second implementation.

use std::fmt::Debug;

use second::generate::{PayloadCase, PresenceCase, discovery_bytes, payload_case, presence_case};
use second::payload::{Offer, Presence, write_presence_request, write_presence_response};
use second::prng::Prng;
use second::refusal::Refusal;

use crate::hub::{BEFORE, number_of};
use crate::hub_h::{Hub, WRONG_BUFFER};

/// What a writer returns, and what output and length hold then.
type Outcome = (u32, Vec<u8>, Vec<u64>);

/// What was found is what was expected. Answers what was returned, and the payload, of no bytes if it
/// is refused.
fn compare(call: &dyn Debug, found: Outcome, expected: &Outcome) -> (u32, Vec<u8>) {
    let (number, mut out, length) = found;
    assert!(
        (number, &out, &length) == (expected.0, &expected.1, &expected.2),
        "{call:?}: {number} {length:?}, not {} {:?}; output alike: {}",
        expected.0,
        expected.2,
        out == expected.1
    );
    out.truncate(if number == 0 { length[0] as usize } else { 0 });
    (number, out)
}

/// A writer of payloads but the Presence Response's.
#[derive(Clone, Copy, Debug, PartialEq, Eq)]
pub enum Writer {
    /// `hub_write_presence_request`.
    PresenceRequest,
    /// `hub_write_connection_request`.
    ConnectionRequest,
    /// `hub_write_connection_response`.
    ConnectionResponse,
    /// `hub_write_device_authentication`.
    DeviceAuthentication,
    /// `hub_write_done_request`.
    DoneRequest,
    /// `hub_write_done_response`.
    DoneResponse,
}

use Writer::{ConnectionRequest, ConnectionResponse, DeviceAuthentication};
use Writer::{DoneRequest, DoneResponse, PresenceRequest};

impl Writer {
    /// All of them.
    pub const ALL: [Writer; 6] = [
        PresenceRequest,
        ConnectionRequest,
        ConnectionResponse,
        DeviceAuthentication,
        DoneRequest,
        DoneResponse,
    ];
}

/// A call of a writer: of what any of them takes, those look at some.
#[derive(Clone, Debug, PartialEq, Eq)]
pub struct Call {
    /// Which one.
    pub writer: Writer,
    /// The type of a Device Authentication.
    pub kind: u64,
    /// ConnectionMode.
    pub mode: u64,
    /// Result or Status.
    pub code: u64,
    /// Nonce.
    pub nonce: Vec<u8>,
    /// X.
    pub x: Vec<u8>,
    /// Y.
    pub y: Vec<u8>,
    /// Certificate.
    pub certificate: Vec<u8>,
    /// Thumbprint.
    pub thumbprint: Vec<u8>,
    /// The output.
    pub out: Vec<u8>,
    /// The words of the length.
    pub length: Vec<u64>,
}

impl Call {
    /// The call of this writer that a case describes.
    pub fn new(writer: Writer, case: PayloadCase) -> Call {
        let PayloadCase { kind, mode, code, offer, certificate, thumbprint, output } = case;
        Call {
            writer,
            kind: kind.into(),
            mode: mode.into(),
            code: code.into(),
            nonce: offer.nonce.to_vec(),
            x: offer.x.to_vec(),
            y: offer.y.to_vec(),
            certificate,
            thumbprint,
            out: output,
            length: vec![BEFORE],
        }
    }

    /// Whether the payload has nonce, X and Y.
    pub fn has_offer(&self) -> bool {
        match self.writer {
            ConnectionRequest => true,
            ConnectionResponse => self.code == 1,
            _ => false,
        }
    }

    /// Whether a buffer of fixed size that the call looks at has another size, or a word that it
    /// looks at is too wide for its field.
    fn is_wrong(&self) -> bool {
        let sizes = (self.nonce.len(), self.x.len(), self.y.len());
        let wide = match self.writer {
            PresenceRequest => false,
            ConnectionRequest | DoneRequest => self.mode > 0xFFFF,
            ConnectionResponse | DoneResponse => self.mode > 0xFFFF || self.code > 0xFF,
            DeviceAuthentication => self.mode > 0xFFFF || self.kind > 0xFF,
        };
        self.length.len() != 1 || wide || (self.has_offer() && sizes != (8, 32, 32))
    }

    /// The call by the second implementation: the answer, and the output after it.
    fn by_second(&self) -> (Result<usize, Refusal>, Vec<u8>) {
        let kind = match self.writer {
            PresenceRequest => {
                let mut output = self.out.clone();
                return (write_presence_request(&mut output), output);
            }
            ConnectionRequest => 0,
            ConnectionResponse => 1,
            DeviceAuthentication if matches!(self.kind, 2 | 3) => self.kind as u8,
            DeviceAuthentication => return (Err(Refusal::Payload), self.out.clone()),
            DoneRequest => 6,
            DoneResponse => 7,
        };
        let part = |bytes: &[u8]| bytes.try_into().unwrap_or([0; 32]);
        let nonce = self.nonce[..].try_into().unwrap_or_default();
        let mut case = PayloadCase {
            kind,
            mode: self.mode as u16,
            code: self.code as u8,
            offer: Offer { nonce, x: part(&self.x), y: part(&self.y) },
            certificate: self.certificate.clone(),
            thumbprint: self.thumbprint.clone(),
            output: self.out.clone(),
        };
        (case.write(), case.output)
    }

    /// What must be returned, and what output and length must hold then.
    fn expected(&self) -> Outcome {
        if self.is_wrong() {
            return (WRONG_BUFFER, self.out.clone(), self.length.clone());
        }
        let (answer, output) = self.by_second();
        (number_of(&answer), output, vec![answer.unwrap_or(0) as u64])
    }

    /// What is returned, and what output and length hold then.
    fn made(&self, hub: &mut Hub) -> Outcome {
        let Call { kind, mode, code, certificate, thumbprint, .. } = self;
        let offer = [&self.nonce[..], &self.x, &self.y];
        let (mut out, mut length) = (self.out.clone(), self.length.clone());
        let (o, l) = (&mut out, &mut length);
        let number = match self.writer {
            PresenceRequest => hub.write_presence_request(o, l),
            ConnectionRequest => hub.write_connection_request(*mode, offer, o, l),
            ConnectionResponse => hub.write_connection_response(*mode, *code, offer, o, l),
            DeviceAuthentication => {
                hub.write_device_authentication(*kind, *mode, certificate, thumbprint, o, l)
            }
            DoneRequest => hub.write_done_request(*mode, o, l),
            DoneResponse => hub.write_done_response(*mode, *code, o, l),
        };
        (number, out, length)
    }

    /// Makes the call and compares all that it may change. Answers what was returned, and the payload,
    /// of no bytes if it is refused.
    pub fn judge(&self, hub: &mut Hub) -> (u32, Vec<u8>) {
        compare(self, self.made(hub), &self.expected())
    }
}

/// A call with words that may be wider than their fields and buffers that may have another size, now
/// and then with values that were meant for another writer.
pub fn any_call(prng: &mut Prng) -> Call {
    let case = payload_case(prng);
    let own = match case.kind {
        0 => ConnectionRequest,
        1 => ConnectionResponse,
        2 | 3 => DeviceAuthentication,
        6 => DoneRequest,
        _ => DoneResponse,
    };
    let writer = if prng.chance(80) { own } else { prng.pick(&Writer::ALL) };
    let mut call = Call::new(writer, case);
    if prng.chance(10) {
        call.kind = prng.pick(&[0, 1, 4, 5, 6, 255]);
    }
    if prng.chance(20) {
        let wide = 1 << prng.pick(&[8, 9, 16, 17, 31, 32, 33, 63]);
        match prng.below(3) {
            0 => call.kind += wide,
            1 => call.mode += wide,
            _ => call.code += wide,
        }
    }
    if prng.chance(20) {
        let size = prng.pick(&[0, 1, 7, 8, 9, 31, 32, 33, 100]);
        match prng.below(4) {
            0 => call.nonce.resize(size, 1),
            1 => call.x.resize(size, 2),
            2 => call.y.resize(size, 3),
            _ => call.length.resize(size % 4, BEFORE),
        }
    }
    call
}

/// A call of any payload's writer.
pub fn any_payload(hub: &mut Hub, prng: &mut Prng) {
    any_call(prng).judge(hub);
}

/// A call of `hub_write_presence_response`.
#[derive(Clone, Debug, PartialEq, Eq)]
pub struct PresenceCall {
    /// ConnectionMode.
    pub mode: u64,
    /// DeviceType.
    pub device: u64,
    /// The name.
    pub name: Vec<u8>,
    /// DeviceIdSalt.
    pub salt: Vec<u8>,
    /// DeviceIdHash.
    pub hash: Vec<u8>,
    /// The output.
    pub out: Vec<u8>,
    /// The words of the length.
    pub length: Vec<u64>,
}

impl PresenceCall {
    /// The call that a case describes.
    pub fn new(case: PresenceCase) -> PresenceCall {
        let PresenceCase { mode, device, name, salt, hash, output } = case;
        PresenceCall {
            mode: mode.into(),
            device: device.into(),
            name,
            salt: salt.to_vec(),
            hash: hash.to_vec(),
            out: output,
            length: vec![BEFORE],
        }
    }

    /// What must be returned, and what output and length must hold then. A wrong buffer is a salt, a
    /// hash or a length of another size, or a word too wide for its field.
    fn expected(&self) -> Outcome {
        let (mut out, mut length) = (self.out.clone(), self.length.clone());
        let words = (u16::try_from(self.mode), u16::try_from(self.device));
        let parts = (self.salt[..].try_into(), self.hash[..].try_into());
        let ((Ok(mode), Ok(device)), (Ok(salt), Ok(hash)), [written]) =
            (words, parts, &mut length[..])
        else {
            return (WRONG_BUFFER, out, length);
        };
        let presence = Presence { mode, device, name: &self.name, salt, hash };
        let answer = write_presence_response(presence, &mut out);
        *written = answer.unwrap_or(0) as u64;
        (number_of(&answer), out, length)
    }

    /// What is returned, and what output and length hold then.
    fn made(&self, hub: &mut Hub) -> Outcome {
        let (mut out, mut length) = (self.out.clone(), self.length.clone());
        let parts = [&self.name[..], &self.salt, &self.hash];
        let (mode, device) = (self.mode, self.device);
        let number = hub.write_presence_response(mode, device, parts, &mut out, &mut length);
        (number, out, length)
    }

    /// Makes the call and compares all that it may change. Answers what was returned, and the payload,
    /// of no bytes if it is refused.
    pub fn judge(&self, hub: &mut Hub) -> (u32, Vec<u8>) {
        compare(self, self.made(hub), &self.expected())
    }
}

/// A call with words that may be wider than their fields and buffers that may have another size.
fn any_presence_call(prng: &mut Prng) -> PresenceCall {
    let mut call = PresenceCall::new(presence_case(prng));
    if prng.chance(20) {
        let wide = 1 << prng.pick(&[16, 17, 31, 32, 33, 63]);
        let word = if prng.chance(50) { &mut call.mode } else { &mut call.device };
        *word += wide;
    }
    if prng.chance(20) {
        let size = prng.between(0, 8);
        match prng.below(3) {
            0 => call.salt.resize(size, 1),
            1 => call.hash.resize(size, 2),
            _ => call.length.resize(size % 4, BEFORE),
        }
    }
    call
}

/// The reader of Discovery payloads with so many words, which are not nine: nothing changes. Answers
/// what was returned.
pub fn read_into(hub: &mut Hub, payload: &[u8], size: usize) -> u32 {
    let mut words = vec![BEFORE; size];
    let number = hub.read_discovery(payload, &mut words);
    assert!(words == vec![BEFORE; size], "{payload:?}: {number}, and {size} words are {words:?}");
    number
}

/// A call of the Presence Response's writer, and one of the reader of Discovery payloads whose words
/// are too few or too many.
pub fn any_presence(hub: &mut Hub, prng: &mut Prng) {
    any_presence_call(prng).judge(hub);
    let (payload, size) = (discovery_bytes(prng), prng.between(0, 20));
    let size = if size == 9 { 0 } else { size };
    assert_eq!(read_into(hub, &payload, size), WRONG_BUFFER, "{payload:?} {size}");
}
