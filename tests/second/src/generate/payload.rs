// SPDX-License-Identifier: MPL-2.0
//! Calls of the payloads' writers, and bytes for their readers.

use super::fault::{change_byte, change_length};
use super::{discovery, gateway};
use crate::gateway::Gateway;
use crate::payload::{Connect, Credentials, Offer, Payload, Presence};
use crate::payload::{write_connect, write_presence_response};
use crate::prng::Prng;
use crate::refusal::Refusal;

/// All that a writer of Connect payloads takes.
#[derive(Clone, Debug, PartialEq, Eq)]
pub struct PayloadCase {
    /// The type: 0, 1, 2, 3, 6, and 7 for any other.
    pub kind: u8,
    /// ConnectionMode.
    pub mode: u16,
    /// Result or Status, where the type has one.
    pub code: u8,
    /// Nonce, X and Y, where the type has them.
    pub offer: Offer,
    /// The certificate, where the type has one.
    pub certificate: Vec<u8>,
    /// The thumbprint, where the type has one.
    pub thumbprint: Vec<u8>,
    /// The output.
    pub output: Vec<u8>,
}

impl PayloadCase {
    /// What comes after ConnectionMode and type byte.
    pub fn connect(&self) -> Connect<'_> {
        let shown = Credentials { certificate: &self.certificate, thumbprint: &self.thumbprint };
        match (self.kind, self.code) {
            (0, _) => Connect::ConnectionRequest(self.offer),
            (1, 1) => Connect::ConnectionPending(self.offer),
            (1, result) => Connect::ConnectionResult(result),
            (2, _) => Connect::AuthenticationRequest(shown),
            (3, _) => Connect::AuthenticationResponse(shown),
            (6, _) => Connect::DoneRequest,
            (_, status) => Connect::DoneResponse(status),
        }
    }

    /// The bytes of the payload, whatever its values are.
    pub fn bytes(&self) -> Vec<u8> {
        Payload::Connect(self.mode, self.connect()).to_bytes()
    }

    /// The call, whose change to the output stays in the case.
    pub fn write(&mut self) -> Result<usize, Refusal> {
        let mut output = std::mem::take(&mut self.output);
        let written = write_connect(self.mode, self.connect(), &mut output);
        self.output = output;
        written
    }
}

/// A call of a writer of Connect payloads with 0 to 2 values out of their bounds.
pub fn payload_case(prng: &mut Prng) -> PayloadCase {
    let Gateway { mode, offer, certificate, thumbprint, .. } = gateway(prng);
    let (kind, code) = (prng.pick(&[0, 1, 1, 2, 3, 6, 7]), prng.below(4) as u8);
    let output = Vec::new();
    let mut case = PayloadCase { kind, mode, code, offer, certificate, thumbprint, output };
    for _ in 0..prng.pick(&[0, 0, 0, 1, 2]) {
        spoil(prng, &mut case);
    }
    case.output = some_output(prng, case.bytes().len());
    case
}

/// Room for a payload of this length, or about.
fn some_output(prng: &mut Prng, length: usize) -> Vec<u8> {
    let room = match prng.below(10) {
        0 => length - 1,
        1 => length,
        2 => prng.below(length),
        _ => length + prng.below(40),
    };
    prng.bytes(room)
}

/// A value at its bound or beyond.
fn spoil(prng: &mut Prng, case: &mut PayloadCase) {
    match prng.below(4) {
        0 => case.mode = prng.pick(&[2, 3, 255, 256, 257, u16::MAX]),
        1 => case.code = prng.pick(&[3, 4, 5, 128, 255]),
        2 => case.certificate.resize(prng.pick(&[0, 1, 2_048, 2_049, 65_536, 65_537]), 0xCE),
        _ => case.thumbprint.resize(prng.pick(&[0, 512, 513, 65_536, 65_600]), 0x7B),
    }
}

/// All that the writer of a Presence Response's payload takes.
#[derive(Clone, Debug, PartialEq, Eq)]
pub struct PresenceCase {
    /// ConnectionMode.
    pub mode: u16,
    /// DeviceType.
    pub device: u16,
    /// The name.
    pub name: Vec<u8>,
    /// DeviceIdSalt.
    pub salt: [u8; 4],
    /// DeviceIdHash.
    pub hash: [u8; 4],
    /// The output.
    pub output: Vec<u8>,
}

impl PresenceCase {
    /// What comes after DiscoveryType.
    pub fn presence(&self) -> Presence<'_> {
        let PresenceCase { mode, device, ref name, salt, hash, .. } = *self;
        Presence { mode, device, name, salt, hash }
    }

    /// The bytes of the payload, whatever its values are.
    pub fn bytes(&self) -> Vec<u8> {
        Payload::PresenceResponse(self.presence()).to_bytes()
    }

    /// The call, whose change to the output stays in the case.
    pub fn write(&mut self) -> Result<usize, Refusal> {
        let mut output = std::mem::take(&mut self.output);
        let written = write_presence_response(self.presence(), &mut output);
        self.output = output;
        written
    }
}

/// A call of the writer of a Presence Response's payload. Its mode and its name may be at their
/// bounds or beyond.
pub fn presence_case(prng: &mut Prng) -> PresenceCase {
    let (mode, device) = (prng.below(3) as u16, prng.word() as u16);
    let (salt, hash) = (prng.array(), prng.array());
    let length = prng.between(0, 64);
    let (name, output) = (prng.bytes(length), Vec::new());
    let mut case = PresenceCase { mode, device, name, salt, hash, output };
    if prng.chance(30) {
        case.mode = prng.pick(&[0, 1, 2, 3, 255, 256, u16::MAX]);
    }
    if prng.chance(50) {
        // From 65,536 on a length of 2 bytes is one that a name may have.
        let wrapping = prng.between(65_535, 65_600);
        case.name.resize(prng.pick(&[0, 1, 63, 64, 64, 65, 80, 255, 256, 257, wrapping]), 0x4E);
    }
    case.output = some_output(prng, case.bytes().len());
    case
}

/// Bytes for the reader of Connect payloads: those of a payload, mostly changed, or any.
pub fn connect_bytes(prng: &mut Prng) -> Vec<u8> {
    changed(prng, |prng| payload_case(prng).bytes())
}

/// The same for the reader of Discovery payloads.
pub fn discovery_bytes(prng: &mut Prng) -> Vec<u8> {
    changed(prng, |prng| discovery(prng).payload)
}

fn changed(prng: &mut Prng, payload: fn(&mut Prng) -> Vec<u8>) -> Vec<u8> {
    if prng.chance(5) {
        let length = prng.below(120);
        return prng.bytes(length);
    }
    let mut bytes = payload(prng);
    for _ in 0..prng.pick(&[0, 0, 1, 1, 2]) {
        if prng.chance(70) {
            change_byte(prng, &mut bytes);
        } else {
            change_length(prng, &mut bytes);
        }
    }
    bytes
}
