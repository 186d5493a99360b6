// SPDX-License-Identifier: MPL-2.0
//! Messages of each kind and size: written, and read back.

use second::compare::{Comparison, Implementation};
use second::header::{Header, Kind};
use second::payload::{Connect, Credentials, Offer, Payload};

use super::trial::{Writing, fields, noise};
use super::{Tried, each, pairs};

/// Chains of no entry, of one and of eight.
pub const CHAINS: [&[u8]; 3] = [
    b"\x00\x00",
    b"\x02\x03jkl\x00\x00",
    b"\x01\x00\x02\x01a\x03\x02bc\x01\x03def\x02\x00\x03\x01g\x01\x02hi\x02\x03jkl\x00\x00",
];

/// Sizes on both sides of the padding rule's edges and the largest, each with its sealed part's.
pub const SIZES: [(usize, usize); 10] = [
    (0, 16),
    (1, 16),
    (11, 16),
    (12, 16),
    (13, 32),
    (27, 32),
    (28, 32),
    (29, 48),
    (16_383, 16_400),
    (16_384, 16_400),
];

/// A Session message with a payload and sealed part of these sizes, the last of five pieces.
pub fn piece(chain: &[u8], (size, sealed): (usize, usize)) -> Writing {
    let header = Header { index: 4, count: 5, ..fields(Kind::Session, 14) };
    Writing::new(header, chain, &noise(size), 40 + chain.len() + sealed + 32)
}

fn pieces() -> impl Iterator<Item = Writing> {
    pairs(CHAINS, SIZES).into_iter().map(|(chain, sizes)| piece(chain, sizes))
}

/// Session messages of each size with each chain.
pub fn session<I: Implementation>(comparison: &mut Comparison<I>) -> Tried {
    each(comparison, pieces(), |piece, comparison| piece.there_and_back(comparison).map(|_| ()))
}

/// The Presence Request, and a Connect payload of each type: the message's kind, flags and payload,
/// and its bytes without the chain.
fn payloads() -> [(Kind, u16, Payload<'static>, usize); 8] {
    use Connect::{AuthenticationRequest, AuthenticationResponse, DoneRequest, DoneResponse};
    use Connect::{ConnectionPending, ConnectionRequest, ConnectionResult};
    let offer = Offer { nonce: [7; 8], x: [8; 32], y: [9; 32] };
    let shown = |thumbprint| Credentials { certificate: b"certificate", thumbprint };
    let plain = |mode, connect, length| (Kind::Connect, 1, Payload::Connect(mode, connect), length);
    let sealed = |connect, length| (Kind::Connect, 14, Payload::Connect(1, connect), length);
    [
        (Kind::Discovery, 1, Payload::PresenceRequest, 41),
        plain(2, ConnectionRequest(offer), 126),
        plain(1, ConnectionPending(offer), 126),
        plain(0, ConnectionResult(3), 44),
        sealed(AuthenticationRequest(shown(b"")), 104),
        sealed(AuthenticationResponse(shown(b"print")), 104),
        sealed(DoneRequest, 88),
        sealed(DoneResponse(4), 88),
    ]
}

/// The Presence Request and Connect messages of each type with each chain.
pub fn connect<I: Implementation>(comparison: &mut Comparison<I>) -> Tried {
    let cases = pairs(CHAINS, payloads()).into_iter().map(|(chain, described)| {
        let (kind, flags, payload, length) = described;
        Writing::new(fields(kind, flags), chain, &payload.to_bytes(), length + chain.len())
    });
    each(comparison, cases, |case, comparison| case.there_and_back(comparison).map(|_| ()))
}

/// 22: Session messages of each size with each chain, whose output is one byte short.
pub fn output_short<I: Implementation>(comparison: &mut Comparison<I>) -> Tried {
    let cases = pieces().map(|mut piece| {
        piece.case.output.truncate(piece.case.output.len() - 2);
        Writing { expected: Err(22), ..piece }
    });
    each(comparison, cases, |case, comparison| case.judge(comparison).map(|_| ()))
}
