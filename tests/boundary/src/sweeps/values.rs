// SPDX-License-Identifier: MPL-2.0
//! The payloads' writers: each value at its bounds and beyond, the output at every size, buffers of
//! fixed size at every other. What must be written is laid out here, place by place.

use second::compare::{Comparison, Difference};
use second::generate::PayloadCase;
use second::payload::Offer;

use super::payload::with;
use super::trial::noise;
use super::{Tried, as_expected, each, pairs};
use crate::hub_h::{Hub, WRONG_BUFFER};
use crate::payloads::Writer::{ConnectionRequest, ConnectionResponse, DeviceAuthentication};
use crate::payloads::Writer::{DoneRequest, DoneResponse, PresenceRequest};
use crate::payloads::{Call, Writer};

/// Words for ConnectionMode: its bounds, what its lower bits are in bounds of, and the widest.
pub const MODES: [u64; 15] = [
    0,
    1,
    2,
    3,
    255,
    256,
    257,
    258,
    65_535,
    65_536,
    65_537,
    1 << 32,
    (1 << 32) + 1,
    1 << 63,
    u64::MAX,
];

/// The same for Result, Status and type.
const CODES: [u64; 23] = [
    0,
    1,
    2,
    3,
    4,
    5,
    6,
    7,
    8,
    128,
    255,
    256,
    257,
    258,
    259,
    65_536,
    65_537,
    65_538,
    1 << 32,
    (1 << 32) + 1,
    (1 << 32) + 2,
    1 << 63,
    u64::MAX,
];

/// Lengths of certificates, and of thumbprints.
const CERTIFICATES: [usize; 9] = [0, 1, 2, 2_047, 2_048, 2_049, 65_535, 65_536, 65_537];
const THUMBPRINTS: [usize; 7] = [0, 1, 511, 512, 513, 65_536, 65_537];

/// A good call, with room for more than its payload.
pub fn call(writer: Writer, mode: u64, code: u64) -> Call {
    let bytes = noise(72);
    let part = |from: usize| bytes[from..from + 32].try_into().expect("32 bytes");
    let nonce = bytes[..8].try_into().expect("8 bytes");
    let case = PayloadCase {
        kind: 2,
        mode: 0,
        code: 0,
        offer: Offer { nonce, x: part(8), y: part(40) },
        certificate: b"certificate".to_vec(),
        thumbprint: b"print".to_vec(),
        output: vec![0xEE; 100],
    };
    Call { mode, code, ..Call::new(writer, case) }
}

/// A Device Authentication with credentials of these lengths.
pub fn device(kind: u64, mode: u64, certificate: usize, thumbprint: usize) -> Call {
    Call {
        kind,
        certificate: noise(certificate),
        thumbprint: noise(thumbprint),
        out: vec![0xEE; 8 + certificate + thumbprint],
        ..call(DeviceAuthentication, mode, 0)
    }
}

/// The payload of a good call, by places.
pub fn laid_out(call: &Call) -> Vec<u8> {
    let (mode, code) = ([0, call.mode as u8], call.code as u8);
    let offered = |kind: u8, code: u8| {
        let front = [mode[0], mode[1], kind, code, 0, 32];
        let parts: [(usize, &[u8]); 7] = [
            (0, &front),
            (6, &call.nonce),
            (14, &[0, 0, 64, 0]),
            (18, &[0, 32]),
            (20, &call.x),
            (52, &[0, 32]),
            (54, &call.y),
        ];
        with(vec![0; 86], &parts)
    };
    match call.writer {
        PresenceRequest => vec![0],
        ConnectionRequest => offered(0, 0),
        ConnectionResponse if code == 1 => offered(1, 1),
        ConnectionResponse => vec![mode[0], mode[1], 1, code],
        DeviceAuthentication => {
            let (c, t) = (call.certificate.len(), call.thumbprint.len());
            let front = [mode[0], mode[1], call.kind as u8, (c >> 8) as u8, c as u8];
            let between = [(t >> 8) as u8, t as u8];
            let parts: [(usize, &[u8]); 4] =
                [(0, &front), (5, &call.certificate), (5 + c, &between), (7 + c, &call.thumbprint)];
            with(vec![0; 7 + c + t], &parts)
        }
        DoneRequest => vec![mode[0], mode[1], 6],
        DoneResponse => vec![mode[0], mode[1], 7, code],
    }
}

/// A call, and what must be returned.
type Described = (Call, u32);

/// The call answers as expected and as the second implementation does, and writes what is laid out.
fn judge((call, number): &Described, comparison: &mut Comparison<Hub>) -> Result<(), Difference> {
    let written = if *number == 0 { laid_out(call) } else { Vec::new() };
    as_expected(call, &(*number, written), &call.judge(&mut comparison.other))
}

/// What a call with these words must return, where nothing else is wrong.
fn number_of(call: &Call) -> u32 {
    let (mode_wide, mode_bad) = (call.mode >= 1 << 16, call.mode >= 3);
    let (wide, bad) = match call.writer {
        PresenceRequest => return 0,
        ConnectionRequest | DoneRequest => (false, false),
        ConnectionResponse => (call.code >= 1 << 8, call.code >= 4),
        DoneResponse => (call.code >= 1 << 8, call.code >= 5),
        DeviceAuthentication => {
            let (c, t) = (call.certificate.len(), call.thumbprint.len());
            let lengths = c == 0 || c >= 2_049 || t >= 513;
            (call.kind >= 1 << 8, call.kind != 2 && call.kind != 3 || lengths)
        }
    };
    match (mode_wide || wide, mode_bad || bad) {
        (true, _) => WRONG_BUFFER,
        (false, true) => 14,
        (false, false) => 0,
    }
}

/// Each value at its bounds and beyond, with room enough and with none, which is judged last.
pub fn bounds(comparison: &mut Comparison<Hub>) -> Tried {
    let mut calls = vec![call(PresenceRequest, 0, 0)];
    calls.extend(MODES.map(|mode| call(ConnectionRequest, mode, 0)));
    calls.extend(MODES.map(|mode| call(DoneRequest, mode, 0)));
    for (mode, code) in pairs(MODES, CODES) {
        calls.push(call(ConnectionResponse, mode, code));
        calls.push(call(DoneResponse, mode, code));
        calls.push(device(code, mode, 11, 5));
    }
    let lengths = pairs([2, 3], pairs(CERTIFICATES, THUMBPRINTS)).into_iter();
    calls.extend(lengths.map(|(kind, (c, t))| device(kind, 2, c, t)));
    let cases = calls.into_iter().flat_map(|call| {
        let number = number_of(&call);
        let none = Call { out: Vec::new(), ..call.clone() };
        [(call, number), (none, if number == 0 { 22 } else { number })]
    });
    each(comparison, cases, judge)
}

/// Good calls: every writer, mode, Result and Status; credentials of the shortest lengths, the longest
/// and some between.
pub fn good() -> Vec<Call> {
    let mut calls = vec![call(PresenceRequest, 0, 0)];
    for mode in 0..=2 {
        calls.extend([ConnectionRequest, DoneRequest].map(|writer| call(writer, mode, 0)));
        calls.extend((0..=3).map(|result| call(ConnectionResponse, mode, result)));
        calls.extend((0..=4).map(|status| call(DoneResponse, mode, status)));
        for (kind, (c, t)) in pairs([2, 3], pairs([1, 11, 2_048], [0, 5, 512])) {
            calls.push(device(kind, mode, c, t));
        }
    }
    calls
}

/// The output of each good call at every size to two more than enough; of long payloads at the first
/// and the last of these.
pub fn outputs(comparison: &mut Comparison<Hub>) -> Tried {
    let cases = good().into_iter().flat_map(|call| {
        let length = laid_out(&call).len();
        let sizes = (0..=length + 2).filter(move |size| *size <= 90 || *size + 2 >= length);
        sizes.map(move |size| {
            let number = if size < length { 22 } else { 0 };
            (Call { out: vec![0xEE; size], ..call.clone() }, number)
        })
    });
    each(comparison, cases, judge)
}

/// Sizes about these, and none three times, so that its pointer is null once.
fn sizes(right: usize) -> impl Iterator<Item = usize> {
    [0; 3].into_iter().chain(1..right + 9).chain([64, 1_000])
}

/// Gives a part of a call another size.
type Resize = fn(&mut Call, usize);

/// Nonce, X, Y and length at sizes about their own: each alone and all three parts together, in a
/// call that is right in all else and in one that is wrong in all else. A Connection Response that is
/// not Pending does not look at the parts.
pub fn fixed_sizes(comparison: &mut Comparison<Hub>) -> Tried {
    let parts: [(usize, Resize); 4] = [
        (8, |call, size| call.nonce = noise(size)),
        (32, |call, size| call.x = noise(size)),
        (32, |call, size| call.y = noise(size)),
        (8, |call, size| {
            (call.nonce, call.x, call.y) = (noise(size), noise(size), noise(size));
        }),
    ];
    let mut cases = Vec::new();
    for (writer, code) in [
        (ConnectionRequest, 0),
        (ConnectionResponse, 0),
        (ConnectionResponse, 1),
        (ConnectionResponse, 3),
    ] {
        for (at, (right, resize)) in parts.into_iter().enumerate() {
            for size in sizes(right) {
                let mut changed = call(writer, 1, code);
                resize(&mut changed, size);
                let wrong = changed.has_offer() && (size != right || at == 3);
                let spoilt = Call { mode: 3, out: Vec::new(), ..changed.clone() };
                cases.push((changed, if wrong { WRONG_BUFFER } else { 0 }));
                cases.push((spoilt, if wrong { WRONG_BUFFER } else { 14 }));
            }
        }
    }
    for (writer, size) in pairs(Writer::ALL, [0, 0, 0, 1, 2, 3, 8, 1_000]) {
        let changed = Call { length: vec![u64::MAX; size], ..call(writer, 1, 1) };
        let spoilt = Call { mode: u64::MAX, out: Vec::new(), ..changed.clone() };
        let right = size == 1;
        cases.push((changed, if right { 0 } else { WRONG_BUFFER }));
        let no_room = right && writer == PresenceRequest;
        cases.push((spoilt, if no_room { 22 } else { WRONG_BUFFER }));
    }
    each(comparison, cases, judge)
}
