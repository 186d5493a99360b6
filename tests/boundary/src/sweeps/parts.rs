// SPDX-License-Identifier: MPL-2.0
//! The reader of Connect payloads: what it says of payloads that are whole, cut, longer, changed in a
//! byte or written by the library, judged by places that are reckoned here.

use second::compare::{Comparison, Difference};
use second::header::{Kind, SEALED};

use super::payload::{is_good, of_86};
use super::trial::{KEYS, fields};
use super::values::{device, good, laid_out};
use super::written::CHAINS;
use super::{Tried, as_expected, each, pairs};
use crate::hub::{BEFORE, by_name, fields_of};
use crate::hub_h::{Hub, connect_words, no_entries, place_words};
use crate::payloads::{Call, Writer};
use crate::samples::samples;

/// What the reader must say, its words by hub.h's names in their order.
type Words = [u64; 13];

/// Words by places; none where the payload is refused.
fn by_places(payload: &[u8]) -> Option<Words> {
    let [0, mode @ 0..=2, kind, after @ ..] = payload else { return None };
    let mut words = [0; 13];
    (words[0], words[1]) = (u64::from(*kind), u64::from(*mode));
    match (kind, after) {
        (0, [0, ..]) | (1, [1, ..]) if payload.len() == 86 => {
            let fixed: [(usize, &[u8]); 4] =
                [(4, &[0, 32]), (14, &[0, 0, 64, 0]), (18, &[0, 32]), (52, &[0, 32])];
            if fixed.iter().any(|(at, bytes)| payload[*at..at + bytes.len()] != **bytes) {
                return None;
            }
            words[2] = u64::from(after[0]);
            words[3..9].copy_from_slice(&[6, 8, 20, 32, 54, 32]);
        }
        (1, [code @ (0 | 2 | 3)]) | (7, [code @ 0..=4]) => words[2] = u64::from(*code),
        (2 | 3, [_, _, ..]) => {
            let number = |at: usize| {
                payload.get(at..at + 2).map(|two| two[0] as usize * 256 + two[1] as usize)
            };
            let certificate = number(3).filter(|c| (1..=2_048).contains(c))?;
            let thumbprint = number(5 + certificate).filter(|t| *t <= 512)?;
            if payload.len() != 7 + certificate + thumbprint {
                return None;
            }
            let places = [5, certificate, 7 + certificate, thumbprint];
            words[9..].copy_from_slice(&places.map(|place| place as u64));
        }
        (6, []) => {}
        _ => return None,
    }
    Some(words)
}

/// The reader answers so, and as the second implementation does; what it refuses leaves zeros.
fn judge(
    payload: &[u8],
    expected: Option<Words>,
    comparison: &mut Comparison<Hub>,
) -> Result<(), Difference> {
    let mut words = [BEFORE; 13];
    let number = comparison.other.read_connect(payload, &mut words);
    let answer = (if expected.is_some() { 0 } else { 14 }, expected.unwrap_or([0; 13]));
    as_expected(&payload, &answer, &(number, by_name(&words, connect_words())))?;
    comparison.read_payload(payload)
}

/// The same for each of these, by its places.
fn each_by_places(
    comparison: &mut Comparison<Hub>,
    payloads: impl IntoIterator<Item = Vec<u8>>,
) -> Tried {
    each(comparison, payloads, |payload, comparison| judge(payload, by_places(payload), comparison))
}

/// What the reader must say of the payload of a good call, by the call's values.
fn said(call: &Call) -> Option<Words> {
    let kind = match call.writer {
        Writer::PresenceRequest => return None,
        Writer::ConnectionRequest => 0,
        Writer::ConnectionResponse => 1,
        Writer::DeviceAuthentication => call.kind,
        Writer::DoneRequest => 6,
        Writer::DoneResponse => 7,
    };
    let offer = if call.has_offer() { [6, 8, 20, 32, 54, 32] } else { [0; 6] };
    let (c, t) = (call.certificate.len() as u64, call.thumbprint.len() as u64);
    let shown = if kind == 2 || kind == 3 { [5, c, 7 + c, t] } else { [0; 4] };
    let words = [&[kind, call.mode, call.code], &offer[..], &shown].concat();
    Some(words.try_into().expect("13 words"))
}

/// The payloads of the good calls of these modes.
fn payloads(modes: std::ops::RangeInclusive<u64>) -> impl Iterator<Item = Vec<u8>> {
    good().into_iter().filter(move |call| modes.contains(&call.mode)).map(|call| laid_out(&call))
}

/// Every good payload: its words by the values that it was made of.
pub fn whole(comparison: &mut Comparison<Hub>) -> Tried {
    each(comparison, good(), |call, comparison| {
        let payload = laid_out(call);
        as_expected(call, &said(call), &by_places(&payload))?;
        judge(&payload, said(call), comparison)
    })
}

/// Every good payload of one mode, cut at every length: 14.
pub fn cuts(comparison: &mut Comparison<Hub>) -> Tried {
    let cases = payloads(2..=2)
        .flat_map(|payload| (0..payload.len()).map(move |length| payload[..length].to_vec()));
    each(comparison, cases, |cut, comparison| judge(cut, None, comparison))
}

/// Bytes after the end of payloads that are not long: zeros, or the payload once more.
pub fn longer(comparison: &mut Comparison<Hub>) -> Tried {
    let cases = payloads(0..=2).filter(|payload| payload.len() <= 90).flat_map(|payload| {
        let more = [1, 2, 3, 16, 82, 83, 86, 1_000].map(|more| vec![0; more]);
        let mut after = more.to_vec();
        after.push(payload.clone());
        after.into_iter().map(move |after| [&payload[..], &after].concat())
    });
    each_by_places(comparison, cases)
}

/// Each byte of a payload of each type and shape that is not long, at every other value.
pub fn changed(comparison: &mut Comparison<Hub>) -> Tried {
    let cases = payloads(1..=1).filter(|payload| payload.len() <= 90).flat_map(|payload| {
        let places = pairs(0..payload.len(), 1..=255_u8).into_iter();
        places.map(move |(place, by)| {
            let mut changed = payload.clone();
            changed[place] ^= by;
            changed
        })
    });
    each_by_places(comparison, cases)
}

/// Every length to 90 bytes, type to 8, byte after it to 5 and mode to 3: plain and sealed payloads
/// are read alike.
pub fn short(comparison: &mut Comparison<Hub>) -> Tried {
    let fronts = pairs(0..=3, pairs(0..=8, 0..=5));
    each(comparison, pairs(0..=90, fronts), |(size, (mode, (kind, code))), comparison| {
        let payload = of_86(*mode, *kind, *code, *size);
        let good = [false, true].map(|sealed| is_good(sealed, *mode, *kind, *code, *size));
        let words = by_places(&payload);
        as_expected(&payload, &(good[0] || good[1]), &words.is_some())?;
        judge(&payload, words, comparison)
    })
}

/// Lengths of credentials at their edges, and a byte too few, none or one too many.
pub fn credentials(comparison: &mut Comparison<Hub>) -> Tried {
    let lengths = pairs([0, 1, 2, 2_047, 2_048, 2_049], [0, 1, 511, 512, 513]);
    let cases = pairs(pairs([2, 3], 0..=2), lengths).into_iter().map(|((kind, more), (c, t))| {
        let mut payload = laid_out(&device(kind, 0, c, t));
        payload.resize(payload.len() + more - 1, 0);
        let good = (1..=2_048).contains(&c) && t <= 512 && more == 1;
        (payload, good)
    });
    each(comparison, cases, |(payload, good), comparison| {
        let words = by_places(payload);
        as_expected(payload, good, &words.is_some())?;
        judge(payload, words, comparison)
    })
}

/// Reads a message and finds its payload.
pub fn payload_of(hub: &mut Hub, message: &[u8], keys: &[u8]) -> Result<Vec<u8>, Difference> {
    let (mut working, mut header, mut place) =
        (vec![0xAA; message.len()], [BEFORE; 11], [BEFORE; 3]);
    as_expected(&message, &0, &hub.read(message, keys, &mut working, &mut header))?;
    as_expected(&message, &0, &hub.payload(message, &working, &header, &mut place))?;
    let [buffer, from, size] = by_name(&place, place_words());
    let buffer = if buffer == 0 { message } else { &working };
    Ok(buffer[from as usize..][..size as usize].to_vec())
}

/// The payload of each sample message.
pub fn of_samples(comparison: &mut Comparison<Hub>) -> Tried {
    let (keys, messages) = samples();
    each(comparison, messages, |(name, message), comparison| {
        let payload = payload_of(&mut comparison.other, message, &keys)?;
        let words = by_places(&payload);
        let connect = !name.starts_with("piece") && !name.starts_with("presence");
        as_expected(name, &connect, &words.is_some())?;
        judge(&payload, words, comparison)
    })
}

/// There and back: each good payload, written by its writer, in a message by `hub_write` with each
/// chain, read by `hub_read`, found by `hub_payload`, read by `hub_read_connect`: the values that were
/// given, and at the places the bytes.
pub fn there_and_back(comparison: &mut Comparison<Hub>) -> Tried {
    as_expected(&"no entries", &CHAINS[0], &&no_entries()[..])?;
    let cases = good().into_iter().flat_map(|call| CHAINS.map(|chain| (call.clone(), chain)));
    each(comparison, cases, |(call, chain), comparison| {
        let hub = &mut comparison.other;
        let (number, payload) = call.judge(hub);
        as_expected(call, &0, &number)?;
        let (kind, flags) = match call.writer {
            Writer::PresenceRequest => (Kind::Discovery, 0),
            Writer::ConnectionRequest | Writer::ConnectionResponse => (Kind::Connect, 0),
            _ => (Kind::Connect, SEALED),
        };
        let fields = fields_of(&fields(kind, flags));
        let (mut message, mut length) = (vec![0xEE; 5_000], [BEFORE]);
        let number = hub.write(&fields, chain, &payload, &KEYS, &mut message, &mut length);
        as_expected(call, &0, &number)?;
        message.truncate(length[0] as usize);
        let found = payload_of(hub, &message, &KEYS)?;
        judge(&found, said(call), comparison)?;
        let none: &[u8] = &[];
        let offer = if call.has_offer() { [&call.nonce[..], &call.x, &call.y] } else { [none; 3] };
        let shown = match call.writer {
            Writer::DeviceAuthentication => [&call.certificate[..], &call.thumbprint],
            _ => [none; 2],
        };
        let Some([_, _, _, places @ ..]) = said(call) else { return Ok(()) };
        let parts = places.chunks(2).map(|place| &found[place[0] as usize..][..place[1] as usize]);
        as_expected(call, &[&offer[..], &shown].concat(), &parts.collect())
    })
}
