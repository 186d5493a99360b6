// SPDX-License-Identifier: MPL-2.0
//! The judge of Connect payloads over described ones, in messages that are read and written.

use second::compare::{Comparison, Difference, Implementation};
use second::connection::State;
use second::draft::Draft;
use second::header::Kind;

use super::trial::{KEYS, Reading, Writing, fields, noise, step_of};
use super::{Tried, each, pairs};

/// A Connect payload, and whether it is as document 01 says.
struct Described {
    sealed: bool,
    payload: Vec<u8>,
    good: bool,
}

impl Described {
    /// Reader and writer take it where it is good, and else refuse it with 14.
    fn judge<I: Implementation>(&self, comparison: &mut Comparison<I>) -> Result<(), Difference> {
        let header = fields(Kind::Connect, if self.sealed { 6 } else { 0 });
        let message = Draft::new(header, self.payload.clone()).bytes(&KEYS);
        let mut writing = Writing::new(header, &[0, 0], &self.payload, message.len());
        let mut expected = Ok((header, self.payload.clone()));
        if !self.good {
            (expected, writing.expected) = (Err(14), Err(14));
        }
        writing.judge(comparison)?;
        let case = step_of(message, State::AwaitingAuthentication);
        Reading { case, expected }.read(comparison)
    }
}

/// Bytes with these at these places.
pub fn with(mut bytes: Vec<u8>, parts: &[(usize, &[u8])]) -> Vec<u8> {
    for (place, part) in parts {
        bytes[*place..place + part.len()].copy_from_slice(part);
    }
    bytes
}

/// A payload of this size: mode, type and the byte after it, and all else as the shapes of 86
/// bytes have it.
pub fn of_86(mode: u8, kind: u8, code: u8, size: usize) -> Vec<u8> {
    let front = [0, mode, kind, code];
    let parts: [(usize, &[u8]); 5] =
        [(0, &front), (4, &[0, 32]), (14, &[0, 0, 64, 0]), (18, &[0, 32]), (52, &[0, 32])];
    let mut payload = with(noise(90), &parts);
    payload.truncate(size);
    payload
}

/// Whether it is one of the shapes but those of certificates.
pub fn is_good(sealed: bool, mode: u8, kind: u8, code: u8, size: usize) -> bool {
    let shape = match (kind, code) {
        (0, 0) | (1, 1) => !sealed && size == 86,
        (1, 0 | 2 | 3) => !sealed && size == 4,
        (6, _) => sealed && size == 3,
        (7, 0..=4) => sealed && size == 4,
        _ => false,
    };
    shape && mode <= 2
}

/// Payloads of every length to 90 bytes, type to 8, byte after it to 5 and mode to 3, plain and
/// sealed.
pub fn short<I: Implementation>(comparison: &mut Comparison<I>) -> Tried {
    let fronts = pairs(0..=3, pairs(0..=8, 0..=5));
    let cases = pairs(pairs(0..=90, [false, true]), fronts).into_iter().map(|(outside, front)| {
        let ((size, sealed), (mode, (kind, code))) = (outside, front);
        let good = is_good(sealed, mode, kind, code, size);
        Described { sealed, payload: of_86(mode, kind, code, size), good }
    });
    each(comparison, cases, Described::judge)
}

/// A Device Authentication payload of this size that says these lengths.
fn device(kind: u8, certificate: u16, thumbprint: u16, size: usize) -> Vec<u8> {
    let front = [&[0, 2, kind][..], &certificate.to_be_bytes()].concat();
    let thumbprint_at = front.len() + usize::from(certificate);
    let parts = [(0, &front[..]), (thumbprint_at, &thumbprint.to_be_bytes())];
    let mut payload = with(noise(2_600), &parts);
    payload.truncate(size);
    payload
}

/// Device Authentication: lengths at their edges, and a byte too few, none or one too many.
pub fn credentials<I: Implementation>(comparison: &mut Comparison<I>) -> Tried {
    let lengths = pairs([0, 1, 2, 2_047, 2_048, 2_049], [0, 1, 511, 512, 513]);
    let cases = pairs(pairs([2, 3], 0..=2), lengths).into_iter().map(|((kind, more), lengths)| {
        let (certificate, thumbprint) = lengths;
        let size = 6 + usize::from(certificate) + usize::from(thumbprint) + more;
        let payload = device(kind, certificate, thumbprint, size);
        let good = (1..=2_048).contains(&certificate) && thumbprint <= 512 && more == 1;
        Described { sealed: true, payload, good }
    });
    each(comparison, cases, Described::judge)
}
