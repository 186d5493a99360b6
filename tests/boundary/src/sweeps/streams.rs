// SPDX-License-Identifier: MPL-2.0
//! How many bytes of a stream are its next message.

use second::compare::{Comparison, Difference};

use super::trial::noise;
use super::{Tried, as_expected, each, pairs};
use crate::hub_h::Hub;
use crate::samples::samples;

/// So many bytes are wanted, by the library and by the second implementation.
fn judge(bytes: &[u8], wanted: usize, comparison: &mut Comparison<Hub>) -> Result<(), Difference> {
    as_expected(&bytes, &(wanted as u32), &comparison.other.wanted(bytes))?;
    comparison.read_payload(bytes)
}

/// MessageLength at its edges, of which 0 to 50 bytes have come; none three times, so that the pointer
/// is null once.
pub fn cuts(comparison: &mut Comparison<Hub>) -> Tried {
    let lengths: [u16; 16] =
        [0, 1, 41, 42, 43, 50, 127, 255, 256, 257, 0x2A00, 18_530, 32_767, 32_768, 65_534, 65_535];
    let cases = pairs(lengths, [0; 2].into_iter().chain(0..=50));
    each(comparison, cases, |(length, come), comparison| {
        let mut bytes = noise(50);
        bytes[2..4].copy_from_slice(&length.to_be_bytes());
        bytes.truncate(*come);
        let wanted = if *come < 4 || *length < 42 { 42 } else { usize::from(*length) };
        judge(&bytes, wanted, comparison)
    })
}

/// Every MessageLength, of which four bytes have come.
pub fn lengths(comparison: &mut Comparison<Hub>) -> Tried {
    each(comparison, 0..=65_535_u32, |length, comparison| {
        let bytes = [0x30, 0x30, (length >> 8) as u8, *length as u8];
        as_expected(&bytes, &(*length).max(42), &comparison.other.wanted(&bytes))
    })
}

/// The sample messages back to back, at every place of each: until four bytes have come 42, then the
/// message's length, whatever comes after it. So the stream falls into its messages.
pub fn of_samples(comparison: &mut Comparison<Hub>) -> Tried {
    let (_, messages) = samples();
    let stream: Vec<u8> = messages.iter().flat_map(|(_, message)| message.clone()).collect();
    let mut cases = Vec::new();
    let mut start = 0;
    for (_, message) in &messages {
        let places = (0..=message.len() + 50).filter(|come| start + come <= stream.len());
        let length = message.len();
        cases.extend(places.map(|come| (start..start + come, if come < 4 { 42 } else { length })));
        start += comparison.other.wanted(&stream[start..]) as usize;
    }
    as_expected(&"the stream's end", &stream.len(), &start)?;
    each(comparison, cases, |(come, wanted), comparison| {
        judge(&stream[come.clone()], *wanted, comparison)
    })
}
