// SPDX-License-Identifier: MPL-2.0
//! What may be wrong with a message, one fault at a time.

use super::entry;
use crate::draft::{Damage, Draft};
use crate::header::Header;
use crate::prng::Prng;
use crate::seal::padding;

/// What may be wrong with a message.
#[derive(Clone, Copy, Debug, PartialEq, Eq)]
pub enum Fault {
    /// Any bit flipped.
    Flip,
    /// Cut short.
    Cut,
    /// Bytes after its end.
    Append,
    /// Another signature.
    Signature,
    /// Another MessageLength.
    Length,
    /// Another version.
    Version,
    /// Another type.
    Type,
    /// Other flags.
    Flags,
    /// Another index or count.
    Fragment,
    /// A chain that is none.
    Chain,
    /// Padding of another length.
    Ragged,
    /// A bit of the tag flipped.
    Tag,
    /// Another size inside the sealed part.
    Size,
    /// A padding byte changed, or a whole block too much of it.
    Padding,
    /// A byte of the payload changed, before sealing.
    PayloadByte,
    /// A longer or shorter payload, well sealed.
    PayloadLength,
    /// Another SessionID.
    Session,
    /// Another ChannelID.
    Channel,
    /// Another SequenceNumber.
    Sequence,
}

impl Fault {
    /// All of them.
    pub const ALL: [Fault; 19] = [
        Fault::Flip,
        Fault::Cut,
        Fault::Append,
        Fault::Signature,
        Fault::Length,
        Fault::Version,
        Fault::Type,
        Fault::Flags,
        Fault::Fragment,
        Fault::Chain,
        Fault::Ragged,
        Fault::Tag,
        Fault::Size,
        Fault::Padding,
        Fault::PayloadByte,
        Fault::PayloadLength,
        Fault::Session,
        Fault::Channel,
        Fault::Sequence,
    ];

    /// Puts the fault into a message.
    pub fn inflict(self, prng: &mut Prng, draft: &mut Draft) {
        let header = &mut draft.header;
        match self {
            Fault::Flip => draft.damage.push(Damage::Flip(prng.word() as usize)),
            Fault::Cut => draft.damage.push(Damage::Cut(some_length(prng, draft))),
            Fault::Append => {
                let more = prng.between(1, 20);
                draft.damage.push(Damage::Append(prng.bytes(more)));
            }
            Fault::Signature => draft.signature[prng.below(2)] ^= 1 << prng.below(8),
            Fault::Length => {
                let near = some_length(prng, draft) as u16;
                draft.length = Some(prng.pick(&[0, 41, 42, near, u16::MAX]));
            }
            Fault::Version => draft.version = prng.pick(&[0, 1, 2, 4, 0x83, 255]),
            Fault::Type => header.message_type = prng.pick(&[0, 1, 2, 3, 4, 5, 6, 8, 0x81, 255]),
            Fault::Flags => header.flags ^= 1 << prng.pick(&[1, 1, 2, 2, 4, 5, 8, 15]),
            Fault::Fragment => refragment(prng, header),
            Fault::Chain => break_chain(prng, &mut draft.chain),
            Fault::Ragged => {
                let length = prng.below(40);
                draft.padding = Some(vec![length as u8; length]);
            }
            Fault::Tag => draft.damage.push(Damage::Flip(8 * some_tag_place(prng, draft))),
            Fault::Size => draft.size = Some(other_size(prng, draft.payload.len() as u32)),
            Fault::Padding => draft.padding = Some(other_padding(prng, draft.payload.len())),
            Fault::PayloadByte => change_byte(prng, &mut draft.payload),
            Fault::PayloadLength => change_length(prng, &mut draft.payload),
            Fault::Session => header.session = other_number(prng, header.session),
            Fault::Channel => header.channel = other_number(prng, header.channel),
            Fault::Sequence => header.sequence = other_sequence(prng, header.sequence),
        }
    }
}

/// About as long as the message, or anything shorter.
fn some_length(prng: &mut Prng, draft: &Draft) -> usize {
    let length = draft.bytes(&[0; 64]).len();
    let around = prng.between(length.saturating_sub(2), length + 2);
    let any = prng.below(length);
    prng.pick(&[any, around, 41, 42, 73, 74])
}

fn some_tag_place(prng: &mut Prng, draft: &Draft) -> usize {
    draft.bytes(&[0; 64]).len().saturating_sub(prng.between(1, 32))
}

pub(super) fn refragment(prng: &mut Prng, header: &mut Header) {
    let edges = [0, 1, 2, 63, 64, 65, u16::MAX];
    match prng.below(3) {
        0 => header.index = prng.pick(&edges),
        1 => header.count = prng.pick(&edges),
        _ => header.index = header.count,
    }
}

pub(super) fn break_chain(prng: &mut Prng, chain: &mut Vec<u8>) {
    chain.truncate(chain.len().saturating_sub(2));
    match prng.below(5) {
        0 => chain.extend([prng.between(4, 255) as u8, 0, 0, 0]),
        1 => chain.extend([0, prng.between(1, 255) as u8]),
        2 => (0..9).for_each(|_| entry(prng, chain)),
        3 => chain.extend([1, 255]),
        _ => {}
    }
    if prng.chance(50) {
        chain.extend([0, 0]);
    }
}

fn other_size(prng: &mut Prng, size: u32) -> u32 {
    let off = prng.between(1, 16) as u32;
    prng.pick(&[0, size.wrapping_sub(off), size + off, 1 << 31, u32::MAX - 3, u32::MAX])
}

fn other_padding(prng: &mut Prng, payload: usize) -> Vec<u8> {
    let pad = padding(payload);
    let mut padding = vec![pad as u8; pad];
    if padding.is_empty() || prng.chance(20) {
        return vec![(pad + 16) as u8; pad + 16];
    }
    change_byte(prng, &mut padding);
    padding
}

pub(super) fn change_byte(prng: &mut Prng, bytes: &mut [u8]) {
    // Most rules are about the first bytes, up to the length of a Presence Response's name.
    let edge = prng.below(7);
    let place = if prng.chance(50) { edge } else { prng.below(bytes.len()) };
    if let Some(byte) = bytes.get_mut(place) {
        *byte = byte.wrapping_add(prng.pick(&[1, 2, 0x80, 255]));
    }
}

pub(super) fn change_length(prng: &mut Prng, payload: &mut Vec<u8>) {
    let length = payload.len();
    let off = prng.between(1, 17);
    let chosen =
        [0, 1, length.saturating_sub(1), length.saturating_sub(off), length + 1, length + off];
    payload.resize(prng.pick(&chosen), 0);
    if prng.chance(1) {
        payload.resize(prng.between(16_384, 16_390), 1);
    }
}

pub(super) fn other_number(prng: &mut Prng, number: u64) -> u64 {
    prng.pick(&[0, number ^ 1, number ^ (1 << 63), number.wrapping_add(1 << 32)])
}

pub(super) fn other_sequence(prng: &mut Prng, number: u32) -> u32 {
    let (below, above) = (number.wrapping_sub(1), number.wrapping_add(1));
    prng.pick(&[0, below, above, u32::MAX - 1, u32::MAX])
}
