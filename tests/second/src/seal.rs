// SPDX-License-Identifier: MPL-2.0
//! Sealing: the vector, the size and padding rule, the cipher and the tag. Refusals 10 to 13.

use std::ops::Range;

use crate::crypto::{BLOCK, decrypt_cbc, encrypt_block, encrypt_cbc, hmac};
use crate::header::{Header, TAG};
use crate::refusal::{Refusal, require};

/// Bytes of keys a caller brings.
pub const KEYS: usize = 64;
/// Bytes of the payload size in front of a sealed payload.
pub const SIZE: usize = 4;

/// The 64 key bytes, by use.
#[derive(Clone, Copy, Debug, PartialEq, Eq)]
pub struct Keys {
    /// Encrypts.
    pub encryption: [u8; 16],
    /// Makes the vector.
    pub vector: [u8; 16],
    /// Makes the tag.
    pub hmac: [u8; 32],
}

impl Keys {
    /// Refuses with 10 unless there are 64 bytes.
    pub fn from_bytes(bytes: &[u8]) -> Result<Keys, Refusal> {
        let bytes: &[u8; KEYS] = bytes.try_into().map_err(|_| Refusal::Keys)?;
        let (encryption, rest) = bytes.split_first_chunk().ok_or(Refusal::Keys)?;
        let (vector, rest) = rest.split_first_chunk().ok_or(Refusal::Keys)?;
        let hmac = rest.try_into().map_err(|_| Refusal::Keys)?;
        Ok(Keys { encryption: *encryption, vector: *vector, hmac })
    }

    /// One AES block under the vector key, of SessionID, SequenceNumber, FragmentIndex and
    /// FragmentCount.
    pub fn vector_of(&self, header: &Header) -> [u8; BLOCK] {
        let mut block = [0; BLOCK];
        block[..8].copy_from_slice(&header.session.to_be_bytes());
        block[8..12].copy_from_slice(&header.sequence.to_be_bytes());
        block[12..14].copy_from_slice(&header.index.to_be_bytes());
        block[14..].copy_from_slice(&header.count.to_be_bytes());
        encrypt_block(&self.vector, &block)
    }

    /// The tag over a message without its last 32 bytes. While it is made MessageLength holds the
    /// final length less 32, which is just the length of what it covers.
    pub fn tag_of(&self, covered: &[u8]) -> [u8; TAG] {
        let mut covered = covered.to_vec();
        let length = (covered.len() as u16).to_be_bytes();
        covered[2..4].copy_from_slice(&length);
        hmac(&self.hmac, &covered)
    }

    /// The sealed part of a message with this header and payload.
    pub fn seal(&self, header: &Header, payload: &[u8]) -> Vec<u8> {
        self.encrypt(header, &plain_text(payload))
    }

    /// CBC under the encryption key, from the header's vector on.
    pub fn encrypt(&self, header: &Header, plain: &[u8]) -> Vec<u8> {
        encrypt_cbc(&self.encryption, &self.vector_of(header), plain)
    }
}

/// How many padding bytes follow a payload of this size.
pub fn padding(payload: usize) -> usize {
    (SIZE + payload).next_multiple_of(BLOCK) - (SIZE + payload)
}

/// How long the sealed part of a payload of this size is.
pub fn sealed_size(payload: usize) -> usize {
    SIZE + payload + padding(payload)
}

/// The payload's size, the payload, the padding.
pub fn plain_text(payload: &[u8]) -> Vec<u8> {
    let pad = padding(payload.len());
    let mut text = (payload.len() as u32).to_be_bytes().to_vec();
    text.extend(payload);
    text.resize(text.len() + pad, pad as u8);
    text
}

/// Opens the sealed part of a message: refusals 10 to 13, in this order. Past them the working
/// buffer's first bytes hold the opened sealed part, and the answer is where in it the payload
/// lies. Refused, it is untouched.
pub fn open(
    keys: &[u8],
    header: &Header,
    message: &[u8],
    sealed: Range<usize>,
    working: &mut [u8],
) -> Result<Range<usize>, Refusal> {
    let keys = Keys::from_bytes(keys)?;
    let (covered, tag) = message.split_at(sealed.end);
    require(keys.tag_of(covered) == tag, Refusal::Tag)?;
    let room = working.get_mut(..sealed.len()).ok_or(Refusal::WorkingRoom)?;
    let opened = decrypt_cbc(&keys.encryption, &keys.vector_of(header), &message[sealed]);
    let payload = payload_of(&opened).ok_or(Refusal::Padding)?;
    room.copy_from_slice(&opened);
    Ok(payload)
}

/// Where in the opened sealed part the payload lies, if size and padding are as the rule gives.
fn payload_of(opened: &[u8]) -> Option<Range<usize>> {
    let (size, _) = opened.split_first_chunk()?;
    let end = SIZE + usize::try_from(u32::from_be_bytes(*size)).ok()?;
    let pad = opened.get(end..)?;
    let right = pad.len() < BLOCK && pad.iter().all(|byte| usize::from(*byte) == pad.len());
    right.then_some(SIZE..end)
}
