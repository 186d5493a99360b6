// SPDX-License-Identifier: MPL-2.0
//! The writer of whole messages: refusals 5, 6, 7, 8, 10, 14, 20 and 22.

use crate::chain::chain_length;
use crate::header::{HEADER, Header, Kind, SIGNATURE, TAG, VERSION};
use crate::payload::{FRAGMENT_SIZE, read_payload};
use crate::refusal::{Refusal, require};
use crate::seal::{Keys, sealed_size};

/// Writes a message at the front of `output` and answers its length. `chain` comes with its end
/// entry. A refusal leaves the output as it was, a success what is beyond the message.
pub fn write_message(
    header: &Header,
    chain: &[u8],
    payload: &[u8],
    keys: &[u8],
    output: &mut [u8],
) -> Result<usize, Refusal> {
    let kind = header.check()?;
    require(chain_length(chain)? == chain.len(), Refusal::Chain)?;
    let keys = if header.sealed() { Some(Keys::from_bytes(keys)?) } else { None };
    read_payload(kind, header.sealed(), payload)?;
    let too_long = kind == Kind::Session && payload.len() > FRAGMENT_SIZE as usize;
    require(!too_long, Refusal::PieceLength)?;
    let length = message_length(header.sealed(), chain.len(), payload.len());
    let room = output.get_mut(..length).ok_or(Refusal::Room)?;
    room.copy_from_slice(&assemble(header, length, chain, payload, keys));
    Ok(length)
}

/// The finished length of a message; `chain` counts its end entry.
pub fn message_length(sealed: bool, chain: usize, payload: usize) -> usize {
    let body = if sealed { sealed_size(payload) + TAG } else { payload };
    HEADER + chain + body
}

/// The message's bytes; sealed if there are keys.
fn assemble(
    header: &Header,
    length: usize,
    chain: &[u8],
    payload: &[u8],
    keys: Option<Keys>,
) -> Vec<u8> {
    let mut bytes = header_bytes(SIGNATURE, length as u16, VERSION, header).to_vec();
    bytes.extend(chain);
    match keys {
        None => bytes.extend(payload),
        Some(keys) => {
            bytes.extend(keys.seal(header, payload));
            bytes.extend(keys.tag_of(&bytes));
        }
    }
    bytes
}

/// The 40 bytes of a header.
pub fn header_bytes(signature: [u8; 2], length: u16, version: u8, header: &Header) -> [u8; HEADER] {
    let mut bytes = [0; HEADER];
    let fields: [(usize, &[u8]); 11] = [
        (0, &signature),
        (2, &length.to_be_bytes()),
        (4, &[version]),
        (5, &[header.message_type]),
        (6, &header.flags.to_be_bytes()),
        (8, &header.sequence.to_be_bytes()),
        (12, &header.request.to_be_bytes()),
        (20, &header.index.to_be_bytes()),
        (22, &header.count.to_be_bytes()),
        (24, &header.session.to_be_bytes()),
        (32, &header.channel.to_be_bytes()),
    ];
    for (place, field) in fields {
        bytes[place..place + field.len()].copy_from_slice(field);
    }
    bytes
}
