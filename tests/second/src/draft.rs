// SPDX-License-Identifier: MPL-2.0
//! A message put together without any check, so that it can have any fault.

use crate::crypto::BLOCK;
use crate::header::{ENCRYPTED, HMAC_PRESENT, Header, SIGNATURE, TAG, VERSION};
use crate::seal::{Keys, padding};
use crate::writer::header_bytes;

/// What to put on the wire. `None` stands for what the rules give.
#[derive(Clone, Debug, PartialEq, Eq)]
pub struct Draft {
    /// Signature.
    pub signature: [u8; 2],
    /// MessageLength.
    pub length: Option<u16>,
    /// Version.
    pub version: u8,
    /// The fields a sender chooses.
    pub header: Header,
    /// The chain, with its end entry.
    pub chain: Vec<u8>,
    /// The payload.
    pub payload: Vec<u8>,
    /// The payload size inside the sealed part.
    pub size: Option<u32>,
    /// The padding inside the sealed part.
    pub padding: Option<Vec<u8>>,
    /// What befalls the finished message, in this order.
    pub damage: Vec<Damage>,
}

/// What a link may do to a finished message.
#[derive(Clone, Debug, PartialEq, Eq)]
pub enum Damage {
    /// Flips a bit, counted around the message.
    Flip(usize),
    /// Keeps so many bytes.
    Cut(usize),
    /// Adds bytes at the end.
    Append(Vec<u8>),
}

impl Damage {
    /// Damages a message.
    pub fn befall(&self, message: &mut Vec<u8>) {
        match self {
            Damage::Flip(_) if message.is_empty() => {}
            Damage::Flip(bit) => {
                let place = bit / 8 % message.len();
                message[place] ^= 1 << (bit % 8);
            }
            Damage::Cut(kept) => message.truncate(*kept),
            Damage::Append(more) => message.extend(more),
        }
    }
}

impl Draft {
    /// A message as it should be, with the empty chain.
    pub fn new(header: Header, payload: Vec<u8>) -> Draft {
        Draft {
            signature: SIGNATURE,
            length: None,
            version: VERSION,
            header,
            chain: vec![0, 0],
            payload,
            size: None,
            padding: None,
            damage: Vec::new(),
        }
    }

    /// The bytes on the wire: encrypted if flag 4 says so, tagged if flag 2 does.
    pub fn bytes(&self, keys: &[u8; 64]) -> Vec<u8> {
        let keys = Keys::from_bytes(keys).expect("64 bytes");
        let body = match self.header.flags & ENCRYPTED {
            0 => self.payload.clone(),
            _ => self.encrypted(&keys),
        };
        let tag = if self.header.flags & HMAC_PRESENT != 0 { TAG } else { 0 };
        let front = header_bytes(self.signature, 0, self.version, &self.header);
        let mut bytes = [&front[..], &self.chain, &body].concat();
        let length = self.length.unwrap_or((bytes.len() + tag) as u16);
        bytes[2..4].copy_from_slice(&length.to_be_bytes());
        if tag > 0 {
            bytes.extend(keys.tag_of(&bytes));
        }
        self.damage.iter().for_each(|damage| damage.befall(&mut bytes));
        bytes
    }

    /// Size, payload and padding, encrypted as far as they are whole blocks.
    fn encrypted(&self, keys: &Keys) -> Vec<u8> {
        let pad = padding(self.payload.len());
        let pad = self.padding.clone().unwrap_or(vec![pad as u8; pad]);
        let size = self.size.unwrap_or(self.payload.len() as u32);
        let text = [&size.to_be_bytes()[..], &self.payload, &pad].concat();
        let (blocks, rest) = text.split_at(text.len() - text.len() % BLOCK);
        [keys.encrypt(&self.header, blocks), rest.to_vec()].concat()
    }
}
