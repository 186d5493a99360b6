// SPDX-License-Identifier: MPL-2.0
//! Calls of the writer and of the cutter, with and without faults.

use super::fault::{break_chain, change_byte, change_length, refragment};
use super::{chain, discovery, fragment_size, gateway};
use crate::cutter::{Cut, cut};
use crate::header::{Header, SEALED};
use crate::payload::FRAGMENT_SIZE;
use crate::prng::Prng;
use crate::refusal::Refusal;
use crate::writer::{message_length, write_message};

/// All that the writer takes.
#[derive(Clone, Debug, PartialEq, Eq)]
pub struct WriteCase {
    /// The fields.
    pub header: Header,
    /// The chain, which should end with its end entry.
    pub chain: Vec<u8>,
    /// The payload.
    pub payload: Vec<u8>,
    /// The keys, 64 bytes or not.
    pub keys: Vec<u8>,
    /// The output.
    pub output: Vec<u8>,
}

impl WriteCase {
    /// The call, whose change to the output stays in the case.
    pub fn write(&mut self) -> Result<usize, Refusal> {
        write_message(&self.header, &self.chain, &self.payload, &self.keys, &mut self.output)
    }
}

/// A call of the writer with 0 to 3 faults.
pub fn write_case(prng: &mut Prng) -> WriteCase {
    let (header, payload) = content(prng);
    let (chain, keys) = (chain(prng), prng.bytes(64));
    let mut case = WriteCase { header, chain, payload, keys, output: Vec::new() };
    for _ in 0..prng.pick(&[0, 0, 1, 1, 1, 2, 3]) {
        inflict(prng, &mut case);
    }
    let length = message_length(case.header.sealed(), case.chain.len(), case.payload.len());
    let room = match prng.below(10) {
        0 => length - 1,
        1 => length,
        2 => prng.below(length),
        _ => length + prng.below(40),
    };
    case.output = prng.bytes(room);
    case
}

/// Header and payload of a message that the writer takes, but for a Presence Response with a fault.
fn content(prng: &mut Prng) -> (Header, Vec<u8>) {
    let gateway = gateway(prng);
    let replies = gateway.replies();
    let draft = match prng.below(10) {
        0..2 => discovery(prng),
        2..4 => gateway.enrolment()[prng.below(3)].0.clone(),
        4..6 => replies[prng.below(replies.len())].clone(),
        _ => {
            let count = prng.pick(&[1, 2, 63, 64]);
            let index = prng.below(count) as u16;
            let most = fragment_size(prng) as usize;
            let length = prng.between(0, most);
            let bytes = prng.bytes(length);
            gateway.piece(prng.word() as u32, index, count as u16, &bytes)
        }
    };
    let request = prng.word();
    (Header { request, ..draft.header }, draft.payload)
}

fn inflict(prng: &mut Prng, case: &mut WriteCase) {
    match prng.below(9) {
        _ if prng.chance(2) => case.payload.resize(prng.between(16_383, 16_386), 1),
        0 => case.header.message_type = prng.pick(&[0, 1, 2, 3, 4, 5, 255]),
        1 => case.header.flags ^= 1 << prng.below(16),
        2 => case.header.flags ^= SEALED,
        3 => refragment(prng, &mut case.header),
        4 => break_chain(prng, &mut case.chain),
        5 => case.chain.push(0),
        6 => case.keys.truncate(prng.below(64)),
        7 => change_byte(prng, &mut case.payload),
        _ => change_length(prng, &mut case.payload),
    }
}

/// All that the cutter takes.
#[derive(Clone, Debug, PartialEq, Eq)]
pub struct CutCase {
    /// The report.
    pub report: Vec<u8>,
    /// F.
    pub fragment_size: u32,
    /// The piece asked for.
    pub index: u32,
}

impl CutCase {
    /// The call.
    pub fn cut(&self) -> (Cut<'_>, Result<(), Refusal>) {
        cut(&self.report, self.fragment_size, self.index)
    }
}

/// A call of the cutter, near the edges of what it takes.
pub fn cut_case(prng: &mut Prng) -> CutCase {
    let size = fragment_size(prng);
    let pieces = prng.pick(&[0, 1, 2, 3, 63, 64, 65]);
    let length = (size.min(300) as usize * pieces + prng.below(3)).saturating_sub(1);
    let fragment_size = match prng.below(20) {
        0 => prng.pick(&[0, FRAGMENT_SIZE + 1, u32::MAX]),
        _ => size,
    };
    let index = match prng.below(20) {
        0 => prng.pick(&[64, 65, 1 << 31, u32::MAX]),
        _ => prng.below(pieces + 1) as u32,
    };
    CutCase { report: prng.bytes(length), fragment_size, index }
}
