// SPDX-License-Identifier: MPL-2.0
//! Single steps of the gateway's side: what it remembers, a message with 0 to 3 faults, keys, a
//! working buffer and a verdict.

use super::fault::other_number;
use super::step::{BAD_SIZES, VERDICTS, keys, noise, working_buffer};
use super::{Fault, discovery, dress, fragment_size, gateway};
use crate::client::{Answer, Client, FAILED, READY};
use crate::draft::Draft;
use crate::gateway::Gateway;
use crate::header::SEALED;
use crate::prng::Prng;

/// All that one step of the gateway's side takes.
#[derive(Clone, Debug, PartialEq, Eq)]
pub struct ClientCase {
    /// What it remembers, well formed or not.
    pub client: Client,
    /// The message.
    pub message: Vec<u8>,
    /// The keys, 64 bytes or not.
    pub keys: Vec<u8>,
    /// The working buffer.
    pub working: Vec<u8>,
    /// The verdict, 0 or 1 or not.
    pub verdict: u64,
}

impl ClientCase {
    /// The step, whose change to the working buffer stays in the case.
    pub fn step(&mut self) -> (Client, Answer) {
        self.client.step(&self.message, &self.keys, &mut self.working, self.verdict)
    }
}

/// What a gateway may remember: any state, now and then one that does not exist, or a bad F.
pub fn client(prng: &mut Prng, session: u64, fragment_size: u32) -> Client {
    let state = match prng.below(20) {
        0 => FAILED,
        1 => prng.pick(&[5, 6, 7, 128, 255]),
        _ => prng.between(0, READY.into()) as u8,
    };
    let fragment_size = if prng.chance(4) { prng.pick(&BAD_SIZES) } else { fragment_size };
    Client { fragment_size, state, session }
}

/// A message that may come to this gateway, mostly a reply that it waits for or has taken. It has
/// no fault, but a Presence Response may.
pub fn incoming(prng: &mut Prng, gateway: &Gateway, state: u8) -> Draft {
    let replies = gateway.replies();
    let good = gateway.good_replies();
    let draft = match prng.below(100) {
        0..5 => discovery(prng),
        5..12 => gateway.enrolment()[prng.below(3)].0.clone(),
        12..17 => {
            let length = prng.below(20);
            gateway.piece(prng.word() as u32, 0, 1, &prng.bytes(length))
        }
        17..45 => replies[prng.below(replies.len())].clone(),
        45..70 => good[prng.below(3)].clone(),
        _ => good[usize::from(state).min(2)].clone(),
    };
    dress(prng, draft)
}

/// A step on a message with 0 to 3 faults, now and then on random bytes, of another SessionID, or
/// sealed where it should be plain; keys, working buffer and verdict may be faulty too.
pub fn client_case(prng: &mut Prng) -> ClientCase {
    let mut gateway = gateway(prng);
    if prng.chance(5) {
        gateway.session = 0;
    }
    let size = fragment_size(prng);
    let client = client(prng, gateway.session, size);
    let mut draft = incoming(prng, &gateway, client.state);
    if prng.chance(10) {
        draft.header.session = other_number(prng, gateway.session);
    }
    if prng.chance(4) {
        draft.header.flags ^= SEALED;
    }
    for _ in 0..prng.pick(&[0, 0, 0, 0, 1, 1, 2, 3]) {
        prng.pick(&Fault::ALL).inflict(prng, &mut draft);
    }
    let message = if prng.chance(2) { noise(prng) } else { draft.bytes(&gateway.keys) };
    let working = working_buffer(prng, message.len());
    let keys = keys(prng, gateway.keys);
    let verdict = if prng.chance(2) { prng.pick(&VERDICTS) } else { prng.below(2) as u64 };
    ClientCase { client, message, keys, working, verdict }
}
