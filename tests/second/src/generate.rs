// SPDX-License-Identifier: MPL-2.0
//! Inputs for comparing two implementations, drawn from a [`Prng`], so that a seed names an input.
//!
//! [`mod@step`] makes single steps with faults of every kind, [`mod@conversation`] whole
//! conversations over a bad link, [`mod@client`] and [`mod@meeting`] the same for the gateway's
//! side and for both sides together, [`mod@write`] calls of the writer and of the cutter,
//! [`mod@payload`] calls of the payloads' writers and bytes for their readers.

use crate::connection::State;
use crate::draft::Draft;
use crate::gateway::{Gateway, presence_request, presence_response};
use crate::header::{ACKNOWLEDGE, WAKE};
use crate::payload::FRAGMENT_SIZE;
use crate::prng::Prng;

pub mod client;
pub mod conversation;
pub mod fault;
pub mod meeting;
pub mod payload;
pub mod step;
pub mod write;

pub use client::{ClientCase, client, client_case, incoming};
pub use conversation::{Conversation, Delivery, Link, conversation};
pub use fault::Fault;
pub use meeting::{Arrival, Meeting, Side, meeting};
pub use payload::{PayloadCase, connect_bytes, payload_case};
pub use payload::{PresenceCase, discovery_bytes, presence_case};
pub use step::{Case, case, connection, draft};
pub use write::{CutCase, WriteCase, cut_case, write_case};

/// Any gateway, mostly with short credentials.
pub fn gateway(prng: &mut Prng) -> Gateway {
    let certificate = if prng.chance(5) { prng.between(1, 2_048) } else { prng.between(1, 40) };
    let thumbprint = if prng.chance(5) { prng.between(0, 512) } else { prng.below(20) };
    Gateway::new(prng, certificate, thumbprint)
}

/// Any F, mostly small, so that most inputs are.
pub fn fragment_size(prng: &mut Prng) -> u32 {
    match prng.below(100) {
        0 => FRAGMENT_SIZE,
        1..10 => prng.between(1, 2_000) as u32,
        10..60 => prng.between(1, 70) as u32,
        _ => prng.pick(&[1, 2, 3, 4, 11, 12, 13, 16, 28, 64]),
    }
}

/// A good chain of 0 to 8 entries, mostly few and small.
pub fn chain(prng: &mut Prng) -> Vec<u8> {
    let entries = if prng.chance(70) { 0 } else { prng.between(1, 8) };
    let mut chain = Vec::new();
    for _ in 0..entries {
        entry(prng, &mut chain);
    }
    chain.extend([0, 0]);
    chain
}

fn entry(prng: &mut Prng, chain: &mut Vec<u8>) {
    let size = if prng.chance(5) { prng.pick(&[254, 255]) } else { prng.below(5) };
    chain.extend([prng.between(1, 3) as u8, size as u8]);
    chain.extend(prng.bytes(size));
}

/// A Discovery message: a Presence Request, or a Response that may have values out of their bounds.
pub fn discovery(prng: &mut Prng) -> Draft {
    if prng.chance(25) {
        return presence_request();
    }
    presence_response(presence_case(prng).presence())
}

/// Gives a message what no rule looks at: RequestID, acknowledge and wake flags, a chain.
pub fn dress(prng: &mut Prng, mut draft: Draft) -> Draft {
    draft.header.request = prng.word();
    draft.header.flags |= prng.pick(&[0, 0, 0, ACKNOWLEDGE, WAKE, ACKNOWLEDGE | WAKE]);
    draft.chain = chain(prng);
    draft
}

/// Messages back to back for the listing, most of them without fault.
pub fn stream(prng: &mut Prng) -> Vec<u8> {
    let mut stream = Vec::new();
    for _ in 0..prng.below(40) {
        let sender = gateway(prng);
        let mut draft = draft(prng, &sender, &sender.connection(16, State::Ready), &[]);
        if prng.chance(4) {
            prng.pick(&Fault::ALL).inflict(prng, &mut draft);
        }
        stream.extend(draft.bytes(&sender.keys));
    }
    stream
}
