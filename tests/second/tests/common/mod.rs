// SPDX-License-Identifier: MPL-2.0
//! What several tests use.

#![allow(dead_code)]

use second::client::{self, Client};
use second::connection::{Answer, Connection, State};
use second::draft::{Damage, Draft};
use second::gateway::{Gateway, presence_request, presence_response};
use second::generate::{Case, ClientCase};
use second::payload::Presence;
use second::prng::Prng;
use second::refusal::Refusal;

/// P1: the smallest Presence Request.
pub fn p1() -> Vec<u8> {
    let mut message = vec![0x30, 0x30, 0, 0x2B, 3, 1, 0, 0];
    message.extend([0; 12]);
    message.extend([0, 0, 0, 1]);
    message.extend([0; 19]);
    message
}

/// What a device says of itself, always the same: the values of 000's example, its hash cut to 4
/// bytes.
pub fn presence() -> Presence<'static> {
    let (salt, hash) = ([0xD6, 0xE7, 0x60, 0x2D], [0x11, 0x16, 0x6D, 0x8B]);
    Presence { mode: 1, device: 9, name: b"devicers1-1", salt, hash }
}

/// A gateway, always the same.
pub fn gateway() -> Gateway {
    Gateway::new(&mut Prng::new(1), 33, 20)
}

/// Every kind of message: requests, replies, a Presence Request, a piece, a Presence Response.
pub fn every_message(gateway: &Gateway) -> Vec<Draft> {
    let mut messages: Vec<Draft> = gateway.enrolment().map(|(draft, _)| draft).to_vec();
    messages.extend(gateway.replies());
    messages.push(presence_request());
    messages.push(gateway.piece(0, 0, 1, b"piece"));
    messages.push(presence_response(presence()));
    messages
}

/// The number of a refusal, 0 for none.
pub fn number<T>(result: Result<T, Refusal>) -> u8 {
    result.map_or_else(Refusal::number, |_| 0)
}

/// The number of an answer's refusal, 0 for none.
pub fn refused(answer: Answer) -> u8 {
    match answer {
        Answer::Refused(refusal) => refusal.number(),
        _ => 0,
    }
}

/// A hub with this gateway's keys and room enough, whose buffers start out as a pattern.
pub struct Hub {
    pub gateway: Gateway,
    pub connection: Connection,
    pub working: Vec<u8>,
    pub report: Vec<u8>,
}

impl Hub {
    pub fn new(fragment_size: u32, state: State) -> Hub {
        let gateway = gateway();
        Hub {
            connection: gateway.connection(fragment_size, state),
            gateway,
            working: vec![0xAA; 17_000],
            report: vec![0x55; 64 * fragment_size as usize],
        }
    }

    /// One step with verdict 1.
    pub fn take(&mut self, draft: &Draft) -> Answer {
        self.take_bytes(&draft.bytes(&self.gateway.keys), 1)
    }

    pub fn take_bytes(&mut self, message: &[u8], verdict: u64) -> Answer {
        let (working, report) = (&mut self.working, &mut self.report);
        let keys = &self.gateway.keys;
        let (next, answer) = self.connection.step(message, keys, working, report, verdict);
        self.connection = next;
        answer
    }

    /// A step that must change neither connection nor report buffer.
    pub fn take_in_vain(&mut self, draft: &Draft) -> Answer {
        let (connection, report) = (self.connection, self.report.clone());
        let answer = self.take(draft);
        assert_eq!((self.connection, &self.report), (connection, &report), "{answer}");
        answer
    }
}

/// The number of a refusal of the gateway's side, 0 for none.
pub fn client_refused(answer: client::Answer) -> u8 {
    match answer {
        client::Answer::Refused(refusal) => refusal.number(),
        _ => 0,
    }
}

/// A step before its message is made: every part of it can be spoilt.
#[derive(Clone)]
pub struct Setup {
    pub draft: Draft,
    pub case: Case,
}

impl Setup {
    /// `draft` on `connection`, with the gateway's keys and room enough.
    pub fn new(draft: Draft, connection: Connection) -> Setup {
        let keys = gateway().keys.to_vec();
        let (working, report) = (vec![0xAA; 200], vec![0x55; 200]);
        let case = Case { connection, message: Vec::new(), keys, working, report, verdict: 1 };
        Setup { draft, case }
    }

    /// The answer, after checking what refusals must leave alone.
    pub fn answer(&self) -> Answer {
        let mut case = self.case.clone();
        case.message = self.draft.bytes(&gateway().keys);
        let before = case.clone();
        let (next, answer) = case.step();
        let refusal = refused(answer);
        if refusal > 0 {
            assert_eq!(next, before.connection, "refusal {refusal} changed the connection");
            assert_eq!(case.report, before.report, "refusal {refusal} changed the report");
        }
        if matches!(refusal, 1..=13 | 24 | 25) || !self.draft.header.sealed() {
            assert_eq!(case.working, before.working, "{answer} changed the working buffer");
        }
        answer
    }

    /// The answer of the gateway's side, which remembers the first three things that a hub does.
    pub fn client_answer(&self) -> client::Answer {
        let Case { connection, keys, working, verdict, .. } = self.case.clone();
        let Connection { fragment_size, state, session, .. } = connection;
        let client = Client { fragment_size, state, session };
        let message = self.draft.bytes(&gateway().keys);
        let mut case = ClientCase { client, message, keys, working, verdict };
        let (next, answer) = case.step();
        let refusal = client_refused(answer);
        if refusal > 0 {
            assert_eq!(next, client, "refusal {refusal} changed the connection");
        }
        if matches!(refusal, 1..=13 | 24 | 25) || !self.draft.header.sealed() {
            assert_eq!(case.working, self.case.working, "{answer} changed the working buffer");
        }
        answer
    }
}

/// A fault put into a step, with the refusal it must lead to.
pub type Edit = (u8, fn(&mut Setup));

/// The checks before a state is asked, in the order of a step.
pub const BEFORE: [Edit; 15] = [
    (25, |s| s.case.verdict = 2),
    (24, |s| s.case.connection.fragment_size = 16_385),
    (1, |s| s.draft.damage.push(Damage::Cut(41))),
    (2, |s| s.draft.signature[0] = 0),
    (3, |s| s.draft.length = Some(99)),
    (4, |s| s.draft.version = 0),
    (5, |s| s.draft.header.message_type = 0),
    (6, |s| s.draft.header.flags |= 0x8000),
    (7, |s| s.draft.header.index = s.draft.header.count),
    (8, |s| s.draft.chain = vec![0, 1]),
    (9, |s| s.draft.padding = Some(vec![0; 7])),
    (10, |s| s.case.keys.push(0)),
    (11, |s| s.case.keys[63] ^= 1),
    (12, |s| s.case.working.truncate(15)),
    (13, |s| s.draft.size = Some(u32::MAX - 3)),
];

/// Each fault alone is refused with its number, and so is it with any of the later ones.
pub fn check_pairs(base: &Setup, refusal_of: fn(&Setup) -> u8, edits: &[Edit]) {
    for (first, (refusal, edit)) in edits.iter().enumerate() {
        let mut alone = base.clone();
        edit(&mut alone);
        assert_eq!(refusal_of(&alone), *refusal);
        for (second, also) in &edits[first + 1..] {
            if (*refusal, *second) == (17, 18) {
                continue;
            }
            let mut setup = alone.clone();
            also(&mut setup);
            assert_eq!(refusal_of(&setup), *refusal, "with {second}");
        }
    }
}
