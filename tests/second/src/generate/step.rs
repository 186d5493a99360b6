// SPDX-License-Identifier: MPL-2.0
//! Single steps: a connection, a message with 0 to 3 faults, keys, buffers and a verdict.

use super::fault::{change_byte, other_number, other_sequence};
use super::{Fault, discovery, dress, fragment_size, gateway};
use crate::connection::{Answer, Connection, State};
use crate::draft::Draft;
use crate::gateway::Gateway;
use crate::message::{Message, read_message};
use crate::payload::FRAGMENT_SIZE;
use crate::prng::Prng;
use crate::refusal::Refusal;

/// All that one step takes.
#[derive(Clone, Debug, PartialEq, Eq)]
pub struct Case {
    /// The connection, well formed or not.
    pub connection: Connection,
    /// The message.
    pub message: Vec<u8>,
    /// The keys, 64 bytes or not.
    pub keys: Vec<u8>,
    /// The working buffer.
    pub working: Vec<u8>,
    /// The report buffer.
    pub report: Vec<u8>,
    /// The verdict, 0 or 1 or not.
    pub verdict: u64,
}

impl Case {
    /// The reader on the same message, keys and working buffer, whose change stays in the case.
    pub fn read(&mut self) -> Result<Message, Refusal> {
        read_message(&self.message, &self.keys, &mut self.working)
    }

    /// The step, whose changes to both buffers stay in the case.
    pub fn step(&mut self) -> (Connection, Answer) {
        let (working, report) = (&mut self.working, &mut self.report);
        self.connection.step(&self.message, &self.keys, working, report, self.verdict)
    }
}

/// What a hub may remember of this gateway: any state, in mid-report or not, now and then what no
/// course of steps gives.
pub fn connection(prng: &mut Prng, gateway: &Gateway, fragment_size: u32) -> Connection {
    if prng.chance(5) {
        return made_up(prng, gateway.session, fragment_size);
    }
    let ready = prng.chance(60);
    let state = if ready { State::Ready } else { prng.pick(&State::ALL) };
    let mut connection = gateway.connection(fragment_size, state);
    if ready {
        connection.expected = prng.pick(&[0, 0, 1, 7, 1 << 31, u32::MAX - 1, u32::MAX]);
    }
    if ready && prng.chance(60) {
        hear(prng, gateway, &mut connection);
    }
    if prng.chance(15) {
        scramble(prng, &mut connection);
    }
    connection
}

/// Some pieces of the expected report have come, not all.
fn hear(prng: &mut Prng, gateway: &Gateway, connection: &mut Connection) {
    let count = prng.pick(&[2, 2, 3, 4, 63, 64]);
    let all = u64::MAX >> (64 - count);
    let missing = 1 << prng.below(count);
    let some = if prng.chance(50) { all } else { prng.word() & all };
    connection.heard = some & !missing;
    if connection.heard != 0 {
        connection.count = count as u16;
        connection.channel = gateway.channel;
    }
    if connection.heard >> (count - 1) != 0 {
        connection.last_length = prng.between(1, connection.fragment_size as usize) as u32;
    }
}

/// All that is remembered is made up, but for F and the SessionID.
fn made_up(prng: &mut Prng, session: u64, fragment_size: u32) -> Connection {
    Connection {
        fragment_size,
        state: prng.pick(&[0, 1, 2, 3, 3, 3, 4, 5]),
        session,
        nonce: prng.array(),
        x: prng.array(),
        y: prng.array(),
        certificate: prng.array(),
        expected: prng.word() as u32,
        heard: prng.word() & prng.pick(&[0, 1, 7, u64::MAX]),
        count: prng.below(67) as u16,
        channel: prng.word(),
        last_length: prng.below(fragment_size as usize + 3) as u32,
    }
}

/// Some F that is none.
pub(super) const BAD_SIZES: [u32; 4] = [0, FRAGMENT_SIZE + 1, 1 << 16, u32::MAX];

/// One thing remembered is made up.
fn scramble(prng: &mut Prng, connection: &mut Connection) {
    match prng.below(12) {
        0 => connection.fragment_size = prng.pick(&BAD_SIZES),
        1 => connection.state = prng.pick(&[0, 1, 2, 3, 4, 5, 255]),
        2 => connection.session = other_number(prng, connection.session),
        3 => change_byte(prng, &mut connection.nonce),
        4 => change_byte(prng, &mut connection.certificate),
        5 => connection.expected = other_sequence(prng, connection.expected),
        6 => connection.heard = prng.word() & prng.pick(&[1, 1 << 63, u64::MAX]),
        7 => connection.count = prng.pick(&[0, 1, 2, 64, 65, u16::MAX]),
        8 => connection.channel = other_number(prng, connection.channel),
        9 => change_byte(prng, &mut connection.x),
        10 => change_byte(prng, &mut connection.y),
        _ => connection.last_length = prng.pick(&[0, 1, connection.fragment_size, 20_000]),
    }
}

/// A message that this gateway could send, mostly one that the connection is waiting for. It has no
/// fault, but a Presence Response may.
pub fn draft(prng: &mut Prng, gateway: &Gateway, connection: &Connection, report: &[u8]) -> Draft {
    let enrolment = gateway.enrolment().map(|(draft, _)| draft);
    let ready = connection.state == State::Ready as u8;
    let draft = match prng.below(100) {
        0..6 => discovery(prng),
        6..12 => {
            let replies = gateway.replies();
            replies[prng.below(replies.len())].clone()
        }
        12..30 => enrolment[prng.below(3)].clone(),
        30..90 if !ready => {
            let awaited = [0, 1, 2].get(usize::from(connection.state)).copied().unwrap_or(2);
            enrolment[awaited].clone()
        }
        _ => piece(prng, gateway, connection, report),
    };
    dress(prng, draft)
}

/// A piece of the expected report; one already heard mostly has the bytes of the report buffer.
fn piece(prng: &mut Prng, gateway: &Gateway, connection: &Connection, report: &[u8]) -> Draft {
    let any = prng.pick(&[1, 1, 2, 3, 63, 64]);
    let heard = connection.heard != 0 && (1..=64).contains(&connection.count);
    let count = if heard { connection.count } else { any };
    let missing = connection.heard.trailing_ones().min(u32::from(count) - 1) as u16;
    let some = prng.below(count.into()) as u16;
    let index = prng.pick(&[0, count - 1, missing, some]);
    let size = connection.fragment_size.clamp(1, FRAGMENT_SIZE) as usize;
    let last = index + 1 == count;
    let is_heard = connection.heard >> index & 1 == 1;
    let length = match (last, is_heard) {
        (false, _) => size,
        (true, true) => (connection.last_length as usize).min(size),
        (true, false) => prng.between(usize::from(count > 1), size),
    };
    let start = size * usize::from(index);
    let known = report.get(start..start + length).filter(|_| is_heard && prng.chance(90));
    let bytes = known.map_or_else(|| prng.bytes(length), <[u8]>::to_vec);
    let sequence = if prng.chance(97) { connection.expected } else { prng.word() as u32 };
    let mut draft = gateway.piece(sequence, index, count, &bytes);
    if heard && prng.chance(95) {
        draft.header.channel = connection.channel;
    }
    draft
}

/// Verdicts that are none; the lower bits of some are 0 or 1.
pub(super) const VERDICTS: [u64; 9] =
    [2, 3, 255, 256, 257, 1 << 32, (1 << 32) + 1, (1 << 63) + 1, u64::MAX];

/// A step on a message with 0 to 3 faults, now and then on random bytes; keys, buffers and verdict
/// may be faulty too.
pub fn case(prng: &mut Prng) -> Case {
    let gateway = gateway(prng);
    let size = fragment_size(prng);
    let connection = connection(prng, &gateway, size);
    let report = report_buffer(prng, &connection);
    let mut draft = draft(prng, &gateway, &connection, &report);
    for _ in 0..prng.pick(&[0, 0, 1, 1, 1, 2, 3]) {
        prng.pick(&Fault::ALL).inflict(prng, &mut draft);
    }
    let message = if prng.chance(3) { noise(prng) } else { draft.bytes(&gateway.keys) };
    let working = working_buffer(prng, message.len());
    let keys = keys(prng, gateway.keys);
    let verdict = if prng.chance(2) { prng.pick(&VERDICTS) } else { prng.below(2) as u64 };
    Case { connection, message, keys, working, report, verdict }
}

/// Random bytes, the first few of which may look like a message's.
pub(super) fn noise(prng: &mut Prng) -> Vec<u8> {
    let length = prng.below(300);
    let mut noise = prng.bytes(length);
    let length = (length as u16).to_be_bytes();
    let front = [0x30, 0x30, length[0], length[1], 3, prng.pick(&[1, 2, 4]), 0, prng.pick(&[0, 6])];
    for (byte, front) in noise.iter_mut().zip(front).take(prng.below(9)) {
        *byte = front;
    }
    noise
}

/// Room for the report so far, or about; mostly for all of it where its length is known.
fn report_buffer(prng: &mut Prng, connection: &Connection) -> Vec<u8> {
    let size = connection.fragment_size.clamp(1, FRAGMENT_SIZE) as usize;
    let whole = size * prng.pick(&[1, 2, 3, usize::from(connection.count.clamp(1, 64))]);
    let known = connection.known_length();
    let length = match prng.below(10) {
        0 => whole - 1,
        1 => prng.below(whole),
        2 => 0,
        3 => known.unwrap_or(whole).saturating_sub(1),
        4 => known.unwrap_or(whole),
        _ => whole.max(known.unwrap_or(0)) + prng.below(9),
    };
    prng.bytes(length)
}

/// Room for the sealed part, or about.
pub(super) fn working_buffer(prng: &mut Prng, message: usize) -> Vec<u8> {
    let sealed = message.saturating_sub(74);
    let length = match prng.below(20) {
        0 => sealed.saturating_sub(1),
        1 => sealed,
        2 => prng.below(sealed + 1),
        3 => 0,
        _ => sealed + prng.below(40),
    };
    prng.bytes(length)
}

pub(super) fn keys(prng: &mut Prng, keys: [u8; 64]) -> Vec<u8> {
    let mut keys = keys.to_vec();
    match prng.below(40) {
        0 => keys.truncate(prng.below(64)),
        1 => keys.push(0),
        2 => keys[prng.below(64)] ^= 1,
        _ => {}
    }
    keys
}
