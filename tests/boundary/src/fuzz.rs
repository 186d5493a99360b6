// SPDX-License-Identifier: MPL-2.0
//! What libFuzzer calls: its bytes choose a call, some steps of one connection or of one gateway, or
//! a conversation of both sides, and the two implementations must agree. Messages are sealed here,
//! since no fuzzer finds a tag.

#![allow(unsafe_code)]

use std::cell::RefCell;

use second::client::Client;
use second::compare::{Comparison, Difference};
use second::connection::{Answer, Connection};
use second::draft::{Damage, Draft};
use second::generate::{Case, ClientCase, CutCase, WriteCase};
use second::header::Header;

use crate::gateways::{gateway_step_on, open};
use crate::hub::BEFORE;
use crate::hub_h::Hub;
use crate::payloads::{Call, PresenceCall, Writer};
use crate::state::{GATEWAY, decode_gateway, encode_gateway};
use crate::sweeps::sides::any_conversation;

/// The fuzzer's bytes, read from the front; after their end all is zero.
struct Tape<'a>(&'a [u8]);

impl Tape<'_> {
    fn number(&mut self, bytes: usize) -> u64 {
        let (front, rest) = self.0.split_at(bytes.min(self.0.len()));
        self.0 = rest;
        front.iter().fold(0, |number, byte| number << 8 | u64::from(*byte))
    }

    fn byte(&mut self) -> u8 {
        self.number(1) as u8
    }

    fn bytes(&mut self) -> Vec<u8> {
        let length = usize::from(self.byte()).min(self.0.len());
        let (front, rest) = self.0.split_at(length);
        self.0 = rest;
        front.to_vec()
    }

    /// A small number, or one with a high bit.
    fn word(&mut self) -> u64 {
        match (self.number(2), self.byte()) {
            (small, 0) => small,
            (small, bit) => small | 1 << (bit % 64),
        }
    }

    /// So many bytes of this value, or those of the tape.
    fn fixed(&mut self, size: usize, fill: u8) -> Vec<u8> {
        if self.byte() == 0 { vec![fill; size] } else { self.bytes() }
    }

    fn header(&mut self) -> Header {
        Header {
            message_type: self.byte(),
            flags: self.number(2) as u16,
            sequence: self.byte().into(),
            request: self.byte().into(),
            index: self.byte().into(),
            count: self.byte().into(),
            session: (self.byte() & 1).into(),
            channel: (self.byte() & 1).into(),
        }
    }

    fn draft(&mut self) -> Draft {
        let mut draft = Draft::new(self.header(), Vec::new());
        let unusual = self.byte();
        if unusual & 1 != 0 {
            draft.chain = self.bytes();
        }
        draft.payload = self.bytes();
        if unusual & 2 != 0 {
            draft.size = Some(self.number(4) as u32);
        }
        if unusual & 4 != 0 {
            draft.padding = Some(self.bytes());
        }
        if unusual & 8 != 0 {
            draft.damage.push(Damage::Flip(self.number(2) as usize));
        }
        if unusual & 16 != 0 {
            draft.damage.push(Damage::Cut(self.number(2) as usize));
        }
        if unusual & 32 != 0 {
            draft.length = Some(self.number(2) as u16);
        }
        draft
    }

    /// What comes to a connection: message, keys, verdict.
    fn arrival(&mut self) -> (Vec<u8>, Vec<u8>, u64) {
        let choice = self.byte();
        let message = if choice & 3 == 3 { self.bytes() } else { self.draft().bytes(&KEYS) };
        let keys = if choice & 0xF0 == 0xF0 { self.bytes() } else { KEYS.to_vec() };
        let wide = if choice & 0xE0 == 0xA0 { 1 << (self.byte() % 64) } else { 0 };
        (message, keys, u64::from(choice >> 2 & 3) | wide)
    }
}

const KEYS: [u8; 64] = [0x42; 64];

/// A connection that starts in any state.
fn connection(tape: &mut Tape<'_>) -> Connection {
    Connection {
        fragment_size: tape.byte().into(),
        state: tape.byte() % 6,
        session: 1,
        expected: tape.byte().into(),
        ..Connection::default()
    }
}

/// One that is in mid-report besides, by whatever it has heard.
fn made_up(tape: &mut Tape<'_>) -> Connection {
    Connection {
        count: tape.byte().into(),
        heard: tape.number(8),
        channel: (tape.byte() & 1).into(),
        last_length: tape.byte().into(),
        ..connection(tape)
    }
}

/// Some messages to a connection.
fn steps(
    comparison: &mut Comparison<Hub>,
    tape: &mut Tape<'_>,
    mut connection: Connection,
    mut report: Vec<u8>,
) -> Result<(), Difference> {
    let mut working = vec![0xAA; 300];
    while !tape.0.is_empty() {
        let (message, keys, verdict) = tape.arrival();
        let (kept, room) = (working.clone(), report.clone());
        let mut case = Case { connection, message, keys, working: kept, report: room, verdict };
        comparison.read(&case)?;
        let answer = comparison.step(&case)?;
        let (next, _) = case.step();
        if !matches!(answer, Answer::Refused(_)) {
            connection = next;
        }
        (working, report) = (case.working, case.report);
    }
    Ok(())
}

/// A gateway that starts in any state, now and then with one byte made up.
fn gateway(tape: &mut Tape<'_>) -> [u8; GATEWAY] {
    let fragment_size = tape.byte().into();
    let mut bytes = encode_gateway(&Client { fragment_size, state: tape.byte() % 6, session: 1 });
    let place = usize::from(tape.byte());
    if (1..=GATEWAY).contains(&place) {
        bytes[place - 1] = tape.byte();
    }
    bytes
}

/// Some messages to a gateway.
fn gateway_steps(comparison: &mut Comparison<Hub>, tape: &mut Tape<'_>) {
    let (mut gateway, mut working) = (gateway(tape), vec![0xAA; 300]);
    while !tape.0.is_empty() {
        let (message, keys, verdict) = tape.arrival();
        let client = decode_gateway(&gateway);
        let case = ClientCase { client, message, keys, working, verdict };
        let stepped = gateway_step_on(&mut comparison.other, &gateway, &case);
        (gateway, working) = (stepped.gateway, stepped.working);
        comparison.tally.gateway_steps += 1;
    }
}

/// A call of a payload's writer, by words of any width and buffers of any size.
fn payload(tape: &mut Tape<'_>) -> Call {
    Call {
        writer: Writer::ALL[usize::from(tape.byte()) % 6],
        kind: tape.word(),
        mode: tape.word(),
        code: tape.word(),
        nonce: tape.fixed(8, 1),
        x: tape.fixed(32, 2),
        y: tape.fixed(32, 3),
        length: vec![BEFORE; usize::from(1 ^ (tape.byte() % 4))],
        out: vec![0xEE; tape.number(2) as usize],
        certificate: vec![4; tape.number(2) as usize],
        thumbprint: vec![5; tape.number(2) as usize],
    }
}

/// A call of the Presence Response's writer, by words of any width and buffers of any size.
fn presence(tape: &mut Tape<'_>) -> PresenceCall {
    PresenceCall {
        mode: tape.word(),
        device: tape.word(),
        name: tape.bytes(),
        salt: tape.fixed(4, 1),
        hash: tape.fixed(4, 2),
        length: vec![BEFORE; usize::from(1 ^ (tape.byte() % 4))],
        out: vec![0xEE; tape.number(2) as usize],
    }
}

/// One input of the fuzzer: its first byte chooses the call.
pub fn one(comparison: &mut Comparison<Hub>, data: &[u8]) -> Result<(), Difference> {
    let mut tape = Tape(data);
    match tape.byte() {
        4 => {
            payload(&mut tape).judge(&mut comparison.other);
            Ok(())
        }
        5 => comparison.read_payload(tape.0),
        6 => {
            let report = vec![0x55; tape.number(2) as usize];
            let connection = made_up(&mut tape);
            steps(comparison, &mut tape, connection, report)
        }
        7 => {
            presence(&mut tape).judge(&mut comparison.other);
            Ok(())
        }
        8 => {
            gateway_steps(comparison, &mut tape);
            Ok(())
        }
        9 => {
            comparison.tally.meetings += 1;
            any_conversation(tape.byte().into(), tape.0, comparison)
        }
        10 => {
            let (fragment_size, session) = (tape.word(), tape.word());
            open(&mut comparison.other, fragment_size, session, tape.0);
            Ok(())
        }
        other => of_four(comparison, tape, other % 4),
    }
}

/// The calls that the first byte's remainder chooses.
fn of_four(
    comparison: &mut Comparison<Hub>,
    mut tape: Tape<'_>,
    choice: u8,
) -> Result<(), Difference> {
    match choice {
        0 | 1 => {
            let connection = connection(&mut tape);
            let report = vec![0x55; 16 * usize::from(tape.byte())];
            steps(comparison, &mut tape, connection, report)
        }
        2 => {
            let header = Header { sequence: tape.number(4) as u32, ..tape.header() };
            let (chain, keys) = (tape.bytes(), tape.bytes());
            let (room, payload) = (tape.number(2) as usize, tape.0.to_vec());
            let keys = if keys.is_empty() { KEYS.to_vec() } else { keys };
            let output = vec![0xEE; room];
            comparison.write(&WriteCase { header, chain, payload, keys, output })
        }
        _ => {
            let (fragment_size, index) = (tape.number(2) as u32, tape.number(2) as u32);
            let report = tape.0.to_vec();
            comparison.digest(&[index as u8; 32], &report)?;
            comparison.cut(&CutCase { report, fragment_size, index })
        }
    }
}

/// The tape of one good message: verdict 1, type, flags, index, count, session 1, payload.
fn spell(kind: u8, flags: u8, index: u8, count: u8, payload: &[u8]) -> Vec<u8> {
    let length = payload.len().try_into().expect("a short payload");
    let front = [4, kind, 0, flags, 0, 0, index, count, 1, 0, 0, length];
    [&front, payload].concat()
}

/// The tape of a call of a payload's writer, into an output of 3,000 bytes.
fn spell_payload(writer: u8, kind: u8, mode: [u8; 2], code: u8) -> Vec<u8> {
    let [mode, bit] = mode;
    let words = [0, kind, 0, 0, mode, bit, 0, code, 0];
    [&[4, writer][..], &words, &[0, 0, 0, 0, 0x0B, 0xB8, 0, 11, 0, 5]].concat()
}

/// The tape of a call of the Presence Response's writer, into an output of 3,000 bytes.
fn spell_presence(mode: [u8; 2], name: &[u8]) -> Vec<u8> {
    let [mode, bit] = mode;
    let length = name.len().try_into().expect("a short name");
    let front = [7, 0, mode, bit, 0, 12, 0, length];
    [&front, name, &[0, 0, 0, 0x0B, 0xB8]].concat()
}

/// Tapes of Presence Responses: calls of the writer with names of no byte, some, 64 and 65, one with
/// a mode that is 3 and one with a mode that is too wide; payloads to be read, the last with a byte
/// after its end; and a good one and a bad one in a message that comes.
fn presence_seeds() -> Vec<Vec<u8>> {
    let good = b"\x01\0\x02\0\x0E\0\x05a hubsalthash";
    let longer = [&good[..], &[0]].concat();
    let mut seeds = vec![spell_presence([3, 0], b"a hub"), spell_presence([1, 16], b"a hub")];
    seeds.extend([0, 5, 64, 65].map(|length| spell_presence([2, 0], &vec![b'n'; length])));
    let read: [&[u8]; 3] = [&[0], good, &longer];
    seeds.extend(read.map(|payload| [&[5][..], payload].concat()));
    let come = [&good[..], &longer].map(|payload| spell(1, 0, 0, 1, payload));
    seeds.extend(come.map(|message| [&[0, 8, 3, 0, 4][..], &message].concat()));
    seeds
}

/// The payload of 86 bytes of this type, with this byte after it.
fn offered(kind: u8, code: u8) -> [u8; 86] {
    let mut payload = [0; 86];
    payload[..20].copy_from_slice(b"\0\0\0\0\0\x20a nonce!\0\0\x40\0\0\x20");
    payload[2..4].copy_from_slice(&[kind, code]);
    payload[53] = 32;
    payload
}

/// Tapes of gateways: an enrolment with each reply once more, then a piece of a report and a reply
/// with another Status; each reply in the state that waits for it; a Result that is not Pending and
/// a verdict of 0; both sides over a good link and over a bad one; openings that are right,
/// refused, too wide and on a short buffer.
fn gateway_seeds() -> Vec<Vec<u8>> {
    let replies = [
        spell(2, 0, 0, 1, &offered(1, 1)),
        spell(2, 6, 0, 1, b"\0\x01\x03\0\x03abc\0\x02de"),
        spell(2, 6, 0, 1, b"\0\x01\x07\0"),
    ];
    let others = [spell(4, 6, 0, 1, b"abcd"), spell(2, 6, 0, 1, b"\0\x01\x07\x01")];
    let twice = replies.iter().flat_map(|reply| [reply.clone(), reply.clone()]);
    let mut seeds = vec![[vec![8, 16, 0, 0], twice.chain(others).flatten().collect()].concat()];
    let single = |state: u8, message: &[u8]| [&[8, 16, state, 0], message].concat();
    seeds.extend((0..).zip(&replies).map(|(state, reply)| single(state, reply)));
    let mut doubted = replies[1].clone();
    doubted[0] = 0;
    seeds.extend([single(0, &spell(2, 0, 0, 1, b"\0\x01\x01\x02")), single(3, &doubted)]);
    seeds.extend([
        vec![9, 0, 0, 1, 2, 3, 4, 5],
        vec![9, 1, 0, 0, 1, 8, 9, 2, 6, 3, 1, 2, 4, 4, 0, 5],
    ]);
    let buffer = [7; GATEWAY];
    let opening = |size: [u8; 3], bytes: &[u8]| [&[10][..], &size, &[0, 9, 63], bytes].concat();
    seeds.extend([opening([0, 16, 0], &buffer), opening([0, 0, 0], &buffer)]);
    seeds.extend([opening([0, 16, 32], &buffer), opening([0, 16, 0], &buffer[1..])]);
    seeds
}

/// Tapes to start from: an enrolment and a report of two pieces, whole and each message by itself in
/// the state that waits for it; a call of the writer and one of the cutter; a call of each payload's
/// writer, one with a mode that is too wide, and each payload to be read; the last missing piece of a
/// report, with a report buffer of its length and a short one; Presence Responses; gateways.
pub fn seeds() -> Vec<Vec<u8>> {
    let (request, pending) = (offered(0, 0), offered(1, 1));
    let messages = [
        (0, spell(2, 0, 0, 1, &request)),
        (1, spell(2, 6, 0, 1, b"\0\0\x02\0\x03abc\0\0")),
        (2, spell(2, 6, 0, 1, b"\0\0\x06")),
        (3, spell(4, 6, 1, 2, b"abcd")),
        (3, spell(4, 6, 1, 2, b"abcd")),
        (3, spell(4, 6, 0, 2, b"12345678")),
        (3, spell(1, 0, 0, 1, b"\0")),
    ];
    let start = |state: u8| vec![0, 8, state, 0, 4];
    let whole = messages.iter().flat_map(|(_, message)| message.clone());
    let mut seeds = vec![[start(0), whole.collect()].concat()];
    seeds.extend(messages.iter().map(|(state, message)| [&start(*state)[..], message].concat()));
    let write = [&[2, 0, 0, 0, 0, 4, 0, 6, 0, 0, 0, 1, 0, 0, 2, 0, 0, 0, 1, 0][..], b"a piece"];
    seeds.extend([write.concat(), [&[3, 0, 4, 0, 2][..], b"ten bytes."].concat()]);
    seeds.extend((0..6).map(|writer| spell_payload(writer, 2, [1, 0], 1)));
    seeds.extend([spell_payload(2, 2, [1, 0], 0), spell_payload(1, 2, [1, 16], 0)]);
    let device = b"\0\x01\x02\0\x03abc\0\x02de";
    let read: [&[u8]; 6] =
        [&request, &pending, b"\0\0\x01\x03", device, b"\0\x02\x06", b"\0\x02\x07\x04"];
    seeds.extend(read.map(|payload| [&[5][..], payload].concat()));
    let last_heard = [2, 0, 0, 0, 0, 0, 0, 0, 2, 0, 4, 8, 3, 0];
    let (_, first) = &messages[5];
    seeds.extend([12, 11].map(|room| [&[6, 0, room][..], &last_heard, first].concat()));
    seeds.extend(presence_seeds());
    seeds.extend(gateway_seeds());
    seeds
}

thread_local! {
    static COMPARISON: RefCell<Comparison<Hub>> = RefCell::new(Comparison::new(Hub::default()));
}

/// libFuzzer's entry.
///
/// # Safety
///
/// So many bytes are at the pointer.
#[unsafe(no_mangle)]
pub unsafe extern "C" fn LLVMFuzzerTestOneInput(data: *const u8, size: usize) -> i32 {
    // SAFETY: libFuzzer lends so many bytes; none may be at a null pointer.
    let data = if size == 0 { &[] } else { unsafe { std::slice::from_raw_parts(data, size) } };
    let outcome = COMPARISON.with_borrow_mut(|comparison| one(comparison, data));
    if let Err(Difference(text)) = outcome {
        eprintln!("a difference: {text}");
        std::process::abort();
    }
    0
}
