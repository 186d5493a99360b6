// SPDX-License-Identifier: MPL-2.0
//! Presence Responses: the payload's writer and reader, each field at its edges, every cut, bytes that
//! are no text, and the messages that carry it. What must be written and said is laid out here, by the
//! values that a payload is described by.

use second::compare::{Comparison, Difference, Implementation};
use second::connection::{Answer, Connection, State};
use second::draft::Draft;
use second::generate::Case;
use second::header::{Header, Kind, SEALED};
use second::refusal::Refusal;

use super::parts::payload_of;
use super::trial::{KEYS, Reading, Writing, fields, noise, step_of};
use super::values::{MODES, good, laid_out};
use super::written::CHAINS;
use super::{Tried, as_expected, each, pairs};
use crate::hub::{BEFORE, by_name};
use crate::hub_h::{Hub, WRONG_BUFFER, discovery_words};
use crate::payloads::{PresenceCall, Writer, read_into};
use crate::state::encode;

type Done = Result<(), Difference>;

/// What the reader must say, its words by hub.h's names in their order.
type Words = [u64; 9];

/// A Discovery payload, and so what must be said of it.
#[derive(Clone, Debug)]
struct Described {
    /// DiscoveryType.
    kind: u8,
    /// ConnectionMode.
    mode: u16,
    /// DeviceType.
    device: u16,
    /// How long the payload says that its name is.
    said: u16,
    /// The name that it has.
    name: Vec<u8>,
    /// DeviceIdSalt.
    salt: [u8; 4],
    /// DeviceIdHash.
    hash: [u8; 4],
}

/// A Presence Response with a name of this length, which is good to 64 bytes.
fn named(length: usize) -> Described {
    let (said, name) = (length as u16, noise(length));
    Described { kind: 1, mode: 1, device: 12, said, name, salt: *b"salt", hash: *b"hash" }
}

impl Described {
    /// The payload.
    fn bytes(&self) -> Vec<u8> {
        let mut front = vec![self.kind];
        for number in [self.mode, self.device, self.said] {
            front.extend([(number >> 8) as u8, number as u8]);
        }
        [&front[..], &self.name, &self.salt, &self.hash].concat()
    }

    /// What the reader must say; nothing where it must refuse it.
    fn words(&self) -> Option<Words> {
        let bounds = self.kind == 1 && self.mode <= 2 && self.said <= 64;
        let n = u64::from(self.said);
        let words = [1, self.mode.into(), self.device.into(), 7, n, 7 + n, 4, 11 + n, 4];
        (bounds && n == self.name.len() as u64).then_some(words)
    }

    /// The writer's call with these values, and room for so many bytes.
    fn call(&self, room: usize) -> PresenceCall {
        PresenceCall {
            mode: self.mode.into(),
            device: self.device.into(),
            name: self.name.clone(),
            salt: self.salt.to_vec(),
            hash: self.hash.to_vec(),
            out: vec![0xEE; room],
            length: vec![BEFORE],
        }
    }

    /// Reader and messages.
    fn judge(&self, comparison: &mut Comparison<Hub>) -> Done {
        judge(&self.bytes(), self.words(), comparison)
    }
}

/// The reader says so, and as the second implementation does; what it refuses leaves zeros.
fn judge_read(payload: &[u8], expected: Option<Words>, comparison: &mut Comparison<Hub>) -> Done {
    let mut words = [BEFORE; 9];
    let number = comparison.other.read_discovery(payload, &mut words);
    let answer = (if expected.is_some() { 0 } else { 14 }, expected.unwrap_or([0; 9]));
    as_expected(&payload, &answer, &(number, by_name(&words, discovery_words())))?;
    comparison.read_payload(payload)
}

/// The same, and a Discovery message with this payload: written and read where it is good, else 14.
fn judge(payload: &[u8], expected: Option<Words>, comparison: &mut Comparison<Hub>) -> Done {
    judge_read(payload, expected, comparison)?;
    let number = if expected.is_some() { 0 } else { 14 };
    judge_carried(fields(Kind::Discovery, 0), CHAINS[0], payload, number, comparison).map(|_| ())
}

/// A message with this payload: writer and reader answer this number. One that is longer than
/// MessageLength can say is written only. Answers the message, of no bytes if it is refused.
fn judge_carried(
    header: Header,
    chain: &[u8],
    payload: &[u8],
    number: u8,
    comparison: &mut Comparison<Hub>,
) -> Result<Vec<u8>, Difference> {
    let draft = Draft { chain: chain.to_vec(), ..Draft::new(header, payload.to_vec()) };
    let message = draft.bytes(&KEYS);
    let mut writing = Writing::new(header, chain, payload, message.len());
    if number != 0 {
        writing.expected = Err(number);
    }
    let written = writing.judge(comparison)?;
    as_expected(&draft, &(number == 0), &(written == message))?;
    if message.len() <= 65_535 {
        let expected = if number == 0 { Ok((header, payload.to_vec())) } else { Err(number) };
        judge_message(message, expected, comparison)?;
    }
    Ok(written)
}

/// A message: the reader answers so, the listing has its line where 1 to 9 do not refuse it, and a
/// step answers 15 where the reader does not refuse it.
fn judge_message(
    message: Vec<u8>,
    expected: Result<(Header, Vec<u8>), u8>,
    comparison: &mut Comparison<Hub>,
) -> Done {
    let sequence = fields(Kind::Discovery, 0).sequence;
    let line = match expected {
        Err(number @ 1..=9) => Err(number),
        _ => Ok(format!("{} {sequence} 0 1 {}", message[5], message.len())),
    };
    let listed = comparison.other.line(&message).map_err(|refusal| refusal.number());
    as_expected(&message, &line, &listed)?;
    let number = *expected.as_ref().err().unwrap_or(&15);
    let reading = Reading { case: step_of(message, State::Ready), expected };
    reading.read(comparison)?;
    comparison.read(&reading.case)?;
    judge_step(&reading.case, number, comparison)
}

/// A step answers this number and changes nothing but the working buffer, and that only where a sealed
/// message gets past 13.
fn judge_step(case: &Case, number: u8, comparison: &mut Comparison<Hub>) -> Done {
    let before = encode(&case.connection);
    let (mut state, mut after, mut words) = (before, case.clone(), [BEFORE; 3]);
    let (working, report, verdict) = (&mut after.working, &mut after.report, case.verdict);
    let (message, keys) = (&case.message, &case.keys);
    let hub = &mut comparison.other;
    let found = hub.step(&mut state, message, keys, working, report, verdict, &mut words);
    as_expected(case, &(u32::from(number), before, [0; 3]), &(found, state, words))?;
    as_expected(case, &case.report, &after.report)?;
    let opened = number >= 14 && message[7] & 6 == 6;
    as_expected(case, &true, &(opened || case.working == after.working))?;
    let refusal = Refusal::from_number(number).expect("a row of the table");
    as_expected(case, &Answer::Refused(refusal), &comparison.step(case)?)
}

/// The writer answers as expected and as the second implementation does, and writes what is laid out.
fn judge_call(
    call: &PresenceCall,
    number: u32,
    payload: &[u8],
    comparison: &mut Comparison<Hub>,
) -> Done {
    let written = if number == 0 { payload.to_vec() } else { Vec::new() };
    as_expected(call, &(number, written), &call.judge(&mut comparison.other))
}

/// Names of 0 to 80 bytes with each mode, one above and the widest; the output of just enough bytes,
/// of one too few, of none and of more: 14, then 22.
pub fn written(comparison: &mut Comparison<Hub>) -> Tried {
    let names = pairs(0..=80, [0, 1, 2, 3, u16::MAX]);
    let cases = names.into_iter().flat_map(|(length, mode)| {
        let described = Described { mode, ..named(length) };
        [15 + length, 14 + length, 0, 24 + length].map(|room| (described.clone(), room))
    });
    each(comparison, cases, |(described, room), comparison| {
        let (call, length) = (described.call(*room), described.name.len());
        let number = match (described.mode, length) {
            (3.., _) | (_, 65..) => 14,
            _ if *room < 15 + length => 22,
            _ => 0,
        };
        judge_call(&call, number, &described.bytes(), comparison)
    })
}

/// Mode and device as words of 64 bits, each with room enough and with none; salt and hash of 0 to 8
/// bytes and the length of 0 to 3 words, in a call that is right in all else and in one that is wrong
/// in all else: 255 first.
pub fn wrong_buffers(comparison: &mut Comparison<Hub>) -> Tried {
    let right = named(11).call(26);
    let spoilt = Described { mode: 3, ..named(65) }.call(0);
    let mut cases = Vec::new();
    for (mode, device) in pairs(MODES, MODES) {
        let number = match (mode > 65_535 || device > 65_535, mode > 2) {
            (true, _) => WRONG_BUFFER,
            (false, true) => 14,
            (false, false) => 0,
        };
        let call = PresenceCall { mode, device, ..right.clone() };
        let none = PresenceCall { out: Vec::new(), ..call.clone() };
        cases.extend([(call, number), (none, if number == 0 { 22 } else { number })]);
    }
    let mut either = |fits: bool, change: &dyn Fn(&mut PresenceCall)| {
        for (call, number) in [(&right, 0), (&spoilt, 14)] {
            let mut call = call.clone();
            change(&mut call);
            cases.push((call, if fits { number } else { WRONG_BUFFER }));
        }
    };
    for (salt, hash) in pairs(0..=8, 0..=8) {
        either((salt, hash) == (4, 4), &|call| {
            call.salt.resize(salt, 5);
            call.hash.resize(hash, 6);
        });
    }
    for length in [0, 0, 0, 1, 2, 3] {
        either(length == 1, &|call| call.length.resize(length, BEFORE));
    }
    each(comparison, cases, |(call, number), comparison| {
        let device = call.device as u16;
        let payload = Described { mode: call.mode as u16, device, ..named(11) };
        judge_call(call, *number, &payload.bytes(), comparison)
    })
}

/// The reader with 0 to 20 words, on payloads that are good, bad and empty: 255 unless they are nine.
pub fn words(comparison: &mut Comparison<Hub>) -> Tried {
    let payloads = [0, 64, 65].map(|length| (named(length).bytes(), named(length).words()));
    let short = [(vec![], None), (vec![0], Some([0; 9])), (vec![1], None)];
    let payloads = [&payloads[..], &short].concat();
    let cases = payloads.iter().flat_map(|payload| (0..=20).map(move |size| (payload, size)));
    each(comparison, cases, |((payload, words), size), comparison| {
        if *size == 9 {
            return judge_read(payload, *words, comparison);
        }
        as_expected(payload, &WRONG_BUFFER, &read_into(&mut comparison.other, payload, *size))
    })
}

/// Names that are said to have 0 to 80 bytes, with as many bytes after that as it asks for, one fewer
/// and one more.
pub fn lengths(comparison: &mut Comparison<Hub>) -> Tried {
    each(comparison, pairs(0..=80, 0..=2), |(length, more), comparison| {
        let described = named(*length);
        let mut payload = described.bytes();
        payload.resize(payload.len() + more - 1, 0);
        judge(&payload, described.words().filter(|_| *more == 1), comparison)
    })
}

/// Each DiscoveryType, before the rest of a Presence Response and with nothing after it: 1 and 0 are
/// good.
pub fn types(comparison: &mut Comparison<Hub>) -> Tried {
    each(comparison, pairs(0..=255, [false, true]), |(kind, alone), comparison| {
        if *alone {
            return judge(&[*kind], (*kind == 0).then_some([0; 9]), comparison);
        }
        Described { kind: *kind, ..named(5) }.judge(comparison)
    })
}

/// Lengths at their edges as a payload may say them, each with how many bytes its name has: as many,
/// one fewer, one more, or as many as one byte of the two says.
fn edges() -> Vec<(u16, usize)> {
    let said = [0, 1, 63, 64, 65, 255, 256, 65_535].into_iter();
    said.flat_map(|said: usize| {
        let mut has = [said, said + 1, said.saturating_sub(1), said % 256, said / 256].to_vec();
        has.sort();
        has.dedup();
        has.into_iter().map(move |has| (said as u16, has))
    })
    .collect()
}

/// ConnectionMode, DeviceType and the name's length at their edges, salt and hash all 0 and all 255.
pub fn fields_at_edges(comparison: &mut Comparison<Hub>) -> Tried {
    let (modes, devices) = ([0, 1, 2, 3, 255, 256, 65_535], [0, 1, 14, 255, 256, 65_535]);
    let fills = pairs([[0; 4], [255; 4]], [[0; 4], [255; 4]]);
    let cases = pairs(pairs(modes, devices), pairs(edges(), fills));
    each(comparison, cases, |((mode, device), ((said, has), (salt, hash))), comparison| {
        let (mode, device, said) = (*mode, *device, *said);
        let (name, salt, hash) = (noise(*has), *salt, *hash);
        Described { kind: 1, mode, device, said, name, salt, hash }.judge(comparison)
    })
}

/// Names at their edges.
const NAMES: [usize; 4] = [0, 1, 63, 64];

/// Payloads cut at every length, and with bytes after their end: one, two, as many as the fields that
/// 001 has there (4, and 6 more), and as many as a hash of 32 bytes has more.
pub fn cuts(comparison: &mut Comparison<Hub>) -> Tried {
    let cases = NAMES.into_iter().flat_map(|length| {
        let whole = 15 + length;
        let sizes = (0..=whole).chain([1, 2, 4, 10, 28].map(|more| whole + more));
        sizes.map(move |size| (length, size))
    });
    each(comparison, cases, |(length, size), comparison| {
        let described = named(*length);
        let mut payload = described.bytes();
        payload.resize(*size, 0);
        judge(&payload, described.words().filter(|_| *size == 15 + length), comparison)
    })
}

/// Messages cut at every length, and with a byte after their end, MessageLength as it was and as many
/// as are given: 1, else 3 where it is not so many, else 14.
pub fn message_cuts(comparison: &mut Comparison<Hub>) -> Tried {
    let cases = NAMES.into_iter().flat_map(|length| {
        pairs(0..=58 + length, [false, true]).into_iter().map(move |cut| (length, cut))
    });
    each(comparison, cases, |(length, (given, said)), comparison| {
        let (header, payload, whole) =
            (fields(Kind::Discovery, 0), named(*length).bytes(), 57 + length);
        let mut message = Draft::new(header, payload.clone()).bytes(&KEYS);
        message.resize(*given, 0);
        if *said && *given >= 4 {
            message[2..4].copy_from_slice(&[0, *given as u8]);
        }
        let expected = match (*given, *said) {
            (0..42, _) => Err(1),
            (given, _) if given == whole => Ok((header, payload)),
            (_, false) => Err(3),
            (_, true) => Err(14),
        };
        judge_message(message, expected, comparison)
    })
}

/// Written by its writer, in a message by `hub_write`, read by `hub_read`, found by `hub_payload`, read
/// by `hub_read_discovery`: the values that were given, and at the places the bytes. A name that is too
/// long is 14 by the payload's writer, and by `hub_write` and `hub_read` where it is laid out here.
fn there_and_back(described: &Described, chain: &[u8], comparison: &mut Comparison<Hub>) -> Done {
    let (payload, words) = (described.bytes(), described.words());
    let number = if words.is_some() { 0 } else { 14 };
    judge_call(&described.call(payload.len()), number, &payload, comparison)?;
    let header = fields(Kind::Discovery, 0);
    let message = judge_carried(header, chain, &payload, number as u8, comparison)?;
    let Some([_, _, _, places @ ..]) = words else { return Ok(()) };
    let found = payload_of(&mut comparison.other, &message, &[])?;
    judge_read(&found, words, comparison)?;
    let parts = places.chunks(2).map(|place| &found[place[0] as usize..][..place[1] as usize]);
    let given = [&described.name[..], &described.salt, &described.hash];
    as_expected(described, &given.to_vec(), &parts.collect())
}

/// Names of 0 to 80 bytes with chains of no entry, of one and of eight, there and back.
pub fn messages(comparison: &mut Comparison<Hub>) -> Tried {
    each(comparison, pairs(0..=80, CHAINS), |(length, chain), comparison| {
        let (mode, device) = ((*length % 3) as u16, (*length * 821) as u16);
        there_and_back(&Described { mode, device, ..named(*length) }, chain, comparison)
    })
}

/// Bytes that are text or not, there and back: names, salts and hashes of each byte, zeros too; and
/// each byte at each place of a name of 64, of salt and of hash.
pub fn any_bytes(comparison: &mut Comparison<Hub>) -> Tried {
    let mut cases = Vec::new();
    for (byte, length) in pairs(0..=255_u8, NAMES) {
        let (name, salt, hash) = (vec![byte; length], [byte; 4], [!byte; 4]);
        cases.push(Described { name, salt, hash, ..named(length) });
    }
    for (byte, place) in pairs(0..=255, 0..72) {
        let mut described = named(64);
        let Described { name, salt, hash, .. } = &mut described;
        *name.iter_mut().chain(salt).chain(hash).nth(place).expect("one of 72") = byte;
        cases.push(described);
    }
    each(comparison, cases, |described, comparison| {
        there_and_back(described, CHAINS[0], comparison)
    })
}

/// A connection in this state that remembers something in every field, two of three pieces heard.
fn in_mid_report(state: State) -> Connection {
    Connection {
        nonce: [1; 8],
        x: [2; 32],
        y: [3; 32],
        certificate: [4; 32],
        heard: 5,
        count: 3,
        channel: 6,
        last_length: 5,
        ..step_of(Vec::new(), state).connection
    }
}

/// Names of 0 to 64 bytes with each chain, in each state with verdicts 0 and 1, the SessionID the
/// connection's or another, with keys and working buffer and without: 15, and nothing changes.
pub fn steps(comparison: &mut Comparison<Hub>) -> Tried {
    let messages = pairs(pairs(0..=64, CHAINS), [0, 1]);
    let cases = pairs(messages, pairs(State::ALL, [0, 1]));
    each(comparison, cases, |(((length, chain), other), (state, verdict)), comparison| {
        let mut draft = Draft::new(fields(Kind::Discovery, 0), named(*length).bytes());
        draft.chain = chain.to_vec();
        draft.header.session += *other;
        let case = step_of(draft.bytes(&KEYS), *state);
        let case = Case { connection: in_mid_report(*state), verdict: *verdict, ..case };
        judge_step(&case, 15, comparison)?;
        let bare = Case { keys: Vec::new(), working: Vec::new(), ..case };
        judge_step(&bare, 15, comparison)
    })
}

/// Names of 0 to 64 bytes in messages that are sealed, or only tagged, or only encrypted: 6.
pub fn sealed(comparison: &mut Comparison<Hub>) -> Tried {
    each(comparison, pairs(0..=64, [2, 4, 6, 11, 13, 15]), |(length, flags), comparison| {
        let header = fields(Kind::Discovery, *flags);
        judge_carried(header, CHAINS[0], &named(*length).bytes(), 6, comparison).map(|_| ())
    })
}

/// Presence Responses as Connect payloads, plain and sealed, and Connect payloads as Discovery: 14.
pub fn exchanged(comparison: &mut Comparison<Hub>) -> Tried {
    let mut cases = Vec::new();
    for ((length, mode), flags) in pairs(pairs(0..=64, 0..=2), [0, SEALED]) {
        cases.push((fields(Kind::Connect, flags), Described { mode, ..named(length) }.bytes()));
    }
    let connect = good().into_iter().filter(|call| call.writer != Writer::PresenceRequest);
    cases.extend(connect.map(|call| (fields(Kind::Discovery, 0), laid_out(&call))));
    each(comparison, cases, |(header, payload), comparison| {
        let discovery = header.message_type == Kind::Discovery.number();
        let read = if discovery {
            comparison.other.read_discovery(payload, &mut [BEFORE; 9])
        } else {
            comparison.other.read_connect(payload, &mut [BEFORE; 13])
        };
        as_expected(payload, &14, &read)?;
        judge_carried(*header, CHAINS[0], payload, 14, comparison).map(|_| ())
    })
}
