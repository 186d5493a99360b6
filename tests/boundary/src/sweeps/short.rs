// SPDX-License-Identifier: MPL-2.0
//! Report buffers that are shorter than a report whose length is known, and verdicts of 64 bits: on
//! connections that no course of steps gives, too.

use second::compare::{Comparison, Difference};
use second::connection::State;
use second::draft::Draft;
use second::gateway::Gateway;
use second::generate::Case;
use second::prng::Prng;

use super::conversations::kinds;
use super::{Tried, as_expected, each, pairs};
use crate::hub_h::{Hub, WRONG_BUFFER, state_places};
use crate::sizes::step_on;
use crate::state::{STATE, encode};

/// What a state's bytes say of the report under way.
#[derive(Clone, Copy, Debug)]
struct Remembered {
    size: u64,
    count: u64,
    heard: u64,
    last: u16,
}

impl Remembered {
    /// These in the bytes of a state.
    fn put(&self, mut state: [u8; STATE]) -> [u8; STATE] {
        let places = state_places();
        for (field, bytes) in [
            (0, &self.size.to_be_bytes()[..]),
            (8, &self.heard.to_le_bytes()),
            (9, &self.count.to_be_bytes()),
            (11, &self.last.to_be_bytes()),
        ] {
            state[places[field]..places[field] + bytes.len()].copy_from_slice(bytes);
        }
        state
    }

    /// The report's length, if it is known.
    fn length(&self) -> Option<usize> {
        let bounds = (1..=16_384).contains(&self.size) && (1..=64).contains(&self.count);
        let known = bounds && self.heard & 1 << (self.count - 1) != 0;
        known.then(|| (self.size * (self.count - 1)) as usize + usize::from(self.last))
    }
}

fn gateway() -> Gateway {
    Gateway::new(&mut Prng::new(0x7368_6f72), 40, 20)
}

/// A step on a connection of this gateway, whose state's bytes are then made up.
fn step(gateway: &Gateway, message: Vec<u8>, report: usize, verdict: u64) -> Case {
    let connection = gateway.connection(16, State::Ready);
    let (working, report) = (vec![0xAA; message.len()], vec![0x55; report]);
    Case { connection, message, keys: gateway.keys.to_vec(), working, report, verdict }
}

/// F and count at their bounds, beyond them, and where lower bits are within them; the last piece's
/// length, heard or not; the report buffer of no byte, one too few, as many as the report has, and
/// one more. The message is an enrolment again, which looks at nothing of that.
pub fn bounds(comparison: &mut Comparison<Hub>) -> Tried {
    let sizes = [0, 1, 2, 16, 16_383, 16_384, 16_385, 65_537, (1 << 32) + 16, 1 << 63, u64::MAX];
    let counts = [0, 1, 2, 63, 64, 65, 128, 257, 65_537, (1 << 32) + 1, u64::MAX];
    let gateway = gateway();
    let [(request, _), ..] = gateway.enrolment();
    let message = request.bytes(&gateway.keys);
    let mut cases = Vec::new();
    for (size, count) in pairs(sizes, counts) {
        let bit = 1 << (count.wrapping_sub(1) % 64);
        let lasts = [0, 1, size as u16, (size as u16).wrapping_add(1), u16::MAX];
        for (heard, last) in pairs([0, bit, !bit, u64::MAX], lasts) {
            let remembered = Remembered { size, count, heard, last };
            let length = remembered.length().unwrap_or(17);
            let rooms = [Some(0), length.checked_sub(1), Some(length), Some(length + 1)];
            cases.extend(rooms.into_iter().flatten().map(|room| (remembered, room)));
        }
    }
    each(comparison, cases, |(remembered, room), comparison| {
        let case = step(&gateway, message.clone(), *room, 1);
        let state = remembered.put(encode(&case.connection));
        let expected = match remembered.length() {
            Some(length) if *room < length => WRONG_BUFFER,
            _ if (1..=16_384).contains(&remembered.size) => 0,
            _ => 24,
        };
        let (found, _) = step_on(&mut comparison.other, &state, &case);
        as_expected(&(remembered, room), &expected, &found)
    })
}

/// Messages of every kind, pieces of the report under way (the first, the last, one that is unlike),
/// and what is no message.
fn messages(gateway: &Gateway) -> Vec<Vec<u8>> {
    let mut drafts: Vec<Draft> = kinds(gateway);
    drafts.push(gateway.piece(0, 0, 3, &[0x55; 16]));
    drafts.push(gateway.piece(0, 2, 3, &[0x55; 5]));
    drafts.push(gateway.piece(0, 1, 2, &[1; 5]));
    let mut messages: Vec<_> = drafts.iter().map(|draft| draft.bytes(&gateway.keys)).collect();
    let damaged = messages[0][..41].to_vec();
    messages.extend([Vec::new(), damaged, vec![0x30; 200]]);
    messages
}

/// Verdicts that are, and that are none.
const VERDICTS: [u64; 14] = [
    0,
    1,
    2,
    255,
    256,
    257,
    65_536,
    65_537,
    1 << 32,
    (1 << 32) + 1,
    1 << 63,
    (1 << 63) + 1,
    u64::MAX - 1,
    u64::MAX,
];

/// Every kind of message in every state, of a report of 37 bytes whose last piece has come, alone or
/// with all but the first: with a report buffer of 36 bytes it is a wrong buffer, whatever the verdict
/// and the keys; with one of 37 it is not.
pub fn messages_of_each_kind(comparison: &mut Comparison<Hub>) -> Tried {
    let gateway = gateway();
    let steps = pairs(pairs([4, 6], [36, 37]), pairs([0, 1, 2, 257], [0, 1, 2, 3, 4, 5, 255]));
    let messages = messages(&gateway);
    let cases = messages.iter().flat_map(|message| steps.iter().map(move |step| (message, step)));
    each(comparison, cases, |(message, ((heard, room), (verdict, state_number))), comparison| {
        let mut case = step(&gateway, message.to_vec(), *room, *verdict);
        (case.connection.count, case.connection.channel) = (3, gateway.channel);
        let remembered = Remembered { size: 16, count: 3, heard: *heard, last: 5 };
        let mut state = remembered.put(encode(&case.connection));
        state[state_places()[1]] = *state_number;
        for keys in [gateway.keys.to_vec(), Vec::new()] {
            let case = Case { keys, ..case.clone() };
            let (found, words) = step_on(&mut comparison.other, &state, &case);
            as_expected(&(&case, words), &(*room == 36), &(found == WRONG_BUFFER))?;
            as_expected(&(&case, words), &(*room == 37 && *verdict > 1), &(found == 25))?;
        }
        Ok(())
    })
}

/// The last missing piece of that report, with a report buffer of just its length: it is complete.
/// With one byte less, nothing changes.
pub fn complete(comparison: &mut Comparison<Hub>) -> Tried {
    let gateway = gateway();
    let message = gateway.piece(0, 0, 3, &[7; 16]).bytes(&gateway.keys);
    each(comparison, 0..=40, |room, comparison| {
        let mut case = step(&gateway, message.clone(), *room, 0);
        case.connection.channel = gateway.channel;
        let remembered = Remembered { size: 16, count: 3, heard: 6, last: 5 };
        let found =
            step_on(&mut comparison.other, &remembered.put(encode(&case.connection)), &case);
        let expected = if *room < 37 { WRONG_BUFFER } else { 0 };
        as_expected(room, &expected, &found.0)?;
        as_expected(room, &(*room >= 37), &(found.1 == [6, 3, 37]))
    })
}

/// Every verdict with every kind of message in every state; and with F = 0, whose 24 comes after 25.
pub fn verdicts(comparison: &mut Comparison<Hub>) -> Tried {
    let gateway = gateway();
    let messages = messages(&gateway);
    let steps = pairs(VERDICTS, pairs([0, 16], State::ALL));
    let cases = messages.iter().flat_map(|message| steps.iter().map(move |step| (message, step)));
    each(
        comparison,
        cases,
        |(message, (verdict, (size, state))), comparison| -> Result<(), Difference> {
            let mut case = step(&gateway, message.to_vec(), 64, *verdict);
            case.connection = gateway.connection(16, *state);
            case.connection.fragment_size = *size;
            let (found, _) = step_on(&mut comparison.other, &encode(&case.connection), &case);
            as_expected(&case, &(*verdict > 1), &(found == 25))?;
            as_expected(&case, &(*verdict <= 1 && *size == 0), &(found == 24))
        },
    )
}
