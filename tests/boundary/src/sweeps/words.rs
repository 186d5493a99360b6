// SPDX-License-Identifier: MPL-2.0
//! What a call leaves in the words that it hands out. The second implementation says what must be
//! answered, include/hub.h in which words; on a refusal each of them is 0.

use second::compare::{Comparison, Difference};
use second::connection::{Connection, State};
use second::draft::{Damage, Draft};
use second::generate::{Case, WriteCase};
use second::header::{Header, Kind, SEALED, read_header};

use super::described::sealed;
use super::header::with_fault;
use super::trial::{KEYS, fields, noise, step_of};
use super::written::piece;
use super::{Tried, as_expected, each};
use crate::hub::{BEFORE, fields_of, number_of};
use crate::hub_h::{self, Hub, WRONG_BUFFER, header_words};
use crate::samples::samples;
use crate::sizes::write_words;
use crate::state::encode;

/// A call that is refused, and with which number.
type Refused = (u32, Case);

/// A sealed Session message that is the whole report of a connection of F = 16, waiting for it.
fn whole() -> Draft {
    Draft::new(fields(Kind::Session, SEALED), noise(10))
}

fn step(draft: &Draft) -> Case {
    step_of(draft.bytes(&KEYS), State::Ready)
}

/// The reader's refusals, 14 once sealed and once plain.
fn refused_reads() -> Vec<Refused> {
    let faults = (1..=9).map(|number: u8| (number.into(), with_fault(sealed(), number).bytes()));
    let mut calls: Vec<Refused> =
        faults.map(|(number, bytes)| (number, step_of(bytes, State::Ready))).collect();
    let [mut no_keys, mut flipped, mut short] = [(); 3].map(|()| step(&whole()));
    no_keys.keys.clear();
    Damage::Flip(400).befall(&mut flipped.message);
    short.working.truncate(15);
    let padded = Draft { padding: Some(vec![3; 2]), ..whole() };
    let connect = |flags| step(&Draft::new(fields(Kind::Connect, flags), vec![9]));
    calls.extend([(10, no_keys), (11, flipped), (12, short), (13, step(&padded))]);
    calls.extend([(14, connect(SEALED)), (14, connect(0))]);
    calls
}

/// The refusals of a step.
fn refused_steps() -> Vec<Refused> {
    let with = |change: fn(&mut Header)| {
        let mut draft = whole();
        change(&mut draft.header);
        step(&draft)
    };
    let on = |change: fn(&mut Connection)| {
        let mut case = step(&whole());
        change(&mut case.connection);
        case
    };
    let heard = |connection: &mut Connection, count| {
        let channel = fields(Kind::Session, SEALED).channel;
        *connection = Connection { heard: 1, count, channel, last_length: 10, ..*connection };
    };
    let (mut no_room, mut unlike, mut other_count) =
        (step(&whole()), step(&whole()), step(&whole()));
    no_room.report.truncate(9);
    heard(&mut unlike.connection, 1);
    heard(&mut other_count.connection, 2);
    let mut calls = refused_reads();
    calls.extend([
        (15, on(|connection| connection.state = State::Passed as u8)),
        (16, with(|header| header.session += 1)),
        (17, with(|header| header.sequence -= 1)),
        (18, with(|header| header.sequence += 1)),
        (19, with(|header| header.sequence = u32::MAX)),
        (20, with(|header| header.count = 2)),
        (21, other_count),
        (22, no_room),
        (23, unlike),
        (24, on(|connection| connection.fragment_size = 0)),
        (25, Case { verdict: 2, ..step(&whole()) }),
    ]);
    calls
}

/// The words that the header's reader gives for a message that it reads.
fn header_as_words(message: &[u8]) -> [u64; 11] {
    let framed = read_header(message).expect("a good header");
    let [plain, _, still_sealed] = hub_h::sealed();
    let names = if framed.header.sealed() { still_sealed } else { plain };
    let mut words = [0; 11];
    words[..8].copy_from_slice(&fields_of(&framed.header));
    let [.., sealed_at, from, size] = header_words();
    words[sealed_at] = names;
    (words[from], words[size]) = (framed.body.start as u64, framed.body.len() as u64);
    words
}

/// After a message was read, one is refused into the same words: nothing of the first is left, and
/// the place that they name is empty, at the message's start.
pub fn refused_after_read(comparison: &mut Comparison<Hub>) -> Tried {
    let (keys, messages) = samples();
    let refused = refused_reads();
    let cases = messages.iter().flat_map(|sample| refused.iter().map(move |call| (sample, call)));
    each(comparison, cases, |((_, message), (number, case)), comparison| {
        let hub = &mut comparison.other;
        let (mut working, mut words) = (vec![0xAA; message.len()], [BEFORE; 11]);
        as_expected(message, &0, &hub.read(message, &keys, &mut working, &mut words))?;
        let (mut header, mut second) = (words, case.clone());
        let mut theirs = case.working.clone();
        let found = hub.read(&case.message, &case.keys, &mut theirs, &mut words);
        as_expected(case, &(*number, [0; 11]), &(found, words))?;
        as_expected(case, number, &number_of(&second.read()))?;
        as_expected(case, &second.working, &theirs)?;
        hub.place_is(message, &working, &words, 0, &(0..0));
        hub.place_is(&case.message, &theirs, &words, 0, &(0..0));
        if *number <= 9 {
            let found = hub.read_header(&case.message, &mut header);
            as_expected(case, &(*number, [0; 11]), &(found, header))?;
        }
        Ok(())
    })
}

/// The words that the header's reader gives, as a place: a plain message's payload; of a sealed one
/// no part, though both buffers have the one that the words would name.
pub fn header_as_place(comparison: &mut Comparison<Hub>) -> Tried {
    let (_, messages) = samples();
    each(comparison, messages, |(_, message), comparison| {
        let hub = &mut comparison.other;
        let mut words = [BEFORE; 11];
        let number = hub.read_header(message, &mut words);
        as_expected(message, &(0, header_as_words(message)), &(number, words))?;
        let framed = read_header(message).expect("a good header");
        let payload = if framed.header.sealed() { 0..0 } else { framed.body };
        hub.place_is(message, message, &words, 0, &payload);
        hub.place_is(message, &[], &words, 0, &payload);
        Ok(())
    })
}

/// Calls of the writer: a sealed piece, a Presence Request, and one of which all but the fields is
/// wrong; each with what it is answered.
fn calls() -> [(WriteCase, u32); 3] {
    let sealed = piece(&[0, 0], (28, 32)).case;
    let plain = WriteCase {
        header: fields(Kind::Discovery, 0),
        payload: vec![0],
        keys: Vec::new(),
        ..sealed.clone()
    };
    let (keys, chain, payload) = (Vec::new(), Vec::new(), noise(16_385));
    let wrong = WriteCase { keys, chain, payload, output: Vec::new(), ..sealed.clone() };
    [(sealed, 0), (plain, 0), (wrong, 8)]
}

/// Each field of the writer at its edge, one above, above by what its width leaves out, and as wide as
/// a word is; and the fields that are as wide as words.
pub fn fields_at_edges(comparison: &mut Comparison<Hub>) -> Tried {
    let [kind, flags, sequence, request, index, count, session, channel, ..] = header_words();
    let narrow = [
        (kind, 0xFF, Some(5)),
        (flags, 0xFFFF, Some(6)),
        (sequence, 0xFFFF_FFFF, None),
        (index, 0xFFFF, Some(7)),
        (count, 0xFFFF, Some(7)),
    ];
    let mut cases = Vec::new();
    for (call, otherwise) in calls() {
        let fields = fields_of(&call.header);
        let mut case = |field, word, expected| {
            let mut fields = fields;
            fields[field] = word;
            cases.push((fields, call.clone(), expected));
        };
        for (field, edge, refusal) in narrow {
            case(field, edge, refusal.unwrap_or(otherwise));
            for above in [edge + 1, edge + 1 + fields[field], u64::MAX] {
                case(field, above, WRONG_BUFFER);
            }
        }
        for field in [request, session, channel] {
            case(field, u64::MAX, otherwise);
        }
    }
    each(comparison, cases, |(fields, call, expected), comparison| {
        let found = write_words(&mut comparison.other, fields, call);
        as_expected(&(fields, call), expected, &found)
    })
}

/// After a step that was done, one is refused into the same words: they are all 0, and connection and
/// report buffer are as they were.
pub fn refused_after_step(comparison: &mut Comparison<Hub>) -> Tried {
    let refused = refused_steps();
    each(comparison, refused, |(number, case), comparison| -> Result<(), Difference> {
        let mut words = [BEFORE; 3];
        let done = one_step(&mut comparison.other, &step(&whole()), &mut words);
        as_expected(&words, &(0, [6, 1, 10]), &(done.0, words))?;
        let before = encode(&case.connection);
        let (found, state, report) = one_step(&mut comparison.other, case, &mut words);
        as_expected(case, &(*number, [0; 3]), &(found, words))?;
        as_expected(case, &(before, &case.report), &(state, &report))?;
        comparison.step(case).map(|_| ())
    })
}

/// A step by hub.h: the number, the state after it and the report buffer.
fn one_step(hub: &mut Hub, case: &Case, words: &mut [u64; 3]) -> (u32, [u8; 151], Vec<u8>) {
    let (mut state, mut after) = (encode(&case.connection), case.clone());
    let (working, report) = (&mut after.working, &mut after.report);
    let verdict = case.verdict;
    let number = hub.step(&mut state, &case.message, &case.keys, working, report, verdict, words);
    (number, state, after.report)
}
