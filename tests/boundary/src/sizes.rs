// SPDX-License-Identifier: MPL-2.0
//! What the comparison does not reach: buffers of fixed size at every other size, words wider than
//! their fields, states of any bytes, places that do not fit, tags, keys of HMAC of any length.

use second::compare::{Comparison, Difference, Implementation, Second};
use second::connection::{Answer, State};
use second::crypto::hmac;
use second::generate::{Case, WriteCase, case, cut_case, discovery_bytes, dress, gateway};
use second::generate::{payload_case, presence_case, write_case};
use second::header::Header;
use second::prng::Prng;

use crate::hub::{BEFORE, answer_of, by_name, fields_of, number_of};
use crate::hub_h::{Hub, WRONG_BUFFER, header_words, is_short};
use crate::payloads::{Call, PresenceCall, Writer, read_into};
use crate::state::{GATEWAY, STATE, decode, encode, encode_next};

/// Every size from 0 to a little more than the right one, but for that.
fn wrong(right: usize) -> impl Iterator<Item = usize> {
    (0..=right + 9).chain([2 * right, 1_000]).filter(move |size| *size != right)
}

/// Each buffer of fixed size at every other size: nothing changes, whatever else is wrong. Answers
/// how many calls that were.
pub fn every_wrong_size(hub: &mut Hub, prng: &mut Prng, case: &Case, write: &WriteCase) -> u64 {
    let mut calls = 0;
    let mut call = |what: &str, number: u32, unchanged: bool| {
        assert!(number == WRONG_BUFFER && unchanged, "{what}: {number}, unchanged: {unchanged}");
        calls += 1;
    };
    let fill = prng.word();
    let Case { message, keys, .. } = case;
    for size in wrong(32) {
        let before = prng.bytes(size);
        let mut out = before.clone();
        call("digest", hub.digest(message, &mut out), out == before);
        call("hmac", hub.hmac(keys, message, &mut out), out == before);
        call("same_tag", hub.same_tag(&before, &[0; 32]), true);
        call("same_tag", hub.same_tag(&[0; 32], &before), true);
        call("same_tag", hub.same_tag(&before, &before), true);
    }
    for size in wrong(11) {
        let mut words = vec![fill; size];
        call("read_header", hub.read_header(message, &mut words), words == vec![fill; size]);
        let mut working = case.working.clone();
        let number = hub.read(message, keys, &mut working, &mut words);
        call("read", number, words == vec![fill; size] && working == case.working);
        let mut place = [fill; 3];
        call("payload", hub.payload(message, &working, &words, &mut place), place == [fill; 3]);
    }
    for size in wrong(3) {
        let mut words = vec![fill; size];
        let header = [0; 11];
        let number = hub.payload(message, &case.working, &header, &mut words);
        call("payload", number, words == vec![fill; size]);
        let cut = cut_case(prng);
        let number = hub.cut(&cut.report, cut.fragment_size.into(), cut.index.into(), &mut words);
        call("cut", number, words == vec![fill; size]);
        let (mut state, mut after) = (encode(&case.connection), case.clone());
        let (working, report) = (&mut after.working, &mut after.report);
        let verdict = case.verdict;
        let number = hub.step(&mut state, message, keys, working, report, verdict, &mut words);
        let unchanged = words == vec![fill; size] && state == encode(&case.connection);
        call("step", number, unchanged && after == *case);
    }
    for size in wrong(STATE) {
        let before = prng.bytes(size);
        let mut state = before.clone();
        call("open", hub.open(prng.word() >> prng.below(64), &mut state), state == before);
        let (mut after, mut words) = (case.clone(), [fill; 3]);
        let (working, report) = (&mut after.working, &mut after.report);
        let verdict = case.verdict;
        let number = hub.step(&mut state, message, keys, working, report, verdict, &mut words);
        call("step", number, state == before && words == [fill; 3] && after == *case);
    }
    wrong_gateways(hub, prng, case, &mut call);
    let WriteCase { header, chain, payload, keys, output } = write;
    let fields = fields_of(header);
    for size in wrong(8) {
        let (mut out, mut length) = (output.clone(), [fill]);
        let fields = vec![1; size];
        let number = hub.write(&fields, chain, payload, keys, &mut out, &mut length);
        call("write", number, out == *output && length == [fill]);
    }
    for size in wrong(1) {
        let (mut out, mut length) = (output.clone(), vec![fill; size]);
        let number = hub.write(&fields, chain, payload, keys, &mut out, &mut length);
        call("write", number, out == *output && length == vec![fill; size]);
        let mut line = [0x77; 64];
        let number = hub.list(message, &mut line, &mut length);
        call("list", number, line == [0x77; 64] && length == vec![fill; size]);
    }
    for size in wrong(13) {
        let mut words = vec![fill; size];
        let number = hub.read_connect(payload, &mut words);
        call("read_connect", number, words == vec![fill; size]);
    }
    for size in wrong(9) {
        call("read_discovery", read_into(hub, &discovery_bytes(prng), size), true);
    }
    let mut judge = |prng: &mut Prng, change: &dyn Fn(&mut PresenceCall)| {
        let mut changed = PresenceCall::new(presence_case(prng));
        change(&mut changed);
        call("the Presence Response's writer", changed.judge(hub).0, true);
    };
    for size in wrong(4) {
        judge(prng, &|call| call.salt = vec![7; size]);
        judge(prng, &|call| call.hash = vec![7; size]);
    }
    for size in wrong(1) {
        judge(prng, &|call| call.length = vec![fill; size]);
    }
    let mut judge = |prng: &mut Prng, writer: Writer, change: &dyn Fn(&mut Call)| {
        let mut changed = Call::new(writer, payload_case(prng));
        change(&mut changed);
        call("a payload's writer", changed.judge(hub).0, true);
    };
    for (size, writer) in wrong(1).flat_map(|size| Writer::ALL.map(|writer| (size, writer))) {
        judge(prng, writer, &|call| call.length = vec![fill; size]);
    }
    for writer in [Writer::ConnectionRequest, Writer::ConnectionResponse] {
        for size in wrong(8) {
            judge(prng, writer, &|call| (call.code, call.nonce) = (1, vec![7; size]));
        }
        for size in wrong(32) {
            judge(prng, writer, &|call| (call.code, call.x) = (1, vec![7; size]));
            judge(prng, writer, &|call| (call.code, call.y) = (1, vec![7; size]));
        }
    }
    for size in wrong(64) {
        let before = prng.bytes(size);
        let (mut line, mut length) = (before.clone(), [fill]);
        let number = hub.list(message, &mut line, &mut length);
        call("list", number, line == before && length == [fill]);
    }
    calls
}

/// The same for a gateway's calls, by the case's message, keys, working buffer and verdict.
fn wrong_gateways(
    hub: &mut Hub,
    prng: &mut Prng,
    case: &Case,
    call: &mut impl FnMut(&str, u32, bool),
) {
    let fill = prng.word();
    let mut step = |hub: &mut Hub, before: &[u8], answer: usize| {
        let (mut gateway, mut words) = (before.to_vec(), vec![fill; answer]);
        let Case { message, keys, verdict, mut working, .. } = case.clone();
        let number =
            hub.gateway_step(&mut gateway, &message, &keys, &mut working, verdict, &mut words);
        let unchanged = gateway == before && words == vec![fill; answer];
        call("gateway_step", number, unchanged && working == case.working);
    };
    for size in wrong(GATEWAY).chain([STATE]) {
        let bytes = prng.bytes(size);
        step(hub, &bytes, 3);
        step(hub, &bytes, 2);
    }
    for size in wrong(3) {
        step(hub, &prng.array::<GATEWAY>(), size);
    }
    for size in wrong(GATEWAY).chain([STATE]) {
        let before = prng.bytes(size);
        let (mut gateway, mut due) = (before.clone(), [fill]);
        let number = hub.gateway_open(prng.word() >> prng.below(64), prng.word(), &mut gateway);
        call("gateway_open", number, gateway == before);
        call("gateway_due", hub.gateway_due(&before, &mut due), due == [fill]);
    }
    for size in wrong(1) {
        let mut due = vec![fill; size];
        let number = hub.gateway_due(&prng.array::<GATEWAY>(), &mut due);
        call("gateway_due", number, due == vec![fill; size]);
    }
}

/// A step on a state of any bytes, by the case's other parts, against the second implementation on
/// what the bytes stand for; a short report buffer is a wrong one. Answers what was returned, and the
/// words.
pub fn step_on(hub: &mut Hub, state: &[u8; STATE], case: &Case) -> (u32, [u64; 3]) {
    let mut ours = Case { connection: decode(state), ..case.clone() };
    let (mut after, mut theirs, mut words) = (*state, ours.clone(), [BEFORE; 3]);
    let (working, report) = (&mut theirs.working, &mut theirs.report);
    let Case { message, keys, verdict, .. } = case;
    let number = hub.step(&mut after, message, keys, working, report, *verdict, &mut words);
    let (expected, handed) = if is_short(state, case.report.len()) {
        ((WRONG_BUFFER, *state), words == [BEFORE; 3])
    } else {
        let (next, answer) = ours.step();
        match answer {
            Answer::Refused(refusal) => ((refusal.number().into(), *state), words == [0; 3]),
            _ => ((0, encode_next(state, &next)), answer_of(&words) == answer),
        }
    };
    assert!((number, after) == expected && handed, "{state:?} {case:?}: {number} {words:?}");
    assert!(ours == theirs, "{state:?} {case:?}: buffers");
    (number, words)
}

/// A step on a state of any bytes.
pub fn any_state(hub: &mut Hub, prng: &mut Prng) {
    let case = case(prng);
    let mut state = encode(&case.connection);
    match prng.below(4) {
        0 => state = prng.array(),
        1 => state[9..].copy_from_slice(&prng.array::<{ STATE - 9 }>()),
        _ => (0..prng.between(1, 4)).for_each(|_| state[prng.below(STATE)] = prng.word() as u8),
    }
    step_on(hub, &state, &case);
}

/// The fields by their words; none where a word is too wide for its field.
fn header_by(fields: &[u64; 8]) -> Option<Header> {
    let [kind, flags, sequence, request, index, count, session, channel] =
        by_name(fields, header_words()[..8].try_into().expect("eight names"));
    Some(Header {
        message_type: kind.try_into().ok()?,
        flags: flags.try_into().ok()?,
        sequence: sequence.try_into().ok()?,
        request,
        index: index.try_into().ok()?,
        count: count.try_into().ok()?,
        session,
        channel,
    })
}

/// The writer with these words for its fields. A word too wide for its field is a wrong buffer,
/// and then nothing is changed, whatever else is wrong; else it is as the second implementation has
/// it, and the length of what is refused is 0. Answers what was returned.
pub fn write_words(hub: &mut Hub, fields: &[u64; 8], case: &WriteCase) -> u32 {
    let WriteCase { chain, payload, keys, output, .. } = case;
    let (mut out, mut length) = (output.clone(), [BEFORE]);
    let number = hub.write(fields, chain, payload, keys, &mut out, &mut length);
    let mut expected = case.clone();
    let (answer, written) = match header_by(fields) {
        None => (WRONG_BUFFER, BEFORE),
        Some(header) => {
            expected.header = header;
            match expected.write() {
                Ok(written) => (0, written as u64),
                Err(refusal) => (refusal.number().into(), 0),
            }
        }
    };
    assert_eq!((number, length[0]), (answer, written), "{fields:?} {expected:?}");
    assert!(out == expected.output, "{fields:?}: output");
    number
}

/// The writer with one or two words that may be wider than their fields.
pub fn wide_fields(hub: &mut Hub, prng: &mut Prng) {
    let case = write_case(prng);
    let mut fields = fields_of(&case.header);
    let [kind, flags, sequence, _, index, count, ..] = header_words();
    for _ in 0..prng.between(1, 2) {
        let field = prng.pick(&[kind, flags, sequence, index, count]);
        let wide = 1 << prng.pick(&[7, 8, 15, 16, 31, 32, 33, 48, 63]);
        fields[field] = fields[field].wrapping_add(wide);
    }
    write_words(hub, &fields, &case);
}

/// A place by any words: it is inside the buffer that it names, or it is empty.
pub fn any_place(hub: &mut Hub, prng: &mut Prng) {
    let (message, working) = (prng.below(200), prng.below(200));
    let (message, working) = (prng.bytes(message), prng.bytes(working));
    let some = |prng: &mut Prng| match prng.below(6) {
        0 => u64::MAX - prng.below(9) as u64,
        1 => prng.word(),
        2 => 1 << prng.below(64),
        _ => prng.below(210) as u64,
    };
    let mut header: [u64; 11] = std::array::from_fn(|_| prng.word());
    let [.., sealed, from, size] = header_words();
    header[sealed] = if prng.chance(5) { some(prng) } else { prng.below(3) as u64 };
    (header[from], header[size]) = (some(prng), some(prng));
    let mut place = [5; 3];
    assert_eq!(hub.payload(&message, &working, &header, &mut place), 0);
    let room = [message.len(), working.len()].get(header[sealed] as usize).map(|room| *room as u64);
    let end = header[from].checked_add(header[size]);
    let expected = match (room, end) {
        (Some(room), Some(end)) if end <= room => [header[sealed], header[from], header[size]],
        _ => [0; 3],
    };
    assert_eq!(place, expected, "{header:?} {} {}", message.len(), working.len());
}

/// Two tags that are alike, or differ in one bit, or anyhow; and an HMAC under a key of any length.
pub fn any_tag(hub: &mut Hub, prng: &mut Prng) {
    let a: [u8; 32] = prng.array();
    let mut b = a;
    match prng.below(3) {
        0 => b = prng.array(),
        1 => b[prng.below(32)] ^= 1 << prng.below(8),
        _ => {}
    }
    assert_eq!(hub.same_tag(&a, &b), u32::from(a != b), "{a:?} {b:?}");
    let (key, data) = (prng.below(200), prng.below(300));
    let (key, data) = (prng.bytes(key), prng.bytes(data));
    let mut out = [0; 32];
    assert_eq!(hub.hmac(&key, &data, &mut out), 0);
    assert_eq!(out, hmac(&key, &data), "{key:?} {data:?}");
}

/// Opening and cutting with numbers wider than the second implementation takes.
pub fn wide_numbers(hub: &mut Hub, prng: &mut Prng) {
    let wide = prng.word() >> prng.below(50);
    let size = u32::try_from(wide).unwrap_or(u32::MAX);
    let mut state = [0xA5; STATE];
    let number = hub.open(wide, &mut state);
    let (connection, opened) = Second.open(size);
    assert_eq!(number, number_of(&opened), "F = {wide}");
    assert_eq!(state, encode(&connection), "F = {wide}");
    let cut = cut_case(prng);
    let index = prng.word() >> prng.below(64);
    let mut piece = [3; 3];
    let number = hub.cut(&cut.report, cut.fragment_size.into(), index, &mut piece);
    let narrow = u32::try_from(index).unwrap_or(u32::MAX);
    let (count, range, answer) = Second.cut(&cut.report, cut.fragment_size, narrow);
    assert_eq!(number, number_of(&answer), "{cut:?} {index}");
    assert_eq!(piece, [count.into(), range.start as u64, range.len() as u64], "{cut:?} {index}");
}

/// A Session message of about 65,535 bytes, some of them more than MessageLength can say.
pub fn long_message(comparison: &mut Comparison<Hub>, prng: &mut Prng) -> Result<(), Difference> {
    let gateway = gateway(prng);
    let length = prng.between(63_300, 65_600);
    let draft = gateway.piece(0, 0, 1, &prng.bytes(length));
    let message = dress(prng, draft).bytes(&gateway.keys);
    let working = vec![0xAA; prng.pick(&[65_455, 65_456, 65_600])];
    let connection = gateway.connection(16_384, State::Ready);
    let (keys, report) = (gateway.keys.to_vec(), vec![0x55; 16_384]);
    let case = Case { connection, message, keys, working, report, verdict: 1 };
    comparison.read(&case)?;
    comparison.step(&case).map(|_| ())
}
