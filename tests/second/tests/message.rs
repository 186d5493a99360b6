// SPDX-License-Identifier: MPL-2.0
//! The reader, the payload's place and the writer: refusals 10 to 14, round trips, buffers.

mod common;

use common::{gateway, number, presence};
use second::draft::{Damage, Draft};
use second::gateway::{Gateway, plain_header, presence_request, presence_response, sealed_header};
use second::header::{Header, Kind};
use second::message::{Place, part, read_message};
use second::payload::{Connect, Credentials, Offer, Payload, read_payload};
use second::prng::Prng;
use second::seal::{Keys, sealed_size};
use second::writer::write_message;

const PAYLOADS: [usize; 10] = [0, 1, 11, 12, 13, 27, 28, 29, 16_383, 16_384];

/// Writes between guard bytes, and checks them.
fn write(draft: &Draft, keys: &[u8]) -> Result<Vec<u8>, second::refusal::Refusal> {
    let mut output = vec![0xEE; 20_000];
    let length = write_message(&draft.header, &draft.chain, &draft.payload, keys, &mut output);
    let kept = *length.as_ref().unwrap_or(&0);
    assert!(output[kept..].iter().all(|byte| *byte == 0xEE));
    length.map(|length| output[..length].to_vec())
}

/// What is written is what the rules give, and reads back as the same fields and payload.
fn round_trip(draft: &Draft) {
    let keys = gateway().keys;
    let message = write(draft, &keys).unwrap();
    assert_eq!(message, draft.bytes(&keys));
    let mut working = vec![0xAA; 17_000];
    let read = read_message(&message, &keys, &mut working).unwrap();
    assert_eq!(read.header, draft.header);
    assert_eq!(part(Some(&read.payload), &message, &working), draft.payload);
    let payload = draft.payload.len();
    if draft.header.sealed() {
        let sealed = sealed_size(payload);
        assert_eq!(message.len(), 74 + draft.chain.len() - 2 + 16 * (4 + payload).div_ceil(16));
        assert_eq!(read.payload, Place::Working(4..4 + payload));
        assert_eq!(working[..4], (payload as u32).to_be_bytes());
        assert!(
            working[4 + payload..sealed].iter().all(|b| usize::from(*b) == sealed - 4 - payload)
        );
        assert!(working[sealed..].iter().all(|byte| *byte == 0xAA));
    } else {
        assert_eq!(message.len(), 40 + draft.chain.len() + payload);
        assert!(working.iter().all(|byte| *byte == 0xAA));
    }
}

fn chains() -> [Vec<u8>; 4] {
    let eight = [[3, 2, 7, 7].repeat(8), vec![0, 0]].concat();
    let longest = [[&[2, 255][..], &[9; 255]].concat().repeat(8), vec![0, 0]].concat();
    [vec![0, 0], vec![1, 0, 0, 0], eight, longest]
}

#[test]
fn round_trip_of_every_kind_and_size_class() {
    let gateway = gateway();
    let enrolment = gateway.enrolment().map(|(draft, _)| draft);
    for chain in chains() {
        let with_chain =
            |draft: &Draft| round_trip(&Draft { chain: chain.clone(), ..draft.clone() });
        with_chain(&presence_request());
        with_chain(&presence_response(presence()));
        enrolment.iter().chain(&gateway.replies()).for_each(with_chain);
        for length in PAYLOADS {
            with_chain(&gateway.piece(u32::MAX, 63, 64, &vec![5; length]));
        }
    }
}

#[test]
fn round_trip_of_the_longest_and_shortest_credentials() {
    for (certificate, thumbprint) in [(1, 0), (1, 512), (2_048, 0), (2_048, 512)] {
        let gateway = Gateway {
            keys: gateway().keys,
            ..Gateway::new(&mut Prng::new(2), certificate, thumbprint)
        };
        round_trip(&gateway.enrolment()[1].0);
        assert_eq!(gateway.enrolment()[1].0.payload.len(), 7 + certificate + thumbprint);
    }
}

#[test]
fn lengths_of_the_connect_messages() {
    let gateway = gateway();
    let length = |draft: &Draft| draft.bytes(&gateway.keys).len();
    let [request, _, done] = gateway.enrolment();
    assert_eq!((length(&request.0), length(&done.0)), (128, 90));
    let replies: Vec<usize> = gateway.replies().iter().map(length).collect();
    assert_eq!((replies[0], &replies[2..5], &replies[5..]), (128, &[46; 3][..], &[90; 5][..]));
}

/// A sealed message put together by hand from 'Sealing', with none of the sealing code.
#[test]
fn a_sealed_message_by_hand() {
    use second::crypto::{encrypt_block, encrypt_cbc, hmac};
    let keys: [u8; 64] = std::array::from_fn(|i| i as u8);
    let part = |from: usize| -> [u8; 16] { keys[from..from + 16].try_into().unwrap() };
    let mut message = vec![0x30, 0x30, 0, 90, 3, 4, 0, 6, 0, 0, 0, 9];
    message.extend([0, 0, 0, 0, 0, 0, 0, 7, 0, 1, 0, 2]);
    message.extend([0xA1; 8]);
    message.extend([0xB2; 8]);
    message.extend([0, 0]);
    let mut block = [0xA1; 16];
    block[8..].copy_from_slice(&[0, 0, 0, 9, 0, 1, 0, 2]);
    let vector = encrypt_block(&part(16), &block);
    let plain = *b"\0\0\0\x05hello\x07\x07\x07\x07\x07\x07\x07";
    message.extend(encrypt_cbc(&part(0), &vector, &plain));
    message[3] = 58;
    let tag = hmac(&keys[32..], &message);
    message[3] = 90;
    message.extend(tag);
    let header = Header {
        message_type: 4,
        flags: 6,
        sequence: 9,
        request: 7,
        index: 1,
        count: 2,
        session: u64::from_be_bytes([0xA1; 8]),
        channel: u64::from_be_bytes([0xB2; 8]),
    };
    assert_eq!(write(&Draft::new(header, b"hello".to_vec()), &keys).unwrap(), message);
    let mut working = [0; 16];
    assert_eq!(read_message(&message, &keys, &mut working).unwrap().header, header);
    assert_eq!(working, plain);
}

/// Reads with this gateway's keys; a refusal up to 13 must leave the working buffer alone.
fn reading(message: &[u8]) -> u8 {
    let mut working = [0xAA; 300];
    let read = read_message(message, &gateway().keys, &mut working);
    let refusal = number(read);
    if (1..=13).contains(&refusal) {
        assert!(working.iter().all(|byte| *byte == 0xAA), "refusal {refusal} wrote");
    }
    refusal
}

#[test]
fn every_bit_of_the_sealed_part_and_the_tag() {
    let message = gateway().piece(3, 0, 1, &[7; 40]).bytes(&gateway().keys);
    assert_eq!(reading(&message), 0);
    for bit in 8 * 42..8 * message.len() {
        let mut flipped = message.clone();
        Damage::Flip(bit).befall(&mut flipped);
        assert_eq!(reading(&flipped), 11, "bit {bit}");
    }
}

#[test]
fn every_bit_of_the_header_is_refused() {
    let message = gateway().piece(3, 1, 3, &[7; 40]).bytes(&gateway().keys);
    for bit in 0..8 * 42 {
        let mut flipped = message.clone();
        Damage::Flip(bit).befall(&mut flipped);
        assert!(matches!(reading(&flipped), 2..=9 | 11), "bit {bit}");
    }
}

#[test]
fn tagging_with_the_final_length_is_refused() {
    let keys = gateway().keys;
    let mut message = gateway().piece(0, 0, 1, b"report").bytes(&keys);
    let covered = message.len() - 32;
    let tag = second::crypto::hmac(&Keys::from_bytes(&keys).unwrap().hmac, &message[..covered]);
    message[covered..].copy_from_slice(&tag);
    assert_eq!(reading(&message), 11);
}

#[test]
fn padding_under_a_right_tag() {
    let gateway = gateway();
    for length in 0..48 {
        let pad = sealed_size(length) - 4 - length;
        let good = gateway.piece(0, 0, 1, &vec![1; length]);
        let with = |padding: Vec<u8>| Draft { padding: Some(padding), ..good.clone() };
        let reading = |draft: Draft| reading(&draft.bytes(&gateway.keys));
        assert_eq!(reading(with(vec![pad as u8; pad])), 0);
        for place in 0..pad {
            for wrong in [0, 1, 0x80, 0xFF] {
                let mut padding = vec![pad as u8; pad];
                padding[place] ^= wrong;
                assert_eq!(reading(with(padding)), if wrong == 0 { 0 } else { 13 });
            }
        }
        let more = pad + 16;
        assert_eq!(reading(with(vec![more as u8; more])), 13, "a whole block of padding");
        assert_eq!(reading(with(vec![16; more])), 13);
    }
}

#[test]
fn sizes_under_a_right_tag() {
    let gateway = gateway();
    for length in [0, 1, 11, 12, 13, 28] {
        let sealed = sealed_size(length) as u32;
        let edges = [sealed - 5, sealed - 3, sealed, u32::MAX - 3, u32::MAX - 4, u32::MAX, 1 << 31];
        for size in (0..64).chain(edges) {
            let good = gateway.piece(0, 0, 1, &vec![0; length]);
            let draft = Draft { size: Some(size), ..good };
            // A size that leaves no padding is right too: there is nothing to be wrong.
            let right = size as usize == length || size == sealed - 4;
            assert_eq!(reading(&draft.bytes(&gateway.keys)), if right { 0 } else { 13 }, "{size}");
        }
    }
}

#[test]
fn keys_and_working_buffers_of_every_size() {
    let gateway = gateway();
    let sealed = gateway.piece(0, 0, 1, &[7; 40]).bytes(&gateway.keys);
    let plain = gateway.enrolment()[0].0.bytes(&gateway.keys);
    let keys = [&gateway.keys[..], &[0; 8]].concat();
    for length in 0..keys.len() {
        let mut working = [0xAA; 48];
        let read = read_message(&sealed, &keys[..length], &mut working);
        assert_eq!(number(read), if length == 64 { 0 } else { 10 });
        assert_eq!(working == [0xAA; 48], length != 64);
        assert_eq!(number(read_message(&plain, &keys[..length], &mut [])), 0);
    }
    for length in 0..60 {
        let mut working = vec![0xAA; length];
        let read = read_message(&sealed, &gateway.keys, &mut working);
        assert_eq!(number(read), if length < 48 { 12 } else { 0 });
        let untouched = working.iter().skip(48 * usize::from(length >= 48));
        assert!(untouched.into_iter().all(|byte| *byte == 0xAA));
    }
}

#[test]
fn a_refused_payload_is_the_empty_part_at_the_start() {
    let gateway = gateway();
    let mut draft = gateway.enrolment()[2].0.clone();
    draft.payload.push(0);
    let message = draft.bytes(&gateway.keys);
    let mut working = [0xAA; 40];
    let read = read_message(&message, &gateway.keys, &mut working);
    assert_eq!(number(read.clone()), 14);
    assert_eq!(working[..4], [0, 0, 0, 4], "opened all the same");
    assert_eq!(working[16..], [0xAA; 24]);
    let place = read.ok().map(|read| read.payload);
    let handed = part(place.as_ref(), &message, &working);
    assert!(handed.is_empty() && handed.as_ptr() == message.as_ptr());
}

#[test]
fn a_place_outside_its_buffer_is_the_empty_part() {
    let (message, working) = ([1; 50], [2; 20]);
    let backwards = std::ops::Range { start: 9, end: 3 };
    for place in [
        Place::Message(42..51),
        Place::Message(usize::MAX..usize::MAX),
        Place::Working(4..21),
        Place::Working(backwards),
    ] {
        let handed = part(Some(&place), &message, &working);
        assert!(handed.is_empty() && handed.as_ptr() == message.as_ptr());
    }
    assert_eq!(part(Some(&Place::Working(4..20)), &message, &working), [2; 16]);
}

/// Number 14 or none, for a payload of Discovery or Connect.
fn judge(kind: Kind, sealed: bool, payload: &[u8]) -> u8 {
    number(read_payload(kind, sealed, payload))
}

#[test]
fn a_presence_request_is_one_zero() {
    assert_eq!(judge(Kind::Discovery, false, &[0]), 0);
    for other in [&[][..], &[1], &[0, 0], &[255]] {
        assert_eq!(judge(Kind::Discovery, false, other), 14);
    }
}

fn every_connect(offer: Offer, certificate: &[u8]) -> Vec<(Connect<'_>, bool)> {
    let credentials = Credentials { certificate, thumbprint: b"thumb" };
    let mut all = vec![
        (Connect::ConnectionRequest(offer), false),
        (Connect::ConnectionPending(offer), false),
        (Connect::AuthenticationRequest(credentials), true),
        (Connect::AuthenticationResponse(credentials), true),
        (Connect::DoneRequest, true),
    ];
    all.extend([0, 2, 3].map(|result| (Connect::ConnectionResult(result), false)));
    all.extend([0, 1, 2, 3, 4].map(|status| (Connect::DoneResponse(status), true)));
    all
}

#[test]
fn connect_payloads_read_back_and_every_cut_is_refused() {
    let offer = gateway().offer;
    for mode in 0..3 {
        for (connect, sealed) in every_connect(offer, b"certificate") {
            let payload = Payload::Connect(mode, connect);
            let bytes = payload.to_bytes();
            assert_eq!(read_payload(Kind::Connect, sealed, &bytes), Ok(payload));
            assert_eq!(judge(Kind::Connect, !sealed, &bytes), 14, "the other way");
            for length in 0..bytes.len() {
                assert_eq!(judge(Kind::Connect, sealed, &bytes[..length]), 14);
            }
            assert_eq!(judge(Kind::Connect, sealed, &[&bytes[..], &[0]].concat()), 14);
        }
    }
}

/// Every value of every byte with a rule; the others are free.
#[test]
fn every_byte_of_a_connection_request_and_response() {
    let offer = gateway().offer;
    let fixed = [0, 1, 2, 3, 4, 5, 14, 15, 16, 17, 18, 19, 52, 53];
    for connect in [Connect::ConnectionRequest(offer), Connect::ConnectionPending(offer)] {
        let good = Payload::Connect(0, connect).to_bytes();
        assert_eq!(good.len(), 86);
        for (place, value) in (0..86).flat_map(|place| (0..=255).map(move |v| (place, v))) {
            let mut bytes = good.clone();
            bytes[place] = value;
            let mode = place == 1 && value <= 2;
            let expected = !fixed.contains(&place) || bytes == good || mode;
            assert_eq!(judge(Kind::Connect, false, &bytes) == 0, expected, "{place} {value}");
        }
    }
}

#[test]
fn every_type_result_status_and_mode() {
    for value in 0..=255u8 {
        let good = |payload: &[u8], sealed| judge(Kind::Connect, sealed, payload) == 0;
        assert_eq!(good(&[0, 0, value], true), value == 6);
        assert!(!good(&[0, 0, value], false));
        assert_eq!(good(&[0, value, 6], true), value <= 2);
        assert_eq!(good(&[value, 0, 6], true), value == 0);
        assert_eq!(good(&[0, 0, 1, value], false), matches!(value, 0 | 2 | 3));
        assert_eq!(good(&[0, 0, 7, value], true), value <= 4);
    }
}

#[test]
fn certificate_and_thumbprint_lengths_at_the_edges() {
    for kind in [2, 3] {
        for (c, t) in [0, 1, 2, 2_047, 2_048, 2_049, 65_535]
            .into_iter()
            .flat_map(|c| [0, 1, 511, 512, 513, 65_535].map(|t| (c, t)))
        {
            let mut bytes = vec![0, 0, kind];
            bytes.extend((c as u16).to_be_bytes());
            bytes.extend(vec![1; c]);
            bytes.extend((t as u16).to_be_bytes());
            bytes.extend(vec![2; t]);
            let good = (1..=2_048).contains(&c) && t <= 512;
            assert_eq!(judge(Kind::Connect, true, &bytes), if good { 0 } else { 14 }, "{c} {t}");
        }
    }
}

#[test]
fn the_reader_takes_session_payloads_of_any_length() {
    let gateway = gateway();
    let mut working = vec![0; 65_535];
    for length in [16_385, 40_000, 65_452] {
        let message = gateway.piece(0, 0, 1, &vec![3; length]).bytes(&gateway.keys);
        assert_eq!(number(read_message(&message, &gateway.keys, &mut working)), 0);
    }
}

/// The writer's refusals in its order, as edits of a sealed Connect call and of a Session call.
struct Call {
    draft: Draft,
    keys: Vec<u8>,
    output: Vec<u8>,
}

impl Call {
    fn new(draft: Draft) -> Call {
        Call { draft, keys: gateway().keys.to_vec(), output: vec![0xEE; 20_000] }
    }

    fn refusal(&mut self) -> u8 {
        let Draft { header, chain, payload, .. } = &self.draft;
        let written = write_message(header, chain, payload, &self.keys, &mut self.output);
        let refusal = number(written);
        assert!(refusal == 0 || self.output.iter().all(|byte| *byte == 0xEE));
        refusal
    }
}

type Edit = (u8, fn(&mut Call));

const COMMON: [Edit; 5] = [
    (5, |c| c.draft.header.message_type = 3),
    (6, |c| c.draft.header.flags |= 0x100),
    (7, |c| c.draft.header.count = 65),
    (8, |c| c.draft.chain.push(0)),
    (10, |c| c.keys.truncate(63)),
];

fn check_pairs(base: &Draft, edits: &[Edit]) {
    assert_eq!(Call::new(base.clone()).refusal(), 0);
    for (first, (refusal, edit)) in edits.iter().enumerate() {
        for (_, also) in &edits[first..] {
            let mut call = Call::new(base.clone());
            edit(&mut call);
            also(&mut call);
            assert_eq!(call.refusal(), *refusal);
        }
    }
}

#[test]
fn each_refusal_of_the_writer_alone_and_every_pair_at_once() {
    let gateway = gateway();
    let short: Edit = (22, |c| c.output.truncate(50));
    let payload: Edit = (14, |c| c.draft.payload[0] = 9);
    let long: Edit = (20, |c| c.draft.payload = vec![1; 16_385]);
    check_pairs(&gateway.enrolment()[1].0, &[&COMMON[..], &[payload, short]].concat());
    check_pairs(&gateway.piece(0, 0, 1, b"x"), &[&COMMON[..], &[long, short]].concat());
    let plain = &COMMON[..4];
    check_pairs(&gateway.enrolment()[0].0, &[plain, &[payload, short]].concat());
    check_pairs(&presence_response(presence()), &[plain, &[payload, short]].concat());
}

#[test]
fn the_writers_output_at_every_size() {
    let gateway = gateway();
    let response = presence_response(presence());
    for draft in [gateway.enrolment()[0].0.clone(), gateway.piece(0, 0, 1, &[7; 13]), response] {
        let message = draft.bytes(&gateway.keys);
        for room in 0..message.len() + 3 {
            let mut call = Call::new(draft.clone());
            call.output.truncate(room);
            assert_eq!(call.refusal(), if room < message.len() { 22 } else { 0 });
        }
    }
}

#[test]
fn chains_the_writer_does_not_take() {
    let nine = [[1, 0].repeat(9), vec![0, 0]].concat();
    for chain in
        [&[][..], &[0], &[1, 0], &[0, 1, 0], &[4, 0, 0, 0], &[0, 0, 0, 0], &[1, 3, 0, 0], &nine]
    {
        for draft in [presence_request(), gateway().piece(0, 0, 1, b"x")] {
            let mut call = Call::new(Draft { chain: chain.to_vec(), ..draft });
            assert_eq!(call.refusal(), 8, "{chain:?}");
        }
    }
}

#[test]
fn what_the_writer_has_no_rule_for() {
    let gateway = gateway();
    // The last number, a short middle piece, an empty last piece; keys of any length for a plain
    // message.
    round_trip(&gateway.piece(u32::MAX, 0, 1, b"x"));
    round_trip(&gateway.piece(0, 1, 3, b"short"));
    round_trip(&gateway.piece(0, 2, 3, b""));
    assert!(write(&presence_request(), &[1, 2, 3]).is_ok());
    // A Connect payload too long for any message is 14, and Failure cannot be written.
    for (header, payload) in [
        (sealed_header(Kind::Connect), vec![0; 70_000]),
        (sealed_header(Kind::Connect), vec![0, 0, 8]),
        (plain_header(Kind::Connect), vec![]),
    ] {
        assert_eq!(number(write(&Draft::new(header, payload), &gateway.keys)), 14);
    }
}
