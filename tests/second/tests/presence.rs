// SPDX-License-Identifier: MPL-2.0
//! The Presence Response, on bytes laid out by hand from 'Connect payloads' and 000's 2.2.2.2.2: its
//! writer, its reader, and the messages that carry it.

mod common;

use common::{Hub, gateway, number, presence, refused};
use second::connection::State;
use second::draft::Draft;
use second::gateway::{plain_header, presence_response};
use second::header::{ENCRYPTED, HMAC_PRESENT, Kind, SEALED, read_header};
use second::listing::line;
use second::message::{Place, read_message};
use second::payload::{DiscoveryParts, Payload, Presence, read_connect, read_discovery};
use second::payload::{read_payload, write_presence_response};
use second::writer::write_message;

/// The values of 000's example in a message of 68 bytes: a row is a field or a few.
#[rustfmt::skip]
static EXAMPLE: [u8; 68] = [
    // Signature, MessageLength, Version, MessageType, MessageFlags.
    0x30, 0x30, 0x00, 0x44, 0x03, 0x01, 0x00, 0x00,
    // SequenceNumber, RequestID.
    0x00, 0x00, 0x00, 0x00, 0x00, 0x00, 0x00, 0x00, 0x00, 0x00, 0x00, 0x00,
    // FragmentIndex, FragmentCount.
    0x00, 0x00, 0x00, 0x01,
    // SessionID, ChannelID.
    0x00, 0x00, 0x00, 0x00, 0x00, 0x00, 0x00, 0x00, 0x00, 0x00, 0x00, 0x00, 0x00, 0x00, 0x00, 0x00,
    // The chain's end.
    0x00, 0x00,
    // DiscoveryType, ConnectionMode Proximal, DeviceType Windows 10 Desktop.
    0x01, 0x00, 0x01, 0x00, 0x09,
    // The name's length, and the name "devicers1-1".
    0x00, 0x0B, 0x64, 0x65, 0x76, 0x69, 0x63, 0x65, 0x72, 0x73, 0x31, 0x2D, 0x31,
    // DeviceIdSalt, DeviceIdHash.
    0xD6, 0xE7, 0x60, 0x2D, 0x11, 0x16, 0x6D, 0x8B,
];

/// The payload of the example.
fn example() -> &'static [u8] {
    &EXAMPLE[42..]
}

/// A payload by hand, with any length said of its name.
fn by_hand(mode: u16, device: u16, said: u16, name: &[u8]) -> Vec<u8> {
    let [mode, device, said] = [mode, device, said].map(u16::to_be_bytes);
    [&[1][..], &mode, &device, &said, name, &presence().salt, &presence().hash].concat()
}

/// What the reader must say of a good one.
fn parts(mode: u16, device: u16, name: usize) -> DiscoveryParts {
    let (name, salt, hash) = (7..7 + name, 7 + name..11 + name, 11 + name..15 + name);
    DiscoveryParts { kind: 1, mode, device, name, salt, hash }
}

/// The number of the payload's readers, which must agree; a message that carries it says the same.
fn judge(payload: &[u8]) -> u8 {
    let refusal = number(read_discovery(payload));
    assert_eq!(number(read_payload(Kind::Discovery, false, payload)), refusal);
    let draft = Draft::new(plain_header(Kind::Discovery), payload.to_vec());
    assert_eq!(number(read_message(&draft.bytes(&[0; 64]), &[], &mut [])), refusal);
    let mut output = vec![0xEE; 42 + payload.len()];
    let written = write_message(&draft.header, &draft.chain, payload, &[], &mut output);
    assert_eq!(number(written), refusal);
    assert!(refusal == 0 || output.iter().all(|byte| *byte == 0xEE));
    refusal
}

/// Writes a payload into `room` bytes: the number, and what is written; the rest must be as it was.
fn write(presence: Presence<'_>, room: usize) -> (u8, Vec<u8>) {
    let mut output = vec![0xEE; room];
    let written = write_presence_response(presence, &mut output);
    let length = written.unwrap_or(0);
    assert!(output[length..].iter().all(|byte| *byte == 0xEE));
    output.truncate(length);
    (number(written), output)
}

#[test]
fn the_example_is_written_and_read() {
    assert_eq!(write(presence(), 26), (0, example().to_vec()));
    assert_eq!(read_discovery(example()), Ok(parts(1, 9, 11)));
    let read = read_payload(Kind::Discovery, false, example());
    assert_eq!(read, Ok(Payload::PresenceResponse(presence())));
    let header = plain_header(Kind::Discovery);
    let mut output = [0xEE; 70];
    assert_eq!(write_message(&header, &[0, 0], example(), &[], &mut output), Ok(68));
    assert_eq!((&output[..68], &output[68..]), (&EXAMPLE[..], &[0xEE; 2][..]));
    let read = read_message(&EXAMPLE, &[], &mut []).unwrap();
    assert_eq!((read.header, read.payload), (header, Place::Message(42..68)));
    assert_eq!(line(&EXAMPLE).unwrap(), "1 0 0 1 68");
}

/// 000's own example has a zero after the name, and a hash of 32 bytes: 97 bytes in all.
#[test]
fn a_terminated_name_and_a_long_hash_are_refused() {
    let front = &example()[..18];
    let (salt, hash) = (&presence().salt, [0x11; 32]);
    assert_eq!(judge(&[front, &[0], salt, &hash].concat()), 14);
    assert_eq!(judge(&[front, &[0], salt, &hash[..4]].concat()), 14);
    assert_eq!(judge(&[front, salt, &hash].concat()), 14);
    assert_eq!(judge(&[front, salt, &hash[..4]].concat()), 0);
}

#[test]
fn a_presence_request_has_no_parts() {
    assert_eq!(read_discovery(&[0]), Ok(DiscoveryParts::default()));
}

#[test]
fn every_cut_of_a_payload_and_bytes_after_it() {
    for length in [0, 1, 11, 63, 64] {
        let good = by_hand(2, 12, length, &vec![0; length.into()]);
        assert_eq!((judge(&good), good.len()), (0, 15 + usize::from(length)));
        for cut in 0..good.len() {
            assert_eq!(judge(&good[..cut]), 14, "{length} {cut}");
        }
        for more in [1, 2, 4, 10, 28, 1_000] {
            assert_eq!(judge(&[&good[..], &vec![0; more]].concat()), 14, "{length} {more} more");
        }
    }
}

/// Where MessageLength does not say so it is 3, and 1 below 42 bytes.
#[test]
fn every_cut_of_a_message_and_one_byte_more() {
    for length in 0..=69 {
        let mut message = EXAMPLE.to_vec();
        message.resize(length, 0);
        let expected = match length {
            0..42 => 1,
            68 => 0,
            _ => 3,
        };
        assert_eq!(number(read_message(&message, &[], &mut [])), expected, "{length}");
        if length >= 42 {
            message[3] = length as u8;
            let expected = if length == 68 { 0 } else { 14 };
            assert_eq!(number(read_message(&message, &[], &mut [])), expected, "{length}");
        }
    }
}

#[test]
fn names_of_each_length() {
    for length in 0..=80_u16 {
        let name: Vec<u8> = (0..length).map(|i| 0xC8 ^ i as u8).collect();
        let bytes = by_hand(0, 8, length, &name);
        let good = length <= 64;
        assert_eq!(judge(&bytes), if good { 0 } else { 14 }, "{length}");
        let found = read_discovery(&bytes).ok();
        assert_eq!(found, good.then(|| parts(0, 8, name.len())), "{length}");
        let said = Presence { mode: 0, device: 8, name: &name, ..presence() };
        let expected = if good { (0, bytes) } else { (14, Vec::new()) };
        assert_eq!(write(said, 100), expected, "{length}");
    }
}

/// Lengths that 2 bytes cannot say must not come out as one that they can.
#[test]
fn names_far_too_long() {
    let name = vec![0x4E; 65_700];
    for length in (250..260).chain(65_530..65_700) {
        let said = Presence { name: &name[..length], ..presence() };
        assert_eq!(write(said, 70_000), (14, Vec::new()), "{length}");
        assert_eq!(number(read_discovery(&by_hand(1, 9, length as u16, said.name))), 14);
    }
}

/// What is said of the name's length must fit the bytes that are there.
#[test]
fn every_length_said_of_a_name() {
    for length in [0_u16, 1, 11, 64] {
        let name = vec![0; length.into()];
        for said in 0..=u16::MAX {
            let found = number(read_discovery(&by_hand(1, 9, said, &name)));
            assert_eq!(found, if said == length { 0 } else { 14 }, "{length} {said}");
        }
    }
}

#[test]
fn every_mode_and_device() {
    for value in 0..=u16::MAX {
        let bytes = by_hand(value, 9, 1, b"x");
        let (mode, good) = (Presence { mode: value, name: b"x", ..presence() }, value <= 2);
        assert_eq!(read_discovery(&bytes).ok(), good.then(|| parts(value, 9, 1)), "{value}");
        assert_eq!(write(mode, 16), if good { (0, bytes) } else { (14, Vec::new()) }, "{value}");
        let bytes = by_hand(1, value, 1, b"x");
        let device = Presence { device: value, name: b"x", ..presence() };
        assert_eq!(read_discovery(&bytes), Ok(parts(1, value, 1)), "{value}");
        assert_eq!(write(device, 16), (0, bytes), "{value}");
    }
}

/// Those with a rule, and the free ones. DiscoveryType 0 has nothing after it.
#[test]
fn every_value_of_every_byte() {
    for (place, value) in (0..26).flat_map(|place| (0..=255).map(move |v| (place, v))) {
        let mut bytes = example().to_vec();
        bytes[place] = value;
        let good = match place {
            0 => value == 1,
            1 | 5 => value == 0,
            2 => value <= 2,
            6 => value == 11,
            _ => true,
        };
        assert_eq!(judge(&bytes), if good { 0 } else { 14 }, "{place} {value}");
    }
}

#[test]
fn names_that_are_no_text_are_carried_as_they_stand() {
    let all: Vec<u8> = (0..=255).collect();
    let names: [&[u8]; 6] =
        [&[0; 64], &[0xFF; 64], b"zero\0inside", b"ended\0", b"\xC3\x28\xED\xA0\x80", &[1; 64]];
    for name in names.into_iter().chain(all.chunks(64)) {
        for free in [[0; 4], [0xFF; 4], [1, 0, 0, 0x40]] {
            let said = Presence { name, salt: free, hash: free, ..presence() };
            let (refusal, bytes) = write(said, 79);
            assert_eq!(refusal, 0);
            let read = read_payload(Kind::Discovery, false, &bytes);
            assert_eq!(read, Ok(Payload::PresenceResponse(said)));
            let found = read_discovery(&bytes).unwrap();
            assert_eq!((&bytes[found.name], &bytes[found.salt]), (name, &free[..]));
            assert_eq!((&bytes[found.hash], judge(&bytes)), (&free[..], 0));
        }
    }
}

/// 14 comes before 22.
#[test]
fn outputs_of_every_size() {
    let long = Presence { name: &[0; 65], ..presence() };
    let other = Presence { mode: 3, ..presence() };
    for room in 0..=100 {
        let expected = if room < 26 { (22, Vec::new()) } else { (0, example().to_vec()) };
        assert_eq!(write(presence(), room), expected, "{room}");
        for wrong in [long, other] {
            assert_eq!(write(wrong, room), (14, Vec::new()), "{room}");
        }
    }
}

#[test]
fn neither_reader_takes_the_others_payloads() {
    assert_eq!(number(read_connect(example())), 14);
    assert_eq!(number(read_connect(&[0])), 14);
    let gateway = gateway();
    let enrolment = gateway.enrolment().map(|(draft, _)| draft);
    for draft in enrolment.iter().chain(&gateway.replies()) {
        assert_eq!(number(read_discovery(&draft.payload)), 14);
    }
}

/// Every state, and some that do not exist: 15, and 14 before it where the payload is spoilt.
#[test]
fn a_step_never_takes_one_and_changes_nothing() {
    let good = presence_response(presence());
    let spoilt = presence_response(Presence { mode: 3, ..presence() });
    for state in [0, 1, 2, 3, 4, 5, 255] {
        for (draft, refusal) in [(&good, 15), (&spoilt, 14)] {
            let mut hub = Hub::new(8, State::Ready);
            hub.connection.state = state;
            hub.connection.heard = 2;
            hub.connection.count = 3;
            let before = (hub.connection, hub.report.clone(), hub.working.clone());
            for verdict in [0, 1] {
                let answer = hub.take_bytes(&draft.bytes(&hub.gateway.keys), verdict);
                assert_eq!(refused(answer), refusal, "state {state}");
                let after = (hub.connection, hub.report.clone(), hub.working.clone());
                assert!(after == before, "state {state}");
            }
        }
    }
}

#[test]
fn a_sealed_one_is_refused_by_its_flags() {
    let keys = gateway().keys;
    for flags in [SEALED, HMAC_PRESENT, ENCRYPTED] {
        let mut draft = presence_response(presence());
        draft.header.flags = flags;
        let message = draft.bytes(&keys);
        assert_eq!(number(read_header(&message)), 6);
        assert_eq!(number(read_message(&message, &keys, &mut [0; 64])), 6);
        let written = write_message(&draft.header, &draft.chain, &draft.payload, &keys, &mut []);
        assert_eq!(number(written), 6);
        for state in State::ALL {
            assert_eq!(refused(Hub::new(8, state).take_in_vain(&draft)), 6);
        }
    }
}
