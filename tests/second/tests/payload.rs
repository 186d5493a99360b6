// SPDX-License-Identifier: MPL-2.0
//! The payloads' writers and the reader of Connect payloads, on bytes laid out by hand from 'Connect
//! payloads'; and how many bytes of a stream are the next message.

mod common;

use common::{number, p1};
use second::listing::wanted;
use second::payload::{Connect, Credentials, Offer, Parts};
use second::payload::{read_connect, write_connect, write_presence_request};

/// Nonce a0.., X 10.., Y 50.. in the fields from HMACSize on, after four bytes.
fn offer_by_hand(front: [u8; 4]) -> Vec<u8> {
    let mut bytes = front.to_vec();
    bytes.extend([0, 32]);
    bytes.extend(0xA0..0xA8);
    bytes.extend([0x00, 0x00, 0x40, 0x00]);
    bytes.extend([0, 32]);
    bytes.extend(0x10..0x30);
    bytes.extend([0, 32]);
    bytes.extend(0x50..0x70);
    bytes
}

fn offer() -> Offer {
    let from = |first: u8| std::array::from_fn(|i| first + i as u8);
    Offer { nonce: std::array::from_fn(|i| 0xA0 + i as u8), x: from(0x10), y: from(0x50) }
}

/// ConnectionMode, the payload, its bytes, and what the reader must say of them.
type Vector<'a> = (u16, Connect<'a>, Vec<u8>, Parts);

/// One of each type, and a Connection Response of each sort.
fn vectors() -> [Vector<'static>; 9] {
    let shown = Credentials { certificate: b"abc", thumbprint: b"de" };
    let bare = Credentials { certificate: b"c", thumbprint: b"" };
    let parts = |kind, mode, code| Parts { kind, mode, code, ..Parts::default() };
    let offered = |parts| Parts { nonce: 6..14, x: 20..52, y: 54..86, ..parts };
    [
        (
            2,
            Connect::ConnectionRequest(offer()),
            offer_by_hand([0, 2, 0, 0]),
            offered(parts(0, 2, 0)),
        ),
        (
            0,
            Connect::ConnectionPending(offer()),
            offer_by_hand([0, 0, 1, 1]),
            offered(parts(1, 0, 1)),
        ),
        (1, Connect::ConnectionResult(0), vec![0, 1, 1, 0], parts(1, 1, 0)),
        (1, Connect::ConnectionResult(3), vec![0, 1, 1, 3], parts(1, 1, 3)),
        (
            1,
            Connect::AuthenticationRequest(shown),
            b"\x00\x01\x02\x00\x03abc\x00\x02de".to_vec(),
            Parts { certificate: 5..8, thumbprint: 10..12, ..parts(2, 1, 0) },
        ),
        (
            2,
            Connect::AuthenticationResponse(bare),
            b"\x00\x02\x03\x00\x01c\x00\x00".to_vec(),
            Parts { certificate: 5..6, thumbprint: 8..8, ..parts(3, 2, 0) },
        ),
        (0, Connect::DoneRequest, vec![0, 0, 6], parts(6, 0, 0)),
        (2, Connect::DoneResponse(0), vec![0, 2, 7, 0], parts(7, 2, 0)),
        (2, Connect::DoneResponse(4), vec![0, 2, 7, 4], parts(7, 2, 4)),
    ]
}

/// Writes a payload into so many bytes: the number, and what is written; the rest must be as it was.
fn write(mode: u16, connect: Connect<'_>, room: usize) -> (u8, Vec<u8>) {
    let mut output = vec![0xEE; room];
    let written = write_connect(mode, connect, &mut output);
    let length = written.unwrap_or(0);
    assert!(output[length..].iter().all(|byte| *byte == 0xEE));
    output.truncate(length);
    (number(written), output)
}

#[test]
fn each_payload_at_every_size_of_its_output() {
    for (mode, connect, bytes, _) in vectors() {
        for room in 0..=bytes.len() + 2 {
            let expected = if room < bytes.len() { (22, Vec::new()) } else { (0, bytes.clone()) };
            assert_eq!(write(mode, connect, room), expected, "{connect:?} into {room}");
        }
    }
}

#[test]
fn a_presence_request_at_every_size_of_its_output() {
    assert_eq!(number(write_presence_request(&mut [])), 22);
    for room in 1..4 {
        let mut output = vec![0xEE; room];
        assert_eq!(write_presence_request(&mut output), Ok(1));
        assert_eq!((output[0], &output[1..]), (0, &vec![0xEE; room - 1][..]));
    }
}

/// 14 comes before 22.
#[test]
fn values_out_of_their_bounds() {
    let none = (14, Vec::new());
    for room in [0, 3_000] {
        for mode in [3, 255, 256, 512, u16::MAX] {
            for (_, connect, ..) in vectors() {
                assert_eq!(write(mode, connect, room), none, "mode {mode} {connect:?}");
            }
        }
        for code in (0..=255).filter(|code| !matches!(code, 0 | 2 | 3)) {
            assert_eq!(write(0, Connect::ConnectionResult(code), room), none, "Result {code}");
        }
        for code in 5..=255 {
            assert_eq!(write(0, Connect::DoneResponse(code), room), none, "Status {code}");
        }
    }
}

#[test]
fn credentials_at_their_edges() {
    let bytes = vec![7; 70_000];
    for (c, t) in [0, 1, 2, 2_047, 2_048, 2_049, 65_535, 65_536, 65_537]
        .into_iter()
        .flat_map(|c| [0, 1, 511, 512, 513, 65_536, 65_537].map(|t| (c, t)))
    {
        let shown = Credentials { certificate: &bytes[..c], thumbprint: &bytes[..t] };
        let good = (1..=2_048).contains(&c) && t <= 512;
        for (kind, connect) in [
            (2, Connect::AuthenticationRequest(shown)),
            (3, Connect::AuthenticationResponse(shown)),
        ] {
            let (refusal, written) = write(1, connect, 7 + c + t);
            assert_eq!(refusal, if good { 0 } else { 14 }, "{c} {t}");
            let found = read_connect(&written).ok();
            let parts = Parts {
                kind,
                mode: 1,
                certificate: 5..5 + c,
                thumbprint: 7 + c..7 + c + t,
                ..Parts::default()
            };
            assert_eq!(found, good.then_some(parts), "{c} {t}");
        }
    }
}

#[test]
fn parts_by_hand_and_no_cut_or_longer_payload() {
    for (_, connect, bytes, parts) in vectors() {
        assert_eq!(read_connect(&bytes), Ok(parts), "{connect:?}");
        for length in 0..bytes.len() {
            assert_eq!(number(read_connect(&bytes[..length])), 14, "{connect:?} {length}");
        }
        for more in [1, 2, 86, 1_000] {
            let longer = [&bytes[..], &vec![0; more]].concat();
            assert_eq!(number(read_connect(&longer)), 14, "{connect:?} {more} more");
        }
    }
}

/// Every value of every byte of the bytes by hand: those with a rule, and the free ones.
#[test]
fn every_byte_that_has_a_rule() {
    let fixed = [0, 1, 2, 3, 4, 5, 14, 15, 16, 17, 18, 19, 52, 53];
    for (_, connect, bytes, parts) in vectors().into_iter().take(2) {
        for (place, value) in (0..86).flat_map(|place| (0..=255).map(move |v| (place, v))) {
            let mut changed = bytes.clone();
            changed[place] = value;
            let mode = if place == 1 { value.into() } else { parts.mode };
            let good = changed == bytes || !fixed.contains(&place) || (place == 1 && value <= 2);
            let expected = good.then_some(Parts { mode, ..parts.clone() });
            assert_eq!(read_connect(&changed).ok(), expected, "{connect:?} {place} {value}");
        }
    }
    for value in 0..=255_u8 {
        assert_eq!(number(read_connect(&[0, 0, value])), if value == 6 { 0 } else { 14 });
        let result = matches!(value, 0 | 2 | 3);
        assert_eq!(number(read_connect(&[0, 0, 1, value])), if result { 0 } else { 14 });
        assert_eq!(number(read_connect(&[0, 0, 7, value])), if value <= 4 { 0 } else { 14 });
    }
}

#[test]
fn the_next_message_of_a_stream() {
    for length in 0..4 {
        assert_eq!((wanted(&p1()[..length]), wanted(&[0xFF; 4][..length])), (42, 42));
    }
    for length in 4..=43 {
        assert_eq!(wanted(&p1()[..length]), 43);
    }
    for said in 0..=u16::MAX {
        let [high, low] = said.to_be_bytes();
        assert_eq!(wanted(&[9, 9, high, low]), if said < 42 { 42 } else { said.into() });
    }
}
