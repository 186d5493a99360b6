// SPDX-License-Identifier: MPL-2.0
//! Each call of the wrapper by itself.

use hlidunsk::payload::{Connect, Discovery, Mode, PresenceRequest};
use hlidunsk::{cut, digest, hmac, list, read, read_header, same_tag, version, wanted, write};
use hlidunsk::{Body, Header, MessageType, Refusal, MOST_READ, MOST_WRITTEN, NO_ENTRIES};

/// Document 01's P1.
fn p1() -> Vec<u8> {
    let mut message = vec![0x30, 0x30, 0, 0x2B, 3, 1, 0, 0];
    message.extend([0; 12]);
    message.extend([0, 0, 0, 1]);
    message.extend([0; 19]);
    message
}

fn hex(bytes: &[u8]) -> String {
    bytes.iter().map(|byte| format!("{byte:02x}")).collect()
}

#[test]
fn the_version_is_that_of_the_crate() {
    let [major, minor, patch] = [
        env!("CARGO_PKG_VERSION_MAJOR"),
        env!("CARGO_PKG_VERSION_MINOR"),
        env!("CARGO_PKG_VERSION_PATCH"),
    ]
    .map(|part| part.parse::<u32>().unwrap());
    assert_eq!(version(), major << 16 | minor << 8 | patch);
}

#[test]
fn published_digests_and_tags() {
    let abc = "ba7816bf8f01cfea414140de5dae2223b00361a396177a9cb410ff61f20015ad";
    assert_eq!(hex(&digest(b"abc")), abc);
    let jefe = hmac(b"Jefe", b"what do ya want for nothing?");
    assert_eq!(hex(&jefe), "5bdcc146bf60754e6a042426089575c75a003f089d2739839dec58b964ec3843");
    assert!(same_tag(&jefe, &jefe.clone()));
    for bit in 0..256 {
        let mut other = jefe;
        other[bit / 8] ^= 1 << (bit % 8);
        assert!(!same_tag(&jefe, &other));
    }
}

#[test]
fn document_01s_first_examples() {
    let message = p1();
    let framed = read_header(&message).unwrap();
    assert_eq!(framed.header, PresenceRequest.header());
    assert_eq!(framed.body, Body::Payload(&[0]));
    assert_eq!(list(&message).unwrap(), "1 0 0 1 43");
    let came = read(&message, None, &mut []).unwrap();
    assert_eq!(came.payload, [0]);
    assert_eq!(came.discovery(), Some(Discovery::PresenceRequest));
    assert_eq!(read_header(&message[..42]), Err(Refusal::WrongLength));
    assert_eq!(read_header(&message[..41]), Err(Refusal::TooShort));
    assert_eq!(list(&[]), Err(Refusal::TooShort));
}

#[test]
fn a_line_is_a_text() {
    let line = list(&p1()).unwrap();
    assert_eq!((line.as_str(), line.as_ref(), &*line), ("1 0 0 1 43", "1 0 0 1 43", "1 0 0 1 43"));
    assert_eq!(
        format!("{line}, {line:>12}, {line:?}"),
        r#"1 0 0 1 43,   1 0 0 1 43, "1 0 0 1 43""#
    );
    assert_eq!(line.split(' ').count(), 5);
    assert_eq!(line, line.clone());
}

#[test]
fn how_many_bytes_are_wanted() {
    let message = p1();
    let more = [&message[..], &message].concat();
    for length in 0..=86 {
        assert_eq!(wanted(&more[..length]), if length < 4 { 42 } else { 43 });
    }
    for length in 0..=u16::MAX {
        let [high, low] = length.to_be_bytes();
        assert_eq!(wanted(&[0xFF, 0xFF, high, low]), usize::from(length).max(42));
    }
    assert_eq!(wanted(&[0xFF; 65_536]), MOST_READ);
}

#[test]
fn a_written_message_is_read_back() {
    let header = Header {
        message_type: MessageType::Session,
        flags: Header::SEALED,
        sequence: 7,
        request: u64::MAX,
        index: 1,
        count: 3,
        session: 5,
        channel: 9,
    };
    let (keys, mut out, mut working) = ([3; 64], [0; 90], [0; 16]);
    assert_eq!(write(&header, NO_ENTRIES, b"twelve bytes", Some(&keys), &mut out), Ok(90));
    let message = read(&out, Some(&keys), &mut working).unwrap();
    assert_eq!((message.header, message.payload), (header, &b"twelve bytes"[..]));
    assert_eq!(read_header(&out).map(|framed| framed.body), Ok(Body::Sealed(&out[42..58])));
    assert_eq!(read(&out, Some(&keys), &mut [0; 15]), Err(Refusal::ShortWorking));
    assert_eq!(read(&out, Some(&[4; 64]), &mut [0; 16]), Err(Refusal::WrongTag));
    assert_eq!(read(&out, None, &mut [0; 16]), Err(Refusal::WrongKeys));
    let before = out;
    for chain in [&[][..], &[0], &[0, 0, 0], &[1, 1, 7], &[1, 1, 7, 0, 0, 0]] {
        assert_eq!(write(&header, chain, b"", Some(&keys), &mut out), Err(Refusal::WrongChain));
    }
    assert_eq!(write(&header, NO_ENTRIES, b"", Some(&keys), &mut out[..89]), Err(Refusal::NoRoom));
    assert_eq!(out, before);
}

#[test]
fn pieces_of_a_report() {
    let pieces: Vec<_> = (0..3).map(|i| cut(b"ten bytes.", 4, i).unwrap()).collect();
    assert_eq!(pieces.iter().map(|piece| piece.bytes.len()).collect::<Vec<_>>(), [4, 4, 2]);
    assert_eq!(pieces.iter().map(|piece| piece.count).collect::<Vec<_>>(), [3, 3, 3]);
    assert_eq!(pieces.iter().map(|piece| piece.index).collect::<Vec<_>>(), [0, 1, 2]);
    assert_eq!(pieces[2].bytes, b"s.");
    assert_eq!(cut(b"", 4, 0).map(|piece| (piece.count, piece.bytes.len())), Ok((1, 0)));
    assert_eq!(cut(b"ten bytes.", 4, 3), Err(Refusal::WrongPiece));
    assert_eq!(cut(b"ten bytes.", 4, 1 << 32), Err(Refusal::WrongPiece));
    assert_eq!(cut(b"ten bytes.", 4, usize::MAX), Err(Refusal::WrongPiece));
    assert_eq!(cut(b"ten bytes.", 0, 0), Err(Refusal::WrongFragmentSize));
    assert_eq!(cut(b"ten bytes.", usize::MAX, 0), Err(Refusal::WrongFragmentSize));
}

/// A header that is made for a payload or a piece is one that is written and read.
#[test]
fn headers_that_are_made() {
    let whole = Header {
        message_type: MessageType::Discovery,
        flags: 0,
        sequence: 0,
        request: 0,
        index: 0,
        count: 1,
        session: 0,
        channel: 0,
    };
    assert_eq!(PresenceRequest.header(), whole);
    assert_eq!(Discovery::PresenceRequest.header(9), Header { request: 9, ..whole });
    let done = Connect::DoneRequest { mode: Mode::None }.header(5, 7);
    let connect = Header { message_type: MessageType::Connect, session: 5, sequence: 7, ..whole };
    assert_eq!(done, Header { flags: Header::SEALED, ..connect });
    let piece = cut(b"ten bytes.", 4, 2).unwrap();
    let header = Header { channel: 9, ..piece.header(5, 7) };
    let session = Header { message_type: MessageType::Session, index: 2, count: 3, ..done };
    assert_eq!(header, Header { channel: 9, ..session });
    let (keys, mut out, mut working) = ([3; 64], [0; MOST_WRITTEN], [0; 16]);
    let length = write(&header, NO_ENTRIES, piece.bytes, Some(&keys), &mut out).unwrap();
    let message = read(&out[..length], Some(&keys), &mut working).unwrap();
    assert_eq!((message.header, message.payload), (header, piece.bytes));
}

#[test]
fn types_and_their_numbers() {
    for number in 0..=255 {
        let known = MessageType::from_number(number);
        assert_eq!(known.is_some(), matches!(number, 1 | 2 | 4));
        assert!(known.is_none_or(|known| known.number() == number));
    }
}

#[test]
fn refusals_and_their_numbers() {
    for number in (0..=1000).chain([u32::MAX]) {
        let refusal = Refusal::from_number(number);
        assert_eq!(refusal.is_some(), matches!(number, 1..=25 | 254 | 255));
        assert!(refusal.is_none_or(|refusal| refusal.number() == number));
    }
}

#[test]
fn a_text_for_each_refusal() {
    assert_eq!(Refusal::WrongTag.to_string(), "refused 11: tag differs");
    let text = "refused 255: the report buffer is shorter than the report";
    assert_eq!(Refusal::WrongBuffer.to_string(), text);
    let texts: Vec<_> = (0..=255).filter_map(Refusal::from_number).map(Refusal::text).collect();
    assert_eq!(
        (texts.len(), texts[0], texts[24]),
        (27, "fewer than 42 bytes", "verdict not 0 or 1")
    );
    for (place, text) in texts.iter().enumerate() {
        assert!(!text.is_empty() && !texts[..place].contains(text));
    }
    let error: &dyn std::error::Error = &Refusal::WrongTag;
    assert!(error.source().is_none());
}
