// SPDX-License-Identifier: MPL-2.0
//! The header reader at the edges of refusals 1 to 9.

mod common;

use common::{gateway, number, p1};
use second::crypto::BLOCK;
use second::draft::{Damage, Draft};
use second::gateway::{plain_header, presence_request, sealed_header};
use second::header::{ENCRYPTED, HMAC_PRESENT, Header, Kind, read_header};

const KINDS: [Kind; 3] = [Kind::Discovery, Kind::Connect, Kind::Session];

fn reading(draft: &Draft) -> u8 {
    number(read_header(&draft.bytes(&gateway().keys)))
}

/// A message of this kind whose header is good.
fn good(kind: Kind) -> Draft {
    match kind {
        Kind::Session => Draft::new(sealed_header(kind), vec![1; 20]),
        _ => Draft::new(plain_header(kind), vec![1; 20]),
    }
}

#[test]
fn every_length_from_0_to_130() {
    for draft in [good(Kind::Connect), good(Kind::Session)] {
        let whole = Draft { payload: vec![9; 88], ..draft };
        let bytes = whole.bytes(&gateway().keys);
        assert!(bytes.len() >= 130);
        for length in 0..130 {
            let mut cut = bytes[..length].to_vec();
            assert_eq!(number(read_header(&cut)), if length < 42 { 1 } else { 3 });
            if length < 42 {
                continue;
            }
            cut[2..4].copy_from_slice(&(length as u16).to_be_bytes());
            let expected = match (whole.header.sealed(), length) {
                (false, _) => 0,
                (true, 42..74) => 8,
                (true, 74) => 9,
                (true, _) if (length - 74) % BLOCK == 0 => 0,
                (true, _) => 9,
            };
            assert_eq!(number(read_header(&cut)), expected, "{length}");
        }
    }
}

#[test]
fn more_bytes_than_a_length_can_say() {
    let mut message = p1();
    message.resize(43 + 65_536, 0);
    assert_eq!(number(read_header(&message)), 3);
    message.truncate(65_535);
    message[2..4].copy_from_slice(&[0xFF, 0xFF]);
    assert_eq!(number(read_header(&message)), 0);
    message.push(0);
    assert_eq!(number(read_header(&message)), 3);
}

#[test]
fn every_message_length() {
    for length in 0..=u16::MAX {
        let draft = Draft { length: Some(length), ..presence_request() };
        assert_eq!(reading(&draft), if length == 43 { 0 } else { 3 });
    }
}

#[test]
fn every_type_and_version() {
    for value in 0..=255 {
        let version = Draft { version: value, ..presence_request() };
        assert_eq!(reading(&version), if value == 3 { 0 } else { 4 });
        let mut typed = good(Kind::Connect);
        typed.header.message_type = value;
        let expected = match value {
            1 | 2 => 0,
            4 => 6,
            _ => 5,
        };
        assert_eq!(reading(&typed), expected);
    }
}

#[test]
fn all_65536_flags_for_each_type() {
    for kind in KINDS {
        for flags in 0..=u16::MAX {
            let mut draft = good(kind);
            draft.header.flags = flags;
            let (tagged, encrypted) = (flags & HMAC_PRESENT != 0, flags & ENCRYPTED != 0);
            let fits = match kind {
                Kind::Discovery => !tagged,
                Kind::Connect => true,
                Kind::Session => tagged,
            };
            let good = flags < 16 && tagged == encrypted && fits;
            assert_eq!(reading(&draft), if good { 0 } else { 6 }, "{kind:?} {flags:#x}");
        }
    }
}

#[test]
fn index_and_count_at_the_edges() {
    let edges = [0, 1, 2, 63, 64, 65, 256, u16::MAX];
    for kind in KINDS {
        for (index, count) in edges.iter().flat_map(|i| edges.map(|c| (*i, c))) {
            let mut draft = good(kind);
            draft.header = Header { index, count, ..draft.header };
            let most = if kind == Kind::Session { 64 } else { 1 };
            let good = count >= 1 && count <= most && index < count;
            assert_eq!(reading(&draft), if good { 0 } else { 7 }, "{kind:?} {index} {count}");
        }
    }
}

#[test]
fn chains_of_8_and_9_entries() {
    for kind in KINDS {
        for size in [0, 1, 255] {
            for entries in 0..=10 {
                let entry = [&[1 + (entries % 3) as u8, size][..], &vec![0; size.into()]].concat();
                let chain = [entry.repeat(entries), vec![0, 0]].concat();
                let draft = Draft { chain: chain.clone(), ..good(kind) };
                assert_eq!(reading(&draft), if entries <= 8 { 0 } else { 8 });
                if entries <= 8 {
                    let framed = read_header(&draft.bytes(&gateway().keys)).unwrap();
                    assert_eq!(framed.body.start, 40 + chain.len());
                }
            }
        }
    }
}

#[test]
fn every_pair_that_starts_a_chain() {
    for kind in 0..=255 {
        for size in 0..=255 {
            let mut draft = presence_request();
            draft.chain = vec![kind, size];
            draft.payload = vec![0; 257];
            let good = matches!((kind, size), (0, 0) | (1..=3, _));
            assert_eq!(reading(&draft), if good { 0 } else { 8 });
        }
    }
}

#[test]
fn an_entry_up_to_the_tag_and_one_into_it() {
    // The first entry swallows the 16 bytes that follow, but for those of an end: all zeros.
    for size in 0..=48 {
        let mut message = Draft::new(sealed_header(Kind::Session), vec![]).bytes(&gateway().keys);
        message[40..].fill(0);
        message[40..42].copy_from_slice(&[1, size]);
        let end = 44 + usize::from(size);
        let room = message.len() - 32;
        let expected = match room.checked_sub(end) {
            None => 8,
            Some(sealed) if sealed > 0 && sealed % BLOCK == 0 => 0,
            Some(_) => 9,
        };
        assert_eq!(number(read_header(&message)), expected, "{size}");
    }
}

#[test]
fn an_end_that_stands_in_the_tag_is_none() {
    for length in 42..74 {
        let mut draft = Draft::new(sealed_header(Kind::Connect), vec![]);
        draft.length = Some(length);
        draft.damage = vec![Damage::Cut(42), Damage::Append(vec![0; usize::from(length) - 42])];
        assert_eq!(reading(&draft), 8, "{length}");
    }
}

/// One edit for each of 1 to 9 on a sealed message.
fn edits() -> [fn(&mut Draft); 9] {
    [
        |d| d.damage.push(Damage::Cut(41)),
        |d| d.signature = [0x30, 0x31],
        |d| d.length = Some(44),
        |d| d.version = 2,
        |d| d.header.message_type = 3,
        |d| d.header.flags |= 16,
        |d| d.header.index = d.header.count,
        |d| d.chain = vec![4, 0, 0, 0],
        |d| d.padding = Some(vec![1; 3]),
    ]
}

#[test]
fn each_refusal_alone_and_every_pair_at_once() {
    let base = good(Kind::Session);
    assert_eq!(reading(&base), 0);
    for (first, edit) in edits().iter().enumerate() {
        for also in &edits()[first..] {
            let mut draft = base.clone();
            edit(&mut draft);
            also(&mut draft);
            assert_eq!(usize::from(reading(&draft)), first + 1);
        }
    }
}

#[test]
fn fields_come_from_their_places() {
    let header = Header {
        message_type: 4,
        flags: 0x000F,
        sequence: 0x0809_0A0B,
        request: 0x0C0D_0E0F_1011_1213,
        index: 0x0015,
        count: 0x0017,
        session: 0x1819_1A1B_1C1D_1E1F,
        channel: 0x2021_2223_2425_2627,
    };
    let message = Draft::new(header, vec![]).bytes(&gateway().keys);
    assert_eq!(message[8..20], (8..20).collect::<Vec<u8>>());
    assert_eq!(message[24..40], (24..40).collect::<Vec<u8>>());
    assert_eq!(read_header(&message).unwrap().header, header);
}
