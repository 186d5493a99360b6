// SPDX-License-Identifier: MPL-2.0
//! Document 01's numbered examples P1 to P12 (P13 is inside libcrypto).

mod common;

use common::{number, p1};
use second::cutter::cut;
use second::header::read_header;
use second::listing::line;
use second::message::{Place, part, read_message};
use second::seal::{plain_text, sealed_size};

fn edited(place: usize, byte: u8) -> Vec<u8> {
    let mut message = p1();
    message[place] = byte;
    message
}

#[test]
fn p1_is_accepted() {
    let read = read_message(&p1(), &[], &mut []).unwrap();
    assert_eq!(read.payload, Place::Message(42..43));
    assert_eq!(part(Some(&read.payload), &p1(), &[]), [0]);
    assert_eq!(line(&p1()).unwrap(), "1 0 0 1 43");
}

#[test]
fn p2_to_p7_are_refused() {
    let cases = [
        (p1()[..42].to_vec(), 3),
        (p1()[..41].to_vec(), 1),
        (edited(1, 0x31), 2),
        (edited(4, 4), 4),
        (edited(23, 0), 7),
        (edited(21, 1), 7),
    ];
    for (message, refusal) in cases {
        assert_eq!(number(read_header(&message)), refusal);
        assert_eq!(number(read_message(&message, &[], &mut [])), refusal);
    }
}

#[test]
fn p8_and_p9_sealed_sizes() {
    assert_eq!((sealed_size(12), sealed_size(13)), (16, 32));
    assert_eq!(plain_text(&[7; 12]).len(), 16);
    assert_eq!(plain_text(&[7; 13]).len(), 32);
    assert_eq!(plain_text(&[7; 13])[17..], [15; 15]);
}

#[test]
fn p10_to_p12_pieces() {
    let lengths = |report: &[u8]| -> Vec<usize> {
        let count = cut(report, 4, 0).0.count;
        (0..count).map(|index| cut(report, 4, index.into()).0.piece.len()).collect()
    };
    assert_eq!(lengths(&[1; 10]), [4, 4, 2]);
    assert_eq!(lengths(&[1; 8]), [4, 4]);
    assert_eq!(lengths(&[]), [0]);
}
