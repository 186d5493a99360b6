// SPDX-License-Identifier: MPL-2.0
//! Cutting reports and joining their pieces.

mod common;

use common::{Hub, gateway, number, refused};
use second::connection::{Answer, Connection, State};
use second::cutter::cut;
use second::draft::Draft;
use second::generate::dress;
use second::prng::Prng;

fn ready(fragment_size: u32) -> Hub {
    Hub::new(fragment_size, State::Ready)
}

/// Brings the pieces in this order and checks every answer, the connection and every byte of the
/// report buffer.
fn join(hub: &mut Hub, sequence: u32, report: &[u8], order: &[usize], between: &[(Draft, u8)]) {
    let size = hub.connection.fragment_size as usize;
    let pieces = hub.gateway.pieces(sequence, size as u32, report);
    let begun = hub.connection;
    let mut buffer = hub.report.clone();
    let mut came = vec![false; pieces.len()];
    for index in order {
        for (message, expected) in between {
            let answer = hub.take_in_vain(message);
            let again = matches!(answer, Answer::Again(_));
            assert!(refused(answer) == *expected && (*expected != 0 || again), "{answer}");
        }
        let heard = came.iter().filter(|came| **came).count() as u32;
        let answer = hub.take(&pieces[*index]);
        let bytes = &pieces[*index].payload;
        if heard as usize == pieces.len() {
            assert_eq!(refused(answer), 17);
        } else if came[*index] {
            assert_eq!(answer, Answer::Repeat(heard));
        } else {
            came[*index] = true;
            buffer[size * index..size * index + bytes.len()].copy_from_slice(bytes);
            let whole = came.iter().all(|came| *came);
            let complete = Answer::Complete(report.len(), heard + 1);
            assert_eq!(answer, if whole { complete } else { Answer::Taken(heard + 1) });
            if whole {
                assert_eq!(hub.connection, Connection { expected: sequence + 1, ..begun });
                assert_eq!(hub.report[..report.len()], *report);
            }
        }
        assert_eq!(hub.report, buffer);
        let known = came[pieces.len() - 1] && !came.iter().all(|came| *came);
        assert_eq!(hub.connection.known_length(), known.then_some(report.len()));
    }
    assert!(came.iter().all(|came| *came), "the order names every piece");
}

/// In order, reversed, last first, each twice, shuffled.
fn orders(count: usize) -> Vec<Vec<usize>> {
    let forward: Vec<usize> = (0..count).collect();
    let last_first = [&forward[count - 1..], &forward[..count - 1]].concat();
    let twice = forward.iter().flat_map(|index| [*index, *index]).collect();
    let mut mixed = [&forward[..], &forward].concat();
    Prng::new(count as u64).shuffle(&mut mixed);
    vec![forward.clone(), forward.into_iter().rev().collect(), last_first, twice, mixed]
}

#[test]
fn reports_of_any_number_of_pieces_in_any_order() {
    for size in [1, 2, 7, 16] {
        for count in [1, 2, 3, 63, 64] {
            for last in [1, size] {
                let report = Prng::new(9).bytes(size * (count - 1) + last);
                for order in orders(count) {
                    join(&mut ready(size as u32), 0, &report, &order, &[]);
                }
            }
        }
    }
}

#[test]
fn every_order_of_four_pieces() {
    let report = b"thirteen byte";
    for code in 0..256 {
        let order = [code % 4, code / 4 % 4, code / 16 % 4, code / 64];
        let mut seen = order;
        seen.sort_unstable();
        if seen == [0, 1, 2, 3] {
            join(&mut ready(4), 0, report, &order, &[]);
        }
    }
}

#[test]
fn the_largest_fragment_size() {
    let report = Prng::new(4).bytes(64 * 16_384);
    let mut hub = ready(16_384);
    join(&mut hub, 0, &report, &orders(64)[1], &[]);
    join(&mut hub, 1, &report[..16_385], &[1, 0], &[]);
}

#[test]
fn mixed_with_refused_and_repeated_enrolment_messages() {
    let gateway = gateway();
    let mut between: Vec<(Draft, u8)> = gateway.enrolment().map(|(draft, _)| (draft, 0)).to_vec();
    let mut damaged = gateway.piece(0, 0, 1, b"x");
    damaged.damage.push(second::draft::Damage::Flip(8 * 60));
    between.push((damaged, 11));
    between.push((gateway.piece(u32::MAX, 0, 1, b"x"), 19));
    between.push((gateway.piece(9, 0, 1, b"x"), 18));
    between.push((second::gateway::presence_request(), 15));
    for count in [1, 2, 63, 64] {
        let report = Prng::new(5).bytes(5 * count - 1);
        for order in orders(count) {
            join(&mut ready(5), 0, &report, &order, &between);
        }
    }
}

#[test]
fn reports_one_after_the_other_and_late_copies() {
    let mut hub = ready(4);
    let reports: [&[u8]; 5] = [b"", b"1234", b"12345", b"", b"a longer one"];
    for (sequence, report) in reports.iter().enumerate() {
        let count = cut(report, 4, 0).0.count.into();
        join(&mut hub, sequence as u32, report, &orders(count)[4], &[]);
        for (old, report) in reports.iter().enumerate().take(sequence + 1) {
            let late = hub.gateway.pieces(old as u32, 4, report);
            assert_eq!(refused(hub.take_in_vain(&late[0])), 17);
        }
    }
}

#[test]
fn request_flags_and_chain_of_a_piece_do_not_matter() {
    let mut prng = Prng::new(6);
    let mut hub = ready(4);
    for (index, piece) in gateway().pieces(0, 4, b"twelve bytes").iter().enumerate() {
        let answer = hub.take(&dress(&mut prng, piece.clone()));
        let last = Answer::Complete(12, 3);
        assert_eq!(answer, if index == 2 { last } else { Answer::Taken(index as u32 + 1) });
        if index < 2 {
            let copy = dress(&mut prng, piece.clone());
            assert_eq!(hub.take_in_vain(&copy), Answer::Repeat(index as u32 + 1));
        }
    }
}

#[test]
fn what_is_remembered_of_a_message_under_way() {
    let mut hub = ready(4);
    let begun = hub.connection;
    let pieces = gateway().pieces(0, 4, b"ten bytes!");
    let channel = gateway().channel;
    hub.take(&pieces[1]);
    let first = Connection { heard: 0b010, count: 3, channel, ..begun };
    assert_eq!(hub.connection, first);
    hub.take(&pieces[2]);
    assert_eq!(hub.connection, Connection { heard: 0b110, last_length: 2, ..first });
    hub.take(&pieces[0]);
    assert_eq!(hub.connection, Connection { expected: 1, ..begun });
}

#[test]
fn lengths_of_pieces() {
    for (index, count) in [(0, 1), (0, 2), (1, 2), (0, 64), (62, 64), (63, 64)] {
        for length in 0..=9 {
            let last = index + 1 == count;
            let good = match (last, count) {
                (false, _) => length == 8,
                (true, 1) => length <= 8,
                _ => (1..=8).contains(&length),
            };
            let piece = gateway().piece(0, index, count, &vec![1; length]);
            assert_eq!(refused(ready(8).take(&piece)), if good { 0 } else { 20 });
        }
    }
}

#[test]
fn a_refused_first_piece_leaves_no_memory() {
    let mut hub = ready(8);
    assert_eq!(refused(hub.take_in_vain(&gateway().piece(0, 0, 3, b"short"))), 20);
    hub.report.truncate(8);
    assert_eq!(refused(hub.take_in_vain(&gateway().piece(0, 1, 3, &[1; 8]))), 22);
    let mut other = gateway().piece(0, 0, 2, &[1; 8]);
    other.header.channel ^= 5;
    assert_eq!(hub.take(&other), Answer::Taken(1));
    assert_eq!(hub.connection.channel, gateway().channel ^ 5);
}

#[test]
fn the_report_buffer_at_every_size() {
    for (index, length) in [(0, 4), (1, 4), (2, 3)] {
        let (start, end) = (4 * usize::from(index), 4 * usize::from(index) + length);
        for room in 0..16 {
            let mut hub = ready(4);
            hub.report.truncate(room);
            let refusal = refused(hub.take(&gateway().piece(0, index, 3, &vec![1; length])));
            assert_eq!(refusal, if end > room { 22 } else { 0 });
            for (place, byte) in hub.report.iter().enumerate() {
                let written = end <= room && (start..end).contains(&place);
                assert_eq!(*byte, if written { 1 } else { 0x55 });
            }
        }
    }
}

#[test]
fn conflicts() {
    let mut hub = ready(4);
    let gateway = gateway();
    hub.take(&gateway.piece(0, 0, 3, b"1234"));
    hub.take(&gateway.piece(0, 2, 3, b"90"));
    let refusal_of = |hub: &mut Hub, draft: Draft| refused(hub.take_in_vain(&draft));
    assert_eq!(refusal_of(&mut hub, gateway.piece(0, 0, 3, b"1235")), 23);
    assert_eq!(refusal_of(&mut hub, gateway.piece(0, 2, 3, b"9")), 23, "a shorter last copy");
    assert_eq!(refusal_of(&mut hub, gateway.piece(0, 2, 3, b"90U")), 23, "a longer last copy");
    assert_eq!(refusal_of(&mut hub, gateway.piece(0, 2, 3, b"90123")), 20);
    assert_eq!(refusal_of(&mut hub, gateway.piece(0, 0, 3, b"123")), 20);
    assert_eq!(refusal_of(&mut hub, gateway.piece(0, 0, 4, b"1234")), 21);
    assert_eq!(refusal_of(&mut hub, gateway.piece(0, 1, 2, b"1234")), 21);
    let mut channel = gateway.piece(0, 1, 3, b"5678");
    channel.header.channel ^= 1;
    assert_eq!(refusal_of(&mut hub, channel), 21);
    assert_eq!(hub.take_in_vain(&gateway.piece(0, 2, 3, b"90")), Answer::Repeat(2));
    hub.report[1] ^= 1;
    assert_eq!(refusal_of(&mut hub, gateway.piece(0, 0, 3, b"1234")), 23, "the buffer changed");
    hub.report[1] ^= 1;
    hub.report.truncate(9);
    assert_eq!(refusal_of(&mut hub, gateway.piece(0, 2, 3, b"90")), 22, "before 23");
    hub.report.extend([b'0', 0, 0]);
    assert_eq!(hub.take(&gateway.piece(0, 1, 3, b"5678")), Answer::Complete(10, 3));
    assert_eq!(hub.report[..10], *b"1234567890");
}

#[test]
fn numbers_around_the_expected_one_and_at_the_top() {
    let mut hub = ready(4);
    hub.connection.expected = u32::MAX - 1;
    let mut expect = |sequence, refusal| {
        let piece = gateway().piece(sequence, 0, 1, b"last");
        assert_eq!(refused(hub.take(&piece)), refusal, "{sequence}");
    };
    expect(0, 17);
    expect(u32::MAX - 2, 17);
    expect(u32::MAX, 19);
    expect(u32::MAX - 1, 0);
    expect(u32::MAX - 1, 17);
    expect(u32::MAX, 19);
    expect(0, 17);
    assert_eq!(hub.connection.expected, u32::MAX);
    let mut hub = ready(4);
    hub.connection.expected = 7;
    for (sequence, refusal) in [(6, 17), (8, 18), (u32::MAX - 1, 18), (u32::MAX, 19), (7, 0)] {
        assert_eq!(refused(hub.take(&gateway().piece(sequence, 0, 1, b""))), refusal);
    }
}

#[test]
fn the_cutter_at_every_length_and_index() {
    let bytes = Prng::new(8).bytes(64 * 5 + 6);
    for size in 1..=5 {
        for length in 0..=64 * size + 5 {
            let report = &bytes[..length];
            let count = length.div_ceil(size).max(1);
            let mut joined: Vec<u8> = Vec::new();
            for index in 0..70 {
                let (cut, refusal) = cut(report, size as u32, index);
                if length > 64 * size || index as usize >= count {
                    assert_eq!((number(refusal), cut.count), (7, 0));
                    assert!(cut.piece.is_empty() && cut.piece.as_ptr() == report.as_ptr());
                } else {
                    assert_eq!((number(refusal), usize::from(cut.count)), (0, count));
                    joined.extend(cut.piece);
                }
            }
            assert!(length > 64 * size || joined == report);
        }
    }
}

#[test]
fn the_cutter_at_the_edges() {
    let report = vec![1; 64 * 16_384 + 1];
    for (length, size, index, refusal) in [
        (10, 0, 0, 24),
        (10, 16_385, 0, 24),
        (10, u32::MAX, u32::MAX, 24),
        (64 * 16_384, 16_384, 63, 0),
        (64 * 16_384, 16_384, 64, 7),
        (64 * 16_384 + 1, 16_384, 0, 7),
        (10, 16_384, u32::MAX, 7),
        (0, 1, 1, 7),
        (0, 1, 0, 0),
        (65, 1, 0, 7),
    ] {
        let (cut, found) = cut(&report[..length], size, index);
        assert_eq!(number(found), refusal);
        assert_eq!(cut.count == 0, refusal != 0);
    }
}

/// Connections that no course of steps gives are stepped on all the same.
#[test]
fn heard_sets_that_are_made_up() {
    let gateway = gateway();
    let channel = gateway.channel;
    let mut hub = ready(4);
    // All heard, yet not complete: a copy is a Repeat, and what is heard beyond the count is no piece.
    hub.connection =
        Connection { heard: u64::MAX, count: 2, channel, last_length: 3, ..hub.connection };
    assert_eq!(hub.take_in_vain(&gateway.piece(0, 0, 2, b"UUUU")), Answer::Repeat(2));
    assert_eq!(hub.take_in_vain(&gateway.piece(0, 1, 2, b"UUU")), Answer::Repeat(2));
    assert_eq!(refused(hub.take_in_vain(&gateway.piece(0, 1, 2, b"UUUU"))), 23);
    // Heard beyond the count and one below it: Taken and Repeat tell those below it.
    let beyond = Connection { heard: u64::MAX << 3 | 1, count: 3, ..hub.connection };
    hub.connection = beyond;
    assert_eq!(hub.take_in_vain(&gateway.piece(0, 0, 3, b"UUUU")), Answer::Repeat(1));
    assert_eq!(hub.take(&gateway.piece(0, 1, 3, b"abcd")), Answer::Taken(2));
    assert_eq!(hub.connection, Connection { heard: u64::MAX << 3 | 3, ..beyond });
    assert_eq!(hub.take(&gateway.piece(0, 2, 3, b"abc")), Answer::Complete(11, 3));
    let mut hub = ready(4);
    hub.connection =
        Connection { heard: u64::MAX, count: 2, channel, last_length: 3, ..hub.connection };
    // Heard beyond the count: complete once every index under the count is heard.
    hub.connection.heard = u64::MAX << 1;
    assert_eq!(hub.take(&gateway.piece(0, 0, 2, b"abcd")), Answer::Complete(7, 2));
    // A remembered count that no message can have: 21 for all.
    let mut hub = ready(4);
    hub.connection = Connection { heard: 1, count: 0, channel, ..hub.connection };
    assert_eq!(refused(hub.take_in_vain(&gateway.piece(0, 0, 1, b"x"))), 21);
    // Nothing heard: count and channel are not compared.
    hub.connection = Connection { heard: 0, count: 9, channel: 1, ..hub.connection };
    assert_eq!(hub.take(&gateway.piece(0, 0, 2, b"abcd")), Answer::Taken(1));
    assert_eq!((hub.connection.count, hub.connection.channel), (2, channel));
}

#[test]
fn a_length_is_known_within_bounds_alone() {
    let known = |fragment_size, count, heard, last_length| {
        let connection =
            Connection { fragment_size, count, heard, last_length, ..Connection::default() };
        connection.known_length()
    };
    assert_eq!(known(4, 3, 1 << 2, 3), Some(11));
    assert_eq!(known(4, 3, !(1 << 2), 3), None);
    assert_eq!((known(1, 1, 1, 0), known(0, 1, 1, 0)), (Some(0), None));
    assert_eq!(known(16_384, 64, 1 << 63, 16_384), Some(1_048_576));
    assert_eq!(known(16_385, 64, 1 << 63, 16_384), None);
    assert_eq!((known(4, 0, u64::MAX, 3), known(4, 65, u64::MAX, 3)), (None, None));
    assert_eq!((known(4, u16::MAX, u64::MAX, 3), known(4, 1, 1, 65_535)), (None, Some(65_535)));
}
