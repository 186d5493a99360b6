// SPDX-License-Identifier: MPL-2.0
//! Opening, the order of a step's refusals, and enrolment.

mod common;

use common::{BEFORE, Edit, Hub, Setup, every_message, gateway, presence, refused};
use second::connection::{Answer, Connection, State};
use second::crypto::sha256;
use second::draft::Draft;
use second::gateway::{Gateway, presence_response};
use second::payload::{Connect, Credentials, Offer};
use second::prng::Prng;
use second::refusal::Refusal;

use State::{AwaitingAuthentication, AwaitingRequest, Failed, Passed, Ready};

fn enrolment() -> [Draft; 3] {
    gateway().enrolment().map(|(draft, _)| draft)
}

#[test]
fn opening() {
    for size in [1, 2, 16_383, 16_384] {
        let (connection, opened) = Connection::open(size);
        assert_eq!(opened, Ok(()));
        assert_eq!(connection, Connection { fragment_size: size, ..Connection::default() });
    }
    for size in [0, 16_385, 65_536, u32::MAX] {
        let (connection, opened) = Connection::open(size);
        assert_eq!(common::number(opened), 24);
        assert_eq!(connection, Connection::default());
    }
}

fn check_pairs(base: &Setup, good: Answer, edits: &[Edit]) {
    assert_eq!(base.answer(), good);
    common::check_pairs(base, |setup| refused(setup.answer()), edits);
}

#[test]
fn the_order_of_refusals_of_a_sealed_connect_message() {
    let base = Setup::new(enrolment()[2].clone(), gateway().connection(8, Passed));
    let after: [Edit; 3] = [
        (14, |s| s.draft.payload[1] = 3),
        (16, |s| s.draft.header.session ^= 1),
        (15, |s| s.case.connection.state = 1),
    ];
    check_pairs(&base, Answer::Reply(7), &[&BEFORE[..], &after].concat());
}

#[test]
fn the_order_of_refusals_of_a_plain_connect_message() {
    let base = Setup::new(enrolment()[0].clone(), gateway().connection(8, Passed));
    let after: [Edit; 3] = [
        (14, |s| s.draft.payload.truncate(85)),
        (16, |s| s.draft.header.session ^= 1 << 63),
        (15, |s| s.case.connection.nonce[7] ^= 1),
    ];
    check_pairs(&base, Answer::Again(1), &[&BEFORE[..10], &after].concat());
    for blind in &BEFORE[11..14] {
        let mut setup = base.clone();
        blind.1(&mut setup);
        assert_eq!(setup.answer(), Answer::Again(1), "keys and working buffer are not looked at");
    }
}

/// It is never taken: where nothing else is wrong it is 15, even with another SessionID.
#[test]
fn the_order_of_refusals_of_a_presence_response() {
    for state in State::ALL {
        let base = Setup::new(presence_response(presence()), gateway().connection(8, state));
        let after: [Edit; 1] = [(14, |s| s.draft.payload[2] = 3)];
        let edits = [&BEFORE[..10], &after].concat();
        check_pairs(&base, Answer::Refused(Refusal::State), &edits);
    }
}

#[test]
fn the_order_of_refusals_of_a_session_message() {
    let gateway = gateway();
    let heard = Connection {
        expected: 5,
        heard: 1,
        count: 3,
        channel: gateway.channel,
        ..gateway.connection(8, Ready)
    };
    let base = Setup::new(gateway.piece(5, 0, 3, &[0x55; 8]), heard);
    let after: [Edit; 9] = [
        (16, |s| s.draft.header.session ^= 1),
        (15, |s| s.case.connection.state = 2),
        (19, |s| s.draft.header.sequence = u32::MAX),
        (17, |s| s.case.connection.expected = 6),
        (18, |s| s.case.connection.expected = 4),
        (21, |s| s.draft.header.channel ^= 1),
        (20, |s| s.draft.payload.truncate(7)),
        (22, |s| s.case.report.truncate(6)),
        (23, |s| s.case.report.fill(0)),
    ];
    check_pairs(&base, Answer::Repeat(1), &[&BEFORE[..], &after].concat());
}

#[test]
fn the_whole_enrolment() {
    let mut hub = Hub::new(8, AwaitingRequest);
    let gateway = hub.gateway.clone();
    for (message, (reply, state)) in
        enrolment().iter().zip([(1, AwaitingAuthentication), (3, Passed), (7, Ready)])
    {
        assert_eq!(hub.take(message), Answer::Reply(reply));
        assert_eq!(hub.connection, gateway.connection(8, state));
    }
    assert_eq!(hub.connection.certificate, sha256(&gateway.certificate));
    assert!(hub.report.iter().all(|byte| *byte == 0x55));
}

/// After every later step, also in mid-report and after Complete, each earlier request is answered
/// Again and changes nothing.
#[test]
fn every_request_repeated_after_every_later_step() {
    let mut hub = Hub::new(4, AwaitingRequest);
    let replies = [1, 3, 7];
    let mut course: Vec<Draft> = enrolment().to_vec();
    course.extend(gateway().pieces(0, 4, b"ten bytes!"));
    course.extend(gateway().pieces(1, 4, b""));
    course.extend(gateway().pieces(2, 4, b"5 now"));
    for (place, message) in course.iter().enumerate() {
        assert_eq!(refused(hub.take(message)), 0);
        for (request, reply) in enrolment().iter().zip(replies).take(place + 1) {
            for verdict in [0, 1] {
                let before = (hub.connection, hub.report.clone());
                let answer = hub.take_bytes(&request.bytes(&gateway().keys), verdict);
                assert_eq!(answer, Answer::Again(reply));
                assert_eq!((hub.connection, hub.report.clone()), before);
            }
        }
    }
    assert_eq!(hub.connection.expected, 3);
    hub.connection.expected = u32::MAX;
    assert_eq!(hub.take_in_vain(&enrolment()[0]), Answer::Again(1));
}

#[test]
fn verdict_0_fails_the_connection_for_good() {
    let mut hub = Hub::new(8, AwaitingRequest);
    hub.take(&enrolment()[0]);
    let authentication = enrolment()[1].bytes(&gateway().keys);
    assert_eq!(hub.take_bytes(&authentication, 0), Answer::Failure);
    assert_eq!(hub.connection, gateway().connection(8, Failed));
    for message in every_message(&gateway()) {
        assert_eq!(refused(hub.take_in_vain(&message)), 15);
    }
    let other = Gateway { session: gateway().session ^ 1, ..gateway() };
    for message in every_message(&other) {
        let discovery = message.header.message_type == 1;
        assert_eq!(refused(hub.take_in_vain(&message)), if discovery { 15 } else { 16 });
    }
}

#[test]
fn every_kind_of_message_in_every_state() {
    for state in State::ALL {
        for (kind, message) in every_message(&gateway()).iter().enumerate() {
            let expected = match (state, kind) {
                (AwaitingRequest, 0) => Answer::Reply(1),
                (AwaitingAuthentication | Passed | Ready, 0) => Answer::Again(1),
                (AwaitingAuthentication, 1) => Answer::Reply(3),
                (Passed | Ready, 1) => Answer::Again(3),
                (Passed, 2) => Answer::Reply(7),
                (Ready, 2) => Answer::Again(7),
                (Ready, 14) => Answer::Complete(5, 1),
                _ => Answer::Refused(Refusal::State),
            };
            let mut hub = Hub::new(8, state);
            assert_eq!(hub.take(message), expected, "{state:?} {kind}");
        }
    }
}

#[test]
fn another_session_is_refused_except_in_state_0() {
    let other = Gateway { session: gateway().session ^ 1, ..gateway() };
    for state in [AwaitingAuthentication, Passed, Ready, Failed] {
        for message in every_message(&other) {
            let discovery = message.header.message_type == 1;
            let refusal = refused(Hub::new(8, state).take_in_vain(&message));
            assert_eq!(refusal, if discovery { 15 } else { 16 });
        }
    }
    assert_eq!(Hub::new(8, AwaitingRequest).take(&enrolment()[0]), Answer::Reply(1));
    let mut hub = Hub::new(8, AwaitingRequest);
    assert_eq!(hub.take(&other.enrolment()[0].0), Answer::Reply(1));
    assert_eq!(hub.connection.session, other.session);
}

#[test]
fn again_compares_nonce_x_y_and_the_certificate() {
    let gateway = gateway();
    let offers: [fn(&mut Offer); 6] = [
        |o| o.nonce[0] ^= 1,
        |o| o.nonce[7] ^= 1,
        |o| o.x[0] ^= 1,
        |o| o.x[31] ^= 1,
        |o| o.y[0] ^= 1,
        |o| o.y[31] ^= 1,
    ];
    for state in [AwaitingAuthentication, Passed, Ready] {
        for change in offers {
            let mut offer = gateway.offer;
            change(&mut offer);
            let message = gateway.connect(Connect::ConnectionRequest(offer));
            assert_eq!(refused(Hub::new(8, state).take_in_vain(&message)), 15);
        }
    }
    for state in [Passed, Ready] {
        let mut certificate = gateway.certificate.clone();
        let thumbprint = b"another";
        let shown = |certificate: &[u8]| {
            let credentials = Credentials { certificate, thumbprint };
            gateway.connect(Connect::AuthenticationRequest(credentials))
        };
        let mut hub = Hub::new(8, state);
        assert_eq!(hub.take_in_vain(&shown(&certificate)), Answer::Again(3));
        certificate[32] ^= 1;
        assert_eq!(refused(hub.take_in_vain(&shown(&certificate))), 15);
        certificate.truncate(32);
        assert_eq!(refused(hub.take_in_vain(&shown(&certificate))), 15);
    }
}

#[test]
fn again_does_not_compare_the_rest() {
    let mut prng = Prng::new(3);
    for (number, (message, reply)) in gateway().enrolment().iter().enumerate() {
        let mut hub = Hub::new(8, Ready);
        for mode in 0..3 {
            let mut other = second::generate::dress(&mut prng, message.clone());
            other.header.sequence = prng.word() as u32;
            other.header.channel = prng.word();
            other.payload[1] = mode;
            assert_eq!(hub.take_in_vain(&other), Answer::Again(*reply), "{number}");
        }
    }
}

#[test]
fn states_that_do_not_exist() {
    for state in 5..=255 {
        for message in every_message(&gateway()) {
            let mut hub = Hub::new(8, Ready);
            hub.connection.state = state;
            assert_eq!(refused(hub.take_in_vain(&message)), 15);
            let mut other = message.clone();
            other.header.session ^= 1;
            let discovery = message.header.message_type == 1;
            assert_eq!(refused(hub.take_in_vain(&other)), if discovery { 15 } else { 16 });
        }
    }
}

#[test]
fn verdicts_and_fragment_sizes() {
    for verdict in [2, 3, 255, 256, 257, 1 << 32, (1 << 32) + 1, u64::MAX] {
        let mut hub = Hub::new(8, AwaitingRequest);
        assert_eq!(refused(hub.take_bytes(&[], verdict)), 25);
        hub.connection.fragment_size = 0;
        assert_eq!(refused(hub.take_bytes(&[], verdict)), 25);
        assert_eq!(refused(hub.take_bytes(&[], 1)), 24);
    }
}

/// A sealed message past 13 leaves its opened sealed part, whatever the answer; a plain one leaves
/// nothing.
#[test]
fn the_working_buffer_after_each_answer() {
    for state in State::ALL {
        for message in every_message(&gateway()) {
            let mut hub = Hub::new(8, state);
            hub.working.truncate(600);
            let answer = hub.take(&message);
            let mut expected = vec![0xAA; 600];
            if message.header.sealed() {
                let opened = second::seal::plain_text(&message.payload);
                expected[..opened.len()].copy_from_slice(&opened);
            }
            assert_eq!(hub.working, expected, "{answer}");
        }
    }
}
