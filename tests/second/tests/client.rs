// SPDX-License-Identifier: MPL-2.0
//! The gateway's side: opening, the order of a step's refusals, every line of "Gateway states", and
//! what is due.

mod common;

use common::{BEFORE, Edit, Setup, client_refused, every_message, gateway, presence};
use second::client::{Answer, Client, FAILED, READY, due_number};
use second::connection::Connection;
use second::draft::Draft;
use second::gateway::{Gateway, presence_request, presence_response};
use second::generate::dress;
use second::header::SEALED;
use second::payload::{Connect, Credentials, Offer};
use second::prng::Prng;
use second::refusal::Refusal;
use second::seal::plain_text;

/// Some numbers of states that do not exist.
const MADE_UP: [u8; 5] = [5, 6, 7, 128, 255];

fn client(state: u8) -> Client {
    Client { fragment_size: 8, state, session: gateway().session }
}

/// A step with the gateway's keys and room enough.
fn step(client: Client, draft: &Draft, verdict: u64) -> (Client, Answer) {
    let keys = gateway().keys;
    client.step(&draft.bytes(&keys), &keys, &mut [0xAA; 600], verdict)
}

/// A step that must be refused, and change nothing.
fn refusal(client: Client, draft: &Draft, verdict: u64) -> u8 {
    let (next, answer) = step(client, draft, verdict);
    assert_eq!(next, client, "{answer}");
    client_refused(answer)
}

fn results() -> [Draft; 3] {
    [0, 2, 3].map(|result| gateway().connect(Connect::ConnectionResult(result)))
}

fn statuses() -> [Draft; 4] {
    [1, 2, 3, 4].map(|status| gateway().connect(Connect::DoneResponse(status)))
}

#[test]
fn opening() {
    for session in [0, 1, gateway().session, u64::MAX] {
        for size in [1, 2, 16_383, 16_384] {
            let opened = Client { fragment_size: size, state: 0, session };
            assert_eq!(Client::open(size, session), (opened, Ok(())));
        }
        for size in [0, 16_385, 65_536, u32::MAX] {
            let zero = Client { fragment_size: 0, state: 0, session: 0 };
            assert_eq!(Client::open(size, session), (zero, Err(Refusal::FragmentSize)));
        }
    }
}

#[test]
fn the_request_that_is_due() {
    for state in 0..=255 {
        let expected = match state {
            0 => Some(0),
            1 => Some(2),
            2 => Some(6),
            _ => None,
        };
        assert_eq!(client(state).due(), expected);
        let bad = Client { fragment_size: 0, state, session: 0 };
        assert_eq!(bad.due(), expected, "it looks at the state alone");
    }
}

#[test]
fn the_numbers_of_answers_and_of_what_is_due() {
    let kinds = [
        (Answer::Refused(Refusal::State), (0, 0)),
        (Answer::Again(Some(2)), (2, 2)),
        (Answer::Again(Some(6)), (2, 6)),
        (Answer::Again(None), (2, 256)),
        (Answer::Next(2), (7, 2)),
        (Answer::Next(6), (7, 6)),
        (Answer::Ready, (8, 0)),
        (Answer::Failed, (9, 0)),
    ];
    for (answer, numbers) in kinds {
        assert_eq!(answer.numbers(), numbers);
    }
    let due = [0, 1, 2, READY, FAILED, 5].map(|state| due_number(client(state).due()));
    assert_eq!(due, [0, 2, 6, 256, 256, 256]);
}

/// The replies of the enrolment one after the other. Only type 3 looks at the verdict.
#[test]
fn the_whole_enrolment() {
    let [response, authentication, done] = gateway().good_replies();
    for verdict in [0, 1] {
        let (opened, _) = Client::open(8, gateway().session);
        let (waiting, answer) = step(opened, &response, verdict);
        assert_eq!((waiting, answer), (client(1), Answer::Next(2)));
        let (passed, answer) = step(waiting, &authentication, 1);
        assert_eq!((passed, answer), (client(2), Answer::Next(6)));
        let (ready, answer) = step(passed, &done, verdict);
        assert_eq!((ready, answer), (client(READY), Answer::Ready));
    }
}

#[test]
fn session_0_enrols() {
    let zero = Gateway { session: 0, ..gateway() };
    let (mut client, _) = Client::open(8, 0);
    for (draft, expected) in
        zero.good_replies().iter().zip([Answer::Next(2), Answer::Next(6), Answer::Ready])
    {
        let (next, answer) = step(client, draft, 1);
        assert_eq!((next.session, answer), (0, expected));
        client = next;
    }
    assert_eq!(refusal(Client::open(8, 0).0, &gateway().good_replies()[0], 1), 16);
}

fn check_pairs(base: &Setup, good: Answer, edits: &[Edit]) {
    assert_eq!(base.client_answer(), good);
    common::check_pairs(base, |setup| client_refused(setup.client_answer()), edits);
}

/// What the gateway's side remembers stands at the front of what a hub does.
fn setup(draft: Draft, state: u8) -> Setup {
    let Client { fragment_size, state, session } = client(state);
    let connection = Connection { fragment_size, state, session, ..Connection::default() };
    Setup::new(draft, connection)
}

/// Past 14, the SessionID is asked for first and the state last.
const AFTER: [Edit; 3] = [
    (14, |s| s.draft.payload[1] = 3),
    (16, |s| s.draft.header.session ^= 1),
    (15, |s| s.case.connection.state = FAILED),
];

#[test]
fn the_order_of_refusals_of_a_sealed_reply() {
    let [_, authentication, done] = gateway().good_replies();
    let edits = [&BEFORE[..], &AFTER].concat();
    check_pairs(&setup(authentication.clone(), 1), Answer::Next(6), &edits);
    check_pairs(&setup(authentication, READY), Answer::Again(Some(6)), &edits);
    check_pairs(&setup(done, 2), Answer::Ready, &edits);
    for state in 0..=READY {
        check_pairs(&setup(statuses()[0].clone(), state), Answer::Failed, &edits);
    }
}

#[test]
fn the_order_of_refusals_of_a_plain_reply() {
    let [response, ..] = gateway().good_replies();
    let edits = [&BEFORE[..10], &AFTER].concat();
    for (state, good) in [(0, Answer::Next(2)), (READY, Answer::Again(Some(2)))] {
        let base = setup(response.clone(), state);
        check_pairs(&base, good, &edits);
        for blind in &BEFORE[11..14] {
            let mut setup = base.clone();
            blind.1(&mut setup);
            assert_eq!(setup.client_answer(), good, "keys and working buffer are not looked at");
        }
    }
    check_pairs(&setup(results()[0].clone(), 2), Answer::Failed, &edits);
}

/// What is never taken is refused for every other reason first, by 16 too, in every state.
#[test]
fn the_order_of_refusals_of_what_is_never_taken() {
    let gateway = gateway();
    let [request, authentication, done] = gateway.enrolment().map(|(draft, _)| draft);
    let piece = gateway.piece(0, 0, 1, b"a piece!");
    let fifteen = Answer::Refused(Refusal::State);
    for state in 0..=5 {
        let connect = &AFTER[..2];
        check_pairs(&setup(request.clone(), state), fifteen, &[&BEFORE[..10], connect].concat());
        for draft in [&authentication, &done] {
            let edits = [&BEFORE[..], connect].concat();
            check_pairs(&setup(draft.clone(), state), fifteen, &edits);
        }
        let edits = [&BEFORE[..], &AFTER[1..2]].concat();
        check_pairs(&setup(piece.clone(), state), fifteen, &edits);
        let shape: [Edit; 1] = [(14, |s| s.draft.payload.push(0))];
        for draft in [presence_request(), presence_response(presence())] {
            check_pairs(&setup(draft, state), fifteen, &[&BEFORE[..10], &shape].concat());
        }
    }
}

#[test]
fn verdicts_and_fragment_sizes() {
    let [response, ..] = gateway().good_replies();
    for verdict in [2, 3, 255, 256, 257, 1 << 32, (1 << 32) + 1, u64::MAX] {
        for state in 0..=5 {
            assert_eq!(refusal(client(state), &response, verdict), 25);
            for fragment_size in [0, 16_385, 65_537, u32::MAX] {
                let bad = Client { fragment_size, ..client(state) };
                assert_eq!(refusal(bad, &response, verdict), 25);
                assert_eq!(refusal(bad, &response, 1), 24);
                assert_eq!(
                    bad.step(&[], &[], &mut [], 0).1,
                    Answer::Refused(Refusal::FragmentSize)
                );
            }
            assert_eq!(client(state).step(&[], &[], &mut [], 0).1.to_string(), "refused 1");
        }
    }
}

/// A Connection Response is plain, the other replies are sealed.
#[test]
fn the_other_way_is_14_in_every_state() {
    for state in 0..=5 {
        for draft in gateway().replies() {
            let mut other = draft.clone();
            other.header.flags ^= SEALED;
            assert_eq!(refusal(client(state), &other, 1), 14);
        }
    }
}

/// Each kind of reply with the verdict of its step: type 1 Pending and not, type 3 with verdict 1
/// and 0, type 7 with Status 0 and another.
fn letters() -> [(Draft, u64); 6] {
    let [response, authentication, done] = gateway().good_replies();
    let ([refused, ..], [failed, ..]) = (results(), statuses());
    let trusted = (authentication.clone(), 1);
    [(response, 1), (refused, 1), trusted, (authentication, 0), (done, 1), (failed, 1)]
}

/// The answer to each of them in states 0 to 4; - is refusal 15.
const TABLE: [[&str; 5]; 6] = [
    ["next 2", "again 2", "again 2", "again 2", "-"],
    ["failed", "failed", "failed", "failed", "-"],
    ["-", "next 6", "again 6", "again 6", "-"],
    ["failed", "failed", "failed", "failed", "-"],
    ["-", "-", "ready", "again", "-"],
    ["failed", "failed", "failed", "failed", "-"],
];

/// As the table has it.
fn word(answer: Answer) -> String {
    if answer == Answer::Refused(Refusal::State) { "-".to_string() } else { answer.to_string() }
}

/// The state that an answer of the table leads to.
fn state_after(answer: &str, state: u8) -> u8 {
    match answer {
        "next 2" => 1,
        "next 6" => 2,
        "ready" => 3,
        "failed" => 4,
        _ => state,
    }
}

/// Plays every order of so many more replies against the table; answers how many steps that took.
fn every_order(letters: &[(Vec<u8>, u64)], keys: &[u8], client: Client, left: usize) -> usize {
    if left == 0 {
        return 0;
    }
    let mut steps = 0;
    for ((message, verdict), row) in letters.iter().zip(TABLE) {
        let (next, answer) = client.step(message, keys, &mut [0; 100], *verdict);
        let expected = row[usize::from(client.state)];
        assert_eq!(word(answer), expected, "{client:?}");
        assert_eq!(next, Client { state: state_after(expected, client.state), ..client });
        steps += 1 + every_order(letters, keys, next, left - 1);
    }
    steps
}

#[test]
fn replies_in_every_order() {
    let keys = gateway().keys;
    let letters = letters().map(|(draft, verdict)| (draft.bytes(&keys), verdict));
    let (opened, _) = Client::open(8, gateway().session);
    let steps = every_order(&letters, &keys, opened, 6);
    assert_eq!(steps, (1..=6).map(|length| 6_usize.pow(length)).sum());
}

/// The row of the table for a message with this verdict; none for what is always refused.
fn row(kind: usize, verdict: u64) -> Option<usize> {
    match (kind, verdict) {
        (3, _) => Some(0),
        (5..=7, _) => Some(1),
        (4, 1) => Some(2),
        (4, _) => Some(3),
        (8, _) => Some(4),
        (9..=12, _) => Some(5),
        _ => None,
    }
}

/// Every Result and Status by the table; requests, Discovery and Session messages are 15.
#[test]
fn every_kind_of_message_in_every_state() {
    for state in 0..=FAILED {
        for (kind, message) in every_message(&gateway()).iter().enumerate() {
            for verdict in [0, 1] {
                let expected = row(kind, verdict).map_or("-", |row| TABLE[row][usize::from(state)]);
                let (next, answer) = step(client(state), message, verdict);
                assert_eq!(word(answer), expected, "{kind} in state {state}, verdict {verdict}");
                assert_eq!(next, client(state_after(expected, state)));
            }
        }
    }
}

/// "Failed" comes before "Again" and before "another order": line 2 in every state before Failed.
#[test]
fn what_fails_does_so_in_every_state_but_failed() {
    let [_, authentication, _] = gateway().good_replies();
    let mut failing: Vec<(Draft, u64)> = vec![(authentication, 0)];
    for verdict in [0, 1] {
        failing.extend(results().map(|draft| (draft, verdict)));
        failing.extend(statuses().map(|draft| (draft, verdict)));
    }
    for (draft, verdict) in &failing {
        for state in 0..=READY {
            let (failed, answer) = step(client(state), draft, *verdict);
            assert_eq!((failed, answer), (client(FAILED), Answer::Failed));
            for message in every_message(&gateway()) {
                assert_eq!(refusal(failed, &message, 0), 15);
                assert_eq!(refusal(failed, &message, 1), 15);
            }
        }
        assert_eq!(refusal(client(FAILED), draft, *verdict), 15);
    }
}

#[test]
fn another_session_is_refused_in_every_state() {
    for state in (0..=FAILED).chain(MADE_UP) {
        for bit in 0..64 {
            let other = Gateway { session: gateway().session ^ 1 << bit, ..gateway() };
            for draft in other.good_replies() {
                assert_eq!(refusal(client(state), &draft, 0), 16);
            }
        }
        let zero = Gateway { session: 0, ..gateway() };
        for message in every_message(&zero) {
            let discovery = message.header.message_type == 1;
            let expected = if discovery { 15 } else { 16 };
            assert_eq!(refusal(client(state), &message, 1), expected);
        }
    }
}

/// All is refused as in Failed, also what fails in every state that exists.
#[test]
fn states_that_do_not_exist() {
    for state in 5..=255 {
        for message in every_message(&gateway()) {
            assert_eq!(refusal(client(state), &message, 0), 15);
            assert_eq!(refusal(client(state), &message, 1), 15);
            let mut other = message.clone();
            other.header.session ^= 1;
            let expected = if message.header.message_type == 1 { 15 } else { 16 };
            assert_eq!(refusal(client(state), &other, 1), expected);
        }
    }
}

/// Neither what was said when it was taken, nor a number of the header, nor the chain is compared.
#[test]
fn a_type_already_taken_is_again_whatever_else_it_says() {
    let mut prng = Prng::new(1);
    for _ in 0..50 {
        let other = second::generate::gateway(&mut prng);
        let other = Gateway { keys: gateway().keys, session: gateway().session, ..other };
        let expected = [Some(2), Some(6), None].map(Answer::Again);
        for (draft, again) in other.good_replies().into_iter().zip(expected) {
            let mut draft = dress(&mut prng, draft);
            draft.header.sequence = prng.word() as u32;
            draft.header.channel = prng.word();
            let (message, keys) = (draft.bytes(&other.keys), other.keys);
            let ready = client(READY);
            assert_eq!(ready.step(&message, &keys, &mut [0; 3_000], 1), (ready, again));
        }
    }
}

/// Nor is anything of a reply remembered but that it came.
#[test]
fn every_offer_and_certificate_is_taken() {
    let gateway = gateway();
    let offer = Offer { nonce: [0; 8], x: [0xFF; 32], y: [0; 32] };
    let pending = gateway.connect(Connect::ConnectionPending(offer));
    assert_eq!(step(client(0), &pending, 1), (client(1), Answer::Next(2)));
    for (certificate, thumbprint) in [(1, 0), (1, 512), (500, 20)] {
        let (certificate, thumbprint) = (vec![1; certificate], vec![2; thumbprint]);
        let shown = Credentials { certificate: &certificate, thumbprint: &thumbprint };
        let draft = gateway.connect(Connect::AuthenticationResponse(shown));
        assert_eq!(step(client(1), &draft, 1), (client(2), Answer::Next(6)));
    }
}

/// A sealed message past 13 leaves its opened sealed part, whatever the answer; a plain one leaves
/// nothing.
#[test]
fn the_working_buffer_after_each_answer() {
    let keys = gateway().keys;
    for state in 0..=5 {
        for session in [gateway().session, 7] {
            let client = Client { session, ..client(state) };
            for message in every_message(&gateway()) {
                let mut working = [0xAA; 600];
                let (_, answer) = client.step(&message.bytes(&keys), &keys, &mut working, 0);
                let mut expected = [0xAA; 600];
                if message.header.sealed() {
                    let opened = plain_text(&message.payload);
                    expected[..opened.len()].copy_from_slice(&opened);
                }
                assert_eq!(working, expected, "{answer}");
            }
        }
    }
}
