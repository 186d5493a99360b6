// SPDX-License-Identifier: MPL-2.0
//! Connections: their states, their answers, the report buffer.

use hlidunsk::payload::{Connect, DeviceType, Discovery, Exchange, Mode, Presence};
use hlidunsk::payload::{PresenceRequest, Status, MOST_PAYLOAD};
use hlidunsk::{cut, digest, write, Answer, Connection, Header, Keys, Refusal, Reply, State};
use hlidunsk::{MessageType, MOST_WRITTEN, NO_ENTRIES};

mod drawn;
use drawn::Drawn;

const F: usize = 4;
const KEYS: Keys = [9; 64];
const MODE: Mode = Mode::Proximal;
const SESSION: u64 = 0x0123_4567_89AB_CDEF;
const CERTIFICATE: &[u8] = b"gateway 7, block 12, Merlot";
const EXCHANGE: Exchange = Exchange { nonce: [1; 8], x: [2; 32], y: [3; 32] };
const REPORT: &[u8] = b"ten bytes.";

fn message(header: Header, payload: &[u8]) -> Vec<u8> {
    let mut out = vec![0; MOST_WRITTEN];
    let length = write(&header, NO_ENTRIES, payload, Some(&KEYS), &mut out).unwrap();
    out.truncate(length);
    out
}

fn connect(connect: Connect<'_>) -> Vec<u8> {
    let mut payload = [0; MOST_PAYLOAD];
    let length = connect.write(&mut payload).unwrap();
    message(connect.header(SESSION, 0x8000_0000), &payload[..length])
}

fn piece(index: usize) -> Vec<u8> {
    let piece = cut(REPORT, F, index).unwrap();
    message(piece.header(SESSION, 0), piece.bytes)
}

fn requests() -> [Vec<u8>; 3] {
    let (certificate, thumbprint) = (CERTIFICATE, &[][..]);
    [
        connect(Connect::ConnectionRequest { mode: MODE, exchange: EXCHANGE }),
        connect(Connect::DeviceAuthenticationRequest { mode: MODE, certificate, thumbprint }),
        connect(Connect::DoneRequest { mode: MODE }),
    ]
}

/// A step with keys and room, whose answer has no report.
fn step(hub: &mut Connection, message: &[u8], accepted: bool) -> Result<Answer<'static>, Refusal> {
    let mut report = [0; 64 * F];
    match hub.step(message, Some(&KEYS), &mut [0; 4_096], &mut report, accepted)? {
        Answer::Reply(reply) => Ok(Answer::Reply(reply)),
        Answer::Again(reply) => Ok(Answer::Again(reply)),
        Answer::Failure => Ok(Answer::Failure),
        answer => panic!("{answer:?}"),
    }
}

fn ready() -> Connection {
    let mut hub = Connection::open(F).unwrap();
    for request in requests() {
        step(&mut hub, &request, true).unwrap();
    }
    hub
}

#[test]
fn opening() {
    let hub = Connection::open(16_384).unwrap();
    assert_eq!((hub.fragment_size(), hub.session(), hub.expected()), (16_384, 0, 0));
    assert_eq!(hub.state(), State::WaitingForRequest);
    assert_eq!(hub.exchange(), Exchange { nonce: [0; 8], x: [0; 32], y: [0; 32] });
    assert_eq!(hub.certificate_digest(), [0; 32]);
    for fragment_size in [0, 16_385, 1 << 32, usize::MAX] {
        assert_eq!(Connection::open(fragment_size), Err(Refusal::WrongFragmentSize));
    }
    assert_eq!(
        format!("{hub:?}"),
        "Connection { fragment_size: 16384, state: WaitingForRequest, session: 0, expected: 0, .. }"
    );
}

#[test]
fn an_enrolment_goes_through_its_states() {
    let mut hub = Connection::open(F).unwrap();
    let replies = [
        (Reply::ConnectionResponse, State::WaitingForAuthentication),
        (Reply::DeviceAuthenticationResponse, State::Passed),
        (Reply::DoneResponse(Status::Success), State::Ready),
    ];
    for (request, (reply, state)) in requests().iter().zip(replies) {
        assert_eq!(step(&mut hub, request, true), Ok(Answer::Reply(reply)));
        assert_eq!(hub.state(), state);
        let before = hub;
        assert_eq!(step(&mut hub, request, true), Ok(Answer::Again(reply)));
        assert_eq!(hub, before);
    }
    assert_eq!((hub.fragment_size(), hub.session(), hub.expected()), (F, SESSION, 0));
    assert_eq!((hub.exchange(), hub.certificate_digest()), (EXCHANGE, digest(CERTIFICATE)));
}

#[test]
fn a_certificate_that_is_not_accepted() {
    let mut hub = Connection::open(F).unwrap();
    let [first, second, third] = requests();
    step(&mut hub, &first, false).unwrap();
    assert_eq!(step(&mut hub, &second, false), Ok(Answer::Failure));
    assert_eq!(hub.state(), State::Failed);
    for mut message in [first, second, third, piece(0)] {
        assert_eq!(step(&mut hub, &message, true), Err(Refusal::NotAllowed));
        // What is refused before that is refused here too.
        message[1] ^= 1;
        assert_eq!(step(&mut hub, &message, true), Err(Refusal::WrongSignature));
    }
}

/// Again is for a message that asks for a step that was made, whatever its other bytes.
#[test]
fn other_bytes_that_ask_for_the_same_step() {
    let mut hub = ready();
    let (mode, certificate, thumbprint) = (Mode::Legacy, CERTIFICATE, &b"another"[..]);
    for (request, reply) in [
        (Connect::ConnectionRequest { mode, exchange: EXCHANGE }, Reply::ConnectionResponse),
        (
            Connect::DeviceAuthenticationRequest { mode, certificate, thumbprint },
            Reply::DeviceAuthenticationResponse,
        ),
        (Connect::DoneRequest { mode }, Reply::DoneResponse(Status::Success)),
    ] {
        assert_eq!(step(&mut hub, &connect(request), false), Ok(Answer::Again(reply)));
    }
    assert_eq!(hub, ready());
}

/// A stranger's request is refused by a connection in use. A new connection takes it, beside the
/// first, which goes on.
#[test]
fn a_stranger_beside_a_gateway() {
    let exchange = Exchange { nonce: [4; 8], ..EXCHANGE };
    let stranger = Connect::ConnectionRequest { mode: MODE, exchange };
    let mut payload = [0; MOST_PAYLOAD];
    let length = stranger.write(&mut payload).unwrap();
    let [first, second, third] = requests();
    for (session, refusal) in [(SESSION, Refusal::NotAllowed), (7, Refusal::OtherSession)] {
        let came = message(stranger.header(session, 0), &payload[..length]);
        let (mut hub, mut buffer) = (Connection::open(F).unwrap(), [0; 64 * F]);
        for request in [&first, &second, &third] {
            assert!(matches!(step(&mut hub, request, true), Ok(Answer::Reply(_))));
            assert_eq!(step(&mut hub, &came, true), Err(refusal));
            let mut beside = Connection::open(F).unwrap();
            let answer = beside.step(&came, None, &mut [], &mut [], false);
            assert_eq!(answer, Ok(Answer::Reply(Reply::ConnectionResponse)));
            let answer = beside.step(request, None, &mut [], &mut [], false);
            assert!(answer.is_err());
        }
        for index in [0, 1] {
            let answer = hub.step(&piece(index), Some(&KEYS), &mut [0; 16], &mut buffer, false);
            assert_eq!(answer, Ok(Answer::Taken { heard: index + 1 }));
            let answer = hub.step(&came, Some(&KEYS), &mut [0; 16], &mut buffer, false);
            assert_eq!(answer, Err(refusal));
        }
        match hub.step(&piece(2), Some(&KEYS), &mut [0; 16], &mut buffer, false) {
            Ok(Answer::Complete { report, .. }) => assert_eq!(report, REPORT),
            other => panic!("{other:?}"),
        }
    }
}

#[test]
fn a_sealed_message_before_there_are_keys() {
    let mut hub = Connection::open(F).unwrap();
    let [first, second, _] = requests();
    assert!(hub.step(&first, None, &mut [], &mut [], false).is_ok());
    let answer = hub.step(&second, None, &mut [0; 4_096], &mut [], true);
    assert_eq!(answer, Err(Refusal::WrongKeys));
}

/// Every number is a state, and in one that document 01 does not have every message is refused.
#[test]
fn states_and_their_numbers() {
    let presence = message(PresenceRequest.header(), &[0]);
    let messages = [&requests()[..], &[piece(0), presence]].concat();
    for number in 0..=255 {
        let state = State::from_number(number);
        assert_eq!(state.number(), number);
        assert_eq!(matches!(state, State::Other(_)), number > 4);
        let mut bytes = *ready().as_bytes();
        bytes[8] = number;
        let mut hub = Connection::from_bytes(bytes);
        assert_eq!(hub.state(), state);
        if number > 3 {
            for message in &messages {
                assert_eq!(step(&mut hub, message, true), Err(Refusal::NotAllowed));
            }
        }
    }
}

/// A presence call and its answer are refused in every state, and change nothing.
#[test]
fn a_presence_call_goes_to_no_connection() {
    let (device, name) = (DeviceType::LINUX, &b"hub of Blaye"[..]);
    let presence = Presence { mode: MODE, device, name, salt: [1; 4], hash: [2; 4] };
    for discovery in [Discovery::PresenceRequest, Discovery::PresenceResponse(presence)] {
        let mut payload = [0; MOST_PAYLOAD];
        let length = discovery.write(&mut payload).unwrap();
        for session in [0, SESSION] {
            let header = Header { session, ..discovery.header(7) };
            let came = message(header, &payload[..length]);
            for number in 0..=255 {
                let mut bytes = *ready_bytes();
                bytes[8] = number;
                let mut hub = Connection::from_bytes(bytes);
                let answer = hub.step(&came, None, &mut [], &mut [], true);
                assert_eq!(answer, Err(Refusal::NotAllowed));
                assert_eq!(hub.as_bytes(), &bytes);
            }
        }
    }
}

#[test]
fn a_report_is_a_part_of_the_report_buffer() {
    let (mut hub, mut buffer) = (ready(), [0xEE; 64 * F]);
    let start = buffer.as_ptr();
    for (index, heard) in [(2, 1), (0, 2)] {
        let answer = hub.step(&piece(index), Some(&KEYS), &mut [0; 16], &mut buffer, true);
        assert_eq!(answer, Ok(Answer::Taken { heard }));
        let answer = hub.step(&piece(index), Some(&KEYS), &mut [0; 16], &mut buffer, true);
        assert_eq!(answer, Ok(Answer::Repeat { heard }));
    }
    let answer = hub.step(&piece(1), Some(&KEYS), &mut [0; 16], &mut buffer, true);
    let Ok(Answer::Complete { heard: 3, report }) = answer else { panic!("{answer:?}") };
    assert_eq!((report, report.as_ptr()), (REPORT, start));
    assert_eq!(hub.expected(), 1);
    assert!(buffer[REPORT.len()..].iter().all(|byte| *byte == 0xEE));
}

/// Once the report's length is known a shorter report buffer is refused with 255, whatever the
/// message, until the report is complete.
#[test]
fn a_report_buffer_that_is_shorter_than_the_report() {
    let (mut hub, mut buffer) = (ready(), [0; 10]);
    let mut take = |hub: &mut Connection, message: &[u8], room: usize| {
        let answer = hub.step(message, Some(&KEYS), &mut [0; 64], &mut buffer[..room], true);
        answer.map(|answer| format!("{answer:?}"))
    };
    assert_eq!(take(&mut hub, &piece(2), 9), Err(Refusal::NoRoom));
    assert_eq!(take(&mut hub, &piece(0), 4).unwrap(), "Taken { heard: 1 }");
    assert_eq!(take(&mut hub, &piece(2), 10).unwrap(), "Taken { heard: 2 }");
    let before = hub;
    for message in [piece(0), piece(1), piece(2), requests()[0].clone(), vec![], vec![7; 50]] {
        for room in 0..10 {
            assert_eq!(take(&mut hub, &message, room), Err(Refusal::WrongBuffer));
            assert_eq!(hub, before);
        }
    }
    assert!(take(&mut hub, &piece(1), 10).unwrap().starts_with("Complete { heard: 3, report: ["));
    assert_eq!(take(&mut hub, &piece(1), 0), Err(Refusal::PastSequence));
}

/// Any bytes are a connection: a step on them answers and, refused, changes nothing.
#[test]
fn any_bytes_are_a_connection() {
    let presence = message(PresenceRequest.header(), &[0]);
    for byte in 0..=255 {
        let mut hub = Connection::from_bytes([byte; Connection::SIZE]);
        let mut report = [0];
        let answer = hub.step(&presence, None, &mut [], &mut report, true);
        assert_eq!(answer, Err(Refusal::WrongFragmentSize));
        assert_eq!(hub.as_bytes(), &[byte; Connection::SIZE]);
    }
    let mut drawn = Drawn::new(2);
    for _ in 0..20_000 {
        let bytes: [u8; Connection::SIZE] = core::array::from_fn(|_| drawn.below(256) as u8);
        let mut hub = Connection::from_bytes(bytes);
        let length = drawn.below(120);
        let message = drawn.bytes(length, 256);
        let mut report = vec![0; drawn.below(70)];
        let _ = format!("{hub:?}{:?}", hub.exchange());
        let answer = hub.step(&message, Some(&KEYS), &mut [0; 64], &mut report, true);
        assert!(answer.is_err());
        assert_eq!(hub.as_bytes(), &bytes);
    }
}

/// Ready connections with made-up memories of pieces, and report buffers of any size: whatever a
/// step answers, a report lies in its buffer.
#[test]
fn made_up_pieces_and_any_report_buffer() {
    let (mut drawn, mut complete, mut short) = (Drawn::new(3), 0, 0);
    for _ in 0..50_000 {
        let mut bytes = *ready_bytes();
        bytes[7] = drawn.pick(&[0, 1, F as u8, 16]);
        let heard = drawn.pick(&[0x00, 0x01, 0x03, 0x06, 0x07, 0xFF]);
        bytes[125] = heard;
        bytes[140] = drawn.pick(&[0, 1, 2, 3, 64, 65, 255]);
        bytes[133] = drawn.pick(&[0, 0, 0, 0, 255]);
        bytes[150] = drawn.pick(&[0, 1, 2, F as u8, 17, 255]);
        bytes[149] = drawn.pick(&[0, 0, 0, 255]);
        let mut hub = Connection::from_bytes(bytes);
        let count = drawn.pick(&[1, 2, 3]);
        let index = drawn.below(usize::from(count)) as u16;
        let header = Header { index, count, ..cut(b"", 1, 0).unwrap().header(SESSION, 0) };
        assert_eq!(header.message_type, MessageType::Session);
        let length = drawn.pick(&[0, 1, 2, F, 16]);
        let (message, room) = (message(header, &vec![0; length]), drawn.below(60));
        let mut buffer = vec![0; room];
        match hub.step(&message, Some(&KEYS), &mut [0; 32], &mut buffer, true) {
            Ok(Answer::Complete { report, .. }) => {
                assert!(report.len() <= room);
                complete += 1;
            }
            Ok(_) => {}
            Err(refusal) => {
                assert_eq!(hub.as_bytes(), &bytes);
                short += usize::from(refusal == Refusal::WrongBuffer);
            }
        }
    }
    assert!(complete > 500 && short > 500, "{complete} complete, {short} wrong buffers");
}

/// The bytes of a connection that is ready, made once.
fn ready_bytes() -> &'static [u8; Connection::SIZE] {
    static READY: std::sync::OnceLock<Connection> = std::sync::OnceLock::new();
    READY.get_or_init(ready).as_bytes()
}
