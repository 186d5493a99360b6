// SPDX-License-Identifier: MPL-2.0
//! The gateway's side: its states, its answers, and whole conversations with a hub.

use hlidunsk::payload::{Connect, ConnectionResult, DeviceType, Discovery, Exchange, Mode};
use hlidunsk::payload::{Presence, Status, MOST_PAYLOAD};
use hlidunsk::{cut, digest, read, write, Answer, Connection, Gateway, GatewayAnswer};
use hlidunsk::{GatewayState, Header, Keys, Refusal, Reply, Request, State};
use hlidunsk::{MOST_WRITTEN, NO_ENTRIES};

mod drawn;
use drawn::Drawn;

const F: usize = 4;
const KEYS: Keys = [9; 64];
const MODE: Mode = Mode::Proximal;
const SESSION: u64 = 0x0123_4567_89AB_CDEF;
const EXCHANGE: Exchange = Exchange { nonce: [1; 8], x: [2; 32], y: [3; 32] };
const REPORT: &[u8] = b"ten bytes.";

fn message(header: Header, payload: &[u8], keys: Option<&Keys>) -> Vec<u8> {
    let mut out = vec![0; MOST_WRITTEN];
    let length = write(&header, NO_ENTRIES, payload, keys, &mut out).unwrap();
    out.truncate(length);
    out
}

fn connect(connect: Connect<'_>, session: u64, sequence: u32, keys: Option<&Keys>) -> Vec<u8> {
    let mut payload = [0; MOST_PAYLOAD];
    let length = connect.write(&mut payload).unwrap();
    message(connect.header(session, sequence), &payload[..length], keys)
}

fn response(result: ConnectionResult) -> Connect<'static> {
    Connect::ConnectionResponse { mode: MODE, result }
}

const PENDING: ConnectionResult = ConnectionResult::Pending(EXCHANGE);
const CERTIFICATE: Connect<'static> =
    Connect::DeviceAuthenticationResponse { mode: MODE, certificate: b"hub", thumbprint: b"" };

fn done(status: Status) -> Connect<'static> {
    Connect::DoneResponse { mode: MODE, status }
}

/// Every reply, with every Result and Status, and every request.
fn all() -> Vec<Connect<'static>> {
    use ConnectionResult::*;
    let statuses = (0..=4).map(|number| done(Status::from_number(number).unwrap()));
    [
        Connect::ConnectionRequest { mode: MODE, exchange: EXCHANGE },
        Connect::DeviceAuthenticationRequest { mode: MODE, certificate: b"7", thumbprint: b"" },
        Connect::DoneRequest { mode: MODE },
        CERTIFICATE,
    ]
    .into_iter()
    .chain([Success, PENDING, FailureAuthentication, FailureNotAllowed].map(response))
    .chain(statuses)
    .collect()
}

fn step(gateway: &mut Gateway, came: &[u8], accepted: bool) -> Result<GatewayAnswer, Refusal> {
    gateway.step(came, Some(&KEYS), &mut [0; 4_096], accepted)
}

fn opened() -> Gateway {
    Gateway::open(F, SESSION).unwrap()
}

/// The same gateway in another state.
fn in_state(number: u8) -> Gateway {
    let mut bytes = *opened().as_bytes();
    bytes[8] = number;
    Gateway::from_bytes(bytes)
}

#[test]
fn opening() {
    for session in [0, 1, SESSION, u64::MAX] {
        for fragment_size in [1, 2, 255, 256, 16_384] {
            let gateway = Gateway::open(fragment_size, session).unwrap();
            assert_eq!((gateway.fragment_size(), gateway.session()), (fragment_size, session));
            assert_eq!(gateway.state(), GatewayState::WaitingForResponse);
            assert_eq!(gateway.due(), Some(Request::ConnectionRequest));
            let mut bytes = (fragment_size as u64).to_be_bytes().to_vec();
            bytes.push(0);
            bytes.extend(session.to_be_bytes());
            assert_eq!(gateway.as_bytes()[..], bytes);
        }
        for fragment_size in [0, 16_385, 1 << 32, usize::MAX] {
            let refused = Gateway::open(fragment_size, session);
            assert_eq!(refused, Err(Refusal::WrongFragmentSize));
        }
    }
    assert_eq!(
        format!("{:?}", Gateway::open(16_384, 42).unwrap()),
        "Gateway { fragment_size: 16384, state: WaitingForResponse, session: 42 }"
    );
}

#[test]
fn an_enrolment_goes_through_its_states() {
    let mut gateway = opened();
    let authenticate = Request::DeviceAuthenticationRequest;
    let steps = [
        (response(PENDING), GatewayAnswer::Next(authenticate), Some(authenticate)),
        (CERTIFICATE, GatewayAnswer::Next(Request::DoneRequest), Some(Request::DoneRequest)),
        (done(Status::Success), GatewayAnswer::Ready, None),
    ];
    let states =
        [GatewayState::WaitingForAuthentication, GatewayState::WaitingForDone, GatewayState::Ready];
    for ((reply, answer, due), state) in steps.into_iter().zip(states) {
        let came = connect(reply, SESSION, 7, Some(&KEYS));
        assert_eq!(step(&mut gateway, &came, true), Ok(answer));
        assert_eq!((gateway.state(), gateway.due()), (state, due));
        let before = gateway;
        assert_eq!(step(&mut gateway, &came, true), Ok(GatewayAnswer::Again(due)));
        assert_eq!(gateway, before);
    }
    assert_eq!((gateway.fragment_size(), gateway.session()), (F, SESSION));
}

/// Document 01's "Gateway states", line by line: the answer, and the number of the next state.
fn by_document(
    state: u8,
    came: &Connect<'_>,
    accepted: bool,
) -> Result<(GatewayAnswer, u8), Refusal> {
    let one = matches!(came, Connect::ConnectionResponse { .. });
    let three = matches!(came, Connect::DeviceAuthenticationResponse { .. });
    let seven = matches!(came, Connect::DoneResponse { .. });
    let fails = (one && *came != response(PENDING))
        || (three && !accepted)
        || (seven && *came != done(Status::Success));
    let authenticate = Request::DeviceAuthenticationRequest;
    match state {
        4.. => Err(Refusal::NotAllowed),
        _ if fails => Ok((GatewayAnswer::Failed, 4)),
        0 if one => Ok((GatewayAnswer::Next(authenticate), 1)),
        1 if three => Ok((GatewayAnswer::Next(Request::DoneRequest), 2)),
        2 if seven => Ok((GatewayAnswer::Ready, 3)),
        1..=3 if one => Ok((GatewayAnswer::Again(Some(authenticate)), state)),
        2..=3 if three => Ok((GatewayAnswer::Again(Some(Request::DoneRequest)), state)),
        3 if seven => Ok((GatewayAnswer::Again(None), state)),
        _ => Err(Refusal::NotAllowed),
    }
}

/// Every state, those that are made up too, hears every reply and request, of its own SessionID and
/// of another, with both verdicts.
#[test]
fn every_answer_in_every_state() {
    let (mut answers, mut refused) = (0, 0);
    for came in all() {
        let ours = connect(came, SESSION, 7, Some(&KEYS));
        let others = connect(came, !SESSION, 7, Some(&KEYS));
        for number in 0..=255 {
            for accepted in [false, true] {
                let mut gateway = in_state(number);
                let wanted = by_document(number, &came, accepted);
                assert_eq!(step(&mut gateway, &ours, accepted), wanted.map(|(answer, _)| answer));
                let next = wanted.map_or(number, |(_, next)| next);
                assert_eq!(gateway, in_state(next));
                answers += usize::from(wanted.is_ok());
                refused += usize::from(wanted.is_err());

                let mut gateway = in_state(number);
                assert_eq!(step(&mut gateway, &others, accepted), Err(Refusal::OtherSession));
                assert_eq!(gateway, in_state(number));
            }
        }
    }
    assert_eq!(answers + refused, all().len() * 512);
    assert!(answers > 70, "{answers}");
}

#[test]
fn states_and_their_numbers() {
    for number in 0..=255 {
        let state = GatewayState::from_number(number);
        assert_eq!(state.number(), number);
        assert_eq!(matches!(state, GatewayState::Other(_)), number > 4);
        let gateway = in_state(number);
        assert_eq!((gateway.state(), gateway.session()), (state, SESSION));
        let due = match number {
            0 => Some(Request::ConnectionRequest),
            1 => Some(Request::DeviceAuthenticationRequest),
            2 => Some(Request::DoneRequest),
            _ => None,
        };
        assert_eq!(gateway.due(), due);
    }
}

/// A Session message is the hub's to take, and a Discovery message goes to no connection, whatever
/// its SessionID.
#[test]
fn messages_that_are_no_replies() {
    let (device, name) = (DeviceType::LINUX, &b"hub of Blaye"[..]);
    let presence = Presence { mode: MODE, device, name, salt: [1; 4], hash: [2; 4] };
    let piece = cut(REPORT, F, 0).unwrap();
    for number in 0..=255 {
        for (session, refusal) in [(SESSION, Refusal::NotAllowed), (7, Refusal::OtherSession)] {
            let came = message(piece.header(session, 0), piece.bytes, Some(&KEYS));
            assert_eq!(step(&mut in_state(number), &came, true), Err(refusal));
            for discovery in [Discovery::PresenceRequest, Discovery::PresenceResponse(presence)] {
                let mut payload = [0; MOST_PAYLOAD];
                let length = discovery.write(&mut payload).unwrap();
                let header = Header { session, ..discovery.header(7) };
                let came = message(header, &payload[..length], None);
                let answer = in_state(number).step(&came, None, &mut [], true);
                assert_eq!(answer, Err(Refusal::NotAllowed));
            }
        }
    }
}

#[test]
fn sealed_replies_need_keys_and_room() {
    let mut came = connect(CERTIFICATE, SESSION, 7, Some(&KEYS));
    let mut gateway = in_state(1);
    assert_eq!(gateway.step(&came, None, &mut [0; 64], true), Err(Refusal::WrongKeys));
    let others = [8; 64];
    assert_eq!(gateway.step(&came, Some(&others), &mut [0; 64], true), Err(Refusal::WrongTag));
    assert_eq!(gateway.step(&came, Some(&KEYS), &mut [0; 15], true), Err(Refusal::ShortWorking));
    came[60] ^= 1;
    assert_eq!(step(&mut gateway, &came, true), Err(Refusal::WrongTag));
    assert_eq!(gateway, in_state(1));

    // A plain one looks at neither.
    let came = connect(response(PENDING), SESSION, 7, None);
    assert!(opened().step(&came, None, &mut [], false).is_ok());
    assert!(opened().step(&came, Some(&others), &mut [], false).is_ok());

    // What is refused after it was opened is in the working buffer; before that nothing is.
    let came = connect(done(Status::Success), SESSION, 7, Some(&KEYS));
    let mut working = [0xEE; 20];
    assert_eq!(gateway.step(&came, Some(&KEYS), &mut working, true), Err(Refusal::NotAllowed));
    assert_eq!((working[..4].to_vec(), &working[16..]), (vec![0, 0, 0, 4], &[0xEE; 4][..]));
    let mut working = [0xEE; 20];
    assert!(gateway.step(&came, Some(&others), &mut working, true).is_err());
    assert_eq!(working, [0xEE; 20]);
}

/// A Connection Response is plain: a stranger's can turn a gateway away, be it Ready. Whoever looks
/// at it before the step is spared that.
#[test]
fn a_stranger_turns_a_gateway_away() {
    let came = connect(response(ConnectionResult::FailureNotAllowed), SESSION, 0, None);
    for number in 0..=3 {
        let mut gateway = in_state(number);
        assert_eq!(step(&mut gateway, &came, true), Ok(GatewayAnswer::Failed));
        assert_eq!((gateway.state(), gateway.due()), (GatewayState::Failed, None));
        for reply in [response(PENDING), CERTIFICATE, done(Status::Success)] {
            let came = connect(reply, SESSION, 7, Some(&KEYS));
            assert_eq!(step(&mut gateway, &came, true), Err(Refusal::NotAllowed));
        }
    }
    let said = read(&came, None, &mut []).unwrap().connect();
    assert_eq!(said, Some(response(ConnectionResult::FailureNotAllowed)));
}

/// Any 17 bytes are a gateway's connection: a step on them answers and, refused, changes nothing.
#[test]
fn any_bytes_are_a_gateway() {
    let reply = connect(response(PENDING), SESSION, 7, None);
    for byte in 0..=255 {
        let mut gateway = Gateway::from_bytes([byte; Gateway::SIZE]);
        assert_eq!(step(&mut gateway, &reply, true), Err(Refusal::WrongFragmentSize));
        assert_eq!(gateway.as_bytes(), &[byte; Gateway::SIZE]);
    }
    let mut drawn = Drawn::new(4);
    let (mut wrong_size, mut other) = (0, 0);
    for _ in 0..20_000 {
        let mut bytes: [u8; Gateway::SIZE] = core::array::from_fn(|_| drawn.below(256) as u8);
        if drawn.below(2) == 0 {
            bytes[..6].fill(0);
            bytes[6] = drawn.below(0x44) as u8;
        }
        let mut gateway = Gateway::from_bytes(bytes);
        let _ = format!("{gateway:?}{:?}", gateway.due());
        let length = drawn.below(120);
        let came = if drawn.below(2) == 0 { reply.clone() } else { drawn.bytes(length, 256) };
        let accepted = drawn.pick(&[false, true]);
        match step(&mut gateway, &came, accepted).unwrap_err() {
            Refusal::WrongFragmentSize => wrong_size += 1,
            _ => other += 1,
        }
        let right = matches!(gateway.fragment_size(), 1..=16_384);
        assert_eq!(right, step(&mut gateway, &came, true) != Err(Refusal::WrongFragmentSize));
        assert_eq!(gateway.as_bytes(), &bytes);
    }
    assert!(wrong_size > 9_000 && other > 9_000, "{wrong_size}, {other}");
}

/// Keys that both halves of the agreement lead to.
fn agree(gateway: &Exchange, hub: &Exchange) -> Keys {
    let both = [gateway.nonce, hub.nonce].concat();
    let (first, second) = (digest(&both), digest(&[&both[..], b"2"].concat()));
    core::array::from_fn(|place| if place < 32 { first[place] } else { second[place - 32] })
}

fn drawn_exchange(drawn: &mut Drawn) -> Exchange {
    let mut number = || drawn.below(256) as u8;
    Exchange { nonce: core::array::from_fn(|_| number()), x: [1; 32], y: [2; 32] }
}

/// A hub, with all that it has of the gateway; it keeps its replies.
struct HubSide {
    connection: Connection,
    keys: Option<Keys>,
    report: Vec<u8>,
    replies: [Vec<u8>; 3],
}

/// A gateway, with all that it has of the hub; it keeps its requests.
struct GatewaySide {
    gateway: Gateway,
    exchange: Exchange,
    keys: Option<Keys>,
    requests: [Vec<u8>; 3],
}

fn reply_place(reply: Reply) -> usize {
    match reply {
        Reply::ConnectionResponse => 0,
        Reply::DeviceAuthenticationResponse => 1,
        Reply::DoneResponse(_) => 2,
    }
}

fn request_place(request: Request) -> usize {
    match request {
        Request::ConnectionRequest => 0,
        Request::DeviceAuthenticationRequest => 1,
        Request::DoneRequest => 2,
    }
}

impl HubSide {
    /// Takes a message, and answers what is to be sent; nothing it hears is refused but pieces that
    /// come late. Answers a report that is complete too.
    fn take(&mut self, came: &[u8], drawn: &mut Drawn) -> (Option<Vec<u8>>, Option<Vec<u8>>) {
        let (keys, working) = (self.keys.as_ref(), &mut [0; 4_096][..]);
        let reply = match self.connection.step(came, keys, working, &mut self.report, true) {
            Ok(Answer::Reply(reply)) => reply,
            Ok(Answer::Again(reply)) => {
                return (Some(self.replies[reply_place(reply)].clone()), None)
            }
            Ok(Answer::Complete { report, .. }) => return (None, Some(report.to_vec())),
            Ok(Answer::Taken { .. } | Answer::Repeat { .. }) | Err(Refusal::PastSequence) => {
                return (None, None)
            }
            other => panic!("{other:?}"),
        };
        let place = reply_place(reply);
        let said = match reply {
            Reply::ConnectionResponse => {
                let ours = drawn_exchange(drawn);
                self.keys = Some(agree(&self.connection.exchange(), &ours));
                response(ConnectionResult::Pending(ours))
            }
            Reply::DeviceAuthenticationResponse => CERTIFICATE,
            Reply::DoneResponse(status) => done(status),
        };
        let (session, sequence) = (self.connection.session(), 0xC000_0000 + place as u32);
        assert!(self.replies[place].is_empty(), "a reply is written once");
        self.replies[place] = connect(said, session, sequence, self.keys.as_ref());
        (Some(self.replies[place].clone()), None)
    }
}

impl GatewaySide {
    /// The bytes of a request: the same whenever it is asked for.
    fn request(&mut self, request: Request) -> Vec<u8> {
        let place = request_place(request);
        if self.requests[place].is_empty() {
            let said = match request {
                Request::ConnectionRequest => {
                    Connect::ConnectionRequest { mode: MODE, exchange: self.exchange }
                }
                Request::DeviceAuthenticationRequest => Connect::DeviceAuthenticationRequest {
                    mode: MODE,
                    certificate: b"gateway 7",
                    thumbprint: b"",
                },
                Request::DoneRequest => Connect::DoneRequest { mode: MODE },
            };
            let sequence = 0x8000_0000 + place as u32;
            let session = self.gateway.session();
            self.requests[place] = connect(said, session, sequence, self.keys.as_ref());
        }
        self.requests[place].clone()
    }

    /// Hears a message, and answers what is to be sent. Nothing is refused.
    fn hear(&mut self, came: &[u8]) -> Option<Vec<u8>> {
        let mut working = [0; 4_096];
        match self.gateway.step(came, self.keys.as_ref(), &mut working, true).unwrap() {
            GatewayAnswer::Next(request) => {
                if request == Request::DeviceAuthenticationRequest {
                    match read(came, None, &mut []).unwrap().connect() {
                        Some(Connect::ConnectionResponse {
                            result: ConnectionResult::Pending(theirs),
                            ..
                        }) => self.keys = Some(agree(&self.exchange, &theirs)),
                        other => panic!("{other:?}"),
                    }
                }
                Some(self.request(request))
            }
            GatewayAnswer::Again(request) => request.map(|request| self.request(request)),
            GatewayAnswer::Ready => None,
            GatewayAnswer::Failed => panic!("nobody turns it away"),
        }
    }
}

/// A hub and a gateway that hear only what the other wrote, lost, repeated and out of order: both
/// become Ready, with one SessionID and the same keys, and the report comes whole.
#[test]
fn conversations_that_lose_and_repeat() {
    let (mut lost, mut repeated, mut again) = (0, 0, 0);
    for seed in 0..200 {
        let mut drawn = Drawn::new(1_000 + seed);
        let session = (drawn.below(1 << 31) as u64) << 32 | drawn.below(1 << 31) as u64;
        let mut hub = HubSide {
            connection: Connection::open(F).unwrap(),
            keys: None,
            report: vec![0; 64 * F],
            replies: Default::default(),
        };
        let mut gateway = GatewaySide {
            gateway: Gateway::open(F, session).unwrap(),
            exchange: drawn_exchange(&mut drawn),
            keys: None,
            requests: Default::default(),
        };
        let (mut to_hub, mut to_gateway) = (Vec::new(), Vec::<Vec<u8>>::new());
        let mut complete = None;
        let mut rounds = 0;
        while complete.is_none() {
            rounds += 1;
            assert!(rounds < 10_000, "seed {seed} does not end");
            // Its time is up: the request that is due goes once more; where none is, a piece.
            if drawn.below(3) == 0 {
                let sent = match gateway.gateway.due() {
                    Some(request) => gateway.request(request),
                    None => {
                        let piece = cut(REPORT, gateway.gateway.fragment_size(), drawn.below(3));
                        let piece = piece.unwrap();
                        let header = piece.header(gateway.gateway.session(), 0);
                        message(header, piece.bytes, gateway.keys.as_ref())
                    }
                };
                to_hub.push(sent);
            }
            for queue in [&mut to_hub, &mut to_gateway] {
                if !queue.is_empty() && drawn.below(4) == 0 {
                    let place = drawn.below(queue.len());
                    queue.swap_remove(place);
                    lost += 1;
                }
            }
            if !to_hub.is_empty() {
                let place = drawn.below(to_hub.len());
                let came = if drawn.below(2) == 0 {
                    repeated += 1;
                    to_hub[place].clone()
                } else {
                    to_hub.swap_remove(place)
                };
                let (reply, report) = hub.take(&came, &mut drawn);
                to_gateway.extend(reply);
                complete = complete.or(report);
                assert_eq!(hub.connection.session(), session);
                assert_eq!(hub.connection.exchange(), gateway.exchange);
            }
            if !to_gateway.is_empty() {
                let place = drawn.below(to_gateway.len());
                let came = if drawn.below(2) == 0 {
                    repeated += 1;
                    to_gateway[place].clone()
                } else {
                    to_gateway.swap_remove(place)
                };
                let before = gateway.gateway;
                to_hub.extend(gateway.hear(&came));
                again += usize::from(gateway.gateway == before);
                assert_eq!(gateway.gateway.session(), session);
            }
            // No request or reply is heard without end: the link forgets.
            to_hub.truncate(8);
            to_gateway.truncate(8);
        }
        assert_eq!(complete.unwrap(), REPORT);
        assert_eq!(gateway.gateway.state(), GatewayState::Ready);
        assert_eq!((hub.connection.state(), hub.connection.expected()), (State::Ready, 1));
        assert_eq!(hub.keys, gateway.keys);
    }
    assert!(lost > 500 && repeated > 500 && again > 500, "{lost}, {repeated}, {again}");
}
