// SPDX-License-Identifier: MPL-2.0
//! The comparison agrees with itself and notices every kind of difference.

mod common;

use second::client::{self, Client, FAILED, READY};
use second::compare::{Comparison, Difference, Implementation, Piece, Second, Tally};
use second::connection::{Answer, Connection, State};
use second::gateway::presence_response;
use second::generate::{Case, ClientCase, WriteCase, case, payload_case, write_case};
use second::generate::{client_case, meeting};
use second::header::{Framed, Header, Kind};
use second::message::{Message, part, read_message};
use second::payload::{Connect, DiscoveryParts, Parts, Presence, read_connect};
use second::prng::Prng;
use second::refusal::Refusal;

#[test]
fn it_agrees_with_itself() {
    let mut prng = Prng::new(1);
    let mut comparison = Comparison::new(Second);
    for _ in 0..100 {
        comparison.round(&mut prng).unwrap();
    }
    let Tally { steps, conversations, reads, writes, payloads, cuts, digests, .. } =
        comparison.tally;
    assert_eq!((conversations, reads, writes, cuts, digests), (100, 6_000, 400, 400, 400));
    assert!(steps > 10_000 && payloads > 3_000);
    let Tally { gateway_steps, meetings, .. } = comparison.tally;
    assert!(meetings == 100 && gateway_steps > 1_500);
}

/// A fault at every place on each kind of message, in the state that waits for it.
#[test]
fn a_fault_at_every_place() {
    let gateway = common::gateway();
    let [request, authentication, done] = gateway.enrolment().map(|(draft, _)| draft);
    let piece = gateway.piece(0, 1, 3, b"a piece!");
    let response = presence_response(common::presence());
    let mut comparison = Comparison::new(Second);
    for (draft, state) in [
        (request, State::AwaitingRequest),
        (authentication, State::AwaitingAuthentication),
        (done, State::Passed),
        (piece, State::Ready),
        (response, State::AwaitingRequest),
    ] {
        let case = Case {
            connection: gateway.connection(8, state),
            message: draft.bytes(&gateway.keys),
            keys: gateway.keys.to_vec(),
            working: vec![0xAA; 100],
            report: vec![0x55; 20],
            verdict: 1,
        };
        comparison.every_fault(&case).unwrap();
        let (header, chain, payload) = (draft.header, draft.chain, draft.payload);
        let (keys, output) = (gateway.keys.to_vec(), vec![0xEE; case.message.len() + 1]);
        comparison.every_output(&WriteCase { header, chain, payload, keys, output }).unwrap();
    }
    assert!(comparison.tally.steps > 4_000 && comparison.tally.writes > 400);
}

/// The same for the gateway's side and each reply that it waits for.
#[test]
fn a_fault_at_every_place_of_a_reply() {
    let gateway = common::gateway();
    let mut comparison = Comparison::new(Second);
    for (state, draft) in (0..READY).zip(gateway.good_replies()) {
        let case = ClientCase {
            client: Client { fragment_size: 8, state, session: gateway.session },
            message: draft.bytes(&gateway.keys),
            keys: gateway.keys.to_vec(),
            working: vec![0xAA; 100],
            verdict: 1,
        };
        comparison.every_gateway_fault(&case).unwrap();
    }
    assert!(comparison.tally.gateway_steps > 3_000);
}

/// An implementation with one error.
struct Spoilt(Error);

#[derive(Clone, Copy, Debug, PartialEq)]
enum Error {
    HeaderRefusal,
    PlaceOffByOne,
    WorkingTouchedByRefusal,
    LengthOffByOne,
    OutputTouchedBeyond,
    PayloadRoomFirst,
    PayloadTouchedByRefusal,
    PresenceLength,
    ResponseRoomFirst,
    ResponseTouchedByRefusal,
    ResponseTouchedBeyond,
    ResponseNotRead,
    ResponseNotWritten,
    ResponseOutOfStep,
    PartOffByOne,
    HashOffByOne,
    NothingWanted,
    OpenForgetsF,
    RepeatCounted,
    AllHeardTold,
    ReportTouchedBeyond,
    LastLengthKept,
    NothingStored,
    CountOffByOne,
    LineWithoutBlanks,
    DigestOfAllButOne,
    TagBit,
    GatewayOpenKeepsSession,
    ResultTakenForPending,
    SessionIdNotAskedWhileWaiting,
    SessionMessageNotRefused,
    DoneTakenBeforeAuthentication,
    AgainNamesWhatIsDue,
    FailsOnlyOnTheAwaited,
    FailsWhereStatesEnd,
    VerdictOnEveryReply,
    FailedForgetsSession,
    GatewayTouchesWorking,
    DoneIsDueInFailed,
}

/// Whether a message is a well formed Presence Response: of all plain payloads only its own starts
/// with 1.
fn responds(message: &[u8]) -> bool {
    read_message(message, &[], &mut [])
        .is_ok_and(|read| part(Some(&read.payload), message, &[]).first() == Some(&1))
}

/// Type, and Result or Status, of a Connect message that comes to a gateway.
fn said(message: &[u8], keys: &[u8]) -> Option<(u8, u8)> {
    let working = &mut vec![0; message.len()];
    let read = read_message(message, keys, working).ok()?;
    let parts = read_connect(part(Some(&read.payload), message, working)).ok()?;
    (read.kind == Kind::Connect).then_some((parts.kind, parts.code))
}

impl Implementation for Spoilt {
    fn read_header(&mut self, message: &[u8]) -> Result<Framed, Refusal> {
        match Second.read_header(message) {
            Err(Refusal::Chain) if self.0 == Error::HeaderRefusal => Err(Refusal::SealedPart),
            other => other,
        }
    }

    fn read_message(
        &mut self,
        message: &[u8],
        keys: &[u8],
        working: &mut [u8],
    ) -> Result<Message, Refusal> {
        let mut read = Second.read_message(message, keys, working);
        if let (Ok(read), Error::PlaceOffByOne) = (&mut read, self.0) {
            read.payload = second::message::Place::Message(0..0);
        }
        if (Error::WorkingTouchedByRefusal, Err(Refusal::Padding)) == (self.0, read.clone()) {
            working[0] = working[0].wrapping_add(1);
        }
        if self.0 == Error::ResponseNotRead && responds(message) {
            return Err(Refusal::Payload);
        }
        read
    }

    fn write_message(
        &mut self,
        header: &Header,
        chain: &[u8],
        payload: &[u8],
        keys: &[u8],
        output: &mut [u8],
    ) -> Result<usize, Refusal> {
        let response = header.message_type == 1 && payload.len() > 1;
        if self.0 == Error::ResponseNotWritten && response {
            return Second.write_message(header, chain, &[9], keys, output);
        }
        let length = Second.write_message(header, chain, payload, keys, output)?;
        if let (Error::OutputTouchedBeyond, Some(beyond)) = (self.0, output.get_mut(length)) {
            *beyond = beyond.wrapping_add(1);
        }
        Ok(length + usize::from(self.0 == Error::LengthOffByOne))
    }

    fn write_presence_request(&mut self, output: &mut [u8]) -> Result<usize, Refusal> {
        let length = Second.write_presence_request(output)?;
        Ok(length + usize::from(self.0 == Error::PresenceLength))
    }

    fn write_presence_response(
        &mut self,
        presence: Presence<'_>,
        output: &mut [u8],
    ) -> Result<usize, Refusal> {
        let written = Second.write_presence_response(presence, output);
        match (self.0, written) {
            (Error::ResponseRoomFirst, Err(_)) if output.len() < 15 + presence.name.len() => {
                Err(Refusal::Room)
            }
            (Error::ResponseTouchedByRefusal, Err(_)) => {
                output.first_mut().into_iter().for_each(|byte| *byte = byte.wrapping_add(1));
                written
            }
            (Error::ResponseTouchedBeyond, Ok(length)) => {
                output[length..].iter_mut().for_each(|byte| *byte = byte.wrapping_add(1));
                written
            }
            _ => written,
        }
    }

    fn write_connect(
        &mut self,
        mode: u16,
        connect: Connect<'_>,
        output: &mut [u8],
    ) -> Result<usize, Refusal> {
        let written = Second.write_connect(mode, connect, output);
        match (self.0, written) {
            (Error::PayloadRoomFirst, Err(Refusal::Payload)) if output.len() < 4 => {
                Err(Refusal::Room)
            }
            (Error::PayloadTouchedByRefusal, Err(Refusal::Room)) => {
                output.first_mut().into_iter().for_each(|byte| *byte = byte.wrapping_add(1));
                written
            }
            _ => written,
        }
    }

    fn read_connect(&mut self, payload: &[u8]) -> Result<Parts, Refusal> {
        let mut parts = Second.read_connect(payload)?;
        parts.thumbprint.start += usize::from(self.0 == Error::PartOffByOne);
        Ok(parts)
    }

    fn read_discovery(&mut self, payload: &[u8]) -> Result<DiscoveryParts, Refusal> {
        let mut parts = Second.read_discovery(payload)?;
        parts.hash.end += usize::from(self.0 == Error::HashOffByOne);
        Ok(parts)
    }

    fn wanted(&mut self, bytes: &[u8]) -> usize {
        let nothing = self.0 == Error::NothingWanted && bytes.len() < 4;
        if nothing { 0 } else { Second.wanted(bytes) }
    }

    fn open(&mut self, fragment_size: u32) -> (Connection, Result<(), Refusal>) {
        let (mut connection, opened) = Second.open(fragment_size);
        if self.0 == Error::OpenForgetsF {
            connection.fragment_size = 1 + fragment_size;
        }
        (connection, opened)
    }

    fn step(
        &mut self,
        connection: Connection,
        message: &[u8],
        keys: &[u8],
        working: &mut [u8],
        report: &mut [u8],
        verdict: u64,
    ) -> (Connection, Answer) {
        let before = report.to_vec();
        let (mut next, mut answer) = connection.step(message, keys, working, report, verdict);
        match (self.0, answer) {
            (Error::RepeatCounted, Answer::Repeat(heard)) => answer = Answer::Repeat(heard + 1),
            (Error::AllHeardTold, Answer::Taken(_)) => {
                answer = Answer::Taken(next.heard.count_ones());
            }
            (Error::ReportTouchedBeyond, Answer::Taken(_)) => {
                report.last_mut().into_iter().for_each(|byte| *byte = byte.wrapping_add(1));
            }
            (Error::LastLengthKept, Answer::Complete(..)) => next.last_length += 1,
            (Error::NothingStored, _) => report.copy_from_slice(&before),
            (Error::ResponseOutOfStep, Answer::Refused(Refusal::State)) if responds(message) => {
                answer = Answer::Refused(Refusal::Payload);
            }
            _ => {}
        }
        (next, answer)
    }

    fn gateway_open(&mut self, fragment_size: u32, session: u64) -> (Client, Result<(), Refusal>) {
        let (mut client, opened) = Second.gateway_open(fragment_size, session);
        if self.0 == Error::GatewayOpenKeepsSession {
            client.session = session;
        }
        (client, opened)
    }

    fn gateway_step(
        &mut self,
        client: Client,
        message: &[u8],
        keys: &[u8],
        working: &mut [u8],
        verdict: u64,
    ) -> (Client, client::Answer) {
        use client::Answer::{Again, Failed, Next, Ready, Refused};
        let fifteen = Refused(Refusal::State);
        let said = said(message, keys);
        let (next, answer) = client.step(message, keys, working, verdict);
        let waits_for = |kind| client.due().is_some_and(|request| request + 1 == kind);
        match (self.0, answer, said) {
            (Error::ResultTakenForPending, Failed, Some((1, 0))) if client.state == 0 => {
                (Client { state: 1, ..client }, Next(2))
            }
            (Error::SessionIdNotAskedWhileWaiting, Refused(Refusal::Session), _)
                if client.state == 0 =>
            {
                let session = u64::from_be_bytes(message[24..32].try_into().unwrap());
                let (next, answer) =
                    Client { session, ..client }.step(message, keys, working, verdict);
                (Client { session: client.session, ..next }, answer)
            }
            (Error::SessionMessageNotRefused, Refused(Refusal::State), None)
                if client.state == READY && message[5] == Kind::Session.number() =>
            {
                (client, Again(None))
            }
            (Error::DoneTakenBeforeAuthentication, Refused(Refusal::State), Some((7, 0)))
                if client.state == 1 =>
            {
                (Client { state: READY, ..client }, Ready)
            }
            (Error::AgainNamesWhatIsDue, Again(_), _) => (next, Again(client.due())),
            (Error::FailsOnlyOnTheAwaited, Failed, Some((kind, _))) if !waits_for(kind) => {
                (client, fifteen)
            }
            (Error::FailsWhereStatesEnd, Refused(Refusal::State), Some((7, 1..)))
                if client.state > FAILED =>
            {
                (Client { state: FAILED, ..client }, Failed)
            }
            (Error::VerdictOnEveryReply, Again(_) | Next(_) | Ready, _) if verdict == 0 => {
                (Client { state: FAILED, ..client }, Failed)
            }
            (Error::FailedForgetsSession, Failed, _) => (Client { session: 0, ..next }, Failed),
            (Error::GatewayTouchesWorking, Refused(Refusal::Session), _) => {
                working.last_mut().into_iter().for_each(|byte| *byte = byte.wrapping_add(1));
                (next, answer)
            }
            _ => (next, answer),
        }
    }

    fn gateway_due(&mut self, client: Client) -> Option<u8> {
        let failed = self.0 == Error::DoneIsDueInFailed && client.state == FAILED;
        if failed { Some(6) } else { client.due() }
    }

    fn cut(&mut self, report: &[u8], fragment_size: u32, index: u32) -> Piece {
        let (count, place, refused) = Second.cut(report, fragment_size, index);
        (count + u16::from(self.0 == Error::CountOffByOne), place, refused)
    }

    fn line(&mut self, message: &[u8]) -> Result<String, Refusal> {
        let line = Second.line(message)?;
        Ok(if self.0 == Error::LineWithoutBlanks { line.replace(' ', "") } else { line })
    }

    fn sha256(&mut self, data: &[u8]) -> [u8; 32] {
        let end = data.len() - usize::from(self.0 == Error::DigestOfAllButOne && data.len() > 200);
        Second.sha256(&data[..end])
    }

    fn hmac(&mut self, key: &[u8; 32], data: &[u8]) -> [u8; 32] {
        let mut tag = Second.hmac(key, data);
        tag[31] &= if self.0 == Error::TagBit { 0x7F } else { 0xFF };
        tag
    }
}

#[test]
fn it_notices_every_kind_of_error() {
    for error in [
        Error::HeaderRefusal,
        Error::PlaceOffByOne,
        Error::WorkingTouchedByRefusal,
        Error::LengthOffByOne,
        Error::OutputTouchedBeyond,
        Error::PayloadRoomFirst,
        Error::PayloadTouchedByRefusal,
        Error::PresenceLength,
        Error::ResponseRoomFirst,
        Error::ResponseTouchedByRefusal,
        Error::ResponseTouchedBeyond,
        Error::ResponseNotRead,
        Error::ResponseNotWritten,
        Error::ResponseOutOfStep,
        Error::PartOffByOne,
        Error::HashOffByOne,
        Error::NothingWanted,
        Error::OpenForgetsF,
        Error::RepeatCounted,
        Error::AllHeardTold,
        Error::ReportTouchedBeyond,
        Error::LastLengthKept,
        Error::NothingStored,
        Error::CountOffByOne,
        Error::LineWithoutBlanks,
        Error::DigestOfAllButOne,
        Error::TagBit,
        Error::GatewayOpenKeepsSession,
        Error::ResultTakenForPending,
        Error::SessionIdNotAskedWhileWaiting,
        Error::SessionMessageNotRefused,
        Error::DoneTakenBeforeAuthentication,
        Error::AgainNamesWhatIsDue,
        Error::FailsOnlyOnTheAwaited,
        Error::FailsWhereStatesEnd,
        Error::VerdictOnEveryReply,
        Error::FailedForgetsSession,
        Error::GatewayTouchesWorking,
        Error::DoneIsDueInFailed,
    ] {
        let mut prng = Prng::new(2);
        let mut comparison = Comparison::new(Spoilt(error));
        let found = (0..400).find_map(|_| comparison.round(&mut prng).err());
        let Some(Difference(text)) = found else { panic!("{error:?} was not noticed") };
        assert!(text.contains("this one:") && text.contains("the other:"));
    }
}

#[test]
fn refusals_and_their_numbers() {
    for number in 0..=255 {
        let refusal = Refusal::from_number(number);
        assert_eq!(refusal.is_some(), (1..=25).contains(&number));
        assert_eq!(refusal.map_or(number, Refusal::number), number);
    }
}

#[test]
fn single_steps_alone_find_a_hub_that_stores_nothing() {
    let mut prng = Prng::new(3);
    let mut comparison = Comparison::new(Spoilt(Error::NothingStored));
    assert!((0..500).any(|_| comparison.step(&case(&mut prng)).is_err()));
    assert!((0..500).all(|_| comparison.write(&write_case(&mut prng)).is_ok()));
    assert!((0..500).all(|_| comparison.write_payload(&payload_case(&mut prng)).is_ok()));
}

/// Each of them without the other.
#[test]
fn single_steps_and_meetings_each_find_errors_of_the_gateway() {
    for error in [
        Error::ResultTakenForPending,
        Error::SessionIdNotAskedWhileWaiting,
        Error::DoneTakenBeforeAuthentication,
        Error::AgainNamesWhatIsDue,
        Error::FailsOnlyOnTheAwaited,
    ] {
        let mut prng = Prng::new(4);
        let mut comparison = Comparison::new(Spoilt(error));
        let found =
            (0..2_000).filter(|_| comparison.gateway_step(&client_case(&mut prng)).is_err());
        assert!(found.count() > 3, "{error:?} in single steps");
        let found = (0..1_000).filter(|_| comparison.meet(&meeting(&mut prng)).is_err());
        assert!(found.count() > 3, "{error:?} in meetings");
    }
}

/// Two that agree on breaking the promise are told so: a forged conversation that is said to be
/// honest.
#[test]
fn a_meeting_holds_both_sides_to_the_promise() {
    let mut prng = Prng::new(5);
    let mut comparison = Comparison::new(Second);
    let mut broken = 0;
    for _ in 0..400 {
        let mut talk = meeting(&mut prng);
        comparison.meet(&talk).unwrap();
        let honest = std::mem::replace(&mut talk.honest, true);
        if let Err(Difference(text)) = comparison.meet(&talk) {
            assert!(!honest && text.contains("both break the promise"));
            broken += 1;
        }
    }
    assert!(broken > 40, "{broken}");
}
