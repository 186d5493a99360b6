// SPDX-License-Identifier: MPL-2.0
//! The generated inputs reach everything, and a seed names them.

mod common;

use std::collections::{BTreeMap, BTreeSet};

use common::{gateway, number};
use second::client::{self, Client, READY};
use second::connection::{Answer, Connection, State};
use second::generate::{
    Case, Conversation, Fault, Link, Meeting, Side, case, client_case, connect_bytes, conversation,
    cut_case, discovery_bytes, dress, meeting, payload_case, presence_case, stream, write_case,
};
use second::header::{Kind, read_header};
use second::listing::list;
use second::message::read_message;
use second::payload::{read_connect, read_discovery};
use second::prng::Prng;

/// An answer's name: refusals by number.
fn name(answer: Answer) -> String {
    match answer {
        Answer::Refused(_) | Answer::Reply(_) | Answer::Again(_) => answer.to_string(),
        other => other.to_string().split(' ').next().unwrap_or_default().to_string(),
    }
}

/// Every answer that a step can give.
fn every_answer() -> Vec<String> {
    let mut names: Vec<String> = (1..=25).map(|number| format!("refused {number}")).collect();
    names.extend([1, 3, 7].iter().flat_map(|t| [format!("reply {t}"), format!("again {t}")]));
    names.extend(["failure", "taken", "repeat", "complete"].map(String::from));
    names
}

#[test]
fn the_numbers_are_splitmix64() {
    let mut prng = Prng::new(1_234_567);
    let published =
        [6_457_827_717_110_365_317, 3_203_168_211_198_807_973, 9_817_491_932_198_370_423];
    assert_eq!([prng.word(), prng.word(), prng.word()], published);
}

#[test]
fn numbers_stay_in_their_range() {
    let mut prng = Prng::new(1);
    let mut seen = [0; 7];
    for _ in 0..7_000 {
        seen[prng.below(7)] += 1;
        assert!((3..=5).contains(&prng.between(3, 5)));
    }
    assert!(seen.iter().all(|times| (800..1_200).contains(times)), "{seen:?}");
    assert_eq!((prng.below(0), prng.below(1)), (0, 0));
    let mut order: Vec<usize> = (0..50).collect();
    prng.shuffle(&mut order);
    assert_ne!(order, (0..50).collect::<Vec<_>>());
    order.sort_unstable();
    assert_eq!(order, (0..50).collect::<Vec<_>>());
}

#[test]
fn the_same_seed_gives_the_same_inputs() {
    for seed in 0..50 {
        let twice = || (Prng::new(seed), Prng::new(seed));
        let (mut a, mut b) = twice();
        assert_eq!(case(&mut a), case(&mut b));
        assert_eq!(write_case(&mut a), write_case(&mut b));
        assert_eq!(cut_case(&mut a), cut_case(&mut b));
        assert_eq!(payload_case(&mut a), payload_case(&mut b));
        assert_eq!(connect_bytes(&mut a), connect_bytes(&mut b));
        assert_eq!(presence_case(&mut a), presence_case(&mut b));
        assert_eq!(discovery_bytes(&mut a), discovery_bytes(&mut b));
        assert_eq!(conversation(&mut a).deliveries, conversation(&mut b).deliveries);
        assert_eq!(client_case(&mut a), client_case(&mut b));
        assert_eq!(meeting(&mut a), meeting(&mut b));
        let (mut aside, mut again) = (a.aside(), a.aside());
        assert_eq!(aside.word(), again.word());
        assert_eq!(a.word(), b.word());
        assert_ne!(a.word(), aside.word());
    }
}

#[test]
fn steps_reach_every_answer() {
    let mut prng = Prng::new(2);
    let mut times: BTreeMap<String, u32> = BTreeMap::new();
    for _ in 0..60_000 {
        let mut case = case(&mut prng);
        let before = case.clone();
        let (next, answer) = case.step();
        check_buffers(&before, &case, &next, answer);
        *times.entry(name(answer)).or_default() += 1;
    }
    for answer in every_answer() {
        assert!(times.get(&answer) > Some(&20), "{answer} in {times:?}");
    }
    println!("{times:?}");
}

/// What refusals must leave alone, told from the answer and not from how a step works.
fn check_buffers(before: &Case, after: &Case, next: &Connection, answer: Answer) {
    let refusal = common::refused(answer);
    if refusal > 0 || matches!(answer, Answer::Again(_) | Answer::Repeat(_)) {
        assert_eq!((next, &after.report), (&before.connection, &before.report));
    }
    if matches!(refusal, 1..=13 | 24 | 25) {
        assert_eq!(after.working, before.working);
    }
    let same = before.report.iter().zip(&after.report).filter(|(a, b)| a == b).count();
    assert!(before.report.len() - same <= before.message.len());
}

/// The refusal that each fault alone must or may lead the reader to.
fn faulty(fault: Fault) -> &'static [u8] {
    match fault {
        Fault::Flip => &[2, 3, 4, 5, 6, 7, 8, 9, 11],
        Fault::Cut => &[0, 1, 3],
        Fault::Append => &[3],
        Fault::Signature => &[2],
        Fault::Length => &[0, 3],
        Fault::Version => &[4],
        Fault::Type => &[0, 5, 6, 7, 14],
        Fault::Flags => &[6],
        Fault::Fragment => &[0, 7],
        Fault::Chain => &[0, 8, 9, 11],
        Fault::Ragged => &[0, 9, 13],
        Fault::Tag => &[11],
        Fault::Size => &[0, 13],
        Fault::Padding => &[13],
        Fault::PayloadByte | Fault::PayloadLength => &[0],
        Fault::Session | Fault::Channel | Fault::Sequence => &[0],
    }
}

#[test]
fn each_fault_alone_leads_where_it_should() {
    let mut prng = Prng::new(3);
    let gateway = gateway();
    for fault in Fault::ALL {
        let mut times: BTreeMap<u8, u32> = BTreeMap::new();
        for _ in 0..1_000 {
            let mut draft = dress(&mut prng, gateway.piece(7, 2, 5, b"some of a report"));
            fault.inflict(&mut prng, &mut draft);
            let message = draft.bytes(&gateway.keys);
            let refusal = number(read_message(&message, &gateway.keys, &mut vec![0; 17_000]));
            *times.entry(refusal).or_default() += 1;
        }
        let found: Vec<u8> = times.keys().copied().collect();
        assert!(found.iter().all(|refusal| faulty(fault).contains(refusal)), "{fault:?} {times:?}");
        assert!(times.get(&0) < Some(&1_000) || faulty(fault) == [0], "{fault:?} does something");
    }
}

#[test]
fn the_writer_and_the_cutter_are_refused_in_every_way() {
    let mut prng = Prng::new(4);
    let (mut written, mut cuts) = ([0; 26], [0; 26]);
    for _ in 0..20_000 {
        let mut case = write_case(&mut prng);
        let before = case.output.clone();
        let result = case.write();
        let kept = *result.as_ref().unwrap_or(&0);
        assert_eq!(case.output[kept..], before[kept..]);
        written[usize::from(number(result))] += 1;
        cuts[usize::from(number(cut_case(&mut prng).cut().1))] += 1;
    }
    for refusal in [0, 5, 6, 7, 8, 10, 14, 20, 22] {
        assert!(written[refusal] > 20, "{refusal}: {written:?}");
    }
    assert_eq!(written.iter().filter(|times| **times > 0).count(), 9);
    assert!(cuts[0] > 1_000 && cuts[7] > 1_000 && cuts[24] > 100, "{cuts:?}");
}

/// How often each type of payload is answered 0, 14 and 22 by its writer, and is read or not.
#[test]
fn every_payload_is_written_and_read_and_refused() {
    let mut prng = Prng::new(10);
    let (mut written, mut read) = (BTreeMap::new(), BTreeMap::new());
    for _ in 0..20_000 {
        let mut case = payload_case(&mut prng);
        let before = case.output.clone();
        let result = case.write();
        let kept = *result.as_ref().unwrap_or(&0);
        assert_eq!(case.output[kept..], before[kept..]);
        *written.entry((case.kind, number(result))).or_insert(0) += 1;
        let bytes = connect_bytes(&mut prng);
        let parts = read_connect(&bytes);
        let kind = parts.as_ref().map_or(bytes.get(2).copied(), |parts| Some(parts.kind));
        *read.entry((kind, number(parts))).or_insert(0) += 1;
    }
    for kind in [0, 1, 2, 3, 6, 7] {
        for refusal in [0, 14, 22] {
            assert!(written[&(kind, refusal)] > 20, "{kind} {refusal}: {written:?}");
        }
        assert!(read[&(Some(kind), 0)] > 20 && read[&(Some(kind), 14)] > 20, "{kind}: {read:?}");
    }
}

#[test]
fn every_presence_response_is_written_and_read_and_refused() {
    let mut prng = Prng::new(11);
    let (mut written, mut read) = (BTreeMap::new(), BTreeMap::new());
    let (mut modes, mut names) = (BTreeSet::new(), BTreeSet::new());
    for _ in 0..20_000 {
        let mut case = presence_case(&mut prng);
        let before = case.output.clone();
        let result = case.write();
        let kept = *result.as_ref().unwrap_or(&0);
        assert_eq!(case.output[kept..], before[kept..]);
        *written.entry(number(result)).or_insert(0) += 1;
        modes.insert(case.mode);
        names.insert(case.name.len());
        let bytes = discovery_bytes(&mut prng);
        let parts = read_discovery(&bytes);
        let kind = parts.as_ref().map_or(bytes.first().copied(), |parts| Some(parts.kind));
        *read.entry((kind, number(parts))).or_insert(0) += 1;
    }
    for refusal in [0, 14, 22] {
        assert!(written[&refusal] > 100, "{refusal}: {written:?}");
    }
    for kind in [0, 1] {
        for refusal in [0, 14] {
            assert!(read[&(Some(kind), refusal)] > 100, "{kind} {refusal}: {read:?}");
        }
    }
    assert!(modes.into_iter().eq([0, 1, 2, 3, 255, 256, u16::MAX]));
    assert!(names.into_iter().eq((0..=65).chain([80, 255, 256, 257]).chain(65_535..=65_600)));
}

/// What the reader says of a message that is a Presence Response, or would be one.
fn response(message: &[u8]) -> Option<u8> {
    let framed = read_header(message).ok().filter(|framed| framed.kind == Kind::Discovery)?;
    let starts = message[framed.body].first() == Some(&1);
    starts.then(|| number(read_message(message, &[], &mut [])))
}

#[test]
fn steps_conversations_and_the_writer_meet_presence_responses() {
    let mut prng = Prng::new(12);
    let mut times: BTreeMap<(&str, u8), u32> = BTreeMap::new();
    let mut count = |by, refusal| *times.entry((by, refusal)).or_default() += 1;
    for _ in 0..4_000 {
        response(&case(&mut prng).message).into_iter().for_each(|found| count("step", found));
        let mut case = write_case(&mut prng);
        if case.header.message_type == 1 && case.payload.first() == Some(&1) {
            count("writer", number(case.write()));
        }
    }
    for delivery in (0..200).flat_map(|_| conversation(&mut prng).deliveries) {
        response(&delivery.message).into_iter().for_each(|found| count("conversation", found));
    }
    for by in ["step", "writer", "conversation"] {
        assert!(times[&(by, 0)] > 20 && times[&(by, 14)] > 20, "{by}: {times:?}");
    }
}

/// Plays a conversation: the answers, and how many reports came whole.
fn play(talk: &Conversation) -> (Vec<Answer>, usize) {
    let (mut hub, _) = Connection::open(talk.fragment_size);
    let (mut working, mut report) = (vec![0; talk.working], vec![0; talk.report]);
    let mut whole = 0;
    let mut answers = Vec::new();
    for delivery in &talk.deliveries {
        let sequence = hub.expected as usize;
        let (message, keys) = (&delivery.message, &talk.keys);
        let (next, answer) = hub.step(message, keys, &mut working, &mut report, delivery.verdict);
        hub = next;
        if let Answer::Complete(length, _) = answer {
            // A foreign piece with valid tag may have come first; else the bytes are those sent.
            whole += usize::from(
                talk.reports.get(sequence).is_some_and(|sent| report[..length] == sent[..]),
            );
        }
        answers.push(answer);
    }
    (answers, whole)
}

#[test]
fn conversations_reach_every_answer_and_mostly_succeed() {
    let mut prng = Prng::new(5);
    let mut times: BTreeMap<String, u32> = BTreeMap::new();
    let (mut sent, mut whole, mut steps) = (0, 0, 0);
    for _ in 0..1_000 {
        let talk = conversation(&mut prng);
        let (answers, came) = play(&talk);
        steps += answers.len();
        sent += talk.reports.len();
        whole += came;
        answers.into_iter().for_each(|answer| *times.entry(name(answer)).or_default() += 1);
    }
    println!("{steps} steps, {whole} of {sent} reports: {times:?}");
    assert!(whole * 10 > sent * 7, "{whole} of {sent} reports came whole");
    let never = ["refused 10", "refused 24", "refused 25"];
    for answer in every_answer().iter().filter(|answer| !never.contains(&answer.as_str())) {
        assert!(times.contains_key(answer), "{answer} in {times:?}");
    }
}

#[test]
fn streams_list_more_than_a_few_messages() {
    let mut prng = Prng::new(9);
    let mut lines = Vec::new();
    for _ in 0..200 {
        list(&stream(&mut prng)[..], &mut lines).unwrap();
    }
    let lines = String::from_utf8(lines).unwrap();
    let refused = lines.lines().filter(|line| line.starts_with("refused")).count();
    assert!(lines.lines().count() > 1_500 && (50..150).contains(&refused), "{refused}");
}

#[test]
fn a_perfect_link_brings_each_message_once() {
    let mut prng = Prng::new(6);
    let mut link = Link::default();
    for length in 0..100 {
        let message = prng.bytes(length);
        assert_eq!(link.carry(&mut prng, &message), [message]);
    }
}

#[test]
fn a_bad_link_does_all_it_can() {
    let mut prng = Prng::new(7);
    let mut link = Link { drop: 30, repeat: 30, delay: 30, flip: 30, cut: 30, ..Link::default() };
    let (mut lost, mut more, mut changed, mut shorter) = (0, 0, 0, 0);
    let sent = vec![0xC3; 100];
    for _ in 0..1_000 {
        let arriving = link.carry(&mut prng, &sent);
        lost += usize::from(arriving.is_empty());
        more += usize::from(arriving.len() > 1);
        changed += arriving.iter().filter(|m| m.len() == 100 && **m != sent).count();
        shorter += arriving.iter().filter(|m| m.len() < 100).count();
    }
    assert!([lost, more, changed, shorter].iter().all(|times| *times > 100));
}

#[test]
fn gateways_enrol() {
    let mut prng = Prng::new(8);
    for _ in 0..50 {
        let gateway = second::generate::gateway(&mut prng);
        let mut hub = Connection::open(64).0;
        for (draft, reply) in gateway.enrolment() {
            let message = draft.bytes(&gateway.keys);
            let (next, answer) = hub.step(&message, &gateway.keys, &mut [0; 3_000], &mut [], 1);
            assert_eq!(answer, Answer::Reply(reply));
            hub = next;
        }
        assert_eq!(hub, gateway.connection(64, State::Ready));
    }
}

/// Every answer that a step of the gateway's side can give.
fn every_client_answer() -> Vec<String> {
    let refusals = (1..=16).chain([24, 25]);
    let mut names: Vec<String> = refusals.map(|number| format!("refused {number}")).collect();
    let others = ["next 2", "next 6", "ready", "failed", "again 2", "again 6", "again"];
    names.extend(others.map(String::from));
    names
}

#[test]
fn steps_of_the_gateway_reach_every_answer() {
    let mut prng = Prng::new(13);
    let mut times: BTreeMap<String, u32> = BTreeMap::new();
    let mut failed = [0; 4];
    let mut states = BTreeSet::new();
    for _ in 0..30_000 {
        let mut case = client_case(&mut prng);
        let before = case.clone();
        let (next, answer) = case.step();
        let refusal = common::client_refused(answer);
        if refusal > 0 || matches!(answer, client::Answer::Again(_)) {
            assert_eq!(next, before.client);
        }
        if matches!(refusal, 1..=13 | 24 | 25) {
            assert_eq!(case.working, before.working);
        }
        if answer == client::Answer::Failed {
            failed[usize::from(before.client.state)] += 1;
        }
        states.insert(before.client.state);
        *times.entry(answer.to_string()).or_default() += 1;
    }
    for answer in every_client_answer() {
        assert!(times.get(&answer) > Some(&20), "{answer} in {times:?}");
    }
    assert_eq!(times.len(), every_client_answer().len(), "{times:?}");
    assert!(failed.iter().all(|times| *times > 200), "{failed:?}");
    assert!(states.into_iter().eq([0, 1, 2, 3, 4, 5, 6, 7, 128, 255]));
}

/// What comes to a gateway that goes past the reader: by type and Result or Status, in each state.
#[test]
fn every_reply_comes_in_every_state() {
    let mut prng = Prng::new(14);
    let mut times: BTreeMap<(u8, u8, u8), u32> = BTreeMap::new();
    let mut others = [[0; 5]; 2];
    for _ in 0..60_000 {
        let mut case = client_case(&mut prng);
        let state = case.client.state.min(5);
        let (message, keys, working) = (&case.message, &case.keys, &mut case.working);
        let Ok(read) = read_message(message, keys, working) else { continue };
        if read.kind != Kind::Discovery && read.header.session != case.client.session {
            continue;
        }
        let payload = second::message::part(Some(&read.payload), message, working);
        match read.kind {
            Kind::Connect => {
                let parts = read_connect(payload).unwrap();
                *times.entry((state, parts.kind, parts.code)).or_default() += 1;
            }
            Kind::Session if state < 5 => others[0][usize::from(state)] += 1,
            Kind::Discovery if state < 5 => others[1][usize::from(state)] += 1,
            _ => {}
        }
    }
    for state in 0..=5 {
        let requests = [(0, 0), (2, 0), (6, 0)].into_iter();
        let results = (0..=3).map(|result| (1, result));
        let statuses = (0..=4).map(|status| (7, status));
        for (kind, code) in requests.chain(results).chain([(3, 0)]).chain(statuses) {
            assert!(times.get(&(state, kind, code)) > Some(&2), "{state} {kind} {code} {times:?}");
        }
    }
    assert!(others.iter().flatten().all(|times| *times > 10), "{others:?}");
}

/// Plays a meeting: how each side ended, and the answers of both.
fn play_both(talk: &Meeting) -> (Connection, Client, Vec<String>) {
    let mut hub = Connection::open(talk.fragment_size).0;
    let mut client = Client::open(talk.fragment_size, talk.gateway.session).0;
    let (keys, mut working) = (talk.gateway.keys, vec![0; talk.working]);
    let mut answers = Vec::new();
    for arrival in &talk.arrivals {
        let (message, verdict) = (&arrival.message, arrival.verdict);
        match arrival.at {
            Side::Hub => {
                let (next, answer) = hub.step(message, &keys, &mut working, &mut [], verdict);
                hub = next;
                answers.push(format!("hub {}", name(answer)));
            }
            Side::Gateway => {
                let (next, answer) = client.step(message, &keys, &mut working, verdict);
                client = next;
                answers.push(format!("gateway {answer}"));
            }
        }
        assert!(talk.keeps_promise(&hub, &client));
    }
    (hub, client, answers)
}

#[test]
fn meetings_reach_every_answer_and_mostly_succeed() {
    let mut prng = Prng::new(15);
    let mut times: BTreeMap<String, u32> = BTreeMap::new();
    let (mut honest, mut ready, mut failed, mut longest) = (0, 0, [0, 0], 0);
    for _ in 0..3_000 {
        let talk = meeting(&mut prng);
        let (hub, client, answers) = play_both(&talk);
        if talk.honest {
            honest += 1;
            ready += usize::from((hub.state, client.state) == (State::Ready as u8, READY));
            let mut kinds: Vec<u8> = talk.written.iter().map(|case| case.payload[2]).collect();
            kinds.sort_unstable();
            assert!([0, 1, 2, 3, 6, 7].starts_with(&kinds), "each is written once: {kinds:?}");
        } else {
            failed[0] += usize::from(hub.state == State::Failed as u8);
            failed[1] += usize::from(client.state == client::FAILED);
        }
        longest = longest.max(answers.len());
        answers.into_iter().for_each(|answer| *times.entry(answer).or_default() += 1);
    }
    println!("{honest} honest, {ready} of them ready, {failed:?} failed, {longest}: {times:?}");
    assert!(honest > 1_000 && ready * 10 > honest * 9, "{ready} of {honest}");
    assert!(failed.iter().all(|times| *times > 50) && longest == 30, "{failed:?} {longest}");
    let refusals = [1, 3, 11, 14, 15, 16].map(|number| format!("refused {number}"));
    for answer in every_client_answer().into_iter().skip(18).chain(refusals) {
        assert!(times.get(&format!("gateway {answer}")) > Some(&20), "{answer} in {times:?}");
    }
    for kind in [1, 3, 7] {
        assert!(times[&format!("hub reply {kind}")] > 1_000);
        assert!(times[&format!("hub again {kind}")] > 100);
    }
}
