// SPDX-License-Identifier: MPL-2.0
//! The wrapper on the repository's samples.

use std::fs;
use std::path::{Path, PathBuf};

use hlidunsk::payload::{Connect, Discovery, Status, MOST_PAYLOAD};
use hlidunsk::{list, read, read_header, wanted, write, Answer, Body, Connection, Keys, Refusal};
use hlidunsk::{MessageType, Reply, MOST_PIECES, MOST_SEALED, MOST_WRITTEN};

fn folder() -> PathBuf {
    Path::new(env!("CARGO_MANIFEST_DIR")).join("../../samples")
}

fn sample(name: &str) -> Vec<u8> {
    fs::read(folder().join(name)).unwrap_or_else(|error| panic!("samples/{name}: {error}"))
}

fn keys() -> Keys {
    sample("keys.bin").try_into().expect("64 bytes")
}

/// The messages of a stream, as many bytes as are wanted at a time, or what is left.
fn messages(stream: &[u8]) -> Vec<&[u8]> {
    let (mut messages, mut rest) = (Vec::new(), stream);
    while !rest.is_empty() {
        let (message, behind) = rest.split_at(rest.len().min(wanted(rest)));
        messages.push(message);
        rest = behind;
    }
    messages
}

fn connect(reply: Reply) -> u8 {
    match reply {
        Reply::ConnectionResponse => 1,
        Reply::DeviceAuthenticationResponse => 3,
        Reply::DoneResponse(status) => {
            assert_eq!(status, Status::Success);
            7
        }
    }
}

fn said(answer: Result<Answer<'_>, Refusal>) -> String {
    match answer {
        Err(refusal) => format!("refused {}", refusal.number()),
        Ok(Answer::Reply(reply)) => format!("reply {}", connect(reply)),
        Ok(Answer::Again(reply)) => format!("again {}", connect(reply)),
        Ok(Answer::Failure) => "failure".to_owned(),
        Ok(Answer::Taken { heard }) => format!("taken {heard}"),
        Ok(Answer::Repeat { heard }) => format!("repeat {heard}"),
        Ok(Answer::Complete { report, .. }) => format!("complete {}", report.len()),
    }
}

/// Plays the capture; answers its lines and its reports.
fn play(accepted: bool) -> (String, Vec<Vec<u8>>) {
    let mut hub = Connection::open(256).unwrap();
    let (mut working, mut report) = (vec![0; MOST_SEALED], vec![0; MOST_PIECES * 256]);
    let (mut lines, mut reports) = (String::new(), Vec::new());
    for message in messages(&sample("capture.bin")) {
        let before = hub;
        let answer = hub.step(message, Some(&keys()), &mut working, &mut report, accepted);
        if let Ok(Answer::Complete { report, .. }) = answer {
            assert_eq!(before.expected() as usize, reports.len());
            reports.push(report.to_vec());
        }
        assert!(answer.is_ok() || hub == before, "a refusal changes nothing");
        hub = Connection::from_bytes(*hub.as_bytes());
        lines += &format!("{}\n", said(answer));
    }
    (lines, reports)
}

#[test]
fn the_capture_gives_its_answers_and_reports() {
    let (lines, reports) = play(true);
    assert_eq!(lines.as_bytes(), sample("capture.txt"));
    let sent: Vec<_> = (0..5).map(|number| sample(&format!("report-{number}"))).collect();
    assert_eq!(reports, sent);
}

#[test]
fn the_capture_with_a_certificate_that_is_not_accepted() {
    let (lines, reports) = play(false);
    assert_eq!(lines.as_bytes(), sample("capture-verdict-0.txt"));
    assert!(reports.is_empty());
}

#[test]
fn the_listings() {
    for name in ["listing", "listing-refused"] {
        let mut lines = String::new();
        for message in messages(&sample(&format!("{name}.bin"))) {
            match list(message) {
                Ok(line) => lines += &format!("{line}\n"),
                Err(refusal) => {
                    lines += &format!("refused {}\n", refusal.number());
                    break;
                }
            }
        }
        assert_eq!(lines.as_bytes(), sample(&format!("{name}.txt")));
    }
}

/// The payload that types write anew, by the message's type.
fn written_anew(message_type: MessageType, payload: &[u8]) -> Vec<u8> {
    let mut out = vec![0xEE; MOST_PAYLOAD];
    let length = match message_type {
        MessageType::Discovery => Discovery::read(payload).unwrap().write(&mut out),
        MessageType::Connect => Connect::read(payload).unwrap().write(&mut out),
        _ => return payload.to_vec(),
    };
    let behind = out.split_off(length.unwrap());
    assert!(behind.iter().all(|byte| *byte == 0xEE));
    out
}

/// Every sample message is read, and what was read is written again to the same bytes.
#[test]
fn what_is_read_is_written_to_the_same_bytes() {
    let keys = keys();
    let mut working = vec![0; MOST_SEALED];
    let mut count = 0;
    for entry in fs::read_dir(folder().join("messages")).unwrap() {
        let path = entry.unwrap().path();
        let message = fs::read(&path).unwrap();
        let framed = read_header(&message).unwrap();
        let tag = if framed.header.is_sealed() { 32 } else { 0 };
        let chain = &message[40..message.len() - tag - framed.body.on_wire().len()];
        assert_eq!(matches!(framed.body, Body::Sealed(_)), framed.header.is_sealed());
        let read = read(&message, Some(&keys), &mut working).unwrap();
        assert_eq!(read.header, framed.header);
        let payload = written_anew(read.header.message_type, read.payload);
        assert_eq!(payload, read.payload, "{}", path.display());
        let mut out = vec![0xEE; MOST_WRITTEN];
        let length = write(&read.header, chain, &payload, Some(&keys), &mut out).unwrap();
        assert_eq!(out[..length], message[..], "{}", path.display());
        assert!(out[length..].iter().all(|byte| *byte == 0xEE));
        count += 1;
    }
    assert_eq!(count, 28);
}
