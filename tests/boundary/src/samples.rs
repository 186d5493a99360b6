// SPDX-License-Identifier: MPL-2.0
//! A fault at every place of the sample messages: cut at every length, every bit flipped, every
//! buffer at every size up to its own.

use std::fs;
use std::path::Path;

use second::client::Client;
use second::compare::{Comparison, Difference, Implementation};
use second::connection::{Connection, State};
use second::crypto::sha256;
use second::generate::{Case, ClientCase, WriteCase};
use second::header::{Kind, TAG, read_header};
use second::message::{part, read_message};
use second::payload::{Connect, Payload, read_payload};

/// The keys of the samples, and their messages by name.
pub fn samples() -> (Vec<u8>, Vec<(String, Vec<u8>)>) {
    let folder = Path::new(env!("CARGO_MANIFEST_DIR")).join("../../samples");
    let keys = fs::read(folder.join("keys.bin")).expect("samples/keys.bin");
    let mut messages: Vec<_> = fs::read_dir(folder.join("messages"))
        .expect("samples/messages")
        .map(|entry| {
            let path = entry.expect("an entry").path();
            let name = path.file_name().expect("a name").to_string_lossy().into_owned();
            (name, fs::read(&path).expect("a message"))
        })
        .collect();
    messages.sort();
    (keys, messages)
}

/// A step with the message on a connection that waits for it, and the writer's call that makes it.
pub fn cases(keys: &[u8], message: &[u8]) -> (Case, WriteCase) {
    let framed = read_header(message).expect("a good header");
    let mut working = vec![0xAA; message.len()];
    let read = read_message(message, keys, &mut working).expect("a good message");
    let payload = part(Some(&read.payload), message, &working).to_vec();
    let header = read.header;
    let size = payload.len().clamp(1, 16_384);
    let (mut connection, _) = Connection::open(size as u32);
    connection.session = header.session;
    connection.state = match read_payload(read.kind, header.sealed(), &payload) {
        Ok(Payload::Connect(_, Connect::ConnectionRequest(_))) => State::AwaitingRequest,
        Ok(Payload::Connect(_, Connect::AuthenticationRequest(_))) => State::AwaitingAuthentication,
        Ok(Payload::Connect(_, Connect::DoneRequest)) => State::Passed,
        _ => State::Ready,
    } as u8;
    connection.certificate = sha256(b"another");
    connection.expected = header.sequence;
    let sealed = framed.body.len();
    let room = if read.kind == Kind::Session { size * (usize::from(header.index) + 1) } else { 3 };
    let case = Case {
        connection,
        message: message.to_vec(),
        keys: keys.to_vec(),
        working: vec![0xAA; sealed + 1],
        report: vec![0x55; room + 1],
        verdict: 1,
    };
    let tag = if header.sealed() { TAG } else { 0 };
    let chain = message[40..message.len() - tag - sealed].to_vec();
    let output = vec![0xEE; message.len() + 1];
    (case, WriteCase { header, chain, payload, keys: keys.to_vec(), output })
}

/// A gateway's step with the message, where it is a reply, on a gateway that waits for it.
fn reply_case(keys: &[u8], message: &[u8]) -> Option<ClientCase> {
    let mut working = vec![0xAA; message.len()];
    let read = read_message(message, keys, &mut working).expect("a good message");
    let payload = part(Some(&read.payload), message, &working);
    let state = match read_payload(read.kind, read.header.sealed(), payload) {
        Ok(Payload::Connect(_, Connect::ConnectionPending(_) | Connect::ConnectionResult(_))) => 0,
        Ok(Payload::Connect(_, Connect::AuthenticationResponse(_))) => 1,
        Ok(Payload::Connect(_, Connect::DoneResponse(_))) => 2,
        _ => return None,
    };
    let client = Client { fragment_size: 16, state, session: read.header.session };
    let sealed = read_header(message).expect("a good header").body.len();
    let (keys, working) = (keys.to_vec(), vec![0xAA; sealed + 1]);
    Some(ClientCase { client, message: message.to_vec(), keys, working, verdict: 1 })
}

/// Every fault of every sample message, of replies to a gateway too; answers how many messages
/// there are.
pub fn every_fault(comparison: &mut Comparison<impl Implementation>) -> Result<usize, Difference> {
    let (keys, messages) = samples();
    for (_, message) in &messages {
        let (case, write) = cases(&keys, message);
        comparison.every_fault(&case)?;
        comparison.every_output(&write)?;
        if let Some(case) = reply_case(&keys, message) {
            comparison.every_gateway_fault(&case)?;
        }
    }
    Ok(messages.len())
}
