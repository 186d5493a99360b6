// SPDX-License-Identifier: MPL-2.0
//! A connection as the bytes that include/hub.h describes: the hub's 151, a gateway's 17.

use second::client::Client;
use second::connection::Connection;

use crate::hub_h::{gateway_places, state_places};

/// Bytes of a connection.
pub const STATE: usize = 151;
/// Bytes of a gateway's connection.
pub const GATEWAY: usize = 17;

/// The bytes of a field, by its number in the header's order.
fn field(bytes: &[u8; STATE], field: usize) -> &[u8] {
    let places = state_places();
    &bytes[places[field]..places[field + 1]]
}

fn number(bytes: &[u8]) -> u64 {
    bytes.iter().fold(0, |number, byte| number << 8 | u64::from(*byte))
}

fn array<const N: usize>(bytes: &[u8]) -> [u8; N] {
    bytes.try_into().expect("the field's size")
}

/// Any bytes as a connection of the second implementation. It holds a narrower fragment size and
/// count; what does not fit becomes the widest, which no rule tells from what it was.
pub fn decode(bytes: &[u8; STATE]) -> Connection {
    let heard = field(bytes, 8);
    Connection {
        fragment_size: number(field(bytes, 0)).try_into().unwrap_or(u32::MAX),
        state: field(bytes, 1)[0],
        session: number(field(bytes, 2)),
        nonce: array(field(bytes, 3)),
        x: array(field(bytes, 4)),
        y: array(field(bytes, 5)),
        certificate: array(field(bytes, 6)),
        expected: number(field(bytes, 7)) as u32,
        heard: (0..64).fold(0, |set, i| set | u64::from(heard[i / 8] >> (i % 8) & 1) << i),
        count: number(field(bytes, 9)).try_into().unwrap_or(u16::MAX),
        channel: number(field(bytes, 10)),
        last_length: number(field(bytes, 11)) as u32,
    }
}

/// The bytes of a connection; none if its last length has no room in them.
pub fn encode(connection: &Connection) -> [u8; STATE] {
    let last = u16::try_from(connection.last_length).expect("a last length of 16 bits");
    let heard: Vec<u8> = (0..8).map(|byte| (connection.heard >> (8 * byte)) as u8).collect();
    let fields: [&[u8]; 12] = [
        &u64::from(connection.fragment_size).to_be_bytes(),
        &[connection.state],
        &connection.session.to_be_bytes(),
        &connection.nonce,
        &connection.x,
        &connection.y,
        &connection.certificate,
        &connection.expected.to_be_bytes(),
        &heard,
        &u64::from(connection.count).to_be_bytes(),
        &connection.channel.to_be_bytes(),
        &last.to_be_bytes(),
    ];
    let mut bytes = [0; STATE];
    for (place, field) in state_places().into_iter().zip(fields) {
        bytes[place..place + field.len()].copy_from_slice(field);
    }
    bytes
}

/// The bytes of `next`, which a step has made of `before`, given the bytes of that: what it has not
/// changed keeps its bytes.
pub fn encode_next(before: &[u8; STATE], next: &Connection) -> [u8; STATE] {
    let mut bytes = encode(next);
    let was = decode(before);
    let places = state_places();
    for (field, same) in
        [(0, was.fragment_size == next.fragment_size), (9, was.count == next.count)]
    {
        if same {
            let range = places[field]..places[field + 1];
            bytes[range.clone()].copy_from_slice(&before[range]);
        }
    }
    bytes
}

/// Any bytes as a gateway of the second implementation, which holds a narrower fragment size; one
/// that does not fit becomes the widest.
pub fn decode_gateway(bytes: &[u8; GATEWAY]) -> Client {
    let [size, state, session, end] = gateway_places();
    Client {
        fragment_size: number(&bytes[size..state]).try_into().unwrap_or(u32::MAX),
        state: bytes[state],
        session: number(&bytes[session..end]),
    }
}

/// The bytes of a gateway.
pub fn encode_gateway(gateway: &Client) -> [u8; GATEWAY] {
    let [size, state, session, end] = gateway_places();
    let mut bytes = [0; GATEWAY];
    bytes[size..state].copy_from_slice(&u64::from(gateway.fragment_size).to_be_bytes());
    bytes[state] = gateway.state;
    bytes[session..end].copy_from_slice(&gateway.session.to_be_bytes());
    bytes
}
