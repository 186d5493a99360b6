// SPDX-License-Identifier: MPL-2.0
//! The gateway's calls on any 17 bytes, with numbers of 64 bits and buffers of any size. What they
//! must answer is include/hub.h's rule of wrong buffers, and for all else the second
//! implementation.

use second::client::{Answer, Client, due_number};
use second::generate::{ClientCase, client_case};
use second::prng::Prng;

use crate::hub::{BEFORE, number_of};
use crate::hub_h::{Hub, WRONG_BUFFER, gateway_places};
use crate::state::{GATEWAY, decode_gateway, encode_gateway};

/// What a gateway's step returned and left.
#[derive(Clone, Debug, PartialEq, Eq)]
pub struct Stepped {
    /// The number that was returned.
    pub number: u32,
    /// The words of the answer.
    pub words: [u64; 3],
    /// The gateway's bytes after it.
    pub gateway: [u8; GATEWAY],
    /// The working buffer after it.
    pub working: Vec<u8>,
}

/// What a step on a gateway of any bytes must return and leave: on a refusal the gateway's bytes as
/// they were and the words 0, else another state at most.
fn expected(gateway: &[u8; GATEWAY], case: &ClientCase) -> Stepped {
    let client = decode_gateway(gateway);
    let mut case = ClientCase { client, ..case.clone() };
    let (next, answer) = case.step();
    // F's bytes may say more than the second implementation holds.
    assert_eq!(next, Client { state: next.state, ..client }, "more than the state has changed");
    let mut gateway = *gateway;
    gateway[gateway_places()[1]] = next.state;
    let number = match answer {
        Answer::Refused(refusal) => refusal.number().into(),
        _ => 0,
    };
    let (kind, value) = answer.numbers();
    Stepped { number, words: [kind, value, 0], gateway, working: case.working }
}

/// A step on a gateway of any bytes, by the case's other parts, against the second implementation
/// on what the bytes stand for; then the request that is due. Answers what came of the step.
pub fn gateway_step_on(hub: &mut Hub, gateway: &[u8; GATEWAY], case: &ClientCase) -> Stepped {
    let ClientCase { message, keys, verdict, .. } = case;
    let (mut after, mut working, mut words) = (*gateway, case.working.clone(), [BEFORE; 3]);
    let number = hub.gateway_step(&mut after, message, keys, &mut working, *verdict, &mut words);
    let found = Stepped { number, words, gateway: after, working };
    let expected = expected(gateway, case);
    assert!(found == expected, "{gateway:?} {case:?}: {found:?}, not {expected:?}");
    due(hub, &after);
    found
}

/// The request that is due, by `hub_gateway_due` and as the second implementation has it.
pub fn due(hub: &mut Hub, gateway: &[u8; GATEWAY]) -> u64 {
    let mut words = [BEFORE];
    let number = hub.gateway_due(gateway, &mut words);
    let expected = due_number(decode_gateway(gateway).due());
    assert_eq!((number, words[0]), (0, expected), "{gateway:?}");
    expected
}

/// `hub_gateway_open` on these bytes, which are a wrong buffer unless they are 17, and as the
/// second implementation has it. Answers what was returned, and the bytes after it.
pub fn open(hub: &mut Hub, fragment_size: u64, session: u64, before: &[u8]) -> (u32, Vec<u8>) {
    let mut found = before.to_vec();
    let number = hub.gateway_open(fragment_size, session, &mut found);
    let narrow = fragment_size.try_into().unwrap_or(u32::MAX);
    let (opened, answer) = Client::open(narrow, session);
    let expected = match before.len() {
        GATEWAY => (number_of(&answer), encode_gateway(&opened).to_vec()),
        _ => (WRONG_BUFFER, before.to_vec()),
    };
    assert_eq!((number, &found), (expected.0, &expected.1), "F = {fragment_size}, {session}");
    (number, found)
}

/// A step on a gateway of any bytes, and opening one by any numbers.
pub fn any_gateway(hub: &mut Hub, prng: &mut Prng) {
    let case = client_case(prng);
    let mut gateway = encode_gateway(&case.client);
    match prng.below(4) {
        0 => gateway = prng.array(),
        1 => gateway[..8].copy_from_slice(&(1 << prng.below(64) | 16_u64).to_be_bytes()),
        _ => (0..prng.between(1, 3)).for_each(|_| gateway[prng.below(GATEWAY)] = prng.word() as u8),
    }
    gateway_step_on(hub, &gateway, &case);
    let (fragment_size, session) = (prng.word() >> prng.below(64), prng.word() >> prng.below(64));
    let size = if prng.chance(70) { GATEWAY } else { prng.below(40) };
    open(hub, fragment_size, session, &prng.bytes(size));
}
