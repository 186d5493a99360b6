// SPDX-License-Identifier: MPL-2.0
//! The gateway's calls: messages in every order, every state byte, fragment sizes, SessionIDs and
//! verdicts of 64 bits, every byte that is stored, the request that is due. Each step is judged by
//! the table of [`heard`](super::heard) besides.

use second::compare::Comparison;

use super::heard::Heard::{Authentication, Done, Response};
use super::heard::{Hearing, Message, bytes, connect_fields, kinds, others, reply};
use super::heard::{reply_flags, reply_payload, session};
use super::{Tried, as_expected, each, numbered, pairs};
use crate::gateways::{due, open};
use crate::hub_h::{Hub, WRONG_BUFFER};
use crate::state::GATEWAY;

/// Every order of up to so many of these, each heard in the state that those before it have led to;
/// each is a message with a verdict, by its number and by how often it came. An order ends with the
/// first after Failed, which no message leaves.
fn all_words<'a>(
    comparison: &mut Comparison<Hub>,
    longest: usize,
    letters: usize,
    letter: impl Fn(usize, usize) -> (&'a Message, u64),
) -> Tried {
    let mut tried = 0;
    let mut reached = vec![0];
    for _ in 0..longest {
        let mut next = Vec::new();
        for (state, number) in pairs(reached, 0..letters) {
            let (message, verdict) = letter(number, tried / letters);
            let hearing = Hearing::new(state, message, verdict);
            let after = numbered(tried as u64, hearing.judge(comparison))?;
            if state != 4 {
                next.push(after[8]);
            }
            tried += 1;
        }
        reached = next;
    }
    Ok(tried as u64)
}

/// Type 1 Pending and with another Result, type 3 with verdict 1 and 0, type 7 with Status 0 and
/// with another, and any other message: in every order up to six. Other Results, Statuses and
/// messages take turns, and so does the verdict where it must not matter.
pub fn orders(comparison: &mut Comparison<Hub>) -> Tried {
    let good = [Response(1), Authentication, Done(0)].map(|heard| reply(heard, session()));
    let results = [0, 2, 3].map(|result| reply(Response(result), session()));
    let statuses = [1, 2, 3, 4].map(|status| reply(Done(status), session()));
    let others = others(session());
    all_words(comparison, 6, 7, |letter, turn| {
        let verdict = (turn / 12 % 2) as u64;
        match letter {
            0 => (&good[0], verdict),
            1 => (&results[turn % 3], verdict),
            2 => (&good[1], 1),
            3 => (&good[1], 0),
            4 => (&good[2], verdict),
            5 => (&statuses[turn % 4], verdict),
            _ => (&others[turn % 6], verdict),
        }
    })
}

/// Every kind of message with both verdicts, in every order up to three.
pub fn orders_of_all(comparison: &mut Comparison<Hub>) -> Tried {
    let kinds = kinds(session());
    all_words(comparison, 3, 2 * kinds.len(), |letter, _| (&kinds[letter / 2], letter as u64 % 2))
}

/// Every state byte, every kind of message, the SessionID the gateway's or another, and verdicts
/// that are and that are none.
pub fn states(comparison: &mut Comparison<Hub>) -> Tried {
    let kinds = kinds(session());
    let verdicts = [0, 1, 2, 255, 256, 1 << 32, u64::MAX];
    let steps = pairs(0..=255, pairs([0, 1], verdicts));
    each(comparison, pairs(&kinds, steps), |(message, (state, (other, verdict))), comparison| {
        let hearing = Hearing::new(*state, message, *verdict);
        let session = hearing.session ^ other;
        Hearing { session, ..hearing }.judge(comparison).map(|_| ())
    })
}

/// Fragment sizes at their bounds, beyond, and such as have lower bits within bounds.
const SIZES: [u64; 14] = [
    0,
    1,
    2,
    16_383,
    16_384,
    16_385,
    65_536,
    65_537,
    1 << 32,
    (1 << 32) + 1,
    (1 << 32) + 16_384,
    1 << 63,
    (1 << 63) + 1,
    u64::MAX,
];

/// SessionIDs, all of which are good.
const SESSIONS: [u64; 5] = [0, 1, 1 << 32, 1 << 63, u64::MAX];

/// Every F with every SessionID at opening, over bytes of two values: 24 leaves zeros. The same on
/// a buffer of another size, which is wrong whatever F is.
pub fn opening(comparison: &mut Comparison<Hub>) -> Tried {
    let cases = pairs(pairs(SIZES, SESSIONS), pairs([0, 0xA5], [17, 0, 9, 16, 18, 151]));
    each(comparison, cases, |((size, session), (fill, length)), comparison| {
        let before = vec![*fill; *length];
        let expected = match *length {
            17 if (1..=16_384).contains(size) => (0, bytes(*size, 0, *session).to_vec()),
            17 => (24, vec![0; 17]),
            _ => (WRONG_BUFFER, before.clone()),
        };
        let found = open(&mut comparison.other, *size, *session, &before);
        as_expected(&(size, session, before), &expected, &found)
    })
}

/// Every F with every SessionID in a step, every kind of message in states 0 to 4: 24 comes before
/// all that is wrong with a message, and F is no other after it.
pub fn sizes(comparison: &mut Comparison<Hub>) -> Tried {
    let kinds = SESSIONS.map(kinds);
    let messages: Vec<_> = SESSIONS.iter().zip(&kinds).collect();
    let cases = pairs(messages, pairs(SIZES, 0..=4));
    let mut tried = 0;
    for ((session, kinds), (size, state)) in cases {
        tried += each(comparison, kinds, |message, comparison| {
            let hearing = Hearing::new(state, message, 1);
            Hearing { size, session: *session, ..hearing }.judge(comparison).map(|_| ())
        })?;
    }
    Ok(tried)
}

/// Each byte of a gateway at every value. A reply that it had taken, one that ends it, one of
/// another SessionID and what is no message leave every byte but the state's.
pub fn stored(comparison: &mut Comparison<Hub>) -> Tried {
    each(comparison, pairs(0..GATEWAY, 0..=255_u8), |(place, byte), comparison| {
        let mut stored = bytes(16, 1, session());
        stored[*place] = *byte;
        let size = stored[..8].iter().fold(0, |size, byte| size << 8 | u64::from(*byte));
        let session = stored[9..].iter().fold(0, |session, byte| session << 8 | u64::from(*byte));
        let own = [reply(Response(1), session), reply(Response(0), session)];
        let none = Message { refused: 1, bytes: Vec::new(), ..own[0].clone() };
        let foreign = reply(Response(1), session ^ 1);
        for message in own.iter().chain([&none, &foreign]) {
            let hearing = Hearing { size, session, ..Hearing::new(stored[8], message, 1) };
            as_expected(&hearing, &stored, &hearing.gateway())?;
            hearing.judge(comparison)?;
        }
        Ok(())
    })
}

/// The request that is due for every state byte, whatever F and SessionID are.
pub fn requests_due(comparison: &mut Comparison<Hub>) -> Tried {
    let cases = pairs(0..=255_u8, pairs([0, 16, u64::MAX], [0, session(), u64::MAX]));
    each(comparison, cases, |(state, (size, session)), comparison| {
        let expected = match state {
            0 => 0,
            1 => 2,
            2 => 6,
            _ => 256,
        };
        let gateway = bytes(*size, *state, *session);
        as_expected(&gateway, &expected, &due(&mut comparison.other, &gateway))
    })
}

/// Every Result and Status and some that there are not, with modes 0 to 3, in states 0 to 5 and 255
/// with both verdicts.
pub fn codes(comparison: &mut Comparison<Hub>) -> Tried {
    let results = [0, 1, 2, 3, 4, 255].map(Response);
    let statuses = [0, 1, 2, 3, 4, 5, 255].map(Done);
    let replies: Vec<_> = results.into_iter().chain(statuses).collect();
    let cases = pairs(pairs(replies, 0..=3), pairs([0, 1, 2, 3, 4, 5, 255], [0, 1]));
    each(comparison, cases, |((heard, mode), (state, verdict)), comparison| {
        let header = connect_fields(reply_flags(*heard), session());
        let mut message = Message::new(*heard, header, &reply_payload(*heard, *mode));
        let code = matches!(heard, Response(0..=3) | Done(0..=4));
        message.refused = if code && *mode <= 2 { 0 } else { 14 };
        Hearing::new(*state, &message, *verdict).judge(comparison).map(|_| ())
    })
}
