// SPDX-License-Identifier: MPL-2.0
//! Replies as a gateway hears them: several faults at once, working buffers of every size about the
//! sealed part, each reply cut and with each bit flipped, and what a gateway does not look at. The
//! number that each must get is reckoned from what was done to the message.

use second::compare::{Comparison, Difference};
use second::draft::{Damage, Draft};
use second::header::SEALED;

use super::heard::Heard::{self, Authentication, Done, Other, Response};
use super::heard::{Hearing, Message, REPLIES, connect_fields, others, reply};
use super::heard::{reply_flags, reply_payload, session};
use super::trial::KEYS;
use super::values::{device, laid_out};
use super::written::CHAINS;
use super::{Tried, as_expected, each, pairs};
use crate::hub_h::Hub;

type Judged = Result<(), Difference>;

/// The state that waits for a reply.
fn awaits(heard: Heard) -> u8 {
    match heard {
        Response(_) | Other => 0,
        Authentication => 1,
        Done(_) => 2,
    }
}

/// The draft of a reply.
fn draft(heard: Heard) -> Draft {
    let header = connect_fields(reply_flags(heard), session());
    Draft::new(header, reply_payload(heard, 1))
}

/// The refusals of a gateway's step, in the order in which they are judged.
const ORDER: [u32; 18] = [25, 24, 1, 2, 3, 4, 5, 6, 7, 8, 9, 10, 11, 12, 13, 14, 16, 15];

/// A reply with faults, to a gateway that waits for it.
struct Faulty {
    heard: Heard,
    draft: Draft,
    keys: usize,
    room: usize,
    size: u64,
    state: u8,
    verdict: u64,
}

impl Faulty {
    fn new(heard: Heard) -> Faulty {
        let (draft, state) = (draft(heard), awaits(heard));
        Faulty { heard, draft, keys: 64, room: 40, size: 16, state, verdict: 1 }
    }

    /// One fault more, by its number.
    fn add(&mut self, number: u32) {
        let draft = &mut self.draft;
        match number {
            1 => draft.damage.push(Damage::Cut(41)),
            2 => draft.signature = [0x30, 0x31],
            3 => draft.length = Some(89),
            4 => draft.version = 4,
            5 => draft.header.message_type = 3,
            6 => draft.header.flags |= 16,
            7 => draft.header.count = 0,
            8 => draft.chain = vec![0, 1],
            9 => draft.padding = Some(vec![8; 9]),
            10 => self.keys = 63,
            11 => draft.damage.push(Damage::Flip(8 * 89)),
            12 => self.room = 15,
            13 => draft.size = Some(5),
            14 => draft.payload[3] = 5,
            15 => self.state = 4,
            16 => draft.header.session += 1,
            24 => self.size = 16_385,
            _ => self.verdict = 2,
        }
    }

    /// The first of the faults, by `ORDER`, is answered.
    fn judge(&self, faults: &[u32], comparison: &mut Comparison<Hub>) -> Judged {
        let of_reader = |number: &&u32| matches!(**number, 1..=9 | 11 | 13 | 14);
        let refused = faults.iter().find(of_reader).copied().unwrap_or(0);
        let message = Message::of_draft(self.heard, refused, &self.draft);
        let Faulty { keys, room, size, state, verdict, .. } = *self;
        let (keys, session) = (&KEYS[..keys], session());
        let hearing = Hearing::new(state, &message, verdict);
        let hearing = Hearing { keys, room, size, session, ..hearing };
        let first = faults.first().copied().unwrap_or(0);
        as_expected(&faults, &first, &hearing.number())?;
        hearing.judge(comparison).map(|_| ())
    }
}

/// Every set of up to four faults that a reply with Status 0 can have, and of those of a Connection
/// Response, which is plain.
pub fn several(comparison: &mut Comparison<Hub>) -> Tried {
    let sets = |heard: Heard, of: Vec<u32>| {
        let few = (0..1_u32 << of.len()).filter(|set| set.count_ones() <= 4);
        few.map(|set| {
            let faults = of.iter().enumerate().filter(|(bit, _)| set >> bit & 1 == 1);
            (heard, faults.map(|(_, number)| *number).collect::<Vec<_>>())
        })
        .collect::<Vec<_>>()
    };
    let plain = ORDER.into_iter().filter(|number| !(9..=13).contains(number)).collect();
    let cases = [sets(Done(0), ORDER.to_vec()), sets(Response(1), plain)].concat();
    each(comparison, cases, |(heard, faults), comparison| {
        let mut faulty = Faulty::new(*heard);
        faults.iter().for_each(|number| faulty.add(*number));
        faulty.judge(faults, comparison)
    })
}

/// Sealed messages: type 7, type 3 about the edges of the padding rule and as long as can be, a
/// request, a piece of a report, and such as are refused with 11, 13 and 14; and plain ones.
fn of_each_size() -> Vec<Message> {
    let session = session();
    let shown = [(1, 0), (5, 0), (6, 0), (117, 0), (118, 0), (2_048, 512)];
    let mut messages = vec![reply(Done(0), session), reply(Done(4), session)];
    messages.extend(shown.map(|(certificate, thumbprint)| {
        let payload = laid_out(&device(3, 1, certificate, thumbprint));
        Message::new(Authentication, connect_fields(SEALED, session), &payload)
    }));
    messages.extend([(11, Done(0)), (13, Done(0)), (14, Done(0))].map(|(number, heard)| {
        let mut faulty = Faulty::new(heard);
        faulty.add(number);
        Message::of_draft(heard, number, &faulty.draft)
    }));
    messages.extend([Response(1), Response(2)].map(|heard| reply(heard, session)));
    messages.extend(others(session));
    messages
}

/// The working buffer of no byte, of one fewer than the sealed part has, as many, one more and
/// more, in states 0 to 4, with the gateway's SessionID and another, both verdicts, keys and none.
/// What got past 13 lies at its front, whatever comes of it; all else leaves it as it was.
pub fn working(comparison: &mut Comparison<Hub>) -> Tried {
    let messages = of_each_size();
    let rooms = [(0, 0), (1, -1), (1, 0), (1, 1), (1, 40)];
    let steps = pairs(pairs(rooms, 0..=4), pairs([0, 1], pairs([0, 1], [64, 0])));
    each(comparison, pairs(&messages, steps), |(message, step), comparison| {
        let (((whole, more), state), (other, (verdict, keys))) = *step;
        let room = (whole * message.opened.len() as isize + more).max(0) as usize;
        let hearing = Hearing::new(state, message, verdict);
        let session = hearing.session ^ other;
        Hearing { keys: &KEYS[..keys], room, session, ..hearing }.judge(comparison).map(|_| ())
    })
}

/// Each reply cut at every length, and with a byte after its end; MessageLength as it was, and as
/// many as are given.
pub fn cuts(comparison: &mut Comparison<Hub>) -> Tried {
    let replies = REPLIES.map(|heard| reply(heard, session()));
    let mut cases = Vec::new();
    for reply in &replies {
        let lengths = pairs(0..=reply.bytes.len() + 1, [false, true]).into_iter();
        cases.extend(lengths.map(|cut| (reply, cut)));
    }
    each(comparison, cases, |(reply, (given, said)), comparison| {
        let (given, whole) = (*given, reply.bytes.len());
        let mut bytes = reply.bytes.clone();
        bytes.resize(given, 0);
        if *said && given >= 4 {
            bytes[2..4].copy_from_slice(&[0, given as u8]);
        }
        let refused = match given {
            0..42 => 1,
            _ if given == whole => 0,
            _ if !said => 3,
            _ if reply.opened.is_empty() => 14,
            42..74 => 8,
            _ if given == 74 || (given - 74) % 16 != 0 => 9,
            _ => 11,
        };
        let message = Message { refused, bytes, ..(*reply).clone() };
        Hearing::new(awaits(reply.heard), &message, 1).judge(comparison).map(|_| ())
    })
}

/// What a chain is refused with that goes on from place 40 into a sealed part, or what comes after
/// it: 8 where it leaves its room or has what no chain has, else 9 by what it leaves, else 11.
fn chain_into_sealed(bytes: &[u8]) -> u32 {
    let end = bytes.len() - 32;
    let mut at = 40;
    for _ in 0..=8 {
        match bytes[at..end] {
            [0, 0, ..] if end - at > 2 && (end - at - 2).is_multiple_of(16) => return 11,
            [0, 0, ..] => return 9,
            [1..=3, size, ..] if at + 2 + usize::from(size) <= end => at += 2 + usize::from(size),
            _ => return 8,
        }
    }
    8
}

/// A plain reply with this bit flipped.
fn flipped_plain(mut reply: Message, place: usize, mask: u8) -> Message {
    let code = match reply.heard {
        Response(result) => result ^ mask,
        _ => unreachable!("no plain reply"),
    };
    reply.bytes[place] ^= mask;
    reply.refused = match place {
        0..=1 => 2,
        2..=3 => 3,
        4 => 4,
        5 => 5,
        6 => 6,
        7 if mask & 9 == 0 => 6,
        20..=23 => 7,
        // An entry of no byte, after which the mode 1 is an end with a size; or such an end itself.
        40..=41 => 8,
        42 => 14,
        43 if mask != 1 => 14,
        44 => 14,
        45 if reply.bytes.len() > 46 || !matches!(code, 0 | 2 | 3) => 14,
        // HMACSize, the fragment size, the lengths of X and Y.
        46..=47 | 56..=61 | 94..=95 => 14,
        _ => 0,
    };
    match place {
        24..=31 => {
            reply.session = reply.session.map(|own| own ^ u64::from(mask) << (8 * (31 - place)))
        }
        45 => reply.heard = Response(code),
        _ => {}
    }
    reply
}

/// A sealed reply with this bit flipped: 11, unless its header is refused.
fn flipped_sealed(mut reply: Message, place: usize, mask: u8) -> Message {
    reply.bytes[place] ^= mask;
    reply.refused = match place {
        0..=1 => 2,
        2..=3 => 3,
        4 => 4,
        5 => 5,
        6 => 6,
        7 if mask & 9 == 0 => 6,
        20..=23 => 7,
        40..=41 => chain_into_sealed(&reply.bytes),
        _ => 11,
    };
    reply
}

/// Each reply with each of its bits flipped.
pub fn flips(comparison: &mut Comparison<Hub>) -> Tried {
    let replies = REPLIES.map(|heard| reply(heard, session()));
    let mut cases = Vec::new();
    for reply in &replies {
        let bits = pairs(0..reply.bytes.len(), 0..8).into_iter();
        cases.extend(bits.map(|bit| (reply, bit)));
    }
    each(comparison, cases, |(reply, (place, bit)), comparison| {
        let flip = if reply.opened.is_empty() { flipped_plain } else { flipped_sealed };
        let message = flip((*reply).clone(), *place, 1 << bit);
        let hearing = Hearing::new(awaits(reply.heard), &message, 1);
        Hearing { session: session(), ..hearing }.judge(comparison).map(|_| ())
    })
}

/// Changes something that a gateway does not look at.
type Change = fn(&mut Draft);

/// Replies that differ in what a gateway does not look at (SequenceNumber, RequestID, ChannelID,
/// two flags, the chain; of a Connection Response nonce, X and Y, of type 3 certificate and
/// thumbprint; the mode), in states 0 to 4 with both verdicts: it is the same to it.
pub fn not_looked_at(comparison: &mut Comparison<Hub>) -> Tried {
    let changes: [Change; 12] = [
        |_| {},
        |draft| draft.header.sequence = 0,
        |draft| draft.header.sequence = u32::MAX,
        |draft| draft.header.request = u64::MAX,
        |draft| draft.header.channel = u64::MAX,
        |draft| draft.header.flags |= 1,
        |draft| draft.header.flags |= 8,
        |draft| draft.chain = CHAINS[1].to_vec(),
        |draft| draft.chain = CHAINS[2].to_vec(),
        |draft| draft.payload[1] = 0,
        |draft| draft.payload[1] = 2,
        other_content,
    ];
    let cases = pairs(pairs(REPLIES, changes), pairs(0..=4, [0, 1]));
    each(comparison, cases, |((heard, change), (state, verdict)), comparison| {
        let mut draft = draft(*heard);
        change(&mut draft);
        let message = Message::of_draft(*heard, 0, &draft);
        Hearing::new(*state, &message, *verdict).judge(comparison).map(|_| ())
    })
}

/// Another nonce, X and Y, or another certificate and thumbprint; nothing where there are none.
fn other_content(draft: &mut Draft) {
    let payload = &mut draft.payload;
    match (payload[2], payload.len()) {
        (1, 86) => {
            for place in (6..14).chain(20..52).chain(54..86) {
                payload[place] = !payload[place];
            }
        }
        (3, _) => *payload = laid_out(&device(3, 1, 2_048, 0)),
        _ => {}
    }
}
