// SPDX-License-Identifier: MPL-2.0
//! Whole conversations between both roles: a gateway enrols with a hub, each hearing what the other
//! wrote, over links that drop, repeat and reorder. In some of them messages are damaged, strangers
//! speak too, or a verdict is 0.

use super::{Link, WriteCase, discovery, dress, fragment_size, gateway};
use crate::client::{self, Client, FAILED};
use crate::connection::{Answer, Connection, State};
use crate::draft::Draft;
use crate::gateway::Gateway;
use crate::payload::{Connect, Offer};
use crate::prng::Prng;
use crate::writer::message_length;

/// One of the two.
#[derive(Clone, Copy, Debug, PartialEq, Eq)]
pub enum Side {
    /// The host's.
    Hub,
    /// The gateway's.
    Gateway,
}

/// A message as it arrives at one side, with the verdict of that step.
#[derive(Clone, Debug, PartialEq, Eq)]
pub struct Arrival {
    /// Who hears it.
    pub at: Side,
    /// The message.
    pub message: Vec<u8>,
    /// The verdict, 0 or 1.
    pub verdict: u64,
}

/// A conversation between both roles, from opening both on.
#[derive(Clone, Debug, PartialEq, Eq)]
pub struct Meeting {
    /// F of both.
    pub fragment_size: u32,
    /// The gateway; its keys are those of every step of either side.
    pub gateway: Gateway,
    /// Length of either working buffer.
    pub working: usize,
    /// What both sides had the writer make, each message once: a repetition is the same bytes.
    pub written: Vec<WriteCase>,
    /// What arrives, in this order.
    pub arrivals: Vec<Arrival>,
    /// Whether each heard only what the other wrote, undamaged, and every verdict is 1.
    pub honest: bool,
}

impl Meeting {
    /// A2's promise on both sides, at any moment of an honest conversation: the hub has heard no
    /// request, or it has this gateway's SessionID, nonce, X and Y; the gateway keeps its
    /// SessionID; neither has failed.
    pub fn keeps_promise(&self, hub: &Connection, client: &Client) -> bool {
        let Gateway { session, offer: Offer { nonce, x, y }, .. } = self.gateway;
        let fresh = hub.state == State::AwaitingRequest as u8;
        let enrolled = (hub.session, hub.nonce, hub.x, hub.y) == (session, nonce, x, y);
        let failed = hub.state == State::Failed as u8 || client.state == FAILED;
        !self.honest || (fresh || enrolled) && client.session == session && !failed
    }
}

/// How often a gateway sends before it gives up, and how many messages arrive at most.
const TRIES: usize = 12;
const ARRIVALS: usize = 30;

/// A conversation under way, both sides played along.
struct Encounter<'a> {
    prng: &'a mut Prng,
    meeting: Meeting,
    requests: [Draft; 3],
    replies: [Draft; 3],
    up: Link,
    down: Link,
    hub: Connection,
    client: Client,
    working: Vec<u8>,
    strangers: bool,
    doubts: bool,
}

/// Types of requests and of replies, by their place in the enrolment.
const REQUESTS: [u8; 3] = [0, 2, 6];
const REPLIES: [u8; 3] = [1, 3, 7];

/// A whole conversation between both roles.
pub fn meeting(prng: &mut Prng) -> Meeting {
    let fragment_size = fragment_size(prng);
    let (gateway, host) = (gateway(prng), gateway(prng));
    let host = Gateway { keys: gateway.keys, ..host };
    let requests = gateway.enrolment().map(|(draft, _)| dress(prng, draft));
    let replies = host.good_replies().map(|draft| dress(prng, draft));
    let longest = requests.iter().chain(&replies).map(|draft| draft.payload.len()).max();
    let working = longest.unwrap_or(0) + 20;
    let (damages, strangers, doubts) = (prng.chance(25), prng.chance(25), prng.chance(15));
    let link = |prng: &mut Prng| match damages {
        true => Link::new(prng),
        false => Link { flip: 0, cut: 0, ..Link::new(prng) },
    };
    let mut encounter = Encounter {
        up: link(prng),
        down: link(prng),
        hub: Connection::open(fragment_size).0,
        client: Client::open(fragment_size, gateway.session).0,
        working: vec![0; working],
        meeting: Meeting {
            fragment_size,
            gateway,
            working,
            written: Vec::new(),
            arrivals: Vec::new(),
            honest: !(damages || strangers || doubts),
        },
        requests,
        replies,
        strangers,
        doubts,
        prng,
    };
    encounter.enrol();
    encounter.meeting
}

impl Encounter<'_> {
    /// The gateway sends what is due, and the same again, until nothing is; what the links held
    /// back arrives in the end.
    fn enrol(&mut self) {
        for _ in 0..TRIES {
            self.disturb();
            match self.client.due() {
                Some(request) => self.request(request),
                None => break,
            }
        }
        let (late, later) = (self.up.held.split_off(0), self.down.held.split_off(0));
        late.into_iter().for_each(|message| self.hub_hears(message));
        later.into_iter().for_each(|message| self.gateway_hears(message));
    }

    /// The gateway sends its request of this type.
    fn request(&mut self, kind: u8) {
        let Some(place) = REQUESTS.iter().position(|request| *request == kind) else { return };
        let message = self.write(self.requests[place].clone());
        self.disturb();
        let arriving = self.up.carry(self.prng, &message);
        arriving.into_iter().for_each(|message| self.hub_hears(message));
    }

    /// The hub sends its reply of this type, with the SessionID that it remembers.
    fn reply(&mut self, kind: u8) {
        let Some(place) = REPLIES.iter().position(|reply| *reply == kind) else { return };
        let mut draft = self.replies[place].clone();
        draft.header.session = self.hub.session;
        let message = self.write(draft);
        self.disturb();
        let arriving = self.down.carry(self.prng, &message);
        arriving.into_iter().for_each(|message| self.gateway_hears(message));
    }

    /// The bytes, as the writer makes them.
    fn write(&mut self, draft: Draft) -> Vec<u8> {
        let Draft { header, chain, payload, .. } = draft;
        let room = message_length(header.sealed(), chain.len(), payload.len());
        let (keys, output) = (self.meeting.gateway.keys.to_vec(), vec![0; room]);
        let mut case = WriteCase { header, chain, payload, keys, output };
        if !self.meeting.written.contains(&case) {
            self.meeting.written.push(case.clone());
        }
        case.write().expect("a message without fault");
        case.output
    }

    fn hub_hears(&mut self, message: Vec<u8>) {
        let Some(verdict) = self.arrive(Side::Hub, &message) else { return };
        let (keys, working) = (&self.meeting.gateway.keys, &mut self.working);
        let (next, answer) = self.hub.step(&message, keys, working, &mut [], verdict);
        self.hub = next;
        if let Answer::Reply(kind) | Answer::Again(kind) = answer {
            self.reply(kind);
        }
    }

    fn gateway_hears(&mut self, message: Vec<u8>) {
        let Some(verdict) = self.arrive(Side::Gateway, &message) else { return };
        let (keys, working) = (&self.meeting.gateway.keys, &mut self.working);
        let (next, answer) = self.client.step(&message, keys, working, verdict);
        self.client = next;
        match answer {
            client::Answer::Next(kind) => self.request(kind),
            client::Answer::Again(Some(kind)) if self.prng.chance(50) => self.request(kind),
            _ => {}
        }
    }

    /// The verdict of a step, unless enough has arrived.
    fn arrive(&mut self, at: Side, message: &[u8]) -> Option<u64> {
        if self.meeting.arrivals.len() == ARRIVALS {
            return None;
        }
        let verdict = u64::from(!(self.doubts && self.prng.chance(20)));
        self.meeting.arrivals.push(Arrival { at, message: message.to_vec(), verdict });
        Some(verdict)
    }

    /// Where there are strangers, now and then something that neither side wrote for the other.
    fn disturb(&mut self) {
        if !self.strangers || self.prng.chance(60) {
            return;
        }
        let own = self.meeting.gateway.clone();
        let other = gateway(self.prng);
        let (sides, some) = ([Side::Hub, Side::Gateway], self.prng.below(3));
        let (at, sender, draft) = match self.prng.below(7) {
            0 => (Side::Hub, &other, other.enrolment()[some].0.clone()),
            1 => (Side::Gateway, &other, other.good_replies()[some].clone()),
            // Another request under the same SessionID.
            2 => (Side::Hub, &own, own.connect(Connect::ConnectionRequest(other.offer))),
            // A reply that nothing called for, or with any Result or Status, under any keys.
            3 => (Side::Gateway, &own, own.good_replies()[some].clone()),
            4 => {
                let replies = own.replies();
                let draft = replies[self.prng.below(replies.len())].clone();
                (Side::Gateway, if self.prng.chance(70) { &own } else { &other }, draft)
            }
            // What the other side should have heard.
            5 => match self.prng.pick(&sides) {
                Side::Hub => (Side::Hub, &own, own.good_replies()[some].clone()),
                Side::Gateway => (Side::Gateway, &own, own.enrolment()[some].0.clone()),
            },
            _ => {
                let piece = own.piece(0, 0, 1, b"a report");
                let draft = if self.prng.chance(50) { piece } else { discovery(self.prng) };
                (self.prng.pick(&sides), &own, draft)
            }
        };
        let message = draft.bytes(&sender.keys);
        match at {
            Side::Hub => self.hub_hears(message),
            Side::Gateway => self.gateway_hears(message),
        }
    }
}
