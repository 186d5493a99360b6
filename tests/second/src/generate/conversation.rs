// SPDX-License-Identifier: MPL-2.0
//! Whole conversations over a link that drops, repeats, reorders, flips bits and cuts short.

use super::{Fault, discovery, draft, dress, fragment_size, gateway};
use crate::connection::{Answer, Connection, State};
use crate::draft::Damage;
use crate::gateway::Gateway;
use crate::prng::Prng;

/// A link between gateway and hub: how often, in a hundred messages, it does what.
#[derive(Clone, Debug, Default)]
pub struct Link {
    /// Drops a message.
    pub drop: usize,
    /// Brings it more than once.
    pub repeat: usize,
    /// Holds it back, so that later ones overtake it.
    pub delay: usize,
    /// Flips bits of it.
    pub flip: usize,
    /// Cuts it short.
    pub cut: usize,
    /// What it holds back now.
    pub held: Vec<Vec<u8>>,
}

impl Link {
    /// A link of any quality.
    pub fn new(prng: &mut Prng) -> Link {
        let worst = prng.pick(&[0, 10, 20, 40]);
        let mut share = || prng.between(0, worst);
        let (drop, repeat, delay) = (share(), share(), share());
        Link { drop, repeat, delay, flip: share(), cut: share() / 2, held: Vec::new() }
    }

    /// What arrives once `message` is sent, held back messages among it.
    pub fn carry(&mut self, prng: &mut Prng, message: &[u8]) -> Vec<Vec<u8>> {
        let copies = if prng.chance(self.repeat) { prng.between(2, 3) } else { 1 };
        let mut arriving = Vec::new();
        for _ in 0..copies {
            if prng.chance(self.drop) {
                continue;
            }
            let copy = self.disturb(prng, message.to_vec());
            let onto = if prng.chance(self.delay) { &mut self.held } else { &mut arriving };
            onto.push(copy);
        }
        while !self.held.is_empty() && prng.chance(20) {
            arriving.push(self.held.swap_remove(prng.below(self.held.len())));
        }
        arriving
    }

    fn disturb(&self, prng: &mut Prng, mut message: Vec<u8>) -> Vec<u8> {
        if prng.chance(self.flip) {
            for _ in 0..prng.between(1, 3) {
                Damage::Flip(prng.word() as usize).befall(&mut message);
            }
        }
        if prng.chance(self.cut) {
            message.truncate(prng.below(message.len()));
        }
        message
    }
}

/// A message as it arrives, with the verdict of that step.
#[derive(Clone, Debug, PartialEq, Eq)]
pub struct Delivery {
    /// The message.
    pub message: Vec<u8>,
    /// The verdict, 0 or 1.
    pub verdict: u64,
}

/// An enrolment and some reports, as they arrive at the hub.
#[derive(Clone, Debug)]
pub struct Conversation {
    /// F of the connection.
    pub fragment_size: u32,
    /// The keys of every step.
    pub keys: [u8; 64],
    /// Length of the working buffer.
    pub working: usize,
    /// Length of the report buffer.
    pub report: usize,
    /// What arrives, in this order.
    pub deliveries: Vec<Delivery>,
    /// The reports that the gateway sent, by SequenceNumber.
    pub reports: Vec<Vec<u8>>,
}

impl Conversation {
    /// What arrives, back to back, as the replay program reads it.
    pub fn capture(&self) -> Vec<u8> {
        self.deliveries.iter().flat_map(|delivery| delivery.message.clone()).collect()
    }
}

/// A conversation under way; the hub is played along, for the gateway sends until it hears a reply.
struct Talk<'a> {
    prng: &'a mut Prng,
    gateway: Gateway,
    link: Link,
    hub: Connection,
    working: Vec<u8>,
    report: Vec<u8>,
    verdict: u64,
    deliveries: Vec<Delivery>,
}

/// How often a gateway sends the same before it gives up.
const TRIES: usize = 12;

/// A whole conversation over a link that drops, repeats, reorders, flips bits and cuts short.
pub fn conversation(prng: &mut Prng) -> Conversation {
    let fragment_size = fragment_size(prng);
    let gateway = gateway(prng);
    let reports: Vec<_> =
        (0..prng.between(1, 3)).map(|_| some_report(prng, fragment_size)).collect();
    let longest = reports.iter().map(Vec::len).max().unwrap_or(0);
    let tight = prng.chance(10);
    let working = if tight { 64 } else { 4_096.max(fragment_size as usize + 16) };
    let room = if tight { longest.saturating_sub(1) } else { longest };
    let mut talk = Talk {
        link: Link::new(prng),
        hub: Connection::open(fragment_size).0,
        working: vec![0; working],
        report: vec![0; room],
        verdict: u64::from(!prng.chance(5)),
        deliveries: Vec::new(),
        gateway,
        prng,
    };
    talk.enrol();
    for (sequence, report) in reports.iter().enumerate() {
        talk.send_report(sequence as u32, fragment_size, report);
    }
    let (keys, deliveries) = (talk.gateway.keys, talk.deliveries);
    Conversation { fragment_size, keys, working, report: room, deliveries, reports }
}

/// A report of 0 to 64 pieces, mostly few.
fn some_report(prng: &mut Prng, fragment_size: u32) -> Vec<u8> {
    let pieces = if prng.chance(10) { prng.pick(&[16, 63, 64]) } else { prng.between(0, 5) };
    let whole = fragment_size as usize * pieces;
    let missing = if prng.chance(30) { 0 } else { prng.below(fragment_size as usize) };
    let length = whole.saturating_sub(missing);
    prng.bytes(length)
}

impl Talk<'_> {
    /// Sends one message; answers what the hub said to all that arrived.
    fn send(&mut self, message: &[u8]) -> Vec<Answer> {
        let arriving = self.link.carry(self.prng, message);
        arriving.into_iter().map(|message| self.deliver(message)).collect()
    }

    fn deliver(&mut self, message: Vec<u8>) -> Answer {
        let asked = self.hub.state == State::AwaitingAuthentication as u8;
        let verdict = if asked { self.verdict } else { self.prng.below(2) as u64 };
        let (working, report) = (&mut self.working, &mut self.report);
        let keys = &self.gateway.keys;
        let (next, answer) = self.hub.step(&message, keys, working, report, verdict);
        self.hub = next;
        self.deliveries.push(Delivery { message, verdict });
        answer
    }

    /// Sends each request until its reply comes back over the same bad link.
    fn enrol(&mut self) {
        for (draft, reply) in self.gateway.enrolment() {
            let message = dress(self.prng, draft).bytes(&self.gateway.keys);
            for _ in 0..TRIES {
                let answers = self.send(&message);
                let replies = [Answer::Reply(reply), Answer::Again(reply)];
                let replied = answers.iter().any(|answer| replies.contains(answer));
                if replied && !self.prng.chance(self.link.drop) {
                    break;
                }
            }
            self.disturb();
        }
    }

    /// Sends all pieces in any order, and all again, until the hub has the report.
    fn send_report(&mut self, sequence: u32, fragment_size: u32, report: &[u8]) {
        let mut pieces = self.gateway.pieces(sequence, fragment_size, report);
        for _ in 0..TRIES {
            self.prng.shuffle(&mut pieces);
            for piece in pieces.clone() {
                let message = dress(self.prng, piece).bytes(&self.gateway.keys);
                self.send(&message);
                if self.prng.chance(10) {
                    self.disturb();
                }
            }
            if self.hub.expected > sequence || self.hub.state != State::Ready as u8 {
                break;
            }
        }
    }

    /// Something else on the link: an enrolment request again, another gateway's message, a faulty
    /// one, a Discovery message, or an old one.
    fn disturb(&mut self) {
        let keys = self.gateway.keys;
        let message = match self.prng.below(5) {
            0 => {
                let (request, _) = &self.gateway.enrolment()[self.prng.below(3)];
                request.bytes(&keys)
            }
            1 => {
                let other = gateway(self.prng);
                other.enrolment()[self.prng.below(3)].0.bytes(&other.keys)
            }
            2 => {
                let mut faulty = draft(self.prng, &self.gateway, &self.hub, &self.report);
                self.prng.pick(&Fault::ALL).inflict(self.prng, &mut faulty);
                faulty.bytes(&keys)
            }
            3 => {
                let draft = discovery(self.prng);
                dress(self.prng, draft).bytes(&keys)
            }
            _ => {
                let old = self.prng.below(self.deliveries.len());
                self.deliveries.get(old).map_or(Vec::new(), |delivery| delivery.message.clone())
            }
        };
        self.send(&message);
    }
}
