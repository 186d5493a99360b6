// SPDX-License-Identifier: MPL-2.0
//! Both sides together: what A2 promises of a gateway and a freshly opened hub, each hearing only
//! what the other wrote.

mod common;

use common::gateway;
use second::client::{self, Client, READY};
use second::connection::{Answer, Connection, State};
use second::gateway::Gateway;
use second::generate::{Link, Side, meeting};
use second::payload::Offer;
use second::prng::Prng;

/// A message on its way to one side.
type Letter = (Side, Vec<u8>);

/// Both sides, and all that either has written so far. Each letter may arrive now, later, often or
/// never.
#[derive(Clone, Debug, PartialEq)]
struct World {
    hub: Connection,
    client: Client,
    letters: Vec<Letter>,
}

/// The hub: the gateway's keys, and an offer and a certificate of its own.
fn host() -> Gateway {
    Gateway { keys: gateway().keys, ..Gateway::new(&mut Prng::new(2), 40, 20) }
}

/// The gateway's request of this type: the same bytes each time.
fn request(kind: u8) -> Letter {
    let [first, second, third] = gateway().enrolment().map(|(draft, _)| draft);
    let draft = match kind {
        0 => first,
        2 => second,
        6 => third,
        _ => panic!("no request has type {kind}"),
    };
    (Side::Hub, draft.bytes(&gateway().keys))
}

/// The hub's reply of this type, with the SessionID that it remembers.
fn reply(kind: u8, session: u64) -> Letter {
    let [first, second, third] = Gateway { session, ..host() }.good_replies();
    let draft = match kind {
        1 => first,
        3 => second,
        7 => third,
        _ => panic!("no reply has type {kind}"),
    };
    (Side::Gateway, draft.bytes(&gateway().keys))
}

impl World {
    /// Both just opened; the request that is due is written.
    fn new() -> World {
        let (hub, client) = (Connection::open(8).0, Client::open(8, gateway().session).0);
        World { hub, client, letters: client.due().map(request).into_iter().collect() }
    }

    /// One letter arrives; answers what the side that heard it writes.
    fn arrive(&mut self, (at, message): &Letter) -> Option<Letter> {
        let (keys, working) = (gateway().keys, &mut [0; 600]);
        match at {
            Side::Hub => {
                let (next, answer) = self.hub.step(message, &keys, working, &mut [], 1);
                self.hub = next;
                match answer {
                    Answer::Reply(kind) | Answer::Again(kind) => Some(reply(kind, next.session)),
                    _ => None,
                }
            }
            Side::Gateway => {
                let (next, answer) = self.client.step(message, &keys, working, 1);
                self.client = next;
                match answer {
                    client::Answer::Next(kind) | client::Answer::Again(Some(kind)) => {
                        Some(request(kind))
                    }
                    _ => None,
                }
            }
        }
    }

    /// Every world that is one arrival away.
    fn after(&self) -> Vec<World> {
        let arrivals = self.letters.iter().map(|letter| {
            let mut next = self.clone();
            let written = next.arrive(letter).filter(|written| !self.letters.contains(written));
            next.letters.extend(written);
            next
        });
        arrivals.collect()
    }

    /// The promise, and that the hub is never behind the gateway nor more than a reply before it.
    fn check(&self) {
        let Gateway { session, offer: Offer { nonce, x, y }, .. } = gateway();
        let Connection { state, .. } = self.hub;
        if state != State::AwaitingRequest as u8 {
            let hub = &self.hub;
            assert_eq!((hub.session, hub.nonce, hub.x, hub.y), (session, nonce, x, y));
        }
        assert_eq!(self.client.session, session);
        assert!(state <= READY && self.client.state <= READY, "{self:02x?}");
        assert!(self.client.state <= state && state <= self.client.state + 1, "{self:02x?}");
    }

    fn both_ready(&self) -> bool {
        (self.hub.state, self.client.state) == (State::Ready as u8, READY)
    }
}

/// Any letter may arrive at any time and any number of times, so all that can ever come about is
/// found by trying each in each world; there are few of them.
#[test]
fn every_course_of_losses_repeats_and_other_orders() {
    let mut worlds = vec![World::new()];
    let mut tried = 0;
    while let Some(world) = worlds.get(tried) {
        world.check();
        for next in world.after() {
            if !worlds.contains(&next) {
                worlds.push(next);
            }
        }
        tried += 1;
    }
    let mut states: Vec<_> = worlds.iter().map(|w| (w.hub.state, w.client.state)).collect();
    states.sort_unstable();
    states.dedup();
    assert_eq!(states, [(0, 0), (1, 0), (1, 1), (2, 1), (2, 2), (3, 2), (3, 3)]);
    assert_eq!(worlds.iter().map(|world| world.letters.len()).max(), Some(6));
    // From each of them on, no more than the three requests that are due is needed.
    for mut world in worlds {
        for _ in 0..3 {
            let due = world.client.due().map(request);
            let answered = due.and_then(|request| world.arrive(&request));
            answered.and_then(|reply| world.arrive(&reply));
        }
        assert!(world.both_ready(), "{world:02x?}");
    }
}

/// The gateway sends what is due, the same bytes each time, until nothing is.
#[test]
fn a_conversation_with_losses_ends_with_both_ready() {
    let mut prng = Prng::new(1);
    let (mut sent, mut again) = (0, 0);
    for _ in 0..100 {
        let link = Link { drop: 50, repeat: 30, delay: 30, ..Link::default() };
        let (mut up, mut down) = (link.clone(), link);
        let mut world = World::new();
        for _ in 0..200 {
            let Some(due) = world.client.due() else { break };
            let (_, message) = request(due);
            for arriving in up.carry(&mut prng, &message) {
                let Some((_, reply)) = world.arrive(&(Side::Hub, arriving)) else { continue };
                for arriving in down.carry(&mut prng, &reply) {
                    again += usize::from(world.arrive(&(Side::Gateway, arriving)).is_some());
                    world.check();
                }
            }
            sent += 1;
        }
        assert!(world.both_ready(), "{world:02x?}");
    }
    assert!(sent > 600 && again > 200, "{sent} {again}");
}

/// A hub that had another gateway's request first goes on with that one alone, and this gateway
/// never takes its replies.
#[test]
fn a_hub_with_another_session_is_not_mistaken_for_ours() {
    let other = Gateway { keys: gateway().keys, ..Gateway::new(&mut Prng::new(3), 10, 5) };
    let mut world = World::new();
    for (draft, _) in other.enrolment() {
        let reply = world.arrive(&(Side::Hub, draft.bytes(&other.keys))).unwrap();
        assert_eq!(world.arrive(&reply), None);
        assert_eq!(world.client, World::new().client);
        assert_eq!(world.arrive(&request(0)), None, "another SessionID");
    }
    assert_eq!((world.hub.state, world.hub.session), (State::Ready as u8, other.session));
}

#[test]
fn the_promise_is_what_a_meeting_checks() {
    let mut prng = Prng::new(4);
    let honest = std::iter::repeat_with(|| meeting(&mut prng)).find(|talk| talk.honest).unwrap();
    let Gateway { session, ref offer, .. } = honest.gateway;
    let enrolled = honest.gateway.connection(8, State::Passed);
    let client = Client { fragment_size: 8, state: 1, session };
    let fresh = Connection { session: session ^ 1, state: 0, ..enrolled };
    for hub in [enrolled, fresh] {
        assert!(honest.keeps_promise(&hub, &client));
    }
    let changes: [fn(&mut Connection); 5] = [
        |hub| hub.session ^= 1,
        |hub| hub.nonce[0] ^= 1,
        |hub| hub.x[31] ^= 1,
        |hub| hub.y[31] ^= 1,
        |hub| hub.state = State::Failed as u8,
    ];
    let mut other = honest.clone();
    other.honest = false;
    for change in changes {
        let mut hub = enrolled;
        change(&mut hub);
        assert!(!honest.keeps_promise(&hub, &client) && other.keeps_promise(&hub, &client));
    }
    assert_eq!((enrolled.nonce, enrolled.x, enrolled.y), (offer.nonce, offer.x, offer.y));
    for client in [Client { state: 4, ..client }, Client { session: session ^ 1, ..client }] {
        assert!(!honest.keeps_promise(&enrolled, &client));
    }
}
