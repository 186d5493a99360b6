// SPDX-License-Identifier: MPL-2.0
//! A hub and a gateway, each hearing only what `hub_write` wrote for the other's answers, over a
//! link that loses, repeats and reorders. At every moment what A2 promises must hold: the hub is in
//! state 0 or has the gateway's SessionID, nonce, X and Y; neither has failed; and at most six
//! hearings over a good link end with both Ready.

use second::compare::{Comparison, Difference, Implementation};
use second::connection::{Answer, Connection};
use second::gateway::Gateway;
use second::generate::{Case, ClientCase};
use second::payload::{Connect, Credentials, Offer};
use second::prng::Prng;

use super::heard::bytes;
use super::{Tried, as_expected, numbered};
use crate::gateways::{due, gateway_step_on, open};
use crate::hub_h::{Hub, no_entries};
use crate::state::{GATEWAY, decode_gateway};

type Judged = Result<(), Difference>;

/// The types of the six messages of an enrolment, requests and replies in turn: one at an even
/// place is for the hub, one at an odd place for the gateway.
const TYPES: [u8; 6] = [0, 1, 2, 3, 6, 7];

/// The two sides of a connection: the gateway, and the six messages of which each side writes
/// three.
struct Pair {
    gateway: Gateway,
    fragment_size: u32,
    messages: [Vec<u8>; 6],
}

fn credentials(side: &Gateway) -> Credentials<'_> {
    Credentials { certificate: &side.certificate, thumbprint: &side.thumbprint }
}

/// A message of this side, its payload and its bytes made through hub.h.
fn written(
    side: &Gateway,
    connect: Connect<'_>,
    sequence: u32,
    hub: &mut Hub,
) -> Result<Vec<u8>, Difference> {
    let refused = |by| Difference(format!("{connect:?}: {by}"));
    let mut draft = side.connect(connect);
    draft.header.sequence = sequence;
    let mut payload = vec![0xEE; draft.payload.len()];
    hub.write_connect(side.mode, connect, &mut payload).map_err(refused)?;
    let mut message = vec![0xEE; 200 + payload.len()];
    let (header, chain) = (&draft.header, no_entries());
    let length =
        hub.write_message(header, &chain, &payload, &side.keys, &mut message).map_err(refused)?;
    message.truncate(length);
    as_expected(&draft, &draft.bytes(&side.keys), &message)?;
    Ok(message)
}

impl Pair {
    /// Any gateway and any hub, which have the keys and the SessionID in common.
    fn new(prng: &mut Prng, comparison: &mut Comparison<Hub>) -> Result<Pair, Difference> {
        let lengths = [prng.between(1, 60), prng.below(20), prng.between(1, 60), prng.below(20)];
        let gateway = Gateway::new(prng, lengths[0], lengths[1]);
        let Gateway { keys, session, .. } = gateway;
        let hub = Gateway { keys, session, ..Gateway::new(prng, lengths[2], lengths[3]) };
        let connects = [
            (&gateway, Connect::ConnectionRequest(gateway.offer)),
            (&hub, Connect::ConnectionPending(hub.offer)),
            (&gateway, Connect::AuthenticationRequest(credentials(&gateway))),
            (&hub, Connect::AuthenticationResponse(credentials(&hub))),
            (&gateway, Connect::DoneRequest),
            (&hub, Connect::DoneResponse(0)),
        ];
        let mut messages = [const { Vec::new() }; 6];
        for (place, (side, connect)) in connects.into_iter().enumerate() {
            let sequence = 0x8000_0000 + place as u32;
            messages[place] = written(side, connect, sequence, &mut comparison.other)?;
        }
        let fragment_size = prng.between(1, 40) as u32;
        Ok(Pair { gateway, fragment_size, messages })
    }
}

/// A step of a hub, by hub.h and as the second implementation has it.
fn hub_step(case: &Case, hub: &mut Hub) -> Result<(Connection, Answer), Difference> {
    let (mut ours, mut theirs) = (case.clone(), case.clone());
    let Case { connection, message, keys, verdict, .. } = case;
    let (working, report) = (&mut theirs.working, &mut theirs.report);
    let found = Implementation::step(hub, *connection, message, keys, working, report, *verdict);
    as_expected(case, &(ours.step(), ours), &(found, theirs))?;
    Ok(found)
}

/// What both sides remember at a moment.
type Both = (Connection, [u8; GATEWAY]);

/// A moment of a conversation: what each side remembers, and which messages were sent by now. One
/// that was sent may come at any time and any number of times, or never.
#[derive(Clone, Debug, PartialEq, Eq)]
struct Moment {
    hub: Connection,
    gateway: [u8; GATEWAY],
    sent: [bool; 6],
}

impl Moment {
    /// Both sides are opened, and nothing was sent.
    fn first(pair: &Pair, comparison: &mut Comparison<Hub>) -> Result<Moment, Difference> {
        let (size, session) = (pair.fragment_size, pair.gateway.session);
        let (hub, answer) = Implementation::open(&mut comparison.other, size);
        as_expected(&size, &(Ok(()), Connection::open(size).0), &(answer, hub))?;
        let (number, gateway) = open(&mut comparison.other, size.into(), session, &[0xA5; GATEWAY]);
        let expected = bytes(size.into(), 0, session);
        as_expected(&size, &(0, expected.to_vec()), &(number, gateway))?;
        Ok(Moment { hub, gateway: expected, sent: [false; 6] })
    }

    fn gateway_state(&self) -> u8 {
        self.gateway[8]
    }

    /// The gateway sends the request that is due; answers its place, if there is one.
    fn send_due(&mut self, comparison: &mut Comparison<Hub>) -> Option<usize> {
        let due = due(&mut comparison.other, &self.gateway);
        let place = TYPES.iter().position(|kind| u64::from(*kind) == due)?;
        self.sent[place] = true;
        Some(place)
    }

    /// The message at this place comes to the side that it is for. Whose turn it is goes on by one
    /// state, who is further answers Again, and nobody is behind; what follows the message is sent.
    fn hear(
        &mut self,
        pair: &Pair,
        place: usize,
        verdict: u64,
        comparison: &mut Comparison<Hub>,
    ) -> Judged {
        let step = (place / 2) as u8;
        let state = if place.is_multiple_of(2) { self.hub.state } else { self.gateway_state() };
        as_expected(&(&self, place), &true, &(state >= step))?;
        let (again, next) = (state > step, state.max(step + 1));
        let follows = TYPES.get(place + 1).copied();
        let (message, keys) = (pair.messages[place].clone(), pair.gateway.keys.to_vec());
        let working = vec![0xAA; message.len()];
        if place.is_multiple_of(2) {
            let (connection, report) = (self.hub, Vec::new());
            let case = Case { connection, message, keys, working, report, verdict };
            let (hub, answer) = hub_step(&case, &mut comparison.other)?;
            let reply = follows.expect("a reply");
            let expected = if again { Answer::Again(reply) } else { Answer::Reply(reply) };
            as_expected(&case, &(expected, next), &(answer, hub.state))?;
            self.hub = hub;
        } else {
            let client = decode_gateway(&self.gateway);
            let case = ClientCase { client, message, keys, working, verdict };
            let stepped = gateway_step_on(&mut comparison.other, &self.gateway, &case);
            let expected = match (again, follows.map(u64::from)) {
                (true, request) => [2, request.unwrap_or(256), 0],
                (false, Some(request)) => [7, request, 0],
                (false, None) => [8, 0, 0],
            };
            let after = bytes(pair.fragment_size.into(), next, pair.gateway.session);
            let found = (stepped.number, stepped.words, stepped.gateway);
            as_expected(&case, &(0, expected, after), &found)?;
            self.gateway = after;
        }
        if let Some(sent) = self.sent.get_mut(place + 1) {
            *sent = true;
        }
        Ok(())
    }

    /// What the lower bits of a byte choose: a message that was sent comes, with the verdict of the
    /// next bit where that must not matter, or the gateway sends what is due. Answers whether it
    /// could happen.
    fn happen(
        &mut self,
        pair: &Pair,
        event: u8,
        comparison: &mut Comparison<Hub>,
    ) -> Result<bool, Difference> {
        let place = usize::from(event % 8);
        if place >= 6 {
            return Ok(self.send_due(comparison).is_some());
        }
        let judged = TYPES[place] == 3 || (TYPES[place] == 2 && self.hub.state == 1);
        let verdict = u64::from(judged || event & 8 != 0);
        if self.sent[place] {
            self.hear(pair, place, verdict, comparison)?;
        }
        Ok(self.sent[place])
    }

    /// The promise, but for how a good link ends it; and that the hub is a step ahead at most.
    fn holds(&self, pair: &Pair) -> Judged {
        let Gateway { session, offer: Offer { nonce, x, y }, .. } = pair.gateway;
        let (hub, state) = (self.hub, self.gateway_state());
        let enrolled = (hub.session, hub.nonce, hub.x, hub.y) == (session, nonce, x, y);
        as_expected(self, &true, &(hub.state == 0 || enrolled))?;
        as_expected(self, &(false, false), &(hub.state == 4, state == 4))?;
        as_expected(self, &true, &(hub.state == state || hub.state == state + 1))
    }

    /// From here on the link is good: what is due comes to the hub and its reply to the gateway.
    /// Answers how many hearings end with both Ready, where a report is taken: six at most, two
    /// fewer for each reply that was taken. What was sent before does not matter to that, so it is
    /// tried but once for what both remember, and then `known`.
    fn ends(
        &self,
        pair: &Pair,
        known: &mut Vec<Both>,
        comparison: &mut Comparison<Hub>,
    ) -> Result<usize, Difference> {
        let left = 6 - 2 * usize::from(self.gateway_state().min(3));
        if known.contains(&(self.hub, self.gateway)) {
            return Ok(left);
        }
        let mut moment = self.clone();
        let hearings = match moment.send_due(comparison) {
            Some(place) => {
                moment.hear(pair, place, 1, comparison)?;
                moment.hear(pair, place + 1, 1, comparison)?;
                2 + moment.ends(pair, known, comparison)?
            }
            None => {
                moment.takes_report(pair, comparison)?;
                0
            }
        };
        as_expected(self, &left, &hearings)?;
        known.push((self.hub, self.gateway));
        Ok(hearings)
    }

    /// Both are Ready: the hub takes a report of this gateway.
    fn takes_report(&self, pair: &Pair, comparison: &mut Comparison<Hub>) -> Judged {
        as_expected(self, &(3, 3), &(self.hub.state, self.gateway_state()))?;
        let message = pair.gateway.piece(0, 0, 1, &[7]).bytes(&pair.gateway.keys);
        let (keys, working) = (pair.gateway.keys.to_vec(), vec![0xAA; message.len()]);
        let (connection, report) = (self.hub, vec![0x55; 1]);
        let case = Case { connection, message, keys, working, report, verdict: 0 };
        let (_, answer) = hub_step(&case, &mut comparison.other)?;
        as_expected(&case, &Answer::Complete(1, 1), &answer)
    }
}

/// A conversation, event by event; the promise holds at every moment.
fn converse(
    pair: &Pair,
    events: &[u8],
    known: &mut Vec<Both>,
    comparison: &mut Comparison<Hub>,
) -> Judged {
    let mut moment = Moment::first(pair, comparison)?;
    for event in [&[6], events].concat() {
        moment.happen(pair, event, comparison)?;
        moment.holds(pair)?;
        moment.ends(pair, known, comparison)?;
    }
    Ok(())
}

/// A conversation of two sides by any bytes.
pub fn any_conversation(seed: u64, events: &[u8], comparison: &mut Comparison<Hub>) -> Judged {
    let pair = Pair::new(&mut Prng::new(seed), comparison)?;
    converse(&pair, events, &mut Vec::new(), comparison)
}

/// Every moment that a link can bring about, from both sides opened on: whatever was sent comes, or
/// the gateway sends what is due.
pub fn every_moment(comparison: &mut Comparison<Hub>) -> Tried {
    let pair = Pair::new(&mut Prng::new(0x7369_6465), comparison)?;
    let mut moments = vec![Moment::first(&pair, comparison)?];
    let (mut at, mut tried) = (0, 0);
    while at < moments.len() {
        moments[at].holds(&pair)?;
        moments[at].ends(&pair, &mut Vec::new(), comparison)?;
        for event in (0..=6).chain(8..=13) {
            let mut next = moments[at].clone();
            if next.happen(&pair, event, comparison)? {
                tried += 1;
                if !moments.contains(&next) {
                    moments.push(next);
                }
            }
        }
        at += 1;
    }
    Ok(tried)
}

/// Conversations over links that lose, repeat and reorder anyhow: four each of any two sides.
pub fn bad_links(comparison: &mut Comparison<Hub>) -> Tried {
    let mut tried = 0;
    for seed in 0..500 {
        let mut prng = Prng::new(0x6c69_6e6b ^ seed << 32);
        let (pair, mut known) = (Pair::new(&mut prng, comparison)?, Vec::new());
        for _ in 0..4 {
            let length = prng.between(1, 50);
            let events = prng.bytes(length);
            numbered(tried, converse(&pair, &events, &mut known, comparison))?;
            tried += 1;
        }
    }
    Ok(tried)
}
