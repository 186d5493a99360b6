// SPDX-License-Identifier: MPL-2.0
//! Whole conversations. Each scenario says what its messages must be answered, and the second
//! implementation must agree; a case is a connection that is opened or a message that comes.

use second::compare::{Comparison, Difference, Implementation};
use second::connection::{Answer, Connection};
use second::draft::{Damage, Draft};
use second::gateway::{Gateway, presence_request};
use second::generate::Case;
use second::payload::{Connect, Credentials, Offer};
use second::prng::Prng;

use super::{Tried, as_expected};

type Done = Result<(), Difference>;

/// The whole report buffer, which has room for two of the largest pieces.
const ROOM: usize = 32_768;

/// A conversation under way: the connection so far, and the report buffer, so much of which is lent.
struct Talk<'a, I> {
    comparison: &'a mut Comparison<I>,
    gateway: Gateway,
    connection: Connection,
    report: Vec<u8>,
    room: usize,
    tried: u64,
}

/// What was answered, in words.
fn said(answer: Answer) -> String {
    match answer {
        Answer::Complete(length, heard) => format!("complete {length} in {heard} pieces"),
        other => other.to_string(),
    }
}

impl<'a, I: Implementation> Talk<'a, I> {
    fn new(comparison: &'a mut Comparison<I>, prng: &mut Prng) -> Self {
        let gateway = Gateway::new(prng, 40, 20);
        let (connection, report) = (Connection::default(), vec![0; ROOM]);
        Talk { comparison, gateway, connection, report, room: ROOM, tried: 0 }
    }

    fn open(&mut self, fragment_size: u32, refusal: u8) -> Done {
        let opened = self.comparison.other.open(fragment_size);
        as_expected(&fragment_size, &Connection::open(fragment_size), &opened)?;
        let number = opened.1.map_or_else(|refused| refused.number(), |()| 0);
        as_expected(&fragment_size, &refusal, &number)?;
        self.connection = opened.0;
        self.tried += 1;
        Ok(())
    }

    /// A message comes; the answer starts so. A refusal and a repeated reply change nothing.
    fn hear(&mut self, message: &[u8], verdict: u64, expected: &str) -> Done {
        let mut case = Case {
            connection: self.connection,
            message: message.to_vec(),
            keys: self.gateway.keys.to_vec(),
            working: vec![0xAA; message.len()],
            report: self.report[..self.room].to_vec(),
            verdict,
        };
        let answer = self.comparison.step(&case)?;
        let line = said(answer);
        if !line.starts_with(expected) {
            as_expected(&message, &expected, &&line[..])?;
        }
        let (next, _) = case.step();
        if matches!(answer, Answer::Refused(_) | Answer::Again(_) | Answer::Repeat(_)) {
            as_expected(&line, &self.connection, &next)?;
        }
        self.connection = next;
        self.report[..self.room].copy_from_slice(&case.report);
        self.tried += 1;
        Ok(())
    }

    fn draft(&mut self, draft: &Draft, verdict: u64, expected: &str) -> Done {
        let message = draft.bytes(&self.gateway.keys);
        self.hear(&message, verdict, expected)
    }

    /// The first steps of the enrolment, on a new connection.
    fn enrol(&mut self, fragment_size: u32, steps: usize) -> Done {
        self.open(fragment_size, 0)?;
        for (draft, reply) in self.gateway.clone().enrolment().iter().take(steps) {
            self.draft(draft, 1, &format!("reply {reply}"))?;
        }
        Ok(())
    }

    /// A connection in this state.
    fn reach(&mut self, state: usize) -> Done {
        if state < 4 {
            return self.enrol(16, state);
        }
        self.enrol(16, 1)?;
        let [_, (authentication, _), _] = self.gateway.enrolment();
        self.draft(&authentication, 0, "failure")
    }

    /// Each of the first steps once more: the same reply, whatever the verdict.
    fn again(&mut self, steps: usize) -> Done {
        for (draft, reply) in self.gateway.clone().enrolment().iter().take(steps) {
            for verdict in [0, 1] {
                self.draft(draft, verdict, &format!("again {reply}"))?;
            }
        }
        Ok(())
    }

    /// The pieces of a report come in this order, and nothing but the last missing one completes it.
    fn report(
        &mut self,
        fragment_size: u32,
        report: &[u8],
        order: &[usize],
        disturbed: bool,
    ) -> Done {
        let pieces = self.gateway.pieces(self.connection.expected, fragment_size, report);
        let mut come = vec![false; pieces.len()];
        for &index in order {
            let known = std::mem::replace(&mut come[index], true);
            let heard = come.iter().filter(|&&heard| heard).count();
            let expected = match (known, heard == come.len()) {
                (true, true) => "refused 17".to_string(),
                (true, false) => format!("repeat {heard}"),
                (false, false) => format!("taken {heard}"),
                (false, true) => format!("complete {} in {heard} pieces", report.len()),
            };
            self.draft(&pieces[index], 1, &expected)?;
            if disturbed {
                self.disturb(&pieces[index], index)?;
            }
        }
        as_expected(&"the report", &report, &&self.report[..report.len()])?;
        self.draft(&pieces[0], 1, "refused 17")
    }

    /// A damaged message, a foreign one, one of the next report and a repeated enrolment.
    fn disturb(&mut self, piece: &Draft, index: usize) -> Done {
        let mut damaged = piece.clone();
        damaged.damage = vec![Damage::Flip(400 + index)];
        self.draft(&damaged, 1, "refused ")?;
        let mut foreign = piece.clone();
        foreign.header.session ^= 1;
        self.draft(&foreign, 1, "refused 16")?;
        let mut early = piece.clone();
        early.header.sequence += 2;
        self.draft(&early, 1, "refused 18")?;
        if index.is_multiple_of(16) {
            self.again(3)?;
        }
        Ok(())
    }
}

/// Plays a scenario.
fn play<I: Implementation>(
    comparison: &mut Comparison<I>,
    scenario: impl FnOnce(&mut Talk<'_, I>, &mut Prng) -> Done,
) -> Tried {
    let mut prng = Prng::new(0x636f_6e76);
    let mut talk = Talk::new(comparison, &mut prng);
    scenario(&mut talk, &mut prng)?;
    Ok(talk.tried)
}

/// Enrolment, each step repeated after every later one, in mid-report and after a report.
pub fn enrolment<I: Implementation>(comparison: &mut Comparison<I>) -> Tried {
    play(comparison, |talk, _| {
        talk.open(16, 0)?;
        for steps in 1..=3 {
            let (draft, reply) = talk.gateway.enrolment()[steps - 1].clone();
            talk.draft(&draft, 1, &format!("reply {reply}"))?;
            talk.again(steps)?;
        }
        let pieces = talk.gateway.pieces(0, 16, &[5; 20]);
        talk.draft(&pieces[1], 0, "taken 1")?;
        talk.again(3)?;
        talk.draft(&pieces[0], 0, "complete 20 in 2 pieces")?;
        talk.again(3)
    })
}

/// Messages of every kind, none of which a connection awaits in each state.
pub fn kinds(gateway: &Gateway) -> Vec<Draft> {
    let mut other = gateway.clone();
    other.offer = Offer { nonce: [1; 8], ..gateway.offer };
    other.certificate = vec![2; 3];
    let mut foreign = gateway.piece(0, 0, 1, &[1]);
    foreign.header.session ^= 1;
    let [(other_request, _), (other_certificate, _), _] = other.enrolment();
    let mut kinds = vec![presence_request(), other_request, other_certificate, foreign];
    kinds.extend(gateway.enrolment().map(|(draft, _)| draft));
    kinds.extend(gateway.replies());
    kinds.push(gateway.piece(0, 0, 1, &[1]));
    kinds
}

/// Every kind of message in every state, each on a connection of its own.
pub fn every_kind<I: Implementation>(comparison: &mut Comparison<I>) -> Tried {
    play(comparison, |talk, _| {
        for state in 0..5 {
            for draft in kinds(&talk.gateway) {
                talk.reach(state)?;
                talk.draft(&draft, 1, if state == 4 { "refused 1" } else { "" })?;
            }
        }
        Ok(())
    })
}

/// Verdict 0: then all is 15, and 16 with another SessionID.
pub fn failed<I: Implementation>(comparison: &mut Comparison<I>) -> Tried {
    play(comparison, |talk, _| {
        talk.reach(4)?;
        let gateway = talk.gateway.clone();
        for draft in gateway.enrolment().map(|(draft, _)| draft).iter().chain(&gateway.replies()) {
            talk.draft(draft, 1, "refused 15")?;
            let mut foreign = draft.clone();
            foreign.header.session ^= 2;
            talk.draft(&foreign, 1, "refused 16")?;
        }
        talk.draft(&gateway.piece(0, 0, 1, &[]), 1, "refused 15")?;
        talk.draft(&presence_request(), 1, "refused 15")
    })
}

/// Reports of 1, 2, 63 and 64 pieces: in order, reversed, the last first, each twice; one that is
/// disturbed, and the empty one.
pub fn reports<I: Implementation>(comparison: &mut Comparison<I>) -> Tried {
    play(comparison, |talk, prng| {
        talk.enrol(16, 3)?;
        for (count, length) in [(1, 9), (2, 32), (63, 63 * 16 - 3), (64, 64 * 16)] {
            let order: Vec<usize> = (0..count).collect();
            let reversed: Vec<usize> = order.iter().rev().copied().collect();
            let last_first: Vec<usize> = (0..count).map(|at| (at + count - 1) % count).collect();
            let twice: Vec<usize> = order.iter().flat_map(|&index| [index, index]).collect();
            for order in [&order, &reversed, &last_first, &twice] {
                talk.report(16, &prng.bytes(length), order, false)?;
            }
        }
        talk.report(16, &prng.bytes(500), &(0..32).rev().collect::<Vec<_>>(), true)?;
        talk.report(16, &[], &[0], false)
    })
}

/// Fragments of 1 byte and of 16,384; F and verdict outside their bounds.
pub fn sizes<I: Implementation>(comparison: &mut Comparison<I>) -> Tried {
    play(comparison, |talk, prng| {
        talk.enrol(1, 3)?;
        talk.report(1, &prng.bytes(64), &(0..64).rev().collect::<Vec<_>>(), false)?;
        talk.enrol(16_384, 3)?;
        talk.report(16_384, &prng.bytes(16_389), &[1, 0], false)?;
        let [(request, _), ..] = talk.gateway.enrolment();
        for size in [0, 16_385, u32::MAX] {
            talk.open(size, 24)?;
            talk.draft(&request, 1, "refused 24")?;
            talk.draft(&request, 2, "refused 25")?;
            talk.hear(&[], 0, "refused 24")?;
        }
        talk.open(16, 0)?;
        talk.draft(&request, 2, "refused 25")?;
        talk.hear(&[], 255, "refused 25")?;
        talk.draft(&request, 0, "reply 1")
    })
}

/// Pieces that conflict, each with the faults of later rows too.
pub fn conflicts<I: Implementation>(comparison: &mut Comparison<I>) -> Tried {
    play(comparison, |talk, _| {
        talk.enrol(4, 3)?;
        let gateway = talk.gateway.clone();
        let mut other_channel = gateway.piece(1, 2, 3, &[1; 3]);
        other_channel.header.channel ^= 1;
        let certificate = Credentials { certificate: &[9; 2048], thumbprint: &[8; 512] };
        let authentication = gateway.connect(Connect::AuthenticationRequest(certificate));
        let piece =
            |sequence, index, count, bytes: &[u8]| gateway.piece(sequence, index, count, bytes);
        let script = [
            (ROOM, piece(u32::MAX, 0, 1, &[0; 9]), "refused 19"),
            (ROOM, piece(1, 0, 1, &[0; 9]), "refused 18"),
            (ROOM, piece(0, 0, 1, &[7; 4]), "complete 4 in 1 pieces"),
            (ROOM, piece(0, 0, 1, &[7; 4]), "refused 17"),
            (ROOM, piece(1, 0, 3, &[1; 3]), "refused 20"),
            (ROOM, piece(1, 2, 3, &[]), "refused 20"),
            (ROOM, piece(1, 2, 3, &[1; 5]), "refused 20"),
            (10, piece(1, 2, 3, &[1; 5]), "refused 20"),
            (10, piece(1, 2, 3, &[1; 3]), "refused 22"),
            (8, piece(1, 1, 3, &[3; 4]), "taken 1"),
            (7, piece(1, 1, 3, &[3, 3, 3, 2]), "refused 22"),
            (7, piece(1, 1, 3, &[3; 5]), "refused 20"),
            (3, piece(1, 0, 3, &[4; 4]), "refused 22"),
            (11, piece(1, 2, 3, &[1; 3]), "taken 2"),
            (ROOM, piece(1, 0, 2, &[1; 9]), "refused 21"),
            (ROOM, other_channel, "refused 21"),
            (ROOM, piece(1, 2, 3, &[1; 5]), "refused 20"),
            (ROOM, piece(1, 2, 3, &[1; 2]), "refused 23"),
            (ROOM, piece(1, 2, 3, &[1, 1, 2]), "refused 23"),
            (11, piece(1, 2, 3, &[1; 3]), "repeat 2"),
            (11, piece(1, 0, 3, &[4; 4]), "complete 11 in 3 pieces"),
            (0, piece(2, 0, 1, &[]), "complete 0 in 1 pieces"),
            (ROOM, authentication, "refused 15"),
        ];
        for (room, draft, expected) in &script {
            talk.room = *room;
            talk.draft(draft, 1, expected)?;
        }
        Ok(())
    })
}
