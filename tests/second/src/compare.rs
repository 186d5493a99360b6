// SPDX-License-Identifier: MPL-2.0
//! Holds another implementation against this one: after each call the answer, the connection and
//! every byte of every lent buffer must be the same.

use std::fmt::Debug;
use std::ops::Range;

use crate::client::{self, Client};
use crate::connection::{Answer, Connection};
use crate::crypto::{hmac, sha256};
use crate::cutter::cut;
use crate::draft::Damage;
use crate::generate::{Case, Conversation, CutCase, PayloadCase, PresenceCase, WriteCase};
use crate::generate::{case, client_case, connect_bytes, conversation, cut_case, discovery_bytes};
use crate::generate::{meeting, payload_case, presence_case, write_case};
use crate::header::{Framed, Header, read_header};
use crate::listing::{line, wanted};
use crate::message::{Message, part, read_message};
use crate::payload::{Connect, DiscoveryParts, Parts, Presence, read_connect, read_discovery};
use crate::payload::{write_connect, write_presence_request, write_presence_response};
use crate::prng::Prng;
use crate::refusal::Refusal;
use crate::writer::write_message;

mod client_side;

/// Document 01's calls, on buffers of the caller.
pub trait Implementation {
    /// The header reader.
    fn read_header(&mut self, message: &[u8]) -> Result<Framed, Refusal>;

    /// The message reader.
    fn read_message(
        &mut self,
        message: &[u8],
        keys: &[u8],
        working: &mut [u8],
    ) -> Result<Message, Refusal>;

    /// The writer.
    fn write_message(
        &mut self,
        header: &Header,
        chain: &[u8],
        payload: &[u8],
        keys: &[u8],
        output: &mut [u8],
    ) -> Result<usize, Refusal>;

    /// The writer of a Presence Request's payload.
    fn write_presence_request(&mut self, output: &mut [u8]) -> Result<usize, Refusal>;

    /// The writer of a Presence Response's payload.
    fn write_presence_response(
        &mut self,
        presence: Presence<'_>,
        output: &mut [u8],
    ) -> Result<usize, Refusal>;

    /// The writers of Connect payloads.
    fn write_connect(
        &mut self,
        mode: u16,
        connect: Connect<'_>,
        output: &mut [u8],
    ) -> Result<usize, Refusal>;

    /// The reader of Connect payloads.
    fn read_connect(&mut self, payload: &[u8]) -> Result<Parts, Refusal>;

    /// The reader of Discovery payloads.
    fn read_discovery(&mut self, payload: &[u8]) -> Result<DiscoveryParts, Refusal>;

    /// How many bytes the next message of a stream has.
    fn wanted(&mut self, bytes: &[u8]) -> usize;

    /// Opening a connection: the connection answered, and what refused it.
    fn open(&mut self, fragment_size: u32) -> (Connection, Result<(), Refusal>);

    /// A step.
    fn step(
        &mut self,
        connection: Connection,
        message: &[u8],
        keys: &[u8],
        working: &mut [u8],
        report: &mut [u8],
        verdict: u64,
    ) -> (Connection, Answer);

    /// Opening the gateway's side: the connection answered, and what refused it.
    fn gateway_open(&mut self, fragment_size: u32, session: u64) -> (Client, Result<(), Refusal>);

    /// A step of the gateway's side.
    fn gateway_step(
        &mut self,
        client: Client,
        message: &[u8],
        keys: &[u8],
        working: &mut [u8],
        verdict: u64,
    ) -> (Client, client::Answer);

    /// The type of the request that is due on the gateway's side, if one is.
    fn gateway_due(&mut self, client: Client) -> Option<u8>;

    /// The cutter: the count, where in the report the piece lies, and what refused it.
    fn cut(&mut self, report: &[u8], fragment_size: u32, index: u32) -> Piece;

    /// The listing's line for one message.
    fn line(&mut self, message: &[u8]) -> Result<String, Refusal>;

    /// SHA-256.
    fn sha256(&mut self, data: &[u8]) -> [u8; 32];

    /// HMAC-SHA-256 under a key of 32 bytes.
    fn hmac(&mut self, key: &[u8; 32], data: &[u8]) -> [u8; 32];
}

/// What the cutter answers, as places.
pub type Piece = (u16, Range<usize>, Result<(), Refusal>);

/// This implementation.
pub struct Second;

impl Implementation for Second {
    fn read_header(&mut self, message: &[u8]) -> Result<Framed, Refusal> {
        read_header(message)
    }

    fn read_message(
        &mut self,
        message: &[u8],
        keys: &[u8],
        working: &mut [u8],
    ) -> Result<Message, Refusal> {
        read_message(message, keys, working)
    }

    fn write_message(
        &mut self,
        header: &Header,
        chain: &[u8],
        payload: &[u8],
        keys: &[u8],
        output: &mut [u8],
    ) -> Result<usize, Refusal> {
        write_message(header, chain, payload, keys, output)
    }

    fn write_presence_request(&mut self, output: &mut [u8]) -> Result<usize, Refusal> {
        write_presence_request(output)
    }

    fn write_presence_response(
        &mut self,
        presence: Presence<'_>,
        output: &mut [u8],
    ) -> Result<usize, Refusal> {
        write_presence_response(presence, output)
    }

    fn write_connect(
        &mut self,
        mode: u16,
        connect: Connect<'_>,
        output: &mut [u8],
    ) -> Result<usize, Refusal> {
        write_connect(mode, connect, output)
    }

    fn read_connect(&mut self, payload: &[u8]) -> Result<Parts, Refusal> {
        read_connect(payload)
    }

    fn read_discovery(&mut self, payload: &[u8]) -> Result<DiscoveryParts, Refusal> {
        read_discovery(payload)
    }

    fn wanted(&mut self, bytes: &[u8]) -> usize {
        wanted(bytes)
    }

    fn open(&mut self, fragment_size: u32) -> (Connection, Result<(), Refusal>) {
        Connection::open(fragment_size)
    }

    fn step(
        &mut self,
        connection: Connection,
        message: &[u8],
        keys: &[u8],
        working: &mut [u8],
        report: &mut [u8],
        verdict: u64,
    ) -> (Connection, Answer) {
        connection.step(message, keys, working, report, verdict)
    }

    fn gateway_open(&mut self, fragment_size: u32, session: u64) -> (Client, Result<(), Refusal>) {
        Client::open(fragment_size, session)
    }

    fn gateway_step(
        &mut self,
        client: Client,
        message: &[u8],
        keys: &[u8],
        working: &mut [u8],
        verdict: u64,
    ) -> (Client, client::Answer) {
        client.step(message, keys, working, verdict)
    }

    fn gateway_due(&mut self, client: Client) -> Option<u8> {
        client.due()
    }

    fn cut(&mut self, report: &[u8], fragment_size: u32, index: u32) -> Piece {
        let (cut, refused) = cut(report, fragment_size, index);
        let start = cut.piece.as_ptr() as usize - report.as_ptr() as usize;
        (cut.count, start..start + cut.piece.len(), refused)
    }

    fn line(&mut self, message: &[u8]) -> Result<String, Refusal> {
        line(message)
    }

    fn sha256(&mut self, data: &[u8]) -> [u8; 32] {
        sha256(data)
    }

    fn hmac(&mut self, key: &[u8; 32], data: &[u8]) -> [u8; 32] {
        hmac(key, data)
    }
}

/// A call on which the two differ, with all that it takes and what each made of it.
#[derive(Debug)]
pub struct Difference(pub String);

/// How many calls agreed.
#[derive(Clone, Copy, Debug, Default, PartialEq, Eq)]
pub struct Tally {
    /// Steps of the host's side, those of conversations and meetings included.
    pub steps: u64,
    /// Whole conversations.
    pub conversations: u64,
    /// Steps of the gateway's side, those of meetings included.
    pub gateway_steps: u64,
    /// Whole conversations between both sides.
    pub meetings: u64,
    /// Messages read, without a step.
    pub reads: u64,
    /// Calls of the writer.
    pub writes: u64,
    /// Payloads written by their own writers, or read by theirs.
    pub payloads: u64,
    /// Calls of the cutter.
    pub cuts: u64,
    /// Digests, with and without a key.
    pub digests: u64,
}

/// Another implementation beside this one, and how often they have agreed.
pub struct Comparison<I> {
    /// The other one.
    pub other: I,
    /// How often they have agreed.
    pub tally: Tally,
}

/// Tells the difference between the two, if there is one.
fn same<T: PartialEq + Debug>(input: &dyn Debug, ours: T, theirs: T) -> Result<(), Difference> {
    if ours == theirs {
        return Ok(());
    }
    Err(Difference(format!("{input:02x?}\nthis one:  {ours:02x?}\nthe other: {theirs:02x?}")))
}

impl<I: Implementation> Comparison<I> {
    /// Nothing compared so far.
    pub fn new(other: I) -> Self {
        Comparison { other, tally: Tally::default() }
    }

    /// Sixty single steps, one conversation, and four each of calls of the writer, of the cutter,
    /// of the digests, and of each of the payloads' writers and readers; then twelve single steps
    /// of the gateway's side and a meeting of both sides. These last draw from a generator of their
    /// own, so that all else in the rounds of a seed is what it was without them.
    pub fn round(&mut self, prng: &mut Prng) -> Result<(), Difference> {
        for _ in 0..60 {
            let case = case(prng);
            self.read(&case)?;
            self.step(&case)?;
        }
        for _ in 0..4 {
            self.write(&write_case(prng))?;
            self.cut(&cut_case(prng))?;
            let length = prng.below(300);
            self.digest(&prng.array(), &prng.bytes(length))?;
        }
        self.converse(&conversation(prng))?;
        for _ in 0..4 {
            self.write_payload(&payload_case(prng))?;
            self.read_payload(&connect_bytes(prng))?;
            self.write_presence(&presence_case(prng))?;
            self.read_payload(&discovery_bytes(prng))?;
        }
        let aside = &mut prng.aside();
        for _ in 0..12 {
            self.gateway_step(&client_case(aside))?;
        }
        self.meet(&meeting(aside))
    }

    /// The header reader, the listing's line, the message reader and the length in a stream on a
    /// case's message; and the readers of payloads on its payload.
    pub fn read(&mut self, case: &Case) -> Result<(), Difference> {
        let message = &case.message;
        same(message, wanted(message), self.other.wanted(message))?;
        same(message, read_header(message), self.other.read_header(message))?;
        same(message, line(message), self.other.line(message))?;
        let (mut ours, mut theirs) = (case.working.clone(), case.working.clone());
        let our_answer = read_message(message, &case.keys, &mut ours);
        let their_answer = self.other.read_message(message, &case.keys, &mut theirs);
        same(case, (&our_answer, &ours), (&their_answer, &theirs))?;
        self.tally.reads += 1;
        match our_answer {
            Ok(read) => self.read_payload(part(Some(&read.payload), message, &ours)),
            Err(_) => Ok(()),
        }
    }

    /// One step.
    pub fn step(&mut self, case: &Case) -> Result<Answer, Difference> {
        let (mut ours, mut theirs) = (case.clone(), case.clone());
        let our_answer = ours.step();
        let their_answer = step(&mut self.other, &mut theirs);
        let buffers = |case: Case| (case.working, case.report);
        same(case, (our_answer, buffers(ours)), (their_answer, buffers(theirs)))?;
        self.tally.steps += 1;
        Ok(our_answer.1)
    }

    /// A whole conversation, from opening the connection on.
    pub fn converse(&mut self, talk: &Conversation) -> Result<(), Difference> {
        let size = talk.fragment_size;
        let opened = Connection::open(size);
        same(&size, opened, self.other.open(size))?;
        let connection = opened.0;
        let hub = Case {
            connection,
            message: Vec::new(),
            keys: talk.keys.to_vec(),
            working: vec![0xAA; talk.working],
            report: vec![0x55; talk.report],
            verdict: 0,
        };
        let mut hubs = [hub.clone(), hub];
        for (number, delivery) in talk.deliveries.iter().enumerate() {
            self.hubs_hear(&(number, talk), &mut hubs, &delivery.message, delivery.verdict)?;
        }
        self.tally.conversations += 1;
        Ok(())
    }

    /// One more message of a conversation at both hubs, this implementation's first.
    fn hubs_hear(
        &mut self,
        input: &dyn Debug,
        hubs: &mut [Case; 2],
        message: &[u8],
        verdict: u64,
    ) -> Result<(), Difference> {
        for hub in hubs.iter_mut() {
            message.clone_into(&mut hub.message);
            hub.verdict = verdict;
        }
        let [ours, theirs] = hubs;
        let (our_answer, their_answer) = (ours.step(), step(&mut self.other, theirs));
        same(input, our_answer, their_answer)?;
        same(input, (&ours.working, &ours.report), (&theirs.working, &theirs.report))?;
        (ours.connection, theirs.connection) = (our_answer.0, their_answer.0);
        self.tally.steps += 1;
        Ok(())
    }

    /// One call of the writer.
    pub fn write(&mut self, case: &WriteCase) -> Result<(), Difference> {
        self.same_bytes(case)?;
        self.tally.writes += 1;
        Ok(())
    }

    fn same_bytes(&mut self, case: &WriteCase) -> Result<(), Difference> {
        let (mut ours, mut theirs) = (case.clone(), case.output.clone());
        let our_answer = ours.write();
        let WriteCase { header, chain, payload, keys, .. } = case;
        let their_answer = self.other.write_message(header, chain, payload, keys, &mut theirs);
        same(case, (our_answer, ours.output), (their_answer, theirs))
    }

    /// One call of a Connect payload's writer, and the Presence Request's with the same output.
    pub fn write_payload(&mut self, case: &PayloadCase) -> Result<(), Difference> {
        let (mut ours, mut theirs) = (case.clone(), case.output.clone());
        let our_answer = ours.write();
        let their_answer = self.other.write_connect(case.mode, case.connect(), &mut theirs);
        same(case, (our_answer, ours.output), (their_answer, theirs))?;
        let (mut ours, mut theirs) = (case.output.clone(), case.output.clone());
        let our_answer = write_presence_request(&mut ours);
        let their_answer = self.other.write_presence_request(&mut theirs);
        same(&case.output, (our_answer, ours), (their_answer, theirs))?;
        self.tally.payloads += 2;
        Ok(())
    }

    /// One call of the Presence Response's writer.
    pub fn write_presence(&mut self, case: &PresenceCase) -> Result<(), Difference> {
        let (mut ours, mut theirs) = (case.clone(), case.output.clone());
        let our_answer = ours.write();
        let their_answer = self.other.write_presence_response(case.presence(), &mut theirs);
        same(case, (our_answer, ours.output), (their_answer, theirs))?;
        self.tally.payloads += 1;
        Ok(())
    }

    /// The readers of Connect and of Discovery payloads on any bytes, and the length of a message
    /// that starts so.
    pub fn read_payload(&mut self, bytes: &[u8]) -> Result<(), Difference> {
        same(&bytes, read_connect(bytes), self.other.read_connect(bytes))?;
        same(&bytes, read_discovery(bytes), self.other.read_discovery(bytes))?;
        same(&bytes, wanted(bytes), self.other.wanted(bytes))?;
        self.tally.payloads += 1;
        Ok(())
    }

    /// One call of the cutter.
    pub fn cut(&mut self, case: &CutCase) -> Result<(), Difference> {
        let CutCase { report, fragment_size, index } = case;
        let ours = Second.cut(report, *fragment_size, *index);
        same(case, ours, self.other.cut(report, *fragment_size, *index))?;
        self.tally.cuts += 1;
        Ok(())
    }

    /// SHA-256, and HMAC under this key.
    pub fn digest(&mut self, key: &[u8; 32], data: &[u8]) -> Result<(), Difference> {
        same(&data, sha256(data), self.other.sha256(data))?;
        same(&(key, data), hmac(key, data), self.other.hmac(key, data))?;
        self.tally.digests += 1;
        Ok(())
    }

    /// A fault at every place: the message cut at every length, every bit of it flipped, keys, working
    /// buffer and report buffer at every size from none to what the case has.
    pub fn every_fault(&mut self, case: &Case) -> Result<(), Difference> {
        let messages = spoilt(&case.message).into_iter();
        let mut faulty: Vec<_> = messages.map(|message| Case { message, ..case.clone() }).collect();
        let shorter: [fn(&mut Case) -> &mut Vec<u8>; 3] =
            [|case| &mut case.keys, |case| &mut case.working, |case| &mut case.report];
        for buffer in shorter {
            let whole = buffer(&mut case.clone()).len();
            for length in 0..=whole {
                let mut short = case.clone();
                buffer(&mut short).truncate(length);
                faulty.push(short);
            }
        }
        for case in &faulty {
            self.read(case)?;
            self.step(case)?;
        }
        Ok(())
    }

    /// The writer with an output of every size from none to one more than enough.
    pub fn every_output(&mut self, case: &WriteCase) -> Result<(), Difference> {
        for length in 0..=case.output.len() {
            let output = case.output[..length].to_vec();
            self.write(&WriteCase { output, ..case.clone() })?;
        }
        Ok(())
    }
}

/// A message cut at every length, and with each bit flipped.
fn spoilt(message: &[u8]) -> Vec<Vec<u8>> {
    let cut = (0..message.len()).map(|length| message[..length].to_vec());
    let flipped = (0..8 * message.len()).map(|bit| {
        let mut flipped = message.to_vec();
        Damage::Flip(bit).befall(&mut flipped);
        flipped
    });
    cut.chain(flipped).collect()
}

fn step(other: &mut impl Implementation, case: &mut Case) -> (Connection, Answer) {
    let (working, report) = (&mut case.working, &mut case.report);
    other.step(case.connection, &case.message, &case.keys, working, report, case.verdict)
}
