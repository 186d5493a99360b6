// SPDX-License-Identifier: MPL-2.0
//! A message to be read and a message to be written, each with what must be answered.

use second::compare::{Comparison, Difference, Implementation};
use second::connection::{Connection, State};
use second::generate::{Case, WriteCase};
use second::header::{Header, Kind, SEALED};
use second::message::part;
use second::prng::Prng;

use super::as_expected;
use crate::samples;

/// Bytes for a payload, always the same.
pub fn noise(length: usize) -> Vec<u8> {
    Prng::new(0x6361_7365).bytes(length)
}

/// The keys of every sweep.
pub const KEYS: [u8; 64] = *b"the cipher's keythe vector's keythe tag's key: thirty-two bytes.";

/// Fields of which each byte is another, for an unfragmented message of this kind.
pub fn fields(kind: Kind, flags: u16) -> Header {
    Header {
        message_type: kind.number(),
        flags,
        sequence: 0x0102_0304,
        request: 0x1112_1314_1516_1718,
        index: 0,
        count: 1,
        session: 0x2122_2324_2526_2728,
        channel: 0x3132_3334_3536_3738,
    }
}

/// A step with a message that may have any fault, on a connection in this state.
pub fn step_of(message: Vec<u8>, state: State) -> Case {
    let Header { session, sequence: expected, .. } = fields(Kind::Session, SEALED);
    let state = state as u8;
    let connection =
        Connection { fragment_size: 16, state, session, expected, ..Default::default() };
    let (keys, working) = (KEYS.to_vec(), vec![0xAA; message.len()]);
    Case { connection, message, keys, working, report: vec![0x55; 64], verdict: 1 }
}

/// A message to be read, and what must be answered: fields and payload, or a refusal's number.
pub struct Reading {
    /// The message, with keys and buffers.
    pub case: Case,
    /// The answer.
    pub expected: Result<(Header, Vec<u8>), u8>,
}

impl Reading {
    /// How many bytes of the working buffer may change.
    fn opened(&self) -> usize {
        match &self.expected {
            Ok((header, payload)) if header.sealed() => (4 + payload.len()).next_multiple_of(16),
            Err(14) => self.case.working.len(),
            _ => 0,
        }
    }

    /// The reader answers as expected and as the second implementation does.
    pub fn read<I: Implementation>(
        &self,
        comparison: &mut Comparison<I>,
    ) -> Result<(), Difference> {
        let Case { message, keys, working: before, .. } = &self.case;
        let mut working = before.clone();
        let read = comparison.other.read_message(message, keys, &mut working);
        let found = match &read {
            Ok(read) => Ok((read.header, part(Some(&read.payload), message, &working).to_vec())),
            Err(refusal) => Err(refusal.number()),
        };
        as_expected(&self.case, &self.expected, &found)?;
        let opened = self.opened();
        as_expected(&self.case, &&before[opened..], &&working[opened..])?;
        let mut second = self.case.clone();
        as_expected(&self.case, &(second.read(), second.working), &(read, working))
    }

    /// The same, and the step.
    pub fn judge<I: Implementation>(
        &self,
        comparison: &mut Comparison<I>,
    ) -> Result<(), Difference> {
        self.read(comparison)?;
        comparison.step(&self.case).map(|_| ())
    }
}

/// A call of the writer, and what must be answered: the length, or a refusal's number.
pub struct Writing {
    /// The call.
    pub case: WriteCase,
    /// The answer.
    pub expected: Result<usize, u8>,
}

impl Writing {
    /// A call with an output of one byte more than these, which are what the message must have.
    pub fn new(header: Header, chain: &[u8], payload: &[u8], length: usize) -> Writing {
        let (chain, payload) = (chain.to_vec(), payload.to_vec());
        let output = vec![0xEE; length + 1];
        let case = WriteCase { header, chain, payload, keys: KEYS.to_vec(), output };
        Writing { case, expected: Ok(length) }
    }

    /// The writer answers as expected and as the second implementation does; a refusal leaves the
    /// output as it was. Answers the message, of no bytes if it is refused.
    pub fn judge<I: Implementation>(
        &self,
        comparison: &mut Comparison<I>,
    ) -> Result<Vec<u8>, Difference> {
        let WriteCase { header, chain, payload, keys, output } = &self.case;
        let mut out = output.clone();
        let written = comparison.other.write_message(header, chain, payload, keys, &mut out);
        as_expected(&self.case, &self.expected, &written.map_err(|refusal| refusal.number()))?;
        let length = written.unwrap_or(0);
        as_expected(&self.case, &&output[length..], &&out[length..])?;
        let mut second = self.case.clone();
        as_expected(&self.case, &(second.write(), &second.output), &(written, &out))?;
        out.truncate(length);
        Ok(out)
    }

    /// The same, and what was written is read back. Answers the step that takes it.
    pub fn there_and_back<I: Implementation>(
        &self,
        comparison: &mut Comparison<I>,
    ) -> Result<Case, Difference> {
        let message = self.judge(comparison)?;
        let WriteCase { header, payload, keys, .. } = &self.case;
        let case = samples::cases(keys, &message).0;
        let reading = Reading { case, expected: Ok((*header, payload.clone())) };
        reading.judge(comparison)?;
        Ok(reading.case)
    }
}
