// SPDX-License-Identifier: MPL-2.0
//! The replay program: a capture played through one connection.

use crate::connection::{Answer, Connection};
use crate::header::MOST_PIECES;
use crate::refusal::Refusal;

/// The longest message, and so more than the longest sealed part.
const LONGEST: usize = u16::MAX as usize;

/// A connection with its keys, its verdict and both buffers.
#[derive(Clone)]
pub struct Player {
    connection: Connection,
    keys: [u8; 64],
    verdict: u64,
    working: Vec<u8>,
    report: Vec<u8>,
}

/// A report that a message completed.
#[derive(Clone, Copy, Debug, PartialEq, Eq)]
pub struct Report<'a> {
    /// Its SequenceNumber.
    pub sequence: u32,
    /// Its bytes.
    pub bytes: &'a [u8],
}

impl Player {
    /// A player of fragment size F, with room for any report; refuses with 24.
    pub fn new(keys: [u8; 64], fragment_size: u32, verdict: u64) -> Result<Player, Refusal> {
        let (connection, opened) = Connection::open(fragment_size);
        opened?;
        let room = fragment_size as usize * usize::from(MOST_PIECES);
        let (working, report) = (vec![0; LONGEST], vec![0; room]);
        Ok(Player { connection, keys, verdict, working, report })
    }

    /// Plays one message: the answer, and the report if it is complete.
    pub fn play(&mut self, message: &[u8]) -> (Answer, Option<Report<'_>>) {
        let sequence = self.connection.expected;
        let (working, report) = (&mut self.working, &mut self.report);
        let (next, answer) =
            self.connection.step(message, &self.keys, working, report, self.verdict);
        self.connection = next;
        let whole = match answer {
            Answer::Complete(length, _) => Some(Report { sequence, bytes: &self.report[..length] }),
            _ => None,
        };
        (answer, whole)
    }

    /// What is remembered so far.
    pub fn connection(&self) -> &Connection {
        &self.connection
    }
}
