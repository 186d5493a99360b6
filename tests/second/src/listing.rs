// SPDX-License-Identifier: MPL-2.0
//! The listing program: messages back to back, one line each.

use std::io::{self, ErrorKind, Read, Write};

use crate::header::{SHORTEST, read_header};
use crate::refusal::Refusal;

/// Where in a message its MessageLength stands.
const LENGTH: std::ops::Range<usize> = 2..4;

/// How many bytes the next message of a stream has, by what has come of it: MessageLength, at least
/// 42; 42 where MessageLength has not come yet.
pub fn wanted(bytes: &[u8]) -> usize {
    let length =
        bytes.get(LENGTH).map_or(0, |said| usize::from(said[0]) * 256 + usize::from(said[1]));
    length.max(SHORTEST)
}

/// The messages of a stream: MessageLength bytes at a time, at least 42, or what is left. A read
/// that fails is its end.
pub struct Messages<R>(R);

impl<R: Read> Messages<R> {
    /// The messages that `input` holds, however short its reads are.
    pub fn new(input: R) -> Self {
        Messages(input)
    }

    /// Reads on until `message` has `length` bytes or nothing is left.
    fn fill(&mut self, message: &mut Vec<u8>, length: usize) {
        let mut had = message.len();
        message.resize(length.max(had), 0);
        while had < length {
            match self.0.read(&mut message[had..]) {
                Ok(0) => break,
                Ok(more) => had += more,
                Err(error) if error.kind() == ErrorKind::Interrupted => {}
                Err(_) => break,
            }
        }
        message.truncate(had);
    }
}

impl<R: Read> Iterator for Messages<R> {
    type Item = Vec<u8>;

    fn next(&mut self) -> Option<Vec<u8>> {
        let mut message = Vec::new();
        self.fill(&mut message, SHORTEST);
        if message.len() == SHORTEST {
            let length = wanted(&message);
            self.fill(&mut message, length);
        }
        (!message.is_empty()).then_some(message)
    }
}

/// What the listing says of one message, without the newline; refusals 1 to 9.
pub fn line(message: &[u8]) -> Result<String, Refusal> {
    let header = read_header(message)?.header;
    let (kind, sequence) = (header.message_type, header.sequence);
    let (index, count, length) = (header.index, header.count, message.len());
    Ok(format!("{kind} {sequence} {index} {count} {length}"))
}

/// Lists `input` on `output`; a refusal is the last line. Only writing can fail.
pub fn list(input: impl Read, mut output: impl Write) -> io::Result<()> {
    for message in Messages::new(input) {
        match line(&message) {
            Ok(line) => writeln!(output, "{line}")?,
            Err(refusal) => {
                writeln!(output, "{refusal}")?;
                break;
            }
        }
    }
    output.flush()
}
