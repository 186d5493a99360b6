// SPDX-License-Identifier: MPL-2.0
//! A message described, built, and judged by its description: its bytes and the answer that it must
//! get are both made from the description, the answer without looking at the bytes.

use second::compare::{Comparison, Difference, Implementation};
use second::connection::State;
use second::header::{Framed, Header, Kind, read_header};
use second::refusal::Refusal;
use second::writer::header_bytes;

use super::as_expected;
use super::trial::{Writing, fields, step_of};

/// What stands in entries and after the chain.
const FILLER: u8 = 0xE1;

/// A message of `given` bytes: its fields, and a chain of like entries and an end.
#[derive(Clone, Copy, Debug)]
pub struct Described {
    /// How many bytes are given.
    pub given: usize,
    /// Signature.
    pub signature: u16,
    /// MessageLength.
    pub said: u16,
    /// Version.
    pub version: u8,
    /// The other fields.
    pub header: Header,
    /// How many entries the chain has.
    pub entries: usize,
    /// The type of each.
    pub entry_type: u8,
    /// The size of each.
    pub entry_size: u8,
    /// The size of the chain's end.
    pub end_size: u8,
}

/// A plain Connect message of 130 bytes with an empty chain.
pub fn plain() -> Described {
    Described {
        given: 130,
        signature: 0x3030,
        said: 130,
        version: 3,
        header: fields(Kind::Connect, 0),
        entries: 0,
        entry_type: 1,
        entry_size: 0,
        end_size: 0,
    }
}

/// A sealed Session message of 122 bytes, three blocks, with an empty chain.
pub fn sealed() -> Described {
    Described { given: 122, said: 122, header: fields(Kind::Session, 6), ..plain() }
}

impl Described {
    /// The same with this number of bytes, as MessageLength says if it can.
    pub fn of(self, given: usize) -> Described {
        Described { given, said: given as u16, ..self }
    }

    fn chain(&self) -> Vec<u8> {
        let mut entry = vec![self.entry_type, self.entry_size];
        entry.resize(2 + usize::from(self.entry_size), FILLER);
        let mut chain = entry.repeat(self.entries);
        chain.extend([0, self.end_size]);
        chain
    }

    /// The message's bytes.
    pub fn bytes(&self) -> Vec<u8> {
        let signature = self.signature.to_be_bytes();
        let front = header_bytes(signature, self.said, self.version, &self.header);
        let mut bytes = [&front[..], &self.chain()].concat();
        bytes.resize(self.given, FILLER);
        bytes
    }

    /// Bytes of the tag.
    fn tag(&self) -> usize {
        if self.header.flags & 2 != 0 { 32 } else { 0 }
    }

    /// Where the payload or the sealed part starts.
    fn start(&self) -> usize {
        42 + self.entries * (2 + usize::from(self.entry_size))
    }

    fn flags_fault(&self) -> bool {
        let Header { message_type, flags, .. } = self.header;
        match (flags & 6, message_type) {
            (2 | 4, _) | (6, 1) | (0, 4) => true,
            _ => flags >= 16,
        }
    }

    fn piece_fault(&self) -> bool {
        let Header { message_type, index, count, .. } = self.header;
        !(1..=64).contains(&count) || index >= count || message_type < 4 && count > 1
    }

    /// What is wrong with a chain wherever it stands.
    fn chain_fault(&self) -> bool {
        let unknown = self.entries > 0 && !(1..=3).contains(&self.entry_type);
        unknown || self.entries > 8 || self.end_size != 0
    }

    fn sealed_fault(&self) -> bool {
        let before = self.start() + self.tag();
        self.header.flags & 6 == 6 && (self.given <= before || self.given % 16 != before % 16)
    }

    /// Which of document 01's rows 1 to 9 apply.
    fn rows(&self) -> [bool; 9] {
        [
            self.given < 42,
            self.signature != 0x3030,
            self.said < 42 || usize::from(self.said) != self.given,
            self.version != 3,
            ![1, 2, 4].contains(&self.header.message_type),
            self.flags_fault(),
            self.piece_fault(),
            self.chain_fault() || self.given < self.start() + self.tag(),
            self.sealed_fault(),
        ]
    }

    /// The number that the message must get, or 0.
    pub fn number(&self) -> u8 {
        first(1, &self.rows())
    }

    fn read(&self) -> Result<Framed, Refusal> {
        match (self.number(), Kind::from_number(self.header.message_type)) {
            (0, Some(kind)) => {
                let body = self.start()..self.given - self.tag();
                Ok(Framed { header: self.header, kind, body })
            }
            (number, _) => Err(Refusal::from_number(number).expect("a row of the table")),
        }
    }

    /// The header's reader answers as expected and as the second implementation does.
    fn read_header<I: Implementation>(
        &self,
        comparison: &mut Comparison<I>,
    ) -> Result<(), Difference> {
        let message = self.bytes();
        let found = comparison.other.read_header(&message);
        as_expected(self, &self.read(), &found)?;
        as_expected(self, &read_header(&message), &found)
    }

    /// The writer does, given these fields, this chain and a Presence Request's payload, which
    /// Session takes too and Connect does not.
    fn write<I: Implementation>(&self, comparison: &mut Comparison<I>) -> Result<(), Difference> {
        let chain = self.chain();
        let [_, _, _, _, row_5, row_6, row_7, ..] = self.rows();
        let number = first(5, &[row_5, row_6, row_7, self.chain_fault()]);
        let mut writing = Writing::new(self.header, &chain, &[0], 88 + chain.len());
        match (number, self.header.message_type) {
            (0, 1) => writing.expected = Ok(41 + chain.len()),
            (0, 2) => writing.expected = Err(14),
            (0, _) => {}
            (number, _) => writing.expected = Err(number),
        }
        writing.judge(comparison).map(|_| ())
    }

    /// The header's reader and the writer.
    pub fn judge_fields<I: Implementation>(
        &self,
        comparison: &mut Comparison<I>,
    ) -> Result<(), Difference> {
        self.read_header(comparison)?;
        self.write(comparison)
    }

    /// Every reader, and the step.
    pub fn judge<I: Implementation>(
        &self,
        comparison: &mut Comparison<I>,
    ) -> Result<(), Difference> {
        self.read_header(comparison)?;
        let case = step_of(self.bytes(), State::Ready);
        comparison.read(&case)?;
        comparison.step(&case).map(|_| ())
    }

    /// Every reader, the step, and the writer.
    pub fn judge_all<I: Implementation>(
        &self,
        comparison: &mut Comparison<I>,
    ) -> Result<(), Difference> {
        self.judge(comparison)?;
        self.write(comparison)
    }
}

/// The number of the first row that applies, counted from this one; 0 if none does.
fn first(from: u8, rows: &[bool]) -> u8 {
    rows.iter().position(|applies| *applies).map_or(0, |row| from + row as u8)
}
