// SPDX-License-Identifier: MPL-2.0
//! Connections that no course of steps gives, since they have heard indexes at and above the count.

use second::compare::{Comparison, Difference, Implementation};
use second::connection::{Answer, Connection, State};
use second::draft::Draft;
use second::header::{Header, Kind, SEALED};

use super::trial::{KEYS, fields, step_of};
use super::{Tried, as_expected, each, pairs};

/// F, and the length of the last piece.
const SIZE: u16 = 4;
const LAST: u16 = 3;

/// A connection that has heard these indexes of a message of this count, and a piece of it, whose
/// bytes the report buffer has already.
struct MadeUp {
    count: u16,
    heard: u64,
    index: u16,
}

impl MadeUp {
    fn has_heard(&self, index: u16) -> bool {
        self.heard >> index & 1 == 1
    }

    /// Every answer tells how many indexes below the count are heard, this piece's with them.
    fn expected(&self) -> Answer {
        let below = (0..self.count).filter(|&index| index == self.index || self.has_heard(index));
        let come = below.count() as u32;
        if self.has_heard(self.index) {
            Answer::Repeat(come)
        } else if come < self.count.into() {
            Answer::Taken(come)
        } else {
            Answer::Complete((SIZE * (self.count - 1) + LAST).into(), come)
        }
    }

    fn judge<I: Implementation>(&self, comparison: &mut Comparison<I>) -> Result<(), Difference> {
        let MadeUp { count, heard, index } = *self;
        let header = Header { index, count, ..fields(Kind::Session, SEALED) };
        let length = if index + 1 == count { LAST } else { SIZE };
        let draft = Draft::new(header, vec![0x55; length.into()]);
        let mut case = step_of(draft.bytes(&KEYS), State::Ready);
        case.report = vec![0x55; usize::from(SIZE * 64)];
        case.connection = Connection {
            fragment_size: SIZE.into(),
            heard,
            count,
            channel: header.channel,
            last_length: LAST.into(),
            ..case.connection
        };
        let answer = comparison.step(&case)?;
        as_expected(&case, &self.expected(), &answer)
    }
}

/// Of these sets of indexes those below the count, and of those at and above it.
fn sets(count: u16) -> ([u64; 6], [u64; 4]) {
    let (first, last, all) = (1, 1 << (count - 1), u64::MAX >> (64 - count));
    let below = [0, first, last, all & !first, all & !last, all];
    let next = if count < 64 { 1 << count } else { 0 };
    (below, [0, next, !all & 1 << 63, !all])
}

/// Counts at their edges; below each none, the first, the last, all but the first, all but the last
/// and all heard; at and above it none, the next, the highest and all; the first piece and the last.
pub fn heard<I: Implementation>(comparison: &mut Comparison<I>) -> Tried {
    let cases = [1, 2, 3, 63, 64].into_iter().flat_map(|count| {
        let (below, above) = sets(count);
        let cases = pairs(pairs(below, above), [0, count - 1]).into_iter();
        cases.map(move |((below, above), index)| MadeUp { count, heard: below | above, index })
    });
    each(comparison, cases, MadeUp::judge)
}
