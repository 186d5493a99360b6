// SPDX-License-Identifier: MPL-2.0
//! Cutting a report, for a gateway's side.

use crate::message::part;
use crate::{ffi, Header, MessageType, Refusal};

/// A piece of a report.
#[derive(Clone, Copy, Debug, PartialEq, Eq, Hash)]
pub struct Piece<'a> {
    /// Which piece it is, from 0 on: FragmentIndex.
    pub index: u16,
    /// How many pieces the report makes: FragmentCount.
    pub count: u16,
    /// The piece's bytes: the payload of its message.
    pub bytes: &'a [u8],
}

impl Piece<'_> {
    /// The header of its message: sealed; RequestID and ChannelID are 0. All pieces of a report
    /// have the same SessionID, SequenceNumber and ChannelID.
    pub fn header(&self, session: u64, sequence: u32) -> Header {
        let Piece { index, count, .. } = *self;
        Header { session, sequence, index, count, ..Header::whole(MessageType::Session, true) }
    }
}

/// Cuts a report of 0 to 64 times F bytes: answers its piece `index`, from 0 on.
///
/// All pieces have F bytes, but the last, which has the rest; an empty report is one empty piece.
///
/// ```
/// # use hlidunsk::{cut, Refusal};
/// const F: usize = 4;
/// let report = b"ten bytes.";
/// let count = cut(report, F, 0)?.count;
/// assert_eq!(count, 3);
/// for index in 0..count {
///     let piece = cut(report, F, index.into())?;
///     assert_eq!(piece.index, index);
///     assert_eq!(piece.bytes, [&b"ten "[..], b"byte", b"s."][usize::from(index)]);
/// }
/// # Ok::<(), Refusal>(())
/// ```
///
/// # Errors
///
/// Refusal 24, then 7 where the report is longer than 64 times F or has no such piece.
pub fn cut(report: &[u8], fragment_size: usize, index: usize) -> Result<Piece<'_>, Refusal> {
    let mut piece = [0; 3];
    // SAFETY: pointers and lengths are those of slices; the two do not overlap.
    Refusal::of(unsafe {
        ffi::hub_cut(
            report.as_ptr(),
            report.len(),
            fragment_size as u64,
            index as u64,
            piece.as_mut_ptr(),
            piece.len(),
        )
    })?;
    let [count, from, size] = piece;
    // A piece that there is has an index below the count, which is at most 64.
    Ok(Piece { index: index as u16, count: count as u16, bytes: part(report, from, size)? })
}
