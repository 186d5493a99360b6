// SPDX-License-Identifier: MPL-2.0
//! Messages that come back to back.

use crate::ffi;

/// The longest message that is read: room of this size is enough for every message of a stream.
pub const MOST_READ: usize = 65_535;

/// How many bytes the next message of a stream has, by what has come of it, and maybe of more.
///
/// It is MessageLength, and at least 42 and at most [`MOST_READ`]. Of fewer than four bytes it is
/// 42, since MessageLength is not there yet; from four on it does not change with what comes after.
/// So read until there are as many bytes as it says, asking again when more have come; then these
/// are the next message.
///
/// It judges nothing: the message may be refused. Where MessageLength itself is wrong so are all
/// messages after it, which a new stream mends and nothing else: close a stream whose message is
/// refused with 2 or 3.
///
/// A stranger chooses the number that this answers, up to [`MOST_READ`]: receive into [`MOST_READ`]
/// bytes, as below, or drop the stream where the number exceeds your buffer. How long to wait for
/// the rest is the caller's to bound.
///
/// ```
/// use hlidunsk::{wanted, MOST_READ};
/// use std::io::{self, Read};
///
/// /// The next message of a stream; none where the stream is over.
/// fn next<'a>(
///     stream: &mut impl Read,
///     room: &'a mut [u8; MOST_READ],
/// ) -> io::Result<Option<&'a [u8]>> {
///     let mut held = 0;
///     while held < wanted(&room[..held]) {
///         let end = wanted(&room[..held]);
///         match stream.read(&mut room[held..end])? {
///             0 => return Ok(None),
///             more => held += more,
///         }
///     }
///     Ok(Some(&room[..held]))
/// }
/// #
/// # use hlidunsk::{cut, write, NO_ENTRIES};
/// # let (mut first, mut second) = ([0; 90], [0; 106]);
/// # for (report, out) in [(&b"one"[..], &mut first[..]), (b"another report", &mut second)] {
/// #     let piece = cut(report, 16, 0).unwrap();
/// #     write(&piece.header(42, 0), NO_ENTRIES, piece.bytes, Some(&[7; 64]), out).unwrap();
/// # }
///
/// // Two messages back to back, and the start of a third.
/// let mut stream: &[u8] = &[&first[..], &second, &first[..50]].concat();
/// let mut room = [0; MOST_READ];
/// assert_eq!(next(&mut stream, &mut room)?, Some(&first[..]));
/// assert_eq!(next(&mut stream, &mut room)?, Some(&second[..]));
/// assert_eq!(next(&mut stream, &mut room)?, None);
/// # Ok::<(), io::Error>(())
/// ```
pub fn wanted(bytes: &[u8]) -> usize {
    // SAFETY: pointer and length are those of a slice.
    unsafe { ffi::hub_wanted(bytes.as_ptr(), bytes.len()) as usize }
}
