// SPDX-License-Identifier: MPL-2.0
//! The listing: a line for each message.

use core::fmt;
use core::ops::Deref;

use crate::{ffi, Refusal};

/// What the listing says of a message, without the newline: a text that is held by value.
#[derive(Clone, Copy)]
pub struct Line {
    bytes: [u8; 64],
    length: usize,
}

impl Line {
    /// The text.
    pub fn as_str(&self) -> &str {
        // The library writes digits and blanks alone, inside the 64 bytes.
        let text = self.bytes.get(..self.length).unwrap_or_default().trim_ascii_end();
        core::str::from_utf8(text).unwrap_or_default()
    }
}

impl Deref for Line {
    type Target = str;

    fn deref(&self) -> &str {
        self.as_str()
    }
}

impl AsRef<str> for Line {
    fn as_ref(&self) -> &str {
        self
    }
}

impl fmt::Display for Line {
    fn fmt(&self, f: &mut fmt::Formatter<'_>) -> fmt::Result {
        fmt::Display::fmt(self.as_str(), f)
    }
}

impl fmt::Debug for Line {
    fn fmt(&self, f: &mut fmt::Formatter<'_>) -> fmt::Result {
        fmt::Debug::fmt(self.as_str(), f)
    }
}

impl PartialEq for Line {
    fn eq(&self, other: &Line) -> bool {
        self.as_str() == other.as_str()
    }
}

impl Eq for Line {}

impl PartialEq<&str> for Line {
    fn eq(&self, other: &&str) -> bool {
        self.as_str() == *other
    }
}

/// What the listing says of a message: type, sequence, index, count and length, in decimal.
///
/// ```
/// # use hlidunsk::payload::PresenceRequest;
/// # use hlidunsk::{list, write, Refusal, NO_ENTRIES};
/// # let mut message = [0; 43];
/// # write(&PresenceRequest.header(), NO_ENTRIES, &[0], None, &mut message)?;
/// assert_eq!(list(&message)?, "1 0 0 1 43");
/// assert_eq!(list(&message[..42]), Err(Refusal::WrongLength));
/// # Ok::<(), Refusal>(())
/// ```
///
/// # Errors
///
/// Refusals 1 to 9, in this order. The listing's own line for one is `refused N`.
pub fn list(message: &[u8]) -> Result<Line, Refusal> {
    let (mut bytes, mut length) = ([0; 64], [0]);
    // SAFETY: pointers and lengths are those of slices; the mutable ones overlap no other.
    Refusal::of(unsafe {
        ffi::hub_list(
            message.as_ptr(),
            message.len(),
            bytes.as_mut_ptr(),
            bytes.len(),
            length.as_mut_ptr(),
            length.len(),
        )
    })?;
    Ok(Line { bytes, length: length[0] as usize })
}
