// SPDX-License-Identifier: MPL-2.0
//! Digests and tags.

use crate::ffi;

/// SHA-256 (FIPS 180-4).
///
/// FIPS 180-4 ends below 2^61 bytes, which is more than a machine has: from there on the digest is
/// all zero.
///
/// ```
/// # use hlidunsk::digest;
/// assert_eq!(digest(b"abc")[..4], [0xBA, 0x78, 0x16, 0xBF]);
/// ```
pub fn digest(bytes: &[u8]) -> [u8; 32] {
    let mut out = [0; 32];
    // SAFETY: pointers and lengths are those of slices; the two do not overlap.
    let number =
        unsafe { ffi::hub_digest(bytes.as_ptr(), bytes.len(), out.as_mut_ptr(), out.len()) };
    debug_assert_eq!(number, 0, "an output of 32 bytes");
    out
}

/// HMAC-SHA-256 (RFC 2104) under a key of any length, of any bytes.
///
/// A key over 64 bytes is hashed first, as RFC 2104 says. From 2^61 - 64 bytes of `message` on the
/// inner digest is all zero, as [`digest`] has it, and the tag is made of that.
///
/// ```
/// # use hlidunsk::{hmac, same_tag};
/// let tag = hmac(b"Jefe", b"what do ya want for nothing?");
/// assert!(same_tag(&tag, &hmac(b"Jefe", b"what do ya want for nothing?")));
/// assert!(!same_tag(&tag, &hmac(b"Jefe", b"nothing")));
/// ```
pub fn hmac(key: &[u8], message: &[u8]) -> [u8; 32] {
    let mut out = [0; 32];
    // SAFETY: pointers and lengths are those of slices; `out` overlaps no other.
    let number = unsafe {
        let (key, key_n) = (key.as_ptr(), key.len());
        let (message, message_n) = (message.as_ptr(), message.len());
        ffi::hub_hmac(key, key_n, message, message_n, out.as_mut_ptr(), out.len())
    };
    debug_assert_eq!(number, 0, "an output of 32 bytes");
    out
}

/// Whether two tags are alike; all their bytes are read, wherever they differ.
pub fn same_tag(a: &[u8; 32], b: &[u8; 32]) -> bool {
    // SAFETY: pointers and lengths are those of arrays.
    unsafe { ffi::hub_tags_differ(a.as_ptr(), a.len(), b.as_ptr(), b.len()) == 0 }
}
