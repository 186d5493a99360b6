// SPDX-License-Identifier: MPL-2.0
//! Memory that ends at an unreadable page.

#![allow(unsafe_code)]

use std::ffi::{c_int, c_long, c_void};

unsafe extern "C" {
    fn mmap(
        at: *mut c_void,
        length: usize,
        protection: c_int,
        flags: c_int,
        file: c_int,
        offset: c_long,
    ) -> *mut c_void;
    fn mprotect(at: *mut c_void, length: usize, protection: c_int) -> c_int;
}

// Linux on x86-64, as the library is.
const PAGE: usize = 4_096;
const NONE: c_int = 0;
const READ_AND_WRITE: c_int = 3;
const PRIVATE_AND_ANONYMOUS: c_int = 0x22;

/// The byte that stands in front of every buffer, and how many of them.
const GUARD: u8 = 0xD7;
const GUARDS: usize = 64;

/// Room for one buffer, after which a page cannot be touched.
pub struct Room {
    end: *mut u8,
    size: usize,
    lent: usize,
    turns: u8,
}

impl Room {
    /// Room for up to `size` bytes.
    pub fn new(size: usize) -> Room {
        let size = (size + GUARDS).next_multiple_of(PAGE);
        // SAFETY: new pages, of which nobody knows; the last one becomes unreadable.
        unsafe {
            let flags = PRIVATE_AND_ANONYMOUS;
            let start = mmap(std::ptr::null_mut(), size + PAGE, READ_AND_WRITE, flags, -1, 0);
            assert!(start as isize != -1, "no memory");
            let end = start.cast::<u8>().add(size);
            assert_eq!(mprotect(end.cast(), PAGE, NONE), 0, "no guard page");
            Room { end, size, lent: 0, turns: 0 }
        }
    }

    /// Puts bytes so that they end at the page, after guard bytes; answers where they start. Of no
    /// bytes the pointer is now and then null.
    pub fn lend(&mut self, bytes: &[u8]) -> *mut u8 {
        self.turns = self.turns.wrapping_add(1);
        self.lent = bytes.len();
        assert!(self.lent + GUARDS <= self.size, "more than this room has");
        // SAFETY: the room has the bytes and, in front of them, the guards.
        unsafe {
            let start = self.end.sub(self.lent);
            std::ptr::write_bytes(start.sub(GUARDS), GUARD, GUARDS);
            std::ptr::copy_nonoverlapping(bytes.as_ptr(), start, self.lent);
            if bytes.is_empty() && self.turns.is_multiple_of(3) {
                std::ptr::null_mut()
            } else {
                start
            }
        }
    }

    /// The same for words.
    pub fn lend_words(&mut self, words: &[u64]) -> *mut u64 {
        // SAFETY: words are bytes.
        let bytes =
            unsafe { std::slice::from_raw_parts(words.as_ptr().cast(), size_of_val(words)) };
        self.lend(bytes).cast()
    }

    /// What was lent, as it is now; the guard bytes must be what they were.
    fn now(&self) -> &[u8] {
        // SAFETY: guards and bytes were written by `lend`.
        unsafe {
            let guards = std::slice::from_raw_parts(self.end.sub(self.lent + GUARDS), GUARDS);
            assert_eq!(guards, [GUARD; GUARDS], "written in front of a buffer");
            std::slice::from_raw_parts(self.end.sub(self.lent), self.lent)
        }
    }

    /// Reads the byte after what was lent, which ends the program.
    pub fn touch(&self) -> u8 {
        // SAFETY: none; the processor refuses it.
        unsafe { self.end.read_volatile() }
    }

    /// A buffer that must not have changed.
    pub fn unchanged(&self, bytes: &[u8]) {
        assert!(self.now() == bytes, "a buffer that is only read was written");
    }

    /// The same for words.
    pub fn unchanged_words(&self, words: &[u64]) {
        let now = self.now().chunks_exact(8).map(word);
        assert!(now.eq(words.iter().copied()), "words that are only read were written");
    }

    /// What a call made of the bytes.
    pub fn give_back(&self, bytes: &mut [u8]) {
        bytes.copy_from_slice(self.now());
    }

    /// What a call made of the words.
    pub fn give_back_words(&self, words: &mut [u64]) {
        for (word_then, now) in words.iter_mut().zip(self.now().chunks_exact(8)) {
            *word_then = word(now);
        }
    }
}

fn word(bytes: &[u8]) -> u64 {
    u64::from_ne_bytes(bytes.try_into().expect("eight bytes"))
}
