// SPDX-License-Identifier: MPL-2.0
//! AES-128, SHA-256 and HMAC-SHA-256 from OpenSSL's libcrypto.

#![allow(unsafe_code)]

use std::ffi::{c_int, c_uint, c_void};

/// Bytes in an AES block.
pub const BLOCK: usize = 16;

/// OpenSSL's `AES_KEY` (openssl/aes.h): 4 × (14 + 1) words and the number of rounds.
#[repr(C)]
struct AesKey {
    words: [u32; 60],
    rounds: c_int,
}

#[link(name = "crypto")]
unsafe extern "C" {
    fn AES_set_encrypt_key(user_key: *const u8, bits: c_int, key: *mut AesKey) -> c_int;
    fn AES_set_decrypt_key(user_key: *const u8, bits: c_int, key: *mut AesKey) -> c_int;
    fn AES_encrypt(input: *const u8, output: *mut u8, key: *const AesKey);
    fn AES_cbc_encrypt(
        input: *const u8,
        output: *mut u8,
        length: usize,
        key: *const AesKey,
        vector: *mut u8,
        encrypt: c_int,
    );
    fn SHA256(data: *const u8, length: usize, digest: *mut u8) -> *mut u8;
    fn EVP_sha256() -> *const c_void;
    fn HMAC(
        digest: *const c_void,
        key: *const u8,
        key_length: c_int,
        data: *const u8,
        length: usize,
        tag: *mut u8,
        tag_length: *mut c_uint,
    ) -> *mut u8;
}

type SetKey = unsafe extern "C" fn(*const u8, c_int, *mut AesKey) -> c_int;

fn expand(set_key: SetKey, key: &[u8; 16]) -> AesKey {
    let mut expanded = AesKey { words: [0; 60], rounds: 0 };
    // SAFETY: `key` holds the 128 bits announced, and `expanded` has OpenSSL's layout.
    let failed = unsafe { set_key(key.as_ptr(), 128, &mut expanded) };
    assert_eq!(failed, 0, "libcrypto took no AES key");
    expanded
}

/// One AES-128 block.
pub fn encrypt_block(key: &[u8; 16], block: &[u8; 16]) -> [u8; 16] {
    let key = expand(AES_set_encrypt_key, key);
    let mut out = [0; BLOCK];
    // SAFETY: both arrays are one block long.
    unsafe { AES_encrypt(block.as_ptr(), out.as_mut_ptr(), &key) };
    out
}

fn cbc(key: &AesKey, vector: &[u8; 16], text: &[u8], encrypt: bool) -> Vec<u8> {
    assert!(text.len().is_multiple_of(BLOCK), "CBC takes whole blocks");
    let mut vector = *vector;
    let mut out = vec![0; text.len()];
    // SAFETY: `out` is as long as `text`, which is whole blocks; `vector` is one block.
    unsafe {
        let (from, to) = (text.as_ptr(), out.as_mut_ptr());
        AES_cbc_encrypt(from, to, text.len(), key, vector.as_mut_ptr(), c_int::from(encrypt));
    }
    out
}

/// AES-128 in CBC mode; `text` is whole blocks.
pub fn encrypt_cbc(key: &[u8; 16], vector: &[u8; 16], text: &[u8]) -> Vec<u8> {
    cbc(&expand(AES_set_encrypt_key, key), vector, text, true)
}

/// Undoes [`encrypt_cbc`].
pub fn decrypt_cbc(key: &[u8; 16], vector: &[u8; 16], text: &[u8]) -> Vec<u8> {
    cbc(&expand(AES_set_decrypt_key, key), vector, text, false)
}

/// SHA-256.
pub fn sha256(data: &[u8]) -> [u8; 32] {
    let mut digest = [0; 32];
    // SAFETY: the digest has room for 32 bytes.
    unsafe { SHA256(data.as_ptr(), data.len(), digest.as_mut_ptr()) };
    digest
}

/// HMAC-SHA-256.
pub fn hmac(key: &[u8], data: &[u8]) -> [u8; 32] {
    let mut tag = [0; 32];
    let mut tag_length: c_uint = 0;
    let key_length = c_int::try_from(key.len()).expect("a key of this length");
    // SAFETY: lengths are the slices' own, and the tag has room for SHA-256's 32 bytes.
    let done = unsafe {
        let (key, data, length) = (key.as_ptr(), data.as_ptr(), data.len());
        HMAC(EVP_sha256(), key, key_length, data, length, tag.as_mut_ptr(), &mut tag_length)
    };
    assert!(!done.is_null() && tag_length == 32, "libcrypto made no HMAC");
    tag
}

#[cfg(test)]
mod tests {
    use super::*;

    fn hex(text: &str) -> Vec<u8> {
        let digits: Vec<u8> = text.bytes().filter(|b| !b.is_ascii_whitespace()).collect();
        let pair = |p: &[u8]| u8::from_str_radix(std::str::from_utf8(p).unwrap(), 16).unwrap();
        digits.chunks(2).map(pair).collect()
    }

    fn block(text: &str) -> [u8; 16] {
        hex(text).try_into().unwrap()
    }

    #[test]
    fn fips_197_example() {
        let out = encrypt_block(
            &block("000102030405060708090a0b0c0d0e0f"),
            &block("00112233445566778899aabbccddeeff"),
        );
        assert_eq!(out, block("69c4e0d86a7b0430d8cdb78070b4c55a"));
    }

    #[test]
    fn sp_800_38a_cbc_example() {
        let key = block("2b7e151628aed2a6abf7158809cf4f3c");
        let vector = block("000102030405060708090a0b0c0d0e0f");
        let plain = hex("6bc1bee22e409f96e93d7e117393172a ae2d8a571e03ac9c9eb76fac45af8e51");
        let cipher = hex("7649abac8119b246cee98e9b12e9197d 5086cb9b507219ee95db113a917678b2");
        assert_eq!(encrypt_cbc(&key, &vector, &plain), cipher);
        assert_eq!(decrypt_cbc(&key, &vector, &cipher), plain);
    }

    #[test]
    fn fips_180_4_and_rfc_4231_examples() {
        let abc = hex("ba7816bf8f01cfea414140de5dae2223b00361a396177a9cb410ff61f20015ad");
        assert_eq!(sha256(b"abc")[..], abc);
        let jefe = hex("5bdcc146bf60754e6a042426089575c75a003f089d2739839dec58b964ec3843");
        assert_eq!(hmac(b"Jefe", b"what do ya want for nothing?")[..], jefe);
    }
}
