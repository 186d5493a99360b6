// SPDX-License-Identifier: MPL-2.0
//! An independent second implementation of document 01, written from the document alone.
//!
//! It shares no code, table or structure with the proved crates, so that the two agreeing on
//! millions of inputs says something. Ciphers and hashes come from OpenSSL's libcrypto ([`crypto`],
//! the only place with `unsafe`).
//!
//! Reading goes [`header`] (with its [`chain`]), [`seal`], [`payload`], [`message`]; writing is
//! [`writer`]; the host's side is [`connection`] with [`join`], the gateway's [`client`] and
//! [`cutter`]; [`listing`] and [`replay`] are the programs. [`prng`], [`draft`], [`gateway`],
//! [`generate`] and [`samples`] make inputs; [`compare`] holds another implementation against this
//! one.

#![deny(unsafe_code)]
#![warn(missing_docs)]

mod admit;
pub mod bytes;
pub mod chain;
pub mod client;
pub mod compare;
pub mod connection;
pub mod crypto;
pub mod cutter;
pub mod draft;
pub mod gateway;
pub mod generate;
pub mod header;
pub mod join;
pub mod listing;
pub mod message;
pub mod payload;
pub mod prng;
pub mod refusal;
pub mod replay;
pub mod samples;
pub mod seal;
pub mod writer;
