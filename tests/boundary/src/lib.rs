// SPDX-License-Identifier: MPL-2.0
//! The proved library through its C boundary, held against the second implementation.
//!
//! [`hub_h`] has the calls of include/hub.h on guarded memory ([`guard`]), [`state`] the connection's
//! bytes; [`hub`] gives them to the second implementation's comparison, [`wrapper`] does so for
//! host/rust. [`sizes`], [`payloads`] and [`gateways`] test what the comparison does not reach,
//! [`samples`] a fault at every place, [`sweeps`] the boundary cases of CASES.md, [`fuzz`] whatever
//! libFuzzer comes up with.

#![deny(unsafe_code)]
#![warn(missing_docs)]
#![allow(clippy::too_many_arguments)]

pub mod fuzz;
pub mod gateways;
pub mod guard;
pub mod hub;
pub mod hub_h;
pub mod payloads;
pub mod samples;
pub mod sizes;
pub mod state;
pub mod sweeps;
pub mod wrapper;
