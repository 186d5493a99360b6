// SPDX-License-Identifier: MPL-2.0
//! Cutting a report into pieces of F bytes: refusals 24 and 7.

use crate::connection::check_fragment_size;
use crate::header::MOST_PIECES;
use crate::refusal::{Refusal, require};

/// What the cutter answers.
#[derive(Clone, Copy, Debug, PartialEq, Eq)]
pub struct Cut<'a> {
    /// How many pieces the report has; 0 if refused.
    pub count: u16,
    /// The piece asked for; if refused, the empty part at the report's start.
    pub piece: &'a [u8],
}

/// Piece `index` of `report`, cut by `fragment_size`, beside what refused it.
pub fn cut(report: &[u8], fragment_size: u32, index: u32) -> (Cut<'_>, Result<(), Refusal>) {
    match try_cut(report, fragment_size, index) {
        Ok(cut) => (cut, Ok(())),
        Err(refusal) => (Cut { count: 0, piece: &report[..0] }, Err(refusal)),
    }
}

fn try_cut(report: &[u8], fragment_size: u32, index: u32) -> Result<Cut<'_>, Refusal> {
    check_fragment_size(fragment_size)?;
    let size = fragment_size as usize;
    let count = report.len().div_ceil(size).max(1);
    require(count <= usize::from(MOST_PIECES), Refusal::Fragment)?;
    let index = index as usize;
    let piece = match report {
        [] if index == 0 => Some(report),
        _ => report.chunks(size).nth(index),
    };
    Ok(Cut { count: count as u16, piece: piece.ok_or(Refusal::Fragment)? })
}
