// SPDX-License-Identifier: MPL-2.0
//! What a step of either role asks before its state does: refusals 25, 24, 1 to 14 and 16.

use crate::connection::check_fragment_size;
use crate::header::{Header, Kind};
use crate::message::{part, read_message};
use crate::payload::{Payload, read_payload};
use crate::refusal::{Refusal, require};

/// A message that only a state can refuse now.
pub(crate) struct Admitted<'a> {
    /// Its header.
    pub header: Header,
    /// What its payload says.
    pub payload: Payload<'a>,
    /// Whether the verdict is 1.
    pub passes: bool,
}

/// Reads a message for a step. `session` is the SessionID that it must have, none where any will
/// do; a Discovery message is not asked for it.
pub(crate) fn admit<'a>(
    fragment_size: u32,
    session: Option<u64>,
    message: &'a [u8],
    keys: &[u8],
    working: &'a mut [u8],
    verdict: u64,
) -> Result<Admitted<'a>, Refusal> {
    require(verdict <= 1, Refusal::Verdict)?;
    check_fragment_size(fragment_size)?;
    let read = read_message(message, keys, working)?;
    let (kind, header) = (read.kind, read.header);
    let bytes = part(Some(&read.payload), message, working);
    let payload = read_payload(kind, header.sealed(), bytes)?;
    let asked = session.filter(|_| kind != Kind::Discovery);
    require(asked.is_none_or(|session| session == header.session), Refusal::Session)?;
    Ok(Admitted { header, payload, passes: verdict == 1 })
}
