// SPDX-License-Identifier: MPL-2.0
//! Boundary cases of document 01 in numbered sweeps, as CASES.md lists them. Each case is judged
//! twice: by the second implementation, answer by answer and byte by byte, and by what the sweep
//! itself reckons of the case that it has made.

pub mod conversations;
pub mod described;
pub mod gateway;
pub mod header;
pub mod heard;
pub mod made_up;
pub mod parts;
pub mod payload;
pub mod presence;
pub mod replies;
pub mod sealed;
pub mod short;
pub mod sides;
pub mod streams;
pub mod texts;
pub mod trial;
pub mod values;
pub mod words;
pub mod written;

use std::fmt::Debug;

use second::compare::{Comparison, Difference, Implementation};

use crate::hub_h::Hub;

/// How many cases of a sweep agreed, all of them, or the first that did not.
pub type Tried = Result<u64, Difference>;

/// A sweep: its name, how many cases it must have, and what tries them.
pub struct Sweep<I> {
    /// As it is printed.
    pub name: &'static str,
    /// How many cases it must have.
    pub cases: u64,
    run: fn(&mut Comparison<I>) -> Tried,
}

impl<I: Implementation> Sweep<I> {
    fn new(name: &'static str, cases: u64, run: fn(&mut Comparison<I>) -> Tried) -> Sweep<I> {
        Sweep { name, cases, run }
    }

    /// Tries all its cases, and that none is missing.
    pub fn run(&self, comparison: &mut Comparison<I>) -> Result<(), Difference> {
        let tried = (self.run)(comparison)?;
        as_expected(&"cases", &self.cases, &tried)
    }
}

/// All sweeps, in the order of CASES.md.
pub fn all<I: Implementation>() -> Vec<Sweep<I>> {
    vec![
        Sweep::new("every length, MessageLength as it was", 132, header::lengths_not_said),
        Sweep::new("every length, plain", 131, header::lengths_plain),
        Sweep::new("every length, sealed", 131, header::lengths_sealed),
        Sweep::new("every type", 512, header::types),
        Sweep::new("every version", 256, header::versions),
        Sweep::new("every flags, for each type", 196_608, header::flags),
        Sweep::new("count and index", 108, header::pieces),
        Sweep::new("chains", 6_480, header::chains),
        Sweep::new("faults, all sets of them", 512, header::fault_sets),
        Sweep::new("payloads of 0 to 90 bytes", 39_312, payload::short),
        Sweep::new("certificates and thumbprints", 180, payload::credentials),
        Sweep::new("Session, each size and chain", 30, written::session),
        Sweep::new("Discovery and Connect, each type and chain", 24, written::connect),
        Sweep::new("11: a bit of the tag flipped", 256, sealed::tag_flipped),
        Sweep::new("11: a bit of the sealed part flipped", 896, sealed::part_flipped),
        Sweep::new("13: a padding byte wrong, the tag right", 3_825, sealed::padding_byte),
        Sweep::new("13: size 0xFFFFFFFC and others, the tag right", 192, sealed::size),
        Sweep::new("13: a whole block of padding, the tag right", 32, sealed::whole_block),
        Sweep::new("sealed by hand as the rule gives", 16, sealed::by_the_rule),
        Sweep::new("10: keys of 63 and 65 bytes", 2, sealed::keys),
        Sweep::new("12: working buffer one byte short", 10, sealed::working_short),
        Sweep::new("22: output one byte short", 30, written::output_short),
        Sweep::new("sealed parts of 1 to 12 blocks, right and 13", 908, sealed::blocks),
        Sweep::new(
            "enrolment, each step again after every later one",
            30,
            conversations::enrolment,
        ),
        Sweep::new("every kind of message in every state", 324, conversations::every_kind),
        Sweep::new("verdict 0, then everything", 31, conversations::failed),
        Sweep::new("reports in every order, disturbed, empty", 813, conversations::reports),
        Sweep::new("fragment sizes at their edges, 24 and 25", 92, conversations::sizes),
        Sweep::new("19, 17, 18, 21, 20, 22, 23 in their order", 27, conversations::conflicts),
        Sweep::new("indexes heard at and above the count", 240, made_up::heard),
    ]
}

/// The sweeps of what include/hub.h alone says: what its calls leave in their words, payloads,
/// streams, short report buffers, texts, Presence Responses, the gateway's side, both sides.
pub fn of_header() -> Vec<Sweep<Hub>> {
    vec![
        Sweep::new(
            "a read that is refused after one that was done",
            420,
            words::refused_after_read,
        ),
        Sweep::new("the words of a header as a place", 28, words::header_as_place),
        Sweep::new("each field of the writer at its edge", 69, words::fields_at_edges),
        Sweep::new("a step that is refused after one that was done", 26, words::refused_after_step),
        Sweep::new("values of payloads at their bounds and beyond", 2_384, values::bounds),
        Sweep::new("payloads written into every size", 4_048, values::outputs),
        Sweep::new("nonce, X, Y and length of every size", 1_152, values::fixed_sizes),
        Sweep::new("Connect payloads read, each value", 88, parts::whole),
        Sweep::new("Connect payloads cut at every length", 15_795, parts::cuts),
        Sweep::new("Connect payloads with bytes after their end", 522, parts::longer),
        Sweep::new("Connect payloads with a byte changed", 84_405, parts::changed),
        Sweep::new("payloads of 0 to 90 bytes read", 19_656, parts::short),
        Sweep::new("certificates and thumbprints read", 180, parts::credentials),
        Sweep::new("the sample messages' payloads read", 28, parts::of_samples),
        Sweep::new("payloads written, sent, opened and read", 264, parts::there_and_back),
        Sweep::new("the next message, 0 to 50 bytes of it", 848, streams::cuts),
        Sweep::new("the next message, every length", 65_536, streams::lengths),
        Sweep::new("the sample messages as a stream", 5_256, streams::of_samples),
        Sweep::new("report buffers about a known length", 9_670, short::bounds),
        Sweep::new(
            "a short report buffer, every kind of message",
            2_688,
            short::messages_of_each_kind,
        ),
        Sweep::new("a report buffer of every size at the last piece", 41, short::complete),
        Sweep::new("verdicts of 64 bits, every kind of message", 3_360, short::verdicts),
        Sweep::new("the text of each number", 1_770, texts::texts),
        Sweep::new("Presence Responses written, each length and mode", 1_620, presence::written),
        Sweep::new("Presence Responses' words and sizes, 255 first", 624, presence::wrong_buffers),
        Sweep::new("Discovery payloads read into 0 to 20 words", 126, presence::words),
        Sweep::new("Presence Responses read, each length said", 243, presence::lengths),
        Sweep::new("every DiscoveryType", 512, presence::types),
        Sweep::new("Presence Responses' fields at their edges", 5_040, presence::fields_at_edges),
        Sweep::new("Presence Responses cut at every length, and longer", 212, presence::cuts),
        Sweep::new(
            "messages of Presence Responses cut at every length",
            728,
            presence::message_cuts,
        ),
        Sweep::new("Presence Responses there and back", 243, presence::messages),
        Sweep::new("names, salts and hashes that are no text", 19_456, presence::any_bytes),
        Sweep::new("a step on a Presence Response, every state", 3_900, presence::steps),
        Sweep::new("a sealed Presence Response", 390, presence::sealed),
        Sweep::new("Discovery as Connect, Connect as Discovery", 477, presence::exchanged),
        Sweep::new("a gateway opened, each F and SessionID", 840, gateway::opening),
        Sweep::new("the request that is due, every state byte", 2_304, gateway::requests_due),
        Sweep::new("replies in every order up to six", 16_716, gateway::orders),
        Sweep::new(
            "every kind of message in every order up to three",
            18_464,
            gateway::orders_of_all,
        ),
        Sweep::new("a gateway's step, every state byte", 57_344, gateway::states),
        Sweep::new("a gateway's step, each F and SessionID", 5_600, gateway::sizes),
        Sweep::new("a gateway's step, every byte that is stored", 4_352, gateway::stored),
        Sweep::new("every Result and Status in every state", 728, gateway::codes),
        Sweep::new("25, 24, 1 to 14, 16, 15, up to four at once", 5_141, replies::several),
        Sweep::new("a gateway's working buffer", 3_800, replies::working),
        Sweep::new("replies cut at every length", 1_684, replies::cuts),
        Sweep::new("replies with each bit flipped", 6_576, replies::flips),
        Sweep::new("replies, what is not looked at", 1_200, replies::not_looked_at),
        Sweep::new("both sides, every moment", 61, sides::every_moment),
        Sweep::new("both sides over bad links", 2_000, sides::bad_links),
    ]
}

/// Every pair of the two.
fn pairs<A: Copy, B: Copy>(
    left: impl IntoIterator<Item = A>,
    right: impl IntoIterator<Item = B> + Clone,
) -> Vec<(A, B)> {
    left.into_iter().flat_map(|a| right.clone().into_iter().map(move |b| (a, b))).collect()
}

/// Tries each case; answers how many there were.
fn each<I, T>(
    comparison: &mut Comparison<I>,
    cases: impl IntoIterator<Item = T>,
    judge: impl Fn(&T, &mut Comparison<I>) -> Result<(), Difference>,
) -> Tried {
    let mut tried = 0;
    for case in cases {
        numbered(tried, judge(&case, comparison))?;
        tried += 1;
    }
    Ok(tried)
}

/// What came of a case; a difference tells the case's number.
fn numbered<T>(case: u64, outcome: Result<T, Difference>) -> Result<T, Difference> {
    outcome.map_err(|Difference(text)| Difference(format!("case {case}: {text}")))
}

/// The library's answer is the one that the sweep reckons.
fn as_expected<T: PartialEq + Debug>(
    input: &dyn Debug,
    expected: &T,
    found: &T,
) -> Result<(), Difference> {
    if expected == found {
        return Ok(());
    }
    Err(Difference(format!("{input:02x?}\nexpected: {expected:02x?}\nfound:    {found:02x?}")))
}
