// SPDX-License-Identifier: MPL-2.0
//! The reader of headers over the boundary cases of document 01's rows 1 to 9.

use second::compare::{Comparison, Implementation};
use second::header::{Header, Kind};

use super::described::{Described, plain, sealed};
use super::trial::fields;
use super::{Tried, each, pairs};

/// 0 to 130 bytes of a message whose MessageLength is 130; and 65,536 more than it says.
pub fn lengths_not_said<I: Implementation>(comparison: &mut Comparison<I>) -> Tried {
    let cases = (0..=130).map(|given| Described { given, ..plain() });
    each(comparison, cases.chain([plain().of(65_536 + 43)]), Described::judge)
}

/// 0 to 130 bytes, as MessageLength says, plain.
pub fn lengths_plain<I: Implementation>(comparison: &mut Comparison<I>) -> Tried {
    each(comparison, (0..=130).map(|given| plain().of(given)), Described::judge)
}

/// The same sealed.
pub fn lengths_sealed<I: Implementation>(comparison: &mut Comparison<I>) -> Tried {
    each(comparison, (0..=130).map(|given| sealed().of(given)), Described::judge)
}

/// Every MessageType, plain and sealed.
pub fn types<I: Implementation>(comparison: &mut Comparison<I>) -> Tried {
    let cases = pairs([plain(), sealed()], 0..=255).into_iter().map(|(mut case, message_type)| {
        case.header.message_type = message_type;
        case
    });
    each(comparison, cases, Described::judge_all)
}

/// Every Version.
pub fn versions<I: Implementation>(comparison: &mut Comparison<I>) -> Tried {
    let cases = (0..=255).map(|version| Described { version, ..plain() });
    each(comparison, cases, Described::judge)
}

const KINDS: [Kind; 3] = [Kind::Discovery, Kind::Connect, Kind::Session];

/// Every MessageFlags for each type, in 122 bytes, which serve a plain message and a sealed one. Of
/// those with a high bit, which are one row of the header's reader, no other reader is asked.
pub fn flags<I: Implementation>(comparison: &mut Comparison<I>) -> Tried {
    let cases = pairs(KINDS, 0..=u16::MAX)
        .into_iter()
        .map(|(kind, flags)| Described { header: fields(kind, flags), ..sealed() });
    each(comparison, cases, |case, comparison| {
        if case.header.flags < 256 {
            case.judge_all(comparison)
        } else {
            case.judge_fields(comparison)
        }
    })
}

/// FragmentCount and FragmentIndex at their edges, for each type.
pub fn pieces<I: Implementation>(comparison: &mut Comparison<I>) -> Tried {
    let edges = [0, 1, 63, 64, 65, u16::MAX];
    let cases = pairs(KINDS, pairs(edges, edges)).into_iter().map(|(kind, (index, count))| {
        let mut case = if kind == Kind::Session { sealed() } else { plain() };
        case.header = Header { message_type: kind.number(), index, count, ..case.header };
        case
    });
    each(comparison, cases, Described::judge_all)
}

/// Chains of 0 to 9 entries of types that there are and that there are not, with sizes at their
/// edges; an end with a size or not, and 0 to 34 bytes of room for it and what follows; plain and
/// sealed.
pub fn chains<I: Implementation>(comparison: &mut Comparison<I>) -> Tried {
    let entries = pairs(pairs([1, 2, 3, 4, 128, 255], [0, 1, 255]), 0..=9);
    let ends = pairs([0, 1, 255], [0, 1, 2, 3, 18, 34]);
    let cases = pairs(ends, entries).into_iter().flat_map(|((end_size, room), entry)| {
        let ((entry_type, entry_size), entries) = entry;
        let chain = |case| Described { entries, entry_type, entry_size, end_size, ..case };
        let given = 40 + entries * (2 + usize::from(entry_size)) + room;
        [chain(plain()).of(given), chain(sealed()).of(given + 32)]
    });
    each(comparison, cases, Described::judge_all)
}

/// A message with one fault more, by its number.
pub fn with_fault(mut case: Described, number: u8) -> Described {
    match number {
        1 => case.given = 41,
        2 => case.signature = 0x3031,
        3 => case.said = 121,
        4 => case.version = 4,
        5 => case.header.message_type = 3,
        6 => case.header.flags = 22,
        7 => case.header.count = 0,
        8 => case.end_size = 1,
        _ => case = case.of(123),
    }
    case
}

/// Every set of the faults 1 to 9, by its bits, put into a sealed message; the last first, since 3
/// and 1 are lengths that 9 sets too. The least number is answered.
pub fn fault_sets<I: Implementation>(comparison: &mut Comparison<I>) -> Tried {
    let cases = (0..512_u32).map(|set| {
        let faults = (1..=9).rev().filter(|number| set >> (number - 1) & 1 == 1);
        let case = faults.fold(sealed(), with_fault);
        let least = if set == 0 { 0 } else { 1 + set.trailing_zeros() };
        assert_eq!(u32::from(case.number()), least, "{case:?}");
        case
    });
    each(comparison, cases, Described::judge)
}
