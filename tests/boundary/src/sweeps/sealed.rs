// SPDX-License-Identifier: MPL-2.0
//! Sealed messages that are tampered with, or sealed by hand so that their plain text can be what no
//! writer writes; keys of wrong size and working buffers that are short.

use std::ops::Range;

use second::compare::{Comparison, Difference, Implementation};
use second::draft::{Damage, Draft};
use second::generate::Case;

use super::trial::{KEYS, Reading};
use super::written::{SIZES, piece};
use super::{Tried, each, pairs};

const NO_ENTRY: &[u8] = &[0, 0];

/// Flips each bit of some bytes of a message of 186, whose sealed part has 112: 11.
fn flipped<I: Implementation>(comparison: &mut Comparison<I>, places: Range<usize>) -> Tried {
    let whole = piece(NO_ENTRY, (100, 112)).there_and_back(comparison)?;
    let cases = (8 * places.start..8 * places.end).map(|bit| {
        let mut case = whole.clone();
        Damage::Flip(bit).befall(&mut case.message);
        Reading { case, expected: Err(11) }
    });
    each(comparison, cases, Reading::judge)
}

/// Each bit of the tag.
pub fn tag_flipped<I: Implementation>(comparison: &mut Comparison<I>) -> Tried {
    flipped(comparison, 154..186)
}

/// Each bit of the sealed part.
pub fn part_flipped<I: Implementation>(comparison: &mut Comparison<I>) -> Tried {
    flipped(comparison, 42..154)
}

/// Two blocks of plain text: a size, and 28 bytes after it.
type Text = (u32, [u8; 28]);

/// Plain texts sealed by hand, their tags right, in a message of 106 bytes: read as their size
/// says where they are by the rule, else 13.
fn by_hand<I: Implementation>(
    comparison: &mut Comparison<I>,
    texts: impl IntoIterator<Item = Text>,
    by_the_rule: bool,
) -> Tried {
    let writing = piece(NO_ENTRY, (28, 32));
    let whole = writing.there_and_back(comparison)?;
    let header = writing.case.header;
    let reading = |(size, text): Text| {
        let mut draft = Draft::new(header, text.to_vec());
        (draft.size, draft.padding) = (Some(size), Some(Vec::new()));
        let case = Case { message: draft.bytes(&KEYS), ..whole.clone() };
        let expected =
            if by_the_rule { Ok((header, text[..size as usize].to_vec())) } else { Err(13) };
        Reading { case, expected }
    };
    each(comparison, texts.into_iter().map(reading), Reading::judge)
}

/// 13 bytes of payload and fifteen of padding, one of which is not 15.
pub fn padding_byte<I: Implementation>(comparison: &mut Comparison<I>) -> Tried {
    let wrong = pairs(13..28, 0..=255).into_iter().filter(|(_, byte)| *byte != 15);
    let texts = wrong.map(|(place, byte): (usize, u8)| {
        let mut text = [15; 28];
        text[place] = byte;
        (13, text)
    });
    by_hand(comparison, texts, false)
}

/// The numbers that padding bytes could have, and more.
const NUMBERS: Range<u8> = 0..32;

/// Sizes that a sealed part of 32 bytes does not have, the first two of which would wrap, with
/// each number of padding.
pub fn size<I: Implementation>(comparison: &mut Comparison<I>) -> Tried {
    let sizes = [0xFFFF_FFFC, 0xFFFF_FFFF, 0x8000_0000, 65_564, 29, 0];
    let texts = pairs(sizes, NUMBERS).into_iter().map(|(size, byte)| (size, [byte; 28]));
    by_hand(comparison, texts, false)
}

/// 12 bytes of payload and sixteen of padding, where the rule gives none.
pub fn whole_block<I: Implementation>(comparison: &mut Comparison<I>) -> Tried {
    by_hand(comparison, NUMBERS.map(|byte| (12, [byte; 28])), false)
}

/// 0 to 15 bytes of padding, as the rule gives.
pub fn by_the_rule<I: Implementation>(comparison: &mut Comparison<I>) -> Tried {
    by_hand(comparison, (0..16).map(|pad| (28 - u32::from(pad), [pad; 28])), true)
}

/// Sealed parts of one to twelve blocks with each number of padding bytes: as the rule gives, with
/// a size one more (which is by the rule too where there was one byte of padding) and one less, with
/// the first and with the last byte of padding wrong.
pub fn blocks<I: Implementation>(comparison: &mut Comparison<I>) -> Tried {
    let parts = pairs(1..=12, 0..16).into_iter().filter(|(blocks, pad)| 4 + pad <= 16 * blocks);
    let texts = parts.flat_map(|(blocks, pad): (usize, usize)| {
        let size = 16 * blocks - 4 - pad;
        let text: Vec<u8> = (0..size).map(|i| i as u8).chain(vec![pad as u8; pad]).collect();
        let changed = |place: usize| {
            let mut text = text.clone();
            text[place] ^= 0x81;
            (size, text)
        };
        let mut texts = vec![(size, text.clone()), (size + 1, text.clone())];
        texts.extend((size > 0).then(|| (size - 1, text.clone())));
        texts.extend((pad > 0).then(|| changed(size)));
        texts.extend((pad > 1).then(|| changed(size + pad - 1)));
        texts
    });
    each(comparison, texts, |(size, text), comparison| -> Result<(), Difference> {
        let writing = piece(NO_ENTRY, (text.len(), 4 + text.len()));
        let whole = writing.there_and_back(comparison)?;
        let mut draft = Draft::new(writing.case.header, text.clone());
        (draft.size, draft.padding) = (Some(*size as u32), Some(Vec::new()));
        let pad = (16 - (4 + size) % 16) % 16;
        let right = size + pad == text.len() && text[*size..].iter().all(|&b| b as usize == pad);
        let payload = || (writing.case.header, text[..*size].to_vec());
        let expected = if right { Ok(payload()) } else { Err(13) };
        Reading { case: Case { message: draft.bytes(&KEYS), ..whole }, expected }.judge(comparison)
    })
}

/// 10: keys of 63 bytes, and of 65 whose first 64 are right; read and written.
pub fn keys<I: Implementation>(comparison: &mut Comparison<I>) -> Tried {
    let given = [KEYS[..63].to_vec(), [&KEYS[..], &[0]].concat()];
    each(comparison, given, |keys, comparison| -> Result<(), Difference> {
        let mut writing = piece(NO_ENTRY, (100, 112));
        let mut case = writing.there_and_back(comparison)?;
        (case.keys, writing.case.keys) = (keys.clone(), keys.clone());
        writing.expected = Err(10);
        writing.judge(comparison)?;
        Reading { case, expected: Err(10) }.judge(comparison)
    })
}

/// 12: each size, the working buffer one byte short of the sealed part.
pub fn working_short<I: Implementation>(comparison: &mut Comparison<I>) -> Tried {
    each(comparison, SIZES, |sizes, comparison| {
        let mut case = piece(NO_ENTRY, *sizes).there_and_back(comparison)?;
        case.working.truncate(sizes.1 - 1);
        Reading { case, expected: Err(12) }.judge(comparison)
    })
}
