// SPDX-License-Identifier: MPL-2.0
//! The sentence that hub.h has for each number that a call returns.

use second::compare::Comparison;

use super::{Tried, as_expected, each};
use crate::hub_h::{Hub, WRONG_BUFFER, text};

/// The rows of tests/refusals/table: number, name, document 01's words, hub.h's where they are others.
fn table() -> Vec<(u32, &'static str)> {
    let rows = include_str!("../../../refusals/table").lines().filter(|row| !row.starts_with('#'));
    let row = |row: &'static str| {
        let columns: Vec<_> = row.split('|').map(str::trim).collect();
        let words = if columns[3].is_empty() { columns[2] } else { columns[3] };
        (columns[0].parse().expect("a number"), words)
    };
    rows.map(row).collect()
}

/// Every number to 1,000, and wider ones: document 01's have the words of the table, 0 and 255 their
/// own, and all others one that says so.
pub fn texts(comparison: &mut Comparison<Hub>) -> Tried {
    let table = table();
    let numbers: Vec<u32> = table.iter().map(|(number, _)| *number).collect();
    as_expected(&"the table", &(1..=25).collect::<Vec<_>>(), &numbers)?;
    let wrong = "a buffer of fixed size has another size, a word is too wide for its field, or the \
                 report buffer is shorter than the report";
    let wide =
        [1 << 8, 1 << 16, 1 << 31].into_iter().flat_map(|wide| (0..=255).map(move |n| wide + n));
    let cases = (0..=1_000).chain(wide).chain([u32::MAX]);
    each(comparison, cases, |number, _| {
        let expected = match number {
            0 => "done",
            1..=25 => table[*number as usize - 1].1,
            &WRONG_BUFFER => wrong,
            _ => "a number that this version of hub.h does not know",
        };
        as_expected(number, &expected, &&text(*number)[..])
    })
}
