//! One field of a record's expected answer made wrong, to show that the comparison sees it.
use super::record::*;

/// The fields of an expected answer.
#[rustfmt::skip]
pub const FIELDS: [&str; 18] = [
    "kind", "unit_id", "proto", "processing_required", "response_required", "readonly", "responding_to_fn",
    "frame_start", "func", "reg", "count", "error", "error's code", "response_len", "response", "coils", "holdings",
    "values",
];

const KIND: usize = 29;
const STATE: usize = 30;
const TABLE: usize = 57;
const LENGTHS: usize = 62;
const PARTS: usize = 84;

/// Where each field's last byte stands in a state, and what is turned in it.
#[rustfmt::skip]
const IN_STATE: [(usize, u8); 13] = [
    (0, 1), (1, 1), (2, 1), (2, 2), (2, 4), (3, 1), (11, 1), (12, 4), (14, 1), (16, 1), (17, 1), (18, 1), (26, 1),
];

/// Whether the record has that field; then it is spoilt.
pub fn spoil(field: usize, record: &mut [u8]) -> bool {
    let at = match field {
        0 => Some((KIND, 1)),
        1..=13 => Some((STATE + IN_STATE[field - 1].0, IN_STATE[field - 1].1)),
        14 => part(record, 3).map(|at| (at, 0x80)),
        15 => (record[TABLE] == COILS as u8).then(|| part(record, 5)).flatten().map(|at| (at, 1)),
        16 => (record[TABLE] == HOLDINGS as u8).then(|| part(record, 5)).flatten().map(|at| (at, 1)),
        _ => part(record, 4).map(|at| (at, 1)),
    };
    at.is_some_and(|(at, bit)| {
        record[at] ^= bit;
        true
    })
}

/// The last byte of a part that has any.
fn part(record: &[u8], which: usize) -> Option<usize> {
    let len = |k: usize| usize::from(record[LENGTHS + 2 * k]) * 256 + usize::from(record[LENGTHS + 2 * k + 1]);
    let end: usize = PARTS + (0..=which).map(len).sum::<usize>();
    (len(which) > 0).then(|| end - 1)
}
