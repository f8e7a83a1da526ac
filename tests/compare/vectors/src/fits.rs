//! The fit call: the dictionary that it leaves, or the finding.

use crate::table::*;
use crate::write::*;

type Entries = &'static [&'static [u32]];

/// [A]; x : ℙ A × ℤ
const PAIRS: Entries = &[
    &[2, 4],
    &[30, 4],
    &[36, 2],
    &[32],
    &[35, 3, 4],
    &[11, 5, 8],
    &[20],
    &[10, 7, 6],
    &[3, 8],
    &[1, 1, 9],
];
const PAIRS_DICTIONARY: &[u32] = &[2, 5, 6, 11, 9, 1, 4, 0, 3, 2, 4, 1, 8, 0, 4, 2, 3, 2, 4, 1];
/// x, y : ℤ
const TWO_INTEGERS: Entries = &[&[32], &[11, 1, 4, 8], &[20], &[10, 3, 2], &[3, 4], &[1, 5]];
/// 1 = {1}
const UNEQUAL: Entries = &[&[31, 1], &[31, 1], &[33, 2], &[21, 1, 3], &[6, 4], &[1, 5]];
/// f[P] == P × P; g[P] == P × ℙ P; f = g
const INSIDE: Entries = &[
    &[30, 4],
    &[30, 4],
    &[35, 1, 2],
    &[5, 8, 1, 4, 3],
    &[30, 4],
    &[30, 4],
    &[36, 6],
    &[35, 5, 7],
    &[5, 12, 1, 4, 8],
    &[30, 8],
    &[30, 12],
    &[21, 10, 11],
    &[6, 12],
    &[1, 4, 9, 13],
];

pub fn rows(t: &mut Table) {
    t.group("fits");
    let mut fits = |state: Entries| t.fits_with(&coded(PAIRS), &coded(state), PAIRS_DICTIONARY);
    // ({A 0, A 1}, 7)
    fits(&[&[2], &[4, 2, 3, 2, 2, 4, 0, 2, 4, 1, 1, 7]]);
    // ({}, 7): of every power type (R22)
    fits(&[&[2], &[4, 2, 3, 0, 1, 7]]);
    let mut refused = |document: Entries, state: Entries, finding| {
        t.fits(&coded(document), &coded(state), finding);
    };
    // (7, 7), then (A 0, 7)
    refused(PAIRS, &[&[2], &[4, 2, 1, 7, 1, 7]], (42, 2));
    refused(PAIRS, &[&[2], &[4, 2, 2, 4, 0, 1, 7]], (42, 2));
    // the first of two
    refused(TWO_INTEGERS, &[&[3, 0], &[3, 0]], (42, 1));
    // 41 at the second before 42
    refused(TWO_INTEGERS, &[&[3, 0], &[1]], (41, 2));
    // the check's finding before all
    refused(UNEQUAL, &[], (33, 4));
    refused(INSIDE, &[&[1]], (39, 12));
}
