//! Runs of documents as the words of their nodes, with the last value of the
//! list: node and words (none: node 0).

use crate::table::*;
use crate::write::*;

type Entries = &'static [&'static [u32]];

/// Expressions that are kept as an abbreviation: nodes, finding, last value.
const EXPRESSIONS: &[(Entries, (u32, u32), (u32, &[i32]))] = &[
    // {2, 2}
    (&[&[31, 2], &[31, 2], &[33, 1, 2]], (0, 0), (3, &[3, 1, 1, 2])),
    // {2, 0 − 1}
    (&[&[31, 2], &[31, 0], &[31, 1], &[42, 2, 3], &[33, 1, 4]], (0, 0), (5, &[3, 2, 1, -1, 1, 2])),
    // ℤ as a value, which nobody uses (R27)
    (&[&[32]], (54, 1), (0, &[])),
    // 5 div 0
    (&[&[31, 5], &[31, 0], &[44, 1, 2]], (52, 3), (2, &[1, 0])),
];

/// {(1, 5), (2, 6)}, the last node.
const PAIRS: Entries =
    &[&[31, 1], &[31, 5], &[34, 1, 2], &[31, 2], &[31, 6], &[34, 4, 5], &[33, 3, 6]];

/// It applied to a number: the number, finding, last value.
const APPLICATIONS: &[(u32, (u32, u32), (u32, &[i32]))] =
    &[(2, (0, 0), (9, &[1, 6])), (3, (52, 9), (8, &[1, 3]))];

/// [A]; x : ℤ
const GIVEN_FIRST: Entries =
    &[&[2, 4], &[32], &[11, 2, 8], &[20], &[10, 4, 3], &[3, 5], &[1, 1, 6]];
/// x : ℤ, then [A]
const GIVEN_LAST: Entries = &[&[2, 4], &[32], &[11, 2, 8], &[20], &[10, 4, 3], &[3, 5], &[1, 6, 1]];

/// Document, state, finding ((1, node) where the run fails), last value.
const RUNS: &[(Entries, Entries, (u32, u32), (u32, &[i32]))] = &[
    // a given of 20 elements, x = −1
    (GIVEN_FIRST, &[&[20], &[1, u32::MAX]], (0, 0), (0, &[])),
    // Given entries first (R20)
    (GIVEN_LAST, &[&[9], &[21]], (41, 2), (0, &[])),
    // an element at the size of a later given (R21)
    (GIVEN_LAST, &[&[2, 4, 2], &[2]], (41, 1), (0, &[])),
    // an element is no integer: 51 at the ℤ (R25)
    (GIVEN_LAST, &[&[2, 4, 1], &[2]], (51, 2), (0, &[])),
    // a state without the given
    (&[&[2, 4], &[1, 1]], &[], (41, 0), (0, &[])),
    // 2 ≤ 1
    (&[&[31, 2], &[31, 1], &[23, 1, 2], &[6, 3], &[1, 4]], &[], (1, 4), (2, &[1, 1])),
    // 1 ≤ 1, then 2 ≤ 1
    (
        &[
            &[31, 1],
            &[31, 1],
            &[23, 1, 2],
            &[6, 3],
            &[31, 2],
            &[31, 1],
            &[23, 5, 6],
            &[6, 7],
            &[1, 4, 8],
        ],
        &[],
        (1, 8),
        (6, &[1, 1]),
    ),
    // x : {1, 2} with the value 3 fails at the Decl (R25)
    (
        &[&[31, 1], &[31, 2], &[33, 1, 2], &[11, 3, 8], &[20], &[10, 5, 4], &[3, 6], &[1, 7]],
        &[&[1, 3]],
        (1, 4),
        (3, &[3, 2, 1, 1, 1, 2]),
    ),
    // 1 in {{1}} (R26)
    (
        &[&[31, 1], &[31, 1], &[33, 2], &[33, 3], &[22, 1, 4], &[6, 5], &[1, 6]],
        &[],
        (1, 6),
        (4, &[3, 1, 3, 1, 1, 1]),
    ),
    // f[X] == X, then f[ℤ]: 54 at the ℤ (R23)
    (
        &[&[30, 400], &[5, 4, 1, 400, 1], &[32], &[30, 4, 3], &[5, 8, 0, 4], &[1, 2, 5]],
        &[],
        (54, 3),
        (0, &[]),
    ),
    // f[X] == X, then f: 54 at the Ref
    (
        &[&[30, 400], &[5, 4, 1, 400, 1], &[30, 4], &[5, 8, 0, 3], &[1, 2, 4]],
        &[],
        (54, 3),
        (0, &[]),
    ),
    // exists x : {1, 2} where x = 2
    (
        &[
            &[20],
            &[31, 1],
            &[31, 2],
            &[33, 2, 3],
            &[11, 4, 8],
            &[10, 1, 5],
            &[30, 8],
            &[31, 2],
            &[21, 7, 8],
            &[29, 6, 9],
            &[6, 10],
            &[1, 11],
        ],
        &[],
        (0, 0),
        (8, &[1, 2]),
    ),
];

/// The document that keeps the last of these nodes, an expression, as an
/// abbreviation.
fn keeping(nodes: &[&[u32]]) -> Vec<u32> {
    let last = nodes.len() as u32;
    coded(&[nodes, &[&[5, A, 0, last], &[1, last + 1]]].concat())
}

pub fn rows(t: &mut Table) {
    t.group("runs, by nodes");
    let mut runs = |document: &[u32], state: &[u32], finding, (node, words): (u32, &[i32])| {
        t.runs(document, state, finding).listed = Some(Listed::Last(node, words.to_vec()));
    };
    for &(nodes, finding, last) in EXPRESSIONS {
        runs(&keeping(nodes), &[0], finding, last);
    }
    for &(argument, finding, last) in APPLICATIONS {
        let applied: &[&[u32]] = &[&[31, argument], &[37, 7, 8]];
        runs(&keeping(&[PAIRS, applied].concat()), &[0], finding, last);
    }
    for &(document, state, finding, last) in RUNS {
        runs(&coded(document), &coded(state), finding, last);
    }
}
