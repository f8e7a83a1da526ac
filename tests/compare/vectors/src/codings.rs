//! Document 02, ask 3: the one coding of a document, and its output area.

use crate::marked;
use crate::table::*;
use crate::write::*;

type Nodes = &'static [&'static [u32]];

/// A document in another numbering, then in the one coding.
const RENUMBERED: &[(Nodes, Nodes)] = &[
    // [B]; [A]: in the Document's order
    (&[&[2, A], &[2, B], &[1, 2, 1]], &[&[2, B], &[2, A], &[1, 1, 2]]),
    // x : ℤ: the predicate before the line
    (
        &[&[32], &[11, 1, X], &[20], &[10, 3, 2], &[3, 4], &[1, 5]],
        &[&[20], &[32], &[11, 2, X], &[10, 1, 3], &[3, 4], &[1, 5]],
    ),
    // A == {1, 2, 3}
    (
        &[&[31, 3], &[31, 2], &[31, 1], &[33, 3, 2, 1], &[5, A, 0, 4], &[1, 5]],
        &[&[31, 1], &[31, 2], &[31, 3], &[33, 1, 2, 3], &[5, A, 0, 4], &[1, 5]],
    ),
    // (θS).A = 2: plain words that are numbers of nodes too
    (
        &[&[31, 2], &[39, 1, 0], &[38, 2, A], &[21, 3, 1], &[6, 4], &[1, 5]],
        &[&[39, 1, 0], &[38, 1, A], &[31, 2], &[21, 2, 3], &[6, 4], &[1, 5]],
    ),
    // S[A, A'] == T'[ℤ, {6}] with A' and A? exchanged: identifiers 4, 5, 6
    (
        &[
            &[31, 6],
            &[33, 1],
            &[32],
            &[12, 2, 1, 2, 3, 2, 5, 6, 6, 5],
            &[4, 1, 2, 4, 5, 4],
            &[1, 5],
        ],
        &[
            &[32],
            &[31, 6],
            &[33, 2],
            &[12, 2, 1, 2, 1, 3, 5, 6, 6, 5],
            &[4, 1, 2, 4, 5, 4],
            &[1, 5],
        ],
    ),
    // U == S ∧ [| true]
    (
        &[&[20], &[10, 1], &[12, 1, 0, 0], &[15, 3, 2], &[4, 3, 0, 4], &[1, 5]],
        &[&[12, 1, 0, 0], &[20], &[10, 2], &[15, 1, 3], &[4, 3, 0, 4], &[1, 5]],
    ),
    // ∀ x : ℤ; S | x ≤ 1 • true
    (
        &[
            &[20],
            &[32],
            &[11, 2, X],
            &[12, 1, 0, 0],
            &[31, 1],
            &[30, X],
            &[23, 6, 5],
            &[10, 7, 3, 4],
            &[28, 8, 1],
            &[6, 9],
            &[1, 10],
        ],
        &[
            &[30, X],
            &[31, 1],
            &[23, 1, 2],
            &[32],
            &[11, 4, X],
            &[12, 1, 0, 0],
            &[10, 3, 5, 6],
            &[20],
            &[28, 7, 8],
            &[6, 9],
            &[1, 10],
        ],
    ),
];

pub fn rows(t: &mut Table) {
    marked_documents(t);
    t.group("one coding");
    for (document, written) in RENUMBERED {
        t.writes(&coded(document), &coded(written));
        t.writes(&coded(written), &coded(written));
    }
    other_trees(t);
    output_areas(t);
}

/// The documents of the marked cases, accepted or not, are numbered so.
fn marked_documents(t: &mut Table) {
    let mut marked = Table::default();
    marked::rows(&mut marked);
    t.group("one coding, marked cases");
    for vector in marked.vectors {
        t.writes(&vector.document, &vector.document);
    }
}

/// 1 ≤ 2 and 2 ≤ 1, whichever number is node 1.
fn other_trees(t: &mut Table) {
    t.group("one coding, other trees");
    let relation = |one: u32, other: u32, sides: [u32; 2]| {
        coded(&[&[31, one], &[31, other], &[23, sides[0], sides[1]], &[6, 3], &[1, 4]])
    };
    t.writes(&relation(1, 2, [1, 2]), &relation(1, 2, [1, 2]));
    t.writes(&relation(2, 1, [2, 1]), &relation(1, 2, [1, 2]));
    t.writes(&relation(1, 2, [2, 1]), &relation(2, 1, [1, 2]));
}

fn output_areas(t: &mut Table) {
    t.group("output areas");
    let given = doc(vec![given(&[A])]);
    t.writes_not(&given, given.len() - 1, (27, 0));
    t.writes_not(&given, 0, (27, 0));
    t.group("reading before the output area");
    t.writes_not(&[], 0, (11, 0));
    t.writes_not(&coded(&[&[7], &[1, 1]]), 0, (12, 1));
    t.writes_not(&coded(&[&[2, 3], &[1, 1]]), 0, (13, 1));
    t.writes_not(&coded(&[&[24, 1], &[6, 1], &[1, 2]]), 0, (14, 1));
    t.writes_not(&coded(&[&[20], &[1]]), 3, (15, 1));
    t.writes_not(&coded(&[&[2, A, A], &[1, 1]]), 3, (16, 1));
    let deep = doc(vec![constraint((0..10).fold(truth(), |p, _| not(p)))]);
    t.writes_not(&deep, deep.len() - 1, (17, 1));
}
