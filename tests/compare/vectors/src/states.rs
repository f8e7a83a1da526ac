//! Readings R20 to R22: 41 and 42.

use crate::table::*;
use crate::write::*;

pub fn rows(t: &mut Table) {
    r20_count_and_pairs(t);
    r21_values(t);
    r21_document_order(t);
    r22_bindings_have_no_values(t);
    fit_checks_first(t);
}

fn r20_count_and_pairs(t: &mut Table) {
    t.group("R20, count and pairs");
    let none = doc(vec![]);
    t.stated(&none, &[0], (0, 0));
    t.stated(&none, &[], (41, 0));
    t.stated(&none, &[0, 0], (41, 0));
    t.stated(&none, &state(&[&[1]]), (41, 0));
    let two = doc(vec![plain_axiom(vec![decl(int(), &[X])]), given(&[A])]);
    t.stated(&two, &state(&[&[1, 5], &[3]]), (0, 0));
    t.stated(&two, &state(&[&[1, 5]]), (41, 0));
    t.stated(&two, &[2, 5, 2, 7, 1, 1, 5], (41, 0));
    // Given entries first, though the Given is the second entry.
    t.stated(&two, &state(&[&[9, 9], &[21]]), (41, 2));
    t.stated(&two, &state(&[&[9, 9], &[20]]), (41, 1));
    t.stated(&two, &state(&[&[1, 5], &[3, 3]]), (41, 2));
    t.stated(&two, &state(&[&[1, 5], &[-1]]), (41, 2));
}

fn r21_values(t: &mut Table) {
    t.group("R21, values");
    let words = doc(vec![plain_axiom(vec![decl(int(), &[X])]), given(&[A])]);
    let mut with = |entry: &[i32], finding| t.stated(&words, &state(&[entry, &[2]]), finding);
    let a = A as i32;
    with(&[2, a, 0], (0, 0));
    with(&[2, a, 1], (0, 0));
    with(&[2, a, 2], (41, 1));
    with(&[2, a, -1], (41, 1));
    with(&[2, a + 4, 0], (41, 1));
    with(&[3, 0], (0, 0));
    with(&[3, -1], (41, 1));
    with(&[3, 2, 1, -1, 1, 1], (0, 0));
    with(&[3, 2, 1, 1, 1, -1], (41, 1));
    with(&[3, 2, 1, 1, 1, 1], (41, 1));
    with(&[4, 1, 1, 1], (41, 1));
    with(&[4, 2, 1, 1, 1, 1], (0, 0));
    with(&[1, 1, 1], (41, 1));
    with(&[1], (41, 1));
    with(&[5], (41, 1));
    let set_of = |n: i32| {
        let members: Vec<i32> = (0..n).flat_map(|i| [1, i]).collect();
        [vec![3, n], members].concat()
    };
    with(&set_of(31), (0, 0));
    with(&set_of(32), (41, 1));
    // the longest state, and one word more, which breaks the layout
    with(&vec![1; 16_384 - 6], (41, 1));
    with(&vec![1; 16_384 - 5], (41, 0));
    with(&vec![1; 20_000], (41, 0));
}

fn r21_document_order(t: &mut Table) {
    t.group("R21, document order");
    let lines = vec![decl(int(), &[Y, X]), decl(power(int()), &[C])];
    let words = doc(vec![plain_axiom(lines)]);
    t.fits(&words, &state(&[&[1, 1], &[1, 2], &[3, 0]]), (0, 0));
    t.fits(&words, &state(&[&[1, 1], &[3, 0], &[3, 0]]), (42, 2));
    t.fits(&words, &state(&[&[1, 1], &[1, 2], &[1, 0]]), (42, 3));
}

fn r22_bindings_have_no_values(t: &mut Table) {
    t.group("R22, bindings have no values");
    let one = plain_schema(1, vec![decl(int(), &[X])]);
    let set_of = schema_set(include(1, 0, vec![], &[]));
    let words =
        doc(vec![one, plain_axiom(vec![decl(set_of.clone(), &[A]), decl(power(set_of), &[B])])]);
    t.fits(&words, &state(&[&[1, 1], &[3, 0]]), (42, 1));
    t.fits(&words, &state(&[&[3, 0], &[3, 0]]), (42, 1));
    // The empty set is of every power type.
    let schema_of = || schema_set(include(1, 0, vec![], &[]));
    let one = plain_schema(1, vec![decl(int(), &[X])]);
    let words = doc(vec![one, plain_axiom(vec![decl(power(schema_of()), &[B])])]);
    t.fits(&words, &state(&[&[3, 0]]), (0, 0));
    t.fits(&words, &state(&[&[3, 1, 1, 0]]), (42, 1));
}

fn fit_checks_first(t: &mut Table) {
    t.group("the fit call checks first");
    let words = doc(vec![plain_axiom(vec![decl(reference(A), &[X])])]);
    t.fits(&words, &[], (31, nth(&words, 30, 0)));
}
