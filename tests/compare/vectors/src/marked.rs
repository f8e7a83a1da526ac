//! The marked cases of document 01, "Terms for the contracts".

use crate::table::*;
use crate::write::*;

pub fn rows(t: &mut Table) {
    empty_document(t);
    one_given(t);
    empty_sets(t);
    number_and_set(t);
    member_of_the_empty_set(t);
    sizes_32_and_33(t);
    values(t);
    thirty_one_and_thirty_two_numbers(t);
}

fn empty_document(t: &mut Table) {
    t.group("the empty document");
    t.records(&doc(vec![]), &[0]);
}

/// The printed input.
fn one_given(t: &mut Table) {
    t.group("one Given");
    t.records(&doc(vec![given(&[A])]), &[1, 3, 6, 1, A, 0, 3, 2, A]);
}

fn empty_sets(t: &mut Table) {
    t.group("{} = {}");
    t.refuses(vec![constraint(equal(set(vec![]), set(vec![])))], 34, 21, 0);
}

fn number_and_set(t: &mut Table) {
    t.group("1 = {1}");
    t.refuses(vec![constraint(equal(number(1), set(vec![number(1)])))], 33, 21, 0);
}

fn member_of_the_empty_set(t: &mut Table) {
    t.group("member of the empty set");
    let declared = plain_axiom(vec![decl(int(), &[X])]);
    t.accepts(vec![declared, constraint(member(reference(X), set(vec![])))]);
}

/// A product of n parts ℤ as a set: its element type has size n + 1.
fn integers_times(n: usize) -> Tree {
    product((0..n).map(|_| int()).collect())
}

fn sizes_32_and_33(t: &mut Table) {
    t.group("sizes 32 and 33");
    let b = abbreviation(B, &[], product(vec![integers_times(6), integers_times(6)]));
    // B is power of a product of size 15; a pair of B has size 31, its power 32.
    let pair = |part: Tree| product(vec![part, reference(B)]);
    let fits = power(pair(reference(B)));
    t.accepts(vec![b.clone(), plain_axiom(vec![decl(fits, &[X])])]);
    let over = power(power(pair(reference(B))));
    t.refuses(vec![b, plain_axiom(vec![decl(over, &[X])])], 38, 11, 0);
}

fn values(t: &mut Table) {
    t.group("values");
    t.value(set(vec![number(2), number(1)]), &[3, 2, 1, 1, 1, 2]);
    t.value(arithmetic(45, negative(7), number(2)), &[1, 1]);
    t.value(arithmetic(44, negative(7), number(2)), &[1, -4]);
    let sum = arithmetic(41, number(2_147_483_647), number(1));
    t.stops(worked(sum), 53, 41, 0);
}

/// {x, y : {0, ..., 5} • x × 6 + y} without those of 31 and more.
fn numbers_below(n: u32) -> Tree {
    let six = || set((0..6).map(number).collect());
    let sum = || {
        let tens = arithmetic(43, reference(X), number(6));
        arithmetic(41, tens, reference(Y))
    };
    let below = not(at_most(number(n), sum()));
    comprehension(text(below, vec![decl(six(), &[X, Y])]), sum())
}

fn thirty_one_and_thirty_two_numbers(t: &mut Table) {
    t.group("31 and 32 numbers");
    let members = (0..31).flat_map(|n| [1, n]);
    t.value(numbers_below(31), &[3, 31].into_iter().chain(members).collect::<Vec<_>>());
    t.stops(worked(numbers_below(32)), 55, 46, 0);
}
