//! Document 02, ask 1: Power and Product as values.

use crate::table::*;
use crate::write::*;

pub fn rows(t: &mut Table) {
    powers(t);
    products(t);
    sixty_four_words(t);
    operands(t);
    order(t);
    tested(t);
    alarms(t);
}

/// The whole numbers from `from` to `to`.
fn numbers(from: u32, to: u32) -> Tree {
    set((from..=to).map(number).collect())
}

/// 28 or 29 numbers, which no Set can name: x + 6 × y, up to a bound.
fn many(last: u32) -> Tree {
    let value = || arithmetic(41, reference(X), arithmetic(43, number(6), reference(Y)));
    let lines = vec![decl(numbers(0, 5), &[X, Y])];
    comprehension(text(at_most(value(), number(last)), lines), value())
}

fn powers(t: &mut Table) {
    t.group("ask 1, powers");
    t.value(power(set(vec![])), &[3, 1, 3, 0]);
    t.value(power(numbers(7, 7)), &[3, 2, 3, 0, 3, 1, 1, 7]);
    // 42 words: the empty set, three of one member, three of two, one of three
    let three = [
        &[3, 8, 3, 0][..],
        &[3, 1, 1, 1, 3, 1, 1, 2, 3, 1, 1, 3],
        &[3, 2, 1, 1, 1, 2, 3, 2, 1, 1, 1, 3, 3, 2, 1, 2, 1, 3],
        &[3, 3, 1, 1, 1, 2, 1, 3],
    ];
    t.value(power(numbers(1, 3)), &three.concat());
    // 98 words
    t.stops(worked(power(numbers(1, 4))), 55, 36, 0);
    t.stops(worked(power(many(30))), 55, 36, 0);
    let low = set(vec![number(0), negative(1)]);
    t.value(power(low), &[3, 4, 3, 0, 3, 1, 1, -1, 3, 1, 1, 0, 3, 2, 1, -1, 1, 0]);
    let of_sets = set(vec![numbers(1, 2), numbers(3, 3)]);
    let equal_sets = set(vec![
        set(vec![]),
        set(vec![numbers(1, 2)]),
        set(vec![numbers(3, 3)]),
        set(vec![numbers(3, 3), numbers(1, 2)]),
    ]);
    t.holds(vec![constraint(equal(power(of_sets), equal_sets))]);
}

fn products(t: &mut Table) {
    t.group("ask 1, products");
    let four = [4, 2, 1, 1, 1, 3, 4, 2, 1, 1, 1, 4, 4, 2, 1, 2, 1, 3, 4, 2, 1, 2, 1, 4];
    t.value(product(vec![numbers(1, 2), numbers(3, 4)]), &[&[3, 4][..], &four].concat());
    let six = product((1..=6).map(|n| numbers(n, n)).collect());
    t.value(six, &[3, 1, 4, 6, 1, 1, 1, 2, 1, 3, 1, 4, 1, 5, 1, 6]);
    // 55 is judged of the list itself
    t.value(product(vec![numbers(1, 5), set(vec![]), numbers(1, 5)]), &[3, 0]);
    t.value(product(vec![numbers(1, 5), numbers(1, 5), set(vec![])]), &[3, 0]);
    let of_many =
        |operands| vec![abbreviation(B, &[], many(30)), abbreviation(A, &[], product(operands))];
    let with_none = of_many(vec![reference(B), set(vec![]), reference(B)]);
    let empty = constraint(equal(reference(A), set(vec![])));
    t.holds([with_none, vec![empty]].concat());
    t.stops(worked(product(vec![numbers(1, 5), numbers(1, 5)])), 55, 35, 0);
    t.stops(of_many(vec![reference(B); 6]), 55, 35, 0);
    let of_powers = product(vec![power(set(vec![])), numbers(1, 2)]);
    t.value(of_powers, &[3, 2, 4, 2, 3, 0, 1, 1, 4, 2, 3, 0, 1, 2]);
}

/// The longest lists, and those one member longer.
fn sixty_four_words(t: &mut Table) {
    t.group("ask 1, 64 words");
    let one_of = |last| worked(power(set(vec![many(last)])));
    t.holds(one_of(27));
    t.stops(one_of(28), 55, 36, 0);
    // 62 words, 66 words
    t.holds(worked(product(vec![numbers(1, 2), numbers(1, 5)])));
    let pairs = set(vec![pair(1, 1), pair(1, 2), pair(1, 3), pair(1, 4), pair(1, 5), pair(1, 6)]);
    t.holds(worked(product(vec![pairs.clone(), numbers(1, 1)])));
    t.stops(worked(product(vec![pairs, numbers(1, 2)])), 55, 35, 0);
}

/// Operands first; then 51 at the Power or Product, before 55.
fn operands(t: &mut Table) {
    t.group("ask 1, operands");
    t.stops(worked(power(int())), 54, 32, 0);
    t.stops(worked(power(number(1))), 51, 36, 0);
    t.stops(worked(power(pair(1, 2))), 51, 36, 0);
    t.stops(worked(product(vec![number(1), int()])), 54, 32, 0);
    t.stops(worked(product(vec![number(1), numbers(1, 2)])), 51, 35, 0);
    t.stops(worked(product(vec![numbers(1, 2), number(1)])), 51, 35, 0);
    t.stops(worked(product(vec![set(vec![]), number(1)])), 51, 35, 0);
    t.stops(worked(product(vec![numbers(1, 5), numbers(1, 5), number(1)])), 51, 35, 0);
    let undefined = set(vec![arithmetic(44, number(1), number(0))]);
    t.stops(worked(product(vec![number(1), undefined])), 52, 44, 0);
    let words = doc(worked(product(vec![power(numbers(1, 1)), set(vec![])])));
    t.runs(&words, &[0], (0, 0)).listed = Some(Listed::Kinds(vec![31, 33, 36, 33, 35]));
}

/// A quantifier meets the members in their order: the first that is not
/// allowed has no value.
fn order(t: &mut Table) {
    t.group("ask 1, order");
    let zero_at = |allowed: Vec<Tree>, all: Tree| {
        let none = at_most(arithmetic(44, number(1), number(0)), number(0));
        let met = implies(not(member(reference(X), set(allowed))), none);
        let lines = vec![decl(all, &[X])];
        vec![constraint(exists(text(truth(), lines), and(met, equal(reference(X), last()))))]
    };
    fn last() -> Tree {
        numbers(2, 2)
    }
    // {} {1} {2} come before {1, 2}
    let firsts = vec![set(vec![]), numbers(1, 1), numbers(2, 2)];
    t.holds(zero_at(firsts, power(numbers(1, 2))));
    t.stops(zero_at(vec![set(vec![]), numbers(2, 2)], power(numbers(1, 2))), 52, 44, 0);
}

/// Member keeps its own test: nothing is listed.
fn tested(t: &mut Table) {
    t.group("ask 1, Member lists nothing");
    let is_in = |v, e| vec![constraint(member(v, e))];
    t.holds(is_in(numbers(1, 2), power(numbers(1, 6))));
    t.holds(is_in(set(vec![numbers(1, 2)]), power(power(int()))));
    let kinds = vec![31, 31, 34, 31, 31, 31, 31, 31, 33, 31, 31, 31, 31, 31, 33];
    let words = doc(is_in(pair(1, 2), product(vec![numbers(1, 5), numbers(1, 5)])));
    t.runs(&words, &[0], (0, 0)).listed = Some(Listed::Kinds(kinds));
}

/// Axioms quantify over the power of a small set of alarms.
fn alarms(t: &mut Table) {
    t.group("ask 1, alarms");
    let lines = vec![decl(power(reference(A)), &[X])];
    let raised = forall(text(truth(), lines), member(reference(X), power(reference(A))));
    let words = doc(vec![given(&[A]), constraint(raised)]);
    t.runs(&words, &state(&[&[2]]), (0, 0));
    // three elements have 54 words, four 130
    t.runs(&words, &state(&[&[3]]), (0, 0));
    t.runs(&words, &state(&[&[4]]), (55, nth(&words, 36, 0)));
}
