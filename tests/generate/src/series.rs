//! Series of documents in which one number doubles from step to step, so that
//! the factors of the times say how a call's cost grows.

use crate::brought::Naming;
use crate::{worst, worst_names, Case};
use coding::make::*;
use coding::{encode, Tree};

/// What doubles, and a case for each of its sizes.
pub struct Series {
    pub doubling: &'static str,
    pub steps: Vec<(u32, Case)>,
}

pub fn all() -> Vec<Series> {
    vec![
        series("relations of 24 nodes", 1..=32, relations),
        series("names that Axioms bring", 64..=2_048, |n| {
            worst_names::stroked(n / 64, Naming::Dense)
        }),
        series("names in few classes", 64..=2_048, |n| {
            worst_names::stroked(n / 64, Naming::FewClasses)
        }),
        series("Thetas over 1,024 names", 10..=320, |n| {
            worst_names::with_thetas(16, n, Naming::Dense)
        }),
        series("schemas of long types", 1..=32, worst_names::long_entries),
        series("assignments", 64..=4_096, assignments),
        Series { doubling: "names of a state", steps: doubled(2..=64, worst::full_state) },
    ]
}

fn series(
    doubling: &'static str,
    sizes: std::ops::RangeInclusive<u32>,
    tree: impl Fn(u32) -> Tree,
) -> Series {
    let case = |n| worst::case(doubling, encode(&tree(n)));
    Series { doubling, steps: doubled(sizes, case) }
}

/// The smallest size, twice it, and so on to the largest.
fn doubled(sizes: std::ops::RangeInclusive<u32>, case: impl Fn(u32) -> Case) -> Vec<(u32, Case)> {
    let twice = |&n: &u32| Some(2 * n);
    let all = std::iter::successors(Some(*sizes.start()), twice);
    all.take_while(|n| n <= sizes.end()).map(|n| (n, case(n))).collect()
}

/// So many relations with 24 nodes below each.
fn relations(n: u32) -> Tree {
    let side = || set(vec![set(vec![number(1); 4]), set(vec![number(2); 5])]);
    document((0..n).map(|_| constraint(equal(side(), side()))).collect())
}

/// A forall over so many assignments: six identifiers of two or four numbers.
fn assignments(n: u32) -> Tree {
    let fours = (n.trailing_zeros() - 6) as usize;
    let six: Vec<u32> = (1..=6).map(|name| id(name, 0)).collect();
    let numbers = |n: u32| set((0..n).map(number).collect());
    let line = |set: Tree, all: &[u32]| (!all.is_empty()).then(|| decl(set, all));
    let lines = [line(numbers(4), &six[..fours]), line(numbers(2), &six[fours..])];
    let each = text(truth(), lines.into_iter().flatten().collect());
    document(vec![constraint(forall(each, at_most(reference(six[0]), reference(six[0]))))])
}
