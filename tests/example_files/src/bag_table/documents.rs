//! The document.

use crate::names::{Names, NONE};
use crate::notation::TIMES;
use coding::make::*;
use coding::Tree;

/// The table: bag sizes in millilitres, each with a flow rate in millilitres a
/// minute.
pub const RATE: u32 = id(1, NONE);
/// The bag sizes in use.
pub const SIZES: u32 = id(2, NONE);
/// The highest flow rate that is allowed.
pub const MOST: u32 = id(3, NONE);
/// Minutes after which a bag has to be empty.
pub const MINUTES: u32 = id(4, NONE);
/// The size that a constraint speaks of.
pub const S: u32 = id(5, NONE);

/// The words for a reader.
pub const NAMES: Names = Names(&["rate", "sizes", "most", "minutes", "s"]);

/// The paragraphs in order.
pub fn bag_table() -> Tree {
    document(vec![entered(), no_bag_flows_too_fast(), each_bag_is_empty_in_time()])
}

fn entered() -> Tree {
    let lines = vec![
        decl(power(product(vec![integers(), integers()])), &[RATE]),
        decl(power(integers()), &[SIZES]),
        decl(integers(), &[MOST, MINUTES]),
    ];
    axiom(text(truth(), lines))
}

/// rate(s) ≤ most
fn no_bag_flows_too_fast() -> Tree {
    for_each_size(at_most(rate_of_s(), reference(MOST)))
}

/// s ≤ rate(s) × minutes
fn each_bag_is_empty_in_time() -> Tree {
    let drawn = arithmetic(TIMES, rate_of_s(), reference(MINUTES));
    for_each_size(at_most(reference(S), drawn))
}

/// The constraint that a predicate over s is true for each s in sizes.
fn for_each_size(predicate: Tree) -> Tree {
    constraint(forall(text(truth(), vec![decl(reference(SIZES), &[S])]), predicate))
}

fn rate_of_s() -> Tree {
    apply(reference(RATE), reference(S))
}
