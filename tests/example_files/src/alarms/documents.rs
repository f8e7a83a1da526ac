//! The documents.

use crate::names::{Names, NONE};
use coding::make::*;
use coding::Tree;

/// The alarms that the pump can raise.
pub const ALARM: u32 = id(1, NONE);
/// The sets of alarms at which it stands still.
pub const STOPS: u32 = id(2, NONE);
/// What is raised, before and after an alarm more.
pub const S: u32 = id(3, NONE);
pub const T: u32 = id(4, NONE);
/// All sets of whole numbers from 1 on.
pub const SETS: u32 = id(5, NONE);

/// The words for a reader.
pub const NAMES: Names = Names(&["alarm", "stops", "s", "t", "sets"]);

/// An alarm more does not set the pump going again.
pub fn alarms() -> Tree {
    let sets = || power(reference(ALARM));
    let more =
        and(member(reference(S), reference(STOPS)), member(reference(S), power(reference(T))));
    let stays =
        forall(text(more, vec![decl(sets(), &[S, T])]), member(reference(T), reference(STOPS)));
    document(vec![given(&[ALARM]), axiom(text(stays, vec![decl(power(sets()), &[STOPS])]))])
}

/// sets == ℙ {1, .., n}
pub fn numbers(n: u32) -> Tree {
    let first = set((1..=n).map(number).collect());
    document(vec![abbreviation(SETS, &[], power(first))])
}
