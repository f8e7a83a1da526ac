//! The document: the volume routine in Z, in whole microlitres and
//! milliseconds.

use super::names::*;
use crate::notation::{PLUS, TIMES};
use coding::make::*;
use coding::Tree;

/// The paragraphs in order; what the patient relies on comes last.
pub fn volume() -> Tree {
    document(vec![
        recorded(),
        portion(),
        pump_draws_a_portion(),
        display_is_rate_times_clock(),
        chart_line(),
        display_is_what_was_drawn(),
    ])
}

/// What is recorded, and that rate and step are at least 1.
fn recorded() -> Tree {
    let volumes = power(product(vec![integers(), integers()]));
    let positive = |identifier| at_most(number(1), reference(identifier));
    axiom(text(
        and(positive(RATE), positive(STEP)),
        vec![
            decl(integers(), &[RATE, STEP]),
            decl(power(integers()), &[TICKS]),
            decl(volumes, &[CLOCK, DRAWN, SHOWN]),
        ],
    ))
}

/// portion == rate × step
fn portion() -> Tree {
    abbreviation(PORTION, &[], arithmetic(TIMES, reference(RATE), reference(STEP)))
}

/// drawn(i + 1) = drawn(i) + portion
fn pump_draws_a_portion() -> Tree {
    let next = arithmetic(PLUS, reference(I), number(1));
    at_each_tick(equal(
        apply(reference(DRAWN), next),
        arithmetic(PLUS, at_tick(DRAWN), reference(PORTION)),
    ))
}

/// shown(i) = rate × clock(i)
fn display_is_rate_times_clock() -> Tree {
    at_each_tick(equal(at_tick(SHOWN), arithmetic(TIMES, reference(RATE), at_tick(CLOCK))))
}

/// A line of the patient's chart: a tick, and the volume on the display then.
fn chart_line() -> Tree {
    let at_its_tick = member(reference(TICK), reference(TICKS));
    let displayed = equal(reference(VOLUME), apply(reference(SHOWN), reference(TICK)));
    let body = text(and(at_its_tick, displayed), vec![decl(integers(), &[TICK, VOLUME])]);
    schema(CHART_LINE, &[], body)
}

/// shown(i) = drawn(i)
fn display_is_what_was_drawn() -> Tree {
    at_each_tick(equal(at_tick(SHOWN), at_tick(DRAWN)))
}

/// The constraint that a predicate over i is true for each i in ticks.
fn at_each_tick(predicate: Tree) -> Tree {
    constraint(forall(text(truth(), vec![decl(reference(TICKS), &[I])]), predicate))
}

/// What is recorded under a name at tick i.
fn at_tick(identifier: u32) -> Tree {
    apply(reference(identifier), reference(I))
}
