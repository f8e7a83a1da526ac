//! Documents with powers and products as values (document 02, ask 1): sets
//! with lists near 64 words, empty operands, operands that are no set, and
//! claims whose answer depends on which members are listed and in what order.

use crate::rng::Rng;
use crate::runnable::below;
use coding::make::*;
use coding::Tree;

const X: u32 = 20;
const Z: u32 = 28;
const GIVEN: u32 = 416;
/// A set of the state.
const OWN: u32 = 420;
/// The first of the names for values worked out; the next ones follow it.
pub const RESULT: u32 = 500;

pub fn enumerated_document(rng: &mut Rng) -> Tree {
    let own = if rng.percent(50) { integers() } else { reference(GIVEN) };
    let mut paragraphs =
        vec![given(&[GIVEN]), axiom(text(truth(), vec![decl(power(own), &[OWN])]))];
    for i in 0..rng.from(1, 3) as u32 {
        let paragraph = match rng.percent(50) {
            true => constraint(claim(rng)),
            false => abbreviation(RESULT + id(i, 0), &[], listed(rng, 2)),
        };
        paragraphs.push(paragraph);
    }
    document(paragraphs)
}

fn numbers(rng: &mut Rng, most: usize) -> Tree {
    let start = rng.below(4) as u32;
    let count = rng.from(0, most) as u32;
    let signed = |n: u32| if n < 2 { negative(2 - n) } else { number(n - 2) };
    set((start..start + count).map(signed).collect())
}

/// An operand: mostly a set of few words.
fn operand(rng: &mut Rng, depth: usize) -> Tree {
    match rng.below(21) {
        0..=7 => numbers(rng, 4),
        8..=10 => reference(GIVEN),
        11 | 12 => reference(OWN),
        13 => set((0..rng.from(1, 2)).map(|_| numbers(rng, 3)).collect()),
        14 => set((0..rng.from(1, 3)).map(|i| tuple(vec![number(i as u32), number(7)])).collect()),
        15 => below(rng.from(29, 32)),
        // one member of 56 to 60 words, whose power has 62 to 66
        20 => set(vec![below(rng.from(27, 29))]),
        16 => some_other(rng),
        17 => set(vec![]),
        _ if depth > 0 => listed(rng, depth - 1),
        _ => numbers(rng, 3),
    }
}

/// No set, or in trouble.
pub fn some_other(rng: &mut Rng) -> Tree {
    match rng.below(5) {
        0 => number(1),
        1 => tuple(vec![set(vec![]), number(1)]),
        2 => integers(),
        3 => arithmetic(44, number(1), number(0)),
        _ => set(vec![arithmetic(45, number(1), number(0))]),
    }
}

fn listed(rng: &mut Rng, depth: usize) -> Tree {
    match rng.percent(45) {
        true => power(operand(rng, depth)),
        false => {
            let count = *rng.pick(&[2, 2, 2, 2, 3, 3, 4, 6]);
            product((0..count).map(|_| operand(rng, depth)).collect())
        }
    }
}

fn claim(rng: &mut Rng) -> Tree {
    let all = listed(rng, 1);
    let each = |all: &Tree| text(truth(), vec![decl(all.clone(), &[X])]);
    match rng.below(7) {
        // the list, made once more by adding its members
        0 | 1 => equal(all.clone(), comprehension(each(&all), reference(X))),
        // Member's own test of each
        2 => forall(each(&all), member(reference(X), all)),
        3 => member(listed(rng, 0), all),
        // a table of the first members ends a quantifier, or has no value
        4 | 5 => {
            let first = set(vec![numbers(rng, 2), numbers(rng, 1), set(vec![])]);
            let guard = member(reference(X), first);
            let value = arithmetic(44, number(60), number(rng.below(2) as u32));
            let body = implies(not(guard), at_most(value, number(rng.below(80) as u32)));
            let kind = rng.from(28, 29) as u32;
            arithmetic(kind, each(&all), body)
        }
        _ => {
            let other = listed(rng, 0);
            let lines = vec![decl(all, &[X]), decl(other, &[Z])];
            let kind = rng.from(28, 29) as u32;
            arithmetic(kind, text(truth(), lines), equal(reference(X), reference(Z)))
        }
    }
}
