//! Documents whose runs meet several troubles: which comes first, what is
//! skipped, what is never reached. They are often ill typed.

use crate::rng::Rng;
use coding::make::*;
use coding::Tree;

const X: u32 = 20;
const Y: u32 = 24;
const Z: u32 = 28;
const DIGITS: u32 = 400;
const TABLE: u32 = 404;
const WIDE: u32 = 408;
const GENERIC: u32 = 412;
const UNKNOWN: u32 = 4_000;
const GIVEN: u32 = 416;
/// The first identifier of the Axioms at the end.
const OWN: u32 = 600;

pub fn trouble_document(rng: &mut Rng) -> Tree {
    let mut paragraphs = names(rng);
    for i in 0..rng.from(1, 3) as u32 {
        let paragraph = match rng.below(6) {
            0 if rng.percent(40) => constraint(stopping(rng)),
            0 => constraint(or(some_pred(rng, 3), truth())),
            1 => constraint(some_pred(rng, 3)),
            2 => abbreviation(500 + 4 * i, &[], overflowing(rng)),
            3 => axiom(text(some_pred(rng, 2), vec![decl(tested(rng, 2), &[OWN + 4 * i])])),
            _ => abbreviation(500 + 4 * i, &[], some_value(rng, 3)),
        };
        paragraphs.push(paragraph);
    }
    document(paragraphs)
}

/// Two integers of the state, six digits, a table, a set near 64 words, and a
/// generic name.
fn names(rng: &mut Rng) -> Vec<Tree> {
    let pair = |a, b| tuple(vec![number(a), number(b)]);
    let digits = set((0..6).map(number).collect());
    let sum = || arithmetic(41, arithmetic(43, reference(X), number(6)), reference(Y));
    let below = at_most(sum(), number(rng.from(20, 30) as u32));
    let wide = comprehension(text(below, vec![decl(reference(DIGITS), &[X, Y])]), sum());
    vec![
        given(&[GIVEN]),
        axiom(text(truth(), vec![decl(integers(), &[X, Y])])),
        abbreviation(DIGITS, &[], digits),
        abbreviation(TABLE, &[], set(vec![pair(0, 1), pair(1, 5), pair(3, 0), pair(1, 2)])),
        abbreviation(WIDE, &[], wide),
        abbreviation(GENERIC, &[4], reference(4)),
    ]
}

/// An integer, but for a few.
fn some_integer(rng: &mut Rng, room: usize) -> Tree {
    if rng.percent(8) {
        return some_value(rng, room.saturating_sub(1));
    }
    if room == 0 || rng.percent(35) {
        return match rng.below(8) {
            0 | 1 => reference(X),
            2 => reference(Y),
            3 => reference(Z),
            4 => number(2_147_483_647),
            5 => negative(rng.below(4) as u32),
            _ => number(rng.below(4) as u32),
        };
    }
    match rng.below(8) {
        0 => apply(reference(TABLE), some_integer(rng, room - 1)),
        _ => {
            let kind = rng.from(41, 45) as u32;
            let right = match rng.percent(20) {
                true => negative(rng.below(2) as u32),
                false => some_integer(rng, room - 1),
            };
            let left = if rng.percent(10) { some_leaf(rng) } else { some_integer(rng, room - 1) };
            arithmetic(kind, left, right)
        }
    }
}

fn some_leaf(rng: &mut Rng) -> Tree {
    match rng.below(16) {
        14 => reference(GIVEN),
        15 => reference(OWN + 4 * rng.below(2) as u32),
        0 => integers(),
        1 => reference(UNKNOWN),
        2 => reference(GENERIC),
        3 => theta(1, 0),
        4 | 5 => reference(WIDE),
        6 | 7 => reference(DIGITS),
        8 => reference(TABLE),
        9 => set(vec![]),
        _ => some_integer(rng, 0),
    }
}

fn some_values(rng: &mut Rng, least: usize, most: usize, room: usize) -> Vec<Tree> {
    let n = rng.from(least, most);
    (0..n).map(|_| some_value(rng, room)).collect()
}

fn some_value(rng: &mut Rng, room: usize) -> Tree {
    if room == 0 || rng.percent(15) {
        return some_leaf(rng);
    }
    let less = room - 1;
    match rng.below(14) {
        0..=3 => some_integer(rng, room),
        4 | 5 => set(some_values(rng, 1, 4, less)),
        6 | 7 => tuple(some_values(rng, 2, 4, less)),
        8 => apply(some_value(rng, less), some_integer(rng, less)),
        9 => comprehension(some_text(rng, less), some_value(rng, less)),
        10 => generic(*rng.pick(&[GENERIC, DIGITS, UNKNOWN]), some_values(rng, 0, 2, less)),
        11 => power(some_value(rng, less)),
        12 => product(some_values(rng, 2, 3, less)),
        _ => select(some_value(rng, less), X),
    }
}

/// A quantifier that ends, or not, before the assignment that is in trouble.
fn stopping(rng: &mut Rng) -> Tree {
    let kind = rng.from(28, 29) as u32;
    let divisor = arithmetic(42, number(rng.from(1, 5) as u32), reference(X));
    let value = arithmetic(rng.from(44, 45) as u32, number(60), divisor);
    let body = match rng.percent(50) {
        true => at_most(value, number(rng.below(40) as u32)),
        false => at_most(number(rng.below(40) as u32), value),
    };
    let quantified = arithmetic(kind, text(truth(), vec![decl(reference(DIGITS), &[X])]), body);
    if rng.percent(50) {
        not(quantified)
    } else {
        quantified
    }
}

/// Values that grow past 64 words while or before another trouble comes.
fn overflowing(rng: &mut Rng) -> Tree {
    let divided = |rng: &mut Rng, name: u32| {
        let divisor = arithmetic(42, number(rng.from(1, 7) as u32), reference(name));
        arithmetic(44, number(60), divisor)
    };
    match rng.below(6) {
        4 | 5 => {
            let count = *rng.pick(&[1, 1, 1, 2, 3, 4, 4, 5, 6]);
            let numbers = set((0..count).map(number).collect());
            let parts = vec![reference(GIVEN), numbers];
            if rng.percent(70) {
                tuple(parts)
            } else {
                set(parts)
            }
        }
        0 => tuple((0..rng.from(1, 3)).map(|_| reference(WIDE)).chain([some_leaf(rng)]).collect()),
        1 => {
            let members = some_values(rng, 1, 2, 1);
            let wide = vec![tuple(vec![reference(DIGITS), reference(DIGITS)]); 1];
            let more = vec![tuple(vec![reference(TABLE), reference(DIGITS)]), reference(WIDE)];
            set([wide, more, members].concat())
        }
        2 => {
            let six = decl(reference(DIGITS), &[X, Z]);
            let body = tuple(vec![reference(X), reference(Z), divided(rng, X)]);
            comprehension(text(truth(), vec![six]), body)
        }
        _ => {
            let six = decl(reference(DIGITS), &[X, Z]);
            let guard = at_most(divided(rng, Z), number(100));
            comprehension(text(guard, vec![six]), tuple(vec![reference(X), reference(Z)]))
        }
    }
}

fn some_text(rng: &mut Rng, room: usize) -> Tree {
    let line = |rng: &mut Rng, name: u32| match rng.below(12) {
        0 => decl(some_value(rng, room), &[name]),
        1 => decl(set(vec![]), &[name]),
        2 => include(1, 0, vec![], &[]),
        3 => decl(reference(WIDE), &[name]),
        4..=7 => decl(reference(DIGITS), &[name]),
        _ => decl(set(vec![number(2), number(0), number(1)]), &[name]),
    };
    let lines = [X, Z, Y].into_iter().take(rng.below(3)).map(|name| line(rng, name)).collect();
    let guard = if rng.percent(60) { truth() } else { some_pred(rng, room.min(1)) };
    text(guard, lines)
}

/// An E for Member to test against.
fn tested(rng: &mut Rng, room: usize) -> Tree {
    if room == 0 {
        return match rng.below(4) {
            0 => some_leaf(rng),
            1 => reference(DIGITS),
            _ => integers(),
        };
    }
    match rng.below(6) {
        0 | 1 => power(tested(rng, room - 1)),
        2 | 3 => product((0..rng.from(2, 3)).map(|_| tested(rng, room - 1)).collect()),
        4 => integers(),
        _ => some_value(rng, room - 1),
    }
}

fn some_pred(rng: &mut Rng, room: usize) -> Tree {
    let less = room.saturating_sub(1);
    match rng.below(if room == 0 { 5 } else { 10 }) {
        0 => truth(),
        1 => equal(some_value(rng, less), some_value(rng, less)),
        2 => member(some_value(rng, room.min(2)), tested(rng, room.min(2))),
        3 | 4 => at_most(some_integer(rng, less), some_integer(rng, less)),
        5 => not(some_pred(rng, less)),
        6 | 7 => {
            let kind = rng.from(25, 27) as u32;
            arithmetic(kind, some_pred(rng, less), some_pred(rng, less))
        }
        _ => {
            let kind = rng.from(28, 29) as u32;
            arithmetic(kind, some_text(rng, less), some_pred(rng, less))
        }
    }
}
