//! Documents whose runs work at the ends: integers near 32 bits, division of
//! either sign, sets near 64 words.

use crate::rng::Rng;
use coding::make::*;
use coding::Tree;

const X: u32 = 20;
const Y: u32 = 24;
const Z: u32 = 28;

pub fn arithmetic_document(rng: &mut Rng) -> Tree {
    let mut paragraphs = vec![axiom(text(truth(), vec![decl(integers(), &[X, Y])]))];
    for i in 0..rng.from(1, 4) {
        let name = id(100 + i as u32, 0);
        let body = match rng.below(5) {
            0 => sum(rng, 3),
            1 => division(rng),
            2 => numbers(rng),
            3 => pairs(rng),
            _ => wide(rng),
        };
        paragraphs.push(abbreviation(name, &[], body));
    }
    if rng.percent(40) {
        paragraphs.push(constraint(quantified(rng)));
    }
    document(paragraphs)
}

fn integer(rng: &mut Rng) -> Tree {
    match rng.below(7) {
        0 => reference(X),
        1 => reference(Y),
        2 => number(*rng.pick(&[2_147_483_647, 2_147_483_646, 65_536, 46_340, 46_341])),
        3 => arithmetic(42, negative(2_147_483_647), number(rng.below(3) as u32)),
        4 => negative(rng.below(8) as u32),
        _ => number(rng.below(8) as u32),
    }
}

fn sum(rng: &mut Rng, depth: usize) -> Tree {
    if depth == 0 || rng.percent(30) {
        return integer(rng);
    }
    let kind = *rng.pick(&[41, 41, 42, 43, 44, 45]);
    let left = if rng.percent(50) { sum(rng, depth - 1) } else { integer(rng) };
    arithmetic(kind, left, integer(rng))
}

fn division(rng: &mut Rng) -> Tree {
    let kind = *rng.pick(&[44, 45]);
    arithmetic(kind, integer(rng), integer(rng))
}

/// {0, ..., n - 1} by a Comprehension over digits.
pub fn below(n: usize) -> Tree {
    let six = set((0..6).map(number).collect());
    let value = || arithmetic(41, arithmetic(43, reference(X), number(6)), reference(Z));
    let small = at_most(value(), number(n as u32 - 1));
    comprehension(text(small, vec![decl(six, &[X, Z])]), value())
}

/// Near 31 numbers, the most that 64 words hold.
fn numbers(rng: &mut Rng) -> Tree {
    below(rng.from(29, 33))
}

/// Near 10 pairs, the most that 64 words hold.
fn pairs(rng: &mut Rng) -> Tree {
    let n = rng.from(3, 4);
    let some = |n: usize| set((0..n).map(|i| number(i as u32)).collect());
    let lines = vec![decl(some(n), &[X]), decl(some(rng.from(2, 4)), &[Z])];
    let shift = integer(rng);
    comprehension(
        text(truth(), lines),
        tuple(vec![reference(X), arithmetic(41, reference(Z), shift)]),
    )
}

/// Sets and tuples of sets, near 64 words.
fn wide(rng: &mut Rng) -> Tree {
    let some = |rng: &mut Rng, most: usize| {
        let n = rng.from(1, most);
        let start = rng.below(4);
        set((0..n).map(|i| number((start + i) as u32)).collect())
    };
    let parts: Vec<Tree> = (0..rng.from(2, 4)).map(|_| some(rng, 4)).collect();
    match rng.below(3) {
        0 => set(parts),
        1 => tuple(parts),
        _ => {
            let digits = || set((0..5).map(number).collect());
            let lines = vec![decl(digits(), &[X]), decl(digits(), &[Z])];
            let body = set(vec![reference(X), reference(Z)]);
            comprehension(text(at_most(reference(X), reference(Z)), lines), body)
        }
    }
}

fn quantified(rng: &mut Rng) -> Tree {
    let kind = rng.from(28, 29) as u32;
    let lines = match rng.below(4) {
        0 => vec![decl(below(rng.from(1, 32)), &[X])],
        1 => vec![decl(numbers(rng), &[X]), decl(set(vec![]), &[Z])],
        2 => vec![],
        _ => vec![decl(set((0..4).map(number).collect()), &[X, Z])],
    };
    let value = sum(rng, 2);
    let guard = if rng.percent(50) { truth() } else { at_most(reference(X), integer(rng)) };
    arithmetic(kind, text(guard, lines), at_most(value, integer(rng)))
}
