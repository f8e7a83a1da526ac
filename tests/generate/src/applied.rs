//! Documents with applications (document 02, ask 5): functions that pair an
//! argument with one result, with none or with several, members that are no
//! pairs below and above the pairs, arguments of every sort of value.

use crate::enumerated::{some_other, RESULT};
use crate::rng::Rng;
use crate::runnable::below;
use coding::make::*;
use coding::Tree;

const X: u32 = 20;
const GIVEN: u32 = 416;
/// Of the state: elements, an integer, a relation between integers.
const ELEMENTS: [u32; 3] = [420, 424, 428];
const INTEGER: u32 = 432;
const TABLE: u32 = 436;
/// A set of near ten numbers.
const DIGITS: u32 = 440;
/// The values that functions are applied to.
const KEYS: [u32; 3] = [444, 448, 452];
const FUNCTION: u32 = 456;

pub fn applied_document(rng: &mut Rng) -> Tree {
    let mut paragraphs = names(rng);
    for i in 0..rng.from(1, 3) as u32 {
        paragraphs.push(match rng.percent(50) {
            true => abbreviation(RESULT + id(i, 0), &[], application(rng)),
            false => constraint(claim(rng)),
        });
    }
    document(paragraphs)
}

/// The names of the state, the numbers, the keys and the function.
fn names(rng: &mut Rng) -> Vec<Tree> {
    let lines = vec![
        decl(reference(GIVEN), &ELEMENTS),
        decl(integers(), &[INTEGER]),
        decl(power(product(vec![integers(), integers()])), &[TABLE]),
    ];
    let keys = KEYS.into_iter().zip(some_keys(rng)).map(|(name, key)| abbreviation(name, &[], key));
    let mut names = vec![given(&[GIVEN]), axiom(text(truth(), lines))];
    names.push(abbreviation(DIGITS, &[], below(rng.from(9, 11))));
    names.extend(keys);
    names.push(abbreviation(FUNCTION, &[], some_function(rng)));
    names
}

/// Three values of one sort, which differ in their last word or are equal, or
/// of three sorts.
fn some_keys(rng: &mut Rng) -> [Tree; 3] {
    match rng.below(6) {
        0 | 1 => [number(0), number(1), reference(INTEGER)],
        2 => ELEMENTS.map(reference),
        3 => [1, 2, 3].map(|n| set(vec![number(0), number(n)])),
        4 => [1, 2, 3].map(|n| tuple(vec![number(0), number(n)])),
        _ => [number(0), reference(ELEMENTS[0]), set(vec![])],
    }
}

/// A key, the first one most often.
fn key(rng: &mut Rng) -> Tree {
    let [first, second, third] = KEYS;
    reference(*rng.pick(&[first, first, first, second, third]))
}

fn all_keys() -> Tree {
    set(KEYS.map(reference).to_vec())
}

fn some_function(rng: &mut Rng) -> Tree {
    match rng.below(16) {
        0 => set(vec![]),
        1 => reference(TABLE),
        // each key has every result
        2 => product(vec![all_keys(), set((0..rng.from(1, 2) as u32).map(number).collect())]),
        // near ten pairs, the most that 64 words hold; a key has one to three
        3 | 4 => {
            let first = arithmetic(44, reference(X), number(rng.from(1, 3) as u32));
            let each = text(truth(), vec![decl(reference(DIGITS), &[X])]);
            comprehension(each, tuple(vec![first, reference(X)]))
        }
        _ => set(members(rng)),
    }
}

/// Pairs of a key and a result, in most cases nothing else.
fn members(rng: &mut Rng) -> Vec<Tree> {
    let to_keys = rng.percent(30);
    let pair = |rng: &mut Rng| {
        let first = key(rng);
        let second = if to_keys { key(rng) } else { number(rng.below(4) as u32) };
        tuple(vec![first, second])
    };
    let others = *rng.pick(&[0, 0, 0, 0, 1, 1, 2]);
    let mut members: Vec<Tree> = (0..rng.from(1, 4)).map(|_| pair(rng)).collect();
    members.extend((0..others).map(|_| no_pair(rng)));
    rng.shuffle(&mut members);
    members
}

fn no_pair(rng: &mut Rng) -> Tree {
    match rng.below(7) {
        0 => number(1),
        1 => reference(ELEMENTS[0]),
        2 => set(vec![key(rng)]),
        _ => {
            let parts = rng.from(3, 4);
            tuple((0..parts).map(|_| key(rng)).collect())
        }
    }
}

fn application(rng: &mut Rng) -> Tree {
    let function = || reference(FUNCTION);
    match rng.below(16) {
        0 => apply(some_other(rng), some_other(rng)),
        1 => apply(function(), some_other(rng)),
        2 => apply(some_other(rng), key(rng)),
        3 | 4 => apply(function(), apply(function(), key(rng))),
        5 => apply(reference(TABLE), number(rng.below(5) as u32)),
        6 | 7 => apply(set(members(rng)), key(rng)),
        _ => apply(function(), key(rng)),
    }
}

fn claim(rng: &mut Rng) -> Tree {
    let each_key = || text(truth(), vec![decl(all_keys(), &[X])]);
    let result = || apply(reference(FUNCTION), reference(X));
    let bound = number(rng.below(4) as u32);
    match rng.below(4) {
        0 => equal(application(rng), bound),
        1 => at_most(application(rng), bound),
        // a key without its one result is met, or the quantifier ends before
        2 => arithmetic(rng.from(28, 29) as u32, each_key(), at_most(result(), bound)),
        // the function, made once more from its results
        _ => {
            let pair = tuple(vec![reference(X), result()]);
            equal(reference(FUNCTION), comprehension(each_key(), pair))
        }
    }
}
