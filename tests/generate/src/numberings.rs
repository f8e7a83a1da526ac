//! Documents for the one coding: most are readable, accepted or not, and none
//! but the smallest is numbered operands first, left to right.

use crate::rng::Rng;
use crate::shape::Shape;
use crate::typed::Aim;
use crate::{documents, number, worst};
use coding::make::*;
use coding::Tree;

/// The most nodes of a document.
const NODES: usize = 1_024;
const PARAMETERS: [u32; 4] = [id(1, 0), id(1, 1), id(2, 0), id(2, 1)];

pub fn renumbered(rng: &mut Rng) -> Vec<u32> {
    let tree = some_tree(rng);
    number::encode_otherwise(rng, &tree)
}

fn some_tree(rng: &mut Rng) -> Tree {
    match rng.below(20) {
        0..=7 => readable_shape(rng),
        8..=11 => documents::typed_document(rng, Aim::Check),
        12..=16 => schemas(rng),
        17 => longest(),
        _ => {
            let mut trees = worst::trees();
            let (_, tree) = trees.swap_remove(rng.below(trees.len()));
            tree
        }
    }
}

/// Right sorts and counts, any names: seldom accepted.
fn readable_shape(rng: &mut Rng) -> Tree {
    loop {
        let tree = Shape { rng, names: 40 }.document();
        if reference::read(&coding::encode(&tree)).is_ok() {
            return tree;
        }
    }
}

/// Schemas with parameters, up to as many as a document has nodes for.
fn schemas(rng: &mut Rng) -> Tree {
    let mut left = *rng.pick(&[40, 200, NODES]) - 1;
    let mut paragraphs = Vec::new();
    for name in 1..=255 {
        let body = schema_expr(rng, 3);
        let paragraph = schema(name, &PARAMETERS[..rng.below(5)], body);
        match left.checked_sub(paragraph.count()) {
            Some(rest) => left = rest,
            None => break,
        }
        paragraphs.push(paragraph);
    }
    document(paragraphs)
}

/// Schemas of six Includes with six renames each: some 15,000 words.
fn longest() -> Tree {
    let line = |name: u32| include(name, 0, vec![], &[(id(1, 0), id(1, 1)); 6]);
    let body = text(truth(), (1..=6).map(line).collect());
    let each = |name: usize| schema(name as u32, &PARAMETERS, body.clone());
    let count = (NODES - 1) / (1 + body.count());
    document((1..=count).map(each).collect())
}

fn schema_expr(rng: &mut Rng, room: usize) -> Tree {
    match rng.below(4) {
        0 if room > 0 => conjunction(schema_expr(rng, room - 1), schema_expr(rng, room - 1)),
        1 => some_include(rng),
        _ => some_text(rng),
    }
}

/// A Text with up to six lines.
fn some_text(rng: &mut Rng) -> Tree {
    let line = |rng: &mut Rng, name: usize| match rng.below(3) {
        0 => decl(some_set(rng), &[id(name as u32, 0)]),
        _ => some_include(rng),
    };
    let lines = (0..rng.below(7)).map(|i| line(rng, 3 + i)).collect();
    let predicate = match rng.below(4) {
        0 => truth(),
        1 => equal(some_set(rng), some_set(rng)),
        2 => exists(text(truth(), vec![some_include(rng)]), not(truth())),
        _ => implies(truth(), not(truth())),
    };
    text(predicate, lines)
}

/// An Include with up to four actuals and six renames.
fn some_include(rng: &mut Rng) -> Tree {
    let identifier = |rng: &mut Rng| rng.from(4, 99) as u32;
    let renames: Vec<(u32, u32)> =
        (0..rng.below(7)).map(|_| (identifier(rng), identifier(rng))).collect();
    let actuals = (0..rng.below(5)).map(|_| some_set(rng)).collect();
    include(rng.from(1, 255) as u32, rng.below(4) as u32, actuals, &renames)
}

/// A set of up to five numbers, so that four of them stay below an Include.
fn some_set(rng: &mut Rng) -> Tree {
    match rng.below(3) {
        0 => integers(),
        _ => set((0..rng.below(6)).map(|_| number(rng.below(100) as u32)).collect()),
    }
}
