//! Several numberings of a tree: operands first, and other orders in which
//! operands are lower.

use crate::rng::Rng;
use coding::{encode, encode_arranged, encode_in_order, Operand, Tree};
use reference::flat::Flat;
use reference::kinds::{slots, Slot};
use reference::reading::read_flat;

/// Codes the tree in a numbering of the generator's choice.
pub fn encode_somehow(rng: &mut Rng, tree: &Tree) -> Vec<u32> {
    match rng.percent(50) {
        true => encode(tree),
        false => encode_otherwise(rng, tree),
    }
}

/// Codes the tree in another order than operands first, left to right, where
/// it has another.
pub fn encode_otherwise(rng: &mut Rng, tree: &Tree) -> Vec<u32> {
    match rng.below(8) {
        // All leaves first, then what is ready, oldest first.
        0 | 1 => encode_in_order(tree, &mut |_| 0),
        // The newest that is ready, from the right.
        2 | 3 => encode_in_order(tree, &mut |ready| ready - 1),
        // Depth first too, but from the right, or a Text's lines before its
        // predicate, or as it comes.
        4 => match rng.below(3) {
            0 => encode_arranged(tree, &mut |places| places.reverse()),
            1 => encode_arranged(tree, &mut first_last),
            _ => encode_arranged(tree, &mut |places| rng.shuffle(places)),
        },
        _ => encode_in_order(tree, &mut |ready| rng.below(ready)),
    }
}

/// The first operand after the others.
fn first_last(places: &mut [usize]) {
    if !places.is_empty() {
        places.rotate_left(1);
    }
}

/// The tree of a readable document.
pub fn tree_of(document: &[u32]) -> Option<Tree> {
    let flat = read_flat(document).ok()?;
    Some(tree_at(&flat, flat.count()))
}

fn tree_at(flat: &Flat, k: usize) -> Tree {
    let words = &flat.node(k).words;
    let slots = slots(words).expect("the node was read");
    let operand = |(slot, &word): (&Slot, &u32)| match slot {
        Slot::Node(_) => Operand::Node(tree_at(flat, word as usize)),
        _ => Operand::Word(word),
    };
    let operands = slots.iter().zip(&words[1..]).map(operand).collect();
    Tree { kind: words[0], operands }
}
