//! Short ways to write documents and states.

pub use coding::make::*;
pub use coding::{encode, join, Tree};

/// Names 1, 2, 3, ... without a stroke.
pub const A: u32 = 4;
pub const B: u32 = 8;
pub const C: u32 = 12;
pub const D: u32 = 16;
pub const X: u32 = 20;
pub const Y: u32 = 24;

pub fn doc(paragraphs: Vec<Tree>) -> Vec<u32> {
    encode(&document(paragraphs))
}

/// A document or a state from the words of its entries.
pub fn coded(entries: &[&[u32]]) -> Vec<u32> {
    join(&entries.iter().map(|entry| entry.to_vec()).collect::<Vec<_>>())
}

/// A state whose entries are these words, read signed.
pub fn state(entries: &[&[i32]]) -> Vec<u32> {
    let unsigned = |entry: &&[i32]| entry.iter().map(|&word| word as u32).collect();
    join(&entries.iter().map(unsigned).collect::<Vec<Vec<u32>>>())
}

/// The number of the nth node, from 0, of a kind, in node order.
pub fn nth(words: &[u32], kind: u32, n: usize) -> u32 {
    let count = words[0] as usize;
    let mut nodes = (1..=count).filter(|&k| words[words[2 * k - 1] as usize] == kind);
    nodes.nth(n).expect("there is such a node") as u32
}

pub fn int() -> Tree {
    integers()
}

/// The pair of two numbers.
pub fn pair(first: u32, second: u32) -> Tree {
    tuple(vec![number(first), number(second)])
}

/// A schema with one Text and a true predicate.
pub fn plain_schema(name: u32, lines: Vec<Tree>) -> Tree {
    schema(name, &[], text(truth(), lines))
}

/// An Axiom with a true predicate.
pub fn plain_axiom(lines: Vec<Tree>) -> Tree {
    axiom(text(truth(), lines))
}

/// An Abbreviation of this expression, alone.
pub fn worked(expression: Tree) -> Vec<Tree> {
    vec![abbreviation(A, &[], expression)]
}
