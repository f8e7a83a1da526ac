//! 16: names written twice. Writings run in node order, and inside a node in
//! word order; the place is the node of the second writing, the lowest such
//! node over all the cases.

use crate::finding::{demand, Finding};
use crate::flat::{Flat, Node};
use std::collections::BTreeSet;

/// The identifiers that a Decl or a Given writes.
pub fn written(node: &Node) -> &[u32] {
    match node.kind() {
        2 => &node.words[1..],
        11 => &node.words[2..],
        5 => &node.words[1..2],
        _ => &[],
    }
}

/// The parameters of a Schema or Abbreviation.
fn parameters(node: &Node) -> &[u32] {
    match node.kind() {
        4 | 5 => &node.words[3..3 + node.words[2] as usize],
        _ => &[],
    }
}

/// Is node k a Given, an Abbreviation or a Decl line of an Axiom's own Text?
pub fn writes_globals(flat: &Flat, parents: &[usize], k: usize) -> bool {
    match flat.node(k).kind() {
        2 | 5 => true,
        11 => flat.node(parents[parents[k]]).kind() == 3,
        _ => false,
    }
}

pub fn none_twice(flat: &Flat) -> Result<(), Finding> {
    let parents = flat.parents();
    let mut globals = BTreeSet::new();
    let mut schemas = BTreeSet::new();
    let mut in_text: Vec<BTreeSet<u32>> = vec![BTreeSet::new(); flat.count() + 1];
    for k in flat.numbers() {
        let node = flat.node(k);
        let mut fresh = true;
        if writes_globals(flat, &parents, k) {
            fresh &= all_fresh(&mut globals, written(node));
        }
        if node.kind() == 11 {
            fresh &= all_fresh(&mut in_text[parents[k]], written(node));
        }
        if node.kind() == 4 {
            fresh &= schemas.insert(node.words[1]);
        }
        fresh &= all_fresh(&mut BTreeSet::new(), parameters(node));
        demand(fresh, 16, k as u32)?;
    }
    Ok(())
}

/// Adds the names; false where one of them was there.
fn all_fresh(seen: &mut BTreeSet<u32>, names: &[u32]) -> bool {
    names.iter().fold(true, |fresh, &name| seen.insert(name) && fresh)
}
