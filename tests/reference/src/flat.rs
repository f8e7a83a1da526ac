//! The nodes of a document as a numbered list, and reading's findings 11 to 15.

use crate::finding::{demand, refused, Finding};
use crate::kinds::{has_sort, in_range, is_listed, slots, Slot};
use crate::layout;

/// One node: its words and the nodes among its operands, in word order.
#[derive(Clone, Debug)]
pub struct Node {
    pub words: Vec<u32>,
    pub children: Vec<usize>,
}

impl Node {
    pub fn kind(&self) -> u32 {
        self.words[0]
    }
}

/// The nodes of a document; node k is `nodes[k - 1]`.
#[derive(Clone, Debug)]
pub struct Flat {
    pub nodes: Vec<Node>,
}

impl Flat {
    pub fn node(&self, k: usize) -> &Node {
        &self.nodes[k - 1]
    }

    pub fn count(&self) -> usize {
        self.nodes.len()
    }

    pub fn numbers(&self) -> std::ops::RangeInclusive<usize> {
        1..=self.count()
    }

    /// The node that uses node k, 0 for a node that nobody uses.
    pub fn parents(&self) -> Vec<usize> {
        let mut parents = vec![0; self.count() + 1];
        for k in self.numbers() {
            for &child in &self.node(k).children {
                parents[child] = k;
            }
        }
        parents
    }
}

/// Findings 11 to 15: 11, then 12 to 14 node by node, then 15.
pub fn flatten(words: &[u32]) -> Result<Flat, Finding> {
    let parts = document_parts(words)?;
    let mut flat = Flat { nodes: Vec::new() };
    for part in parts {
        let node = read_node(&flat, &words[part])?;
        flat.nodes.push(node);
    }
    used_once(&flat)?;
    Ok(flat)
}

/// 11: at most 16,384 words, a count of 1 to 1,024, sound pairs.
fn document_parts(words: &[u32]) -> Result<Vec<std::ops::Range<usize>>, Finding> {
    let count = words.first().copied().unwrap_or(0);
    demand(words.len() <= 16_384 && (1..=1_024).contains(&count), 11, 0)?;
    layout::parts(words).ok_or(Finding { number: 11, place: 0 })
}

/// 12, 13, 14 of the next node, the lower ones being read already.
fn read_node(lower: &Flat, words: &[u32]) -> Result<Node, Finding> {
    let k = lower.count() + 1;
    demand(is_listed(words[0]), 12, k as u32)?;
    let Some(slots) = slots(words) else {
        return refused(13, k as u32);
    };
    let operands = || slots.iter().zip(&words[1..]);
    demand(operands().all(|(&slot, &word)| in_range(slot, word)), 13, k as u32)?;
    let mut children = Vec::new();
    for (&slot, &word) in operands() {
        if let Slot::Node(sort) = slot {
            let child = word as usize;
            demand(1 <= child && child < k, 14, k as u32)?;
            demand(has_sort(lower.node(child).kind(), sort), 14, k as u32)?;
            children.push(child);
        }
    }
    Ok(Node { words: words.to_vec(), children })
}

/// 15: every node before the last is used exactly once, and kind 1 stands at
/// the last node alone. The place is the node so used, not its user.
fn used_once(flat: &Flat) -> Result<(), Finding> {
    let mut uses = vec![0; flat.count() + 1];
    for node in &flat.nodes {
        for &child in &node.children {
            uses[child] += 1;
        }
    }
    for k in flat.numbers() {
        let is_document = flat.node(k).kind() == 1;
        let right = if k == flat.count() { is_document } else { !is_document && uses[k] == 1 };
        demand(right, 15, k as u32)?;
    }
    Ok(())
}
