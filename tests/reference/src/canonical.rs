//! Document 02, ask 3: one coding per document. A readable document is written
//! again with operands before their node, in operand order, depth first.

use crate::finding::{demand, Finding};
use crate::flat::Flat;
use crate::kinds::{slots, Slot};
use crate::layout;
use crate::reading::read_flat;

/// The document in its one coding, for an output area of so many words; 27
/// where the result is longer.
pub fn canonical(words: &[u32], output: usize) -> Result<Vec<u32>, Finding> {
    let flat = read_flat(words)?;
    let mut writer = Writer { flat: &flat, written: Vec::with_capacity(flat.count()) };
    writer.node(flat.count() as u32);
    let result = layout::join(&writer.written);
    demand(result.len() <= output, 27, 0)?;
    Ok(result)
}

/// The same, leaving the result in the area: zero after it, and zero
/// everywhere after a refusal.
pub fn canonical_into(words: &[u32], output: &mut [u32]) -> Result<(), Finding> {
    output.fill(0);
    let result = canonical(words, output.len())?;
    output[..result.len()].copy_from_slice(&result);
    Ok(())
}

struct Writer<'a> {
    flat: &'a Flat,
    /// The words of the nodes that have their new number, in its order.
    written: Vec<Vec<u32>>,
}

impl Writer<'_> {
    /// Writes a node after its operands and gives its new number.
    fn node(&mut self, number: u32) -> u32 {
        let mut words = self.flat.node(number as usize).words.clone();
        let slots = slots(&words).expect("the node was read");
        for (slot, word) in slots.iter().zip(&mut words[1..]) {
            if let Slot::Node(_) = slot {
                *word = self.node(*word);
            }
        }
        self.written.push(words);
        self.written.len() as u32
    }
}

#[cfg(test)]
mod tests {
    use super::*;

    fn coded(nodes: &[&[u32]]) -> Vec<u32> {
        layout::join(&nodes.iter().map(|node| node.to_vec()).collect::<Vec<_>>())
    }

    /// An Axiom with the line x : ℤ; its Decl is numbered before the predicate.
    const LINE_FIRST: &[&[u32]] = &[&[32], &[11, 1, 4], &[20], &[10, 3, 2], &[3, 4], &[1, 5]];
    const PREDICATE_FIRST: &[&[u32]] = &[&[20], &[32], &[11, 2, 4], &[10, 1, 3], &[3, 4], &[1, 5]];

    #[test]
    fn a_predicate_stands_before_its_lines() {
        let written = coded(PREDICATE_FIRST);
        assert_eq!(canonical(&coded(LINE_FIRST), 16_384), Ok(written.clone()));
        assert_eq!(canonical(&written, 16_384), Ok(written));
    }

    #[test]
    fn the_area_holds_the_result_and_zeros() {
        let (document, written) = (coded(LINE_FIRST), coded(PREDICATE_FIRST));
        let mut area = vec![7; document.len() + 3];
        assert_eq!(canonical_into(&document, &mut area), Ok(()));
        assert_eq!(area, [&written[..], &[0; 3]].concat());
        let mut exact = vec![7; document.len()];
        assert_eq!(canonical_into(&document, &mut exact), Ok(()));
        assert_eq!(exact, written);
    }

    #[test]
    fn an_area_one_word_short() {
        let document = coded(LINE_FIRST);
        let mut area = vec![7; document.len() - 1];
        let short = Finding { number: 27, place: 0 };
        assert_eq!(canonical_into(&document, &mut area), Err(short));
        assert!(area.iter().all(|&word| word == 0));
    }

    #[test]
    fn reading_goes_before_the_area() {
        let unused = coded(&[&[20], &[1]]);
        let mut area = [7; 2];
        assert_eq!(canonical_into(&unused, &mut area), Err(Finding { number: 15, place: 1 }));
        assert_eq!(area, [0; 2]);
        assert_eq!(canonical(&[], 0), Err(Finding { number: 11, place: 0 }));
    }

    /// 1 ≤ 2 and 2 ≤ 1, both with node 1 the left side.
    #[test]
    fn other_trees_are_written_otherwise() {
        let relation = |left: u32, right: u32| {
            coded(&[&[31, left], &[31, right], &[23, 1, 2], &[6, 3], &[1, 4]])
        };
        let exchanged = coded(&[&[31, 2], &[31, 1], &[23, 2, 1], &[6, 3], &[1, 4]]);
        let written = |document: &[u32]| canonical(document, 16_384);
        assert_ne!(written(&relation(1, 2)), written(&relation(2, 1)));
        assert_eq!(written(&relation(1, 2)), written(&exchanged));
    }
}
