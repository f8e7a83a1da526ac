//! One coding per document: the library writes the same words for two
//! numberings of one tree.

use crate::calls::{Call, Slices};
use crate::show;
use generate::number::{encode_otherwise, tree_of};
use generate::rng::Rng;
use generate::Case;

/// How the answers or the words differ between the case's document and another
/// numbering of its tree, if they do; a document that cannot be read has none.
pub fn difference(call: &Call, case: &Case) -> Option<String> {
    let tree = tree_of(&case.document)?;
    let other = encode_otherwise(&mut Rng::new(u64::from(case.dirt)), &tree);
    let differ = written(call, &case.document) != written(call, &other);
    differ.then(|| format!("written otherwise than\n{}", show::document(&other)))
}

/// The call's answer and its output area, which has room for every document.
fn written(call: &Call, document: &[u32]) -> (u64, Vec<u32>) {
    let mut output = vec![1; 16_384];
    let answer = (call.function)(&mut Slices {
        document,
        state: &[],
        dictionary: &mut [],
        work: &mut [],
        output: &mut output,
    });
    (answer, output)
}
