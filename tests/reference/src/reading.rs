//! Reading: the findings 11 to 17 in their order, then the tree.

use crate::build::document;
use crate::finding::Finding;
use crate::flat::{flatten, Flat};
use crate::tree::Document;
use crate::{limits, twice};

/// The document's tree, or reading's finding.
pub fn read(words: &[u32]) -> Result<Document, Finding> {
    Ok(document(&read_flat(words)?))
}

/// The numbered nodes of a readable document.
pub fn read_flat(words: &[u32]) -> Result<Flat, Finding> {
    let flat = flatten(words)?;
    twice::none_twice(&flat)?;
    limits::within(&flat)?;
    Ok(flat)
}
