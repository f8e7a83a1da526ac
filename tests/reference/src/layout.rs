//! "The coded document": the count and the pairs (offset, length) that
//! documents, dictionaries and states share.

use std::ops::Range;

/// The parts that the pairs name, or nothing where count, pairs or length are
/// broken: the first offset is 1 + 2N, each next one follows the part before,
/// lengths are at least 1, and the last part ends the words.
pub fn parts(words: &[u32]) -> Option<Vec<Range<usize>>> {
    let count = *words.first()? as usize;
    let mut next = 1 + 2 * count;
    if next > words.len() {
        return None;
    }
    let mut found = Vec::with_capacity(count);
    for pair in words[1..next].chunks(2) {
        let (offset, length) = (pair[0] as usize, pair[1] as usize);
        if offset != next || length == 0 || length > words.len() - next {
            return None;
        }
        found.push(offset..offset + length);
        next += length;
    }
    (next == words.len()).then_some(found)
}

/// Words in this layout that hold the given parts.
pub fn join(parts: &[Vec<u32>]) -> Vec<u32> {
    let mut words = vec![parts.len() as u32];
    let mut offset = 1 + 2 * parts.len();
    for part in parts {
        words.push(offset as u32);
        words.push(part.len() as u32);
        offset += part.len();
    }
    for part in parts {
        words.extend(part);
    }
    words
}
