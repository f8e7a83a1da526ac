//! Document 02, ask 10, tested on the reference alone: where 39 comes, and that
//! the order of a Set's members makes no difference.

use generate::inside::inside_document;
use generate::rng::Rng;
use reference::{check, Finding, WORK_WORDS};
use std::collections::BTreeSet;

const CASES: u64 = 4_000;
const UNEQUAL: u32 = 33;
const INSIDE_ITSELF: u32 = 39;
const EQUAL: u32 = 21;
const MEMBER: u32 = 22;
const SET: u32 = 33;
const APPLY: u32 = 37;

fn finding(document: &[u32]) -> Option<Finding> {
    check(document, usize::MAX, WORK_WORDS).err()
}

/// The documents that have a finding with one of these numbers.
fn refused(numbers: &[u32]) -> impl Iterator<Item = (Vec<u32>, Finding)> + '_ {
    let documents = (0..CASES).map(|seed| coding::encode(&inside_document(&mut Rng::new(seed))));
    documents.filter_map(|document| {
        let found = finding(&document).filter(|found| numbers.contains(&found.number))?;
        Some((document, found))
    })
}

/// The words of a node, the kind first.
fn node(document: &mut [u32], number: u32) -> &mut [u32] {
    let pair = 2 * number as usize;
    let (offset, length) = (document[pair - 1] as usize, document[pair] as usize);
    &mut document[offset..offset + length]
}

/// Other nodes' equations name a former and bring no two types together.
#[test]
fn nodes_that_bring_types_together() {
    let kind = |(mut document, found): (Vec<u32>, Finding)| node(&mut document, found.place)[0];
    let kinds: BTreeSet<u32> = refused(&[INSIDE_ITSELF]).map(kind).collect();
    assert_eq!(kinds, BTreeSet::from([EQUAL, MEMBER, SET, APPLY]));
}

#[test]
fn members_in_any_order() {
    let mut turned = BTreeSet::new();
    for (mut document, found) in refused(&[UNEQUAL, INSIDE_ITSELF]) {
        if node(&mut document, found.place)[0] != SET {
            continue;
        }
        let members = node(&mut document, found.place).len() - 1;
        for _ in 1..members {
            node(&mut document, found.place)[1..].rotate_left(1);
            assert_eq!(finding(&document), Some(found));
        }
        turned.insert((found.number, members));
    }
    for number in [UNEQUAL, INSIDE_ITSELF] {
        assert!((2..=5).all(|members| turned.contains(&(number, members))), "{turned:?}");
    }
}
