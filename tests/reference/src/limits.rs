//! 17: the limits. Counts run in node order; the place is the lowest node over
//! all the limits.

use crate::finding::{refused, Finding};
use crate::flat::Flat;
use crate::twice::{writes_globals, written};

pub fn within(flat: &Flat) -> Result<(), Finding> {
    let parents = flat.parents();
    let past = [
        too_deep(flat, &parents),
        too_many_texts(flat, &parents),
        too_many_in_text(flat, &parents),
        too_many_below(flat, &parents),
        too_many_globals(flat, &parents),
    ];
    match past.into_iter().flatten().min() {
        Some(k) => refused(17, k as u32),
        None => Ok(()),
    }
}

/// The nodes from node k up to the Document, both counted.
fn path_up<'a>(parents: &'a [usize], k: usize) -> impl Iterator<Item = usize> + 'a {
    std::iter::successors(Some(k), |&at| Some(parents[at])).take_while(|&at| at != 0)
}

/// 12 nodes from Document down to any node.
fn too_deep(flat: &Flat, parents: &[usize]) -> Option<usize> {
    flat.numbers().find(|&k| path_up(parents, k).count() > 12)
}

/// 4 Texts nested: a Text that is the fifth or a deeper one on its path.
fn too_many_texts(flat: &Flat, parents: &[usize]) -> Option<usize> {
    let is_text = |k: &usize| flat.node(*k).kind() == 10;
    flat.numbers().filter(is_text).find(|&k| path_up(parents, k).filter(is_text).count() > 4)
}

/// 6 identifiers in the Decl lines of one Text.
fn too_many_in_text(flat: &Flat, parents: &[usize]) -> Option<usize> {
    let mut counts = vec![0; flat.count() + 1];
    flat.numbers().filter(|&k| flat.node(k).kind() == 11).find(|&k| {
        counts[parents[k]] += written(flat.node(k)).len();
        counts[parents[k]] > 6
    })
}

/// 24 nodes below a Decl, Include, Abbreviation or node of kind 21 to 23.
fn too_many_below(flat: &Flat, parents: &[usize]) -> Option<usize> {
    let mut below = vec![0; flat.count() + 1];
    flat.numbers().find(|&k| {
        path_up(parents, k).skip(1).any(|above| {
            below[above] += 1;
            below[above] > 24 && matches!(flat.node(above).kind(), 5 | 11 | 12 | 21..=23)
        })
    })
}

/// 64 identifiers in Given, Axiom Decl and Abbreviation together.
fn too_many_globals(flat: &Flat, parents: &[usize]) -> Option<usize> {
    let mut count = 0;
    flat.numbers().filter(|&k| writes_globals(flat, parents, k)).find(|&k| {
        count += written(flat.node(k)).len();
        count > 64
    })
}
