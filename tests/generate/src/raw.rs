//! Raw words and damaged layouts.

use crate::rng::Rng;
use reference::kinds::{has_sort, in_range, is_listed, slots, Slot, Sort};

/// Words at the ends of ranges, where comparisons go wrong.
pub const EDGES: [u32; 26] = [
    0,
    1,
    2,
    3,
    4,
    5,
    6,
    7,
    8,
    12,
    16,
    17,
    20,
    21,
    64,
    65,
    255,
    256,
    1_024,
    1_025,
    16_383,
    16_384,
    65_535,
    65_536,
    2_147_483_647,
    2_147_483_648,
];

/// A word near an edge, near another word, or anywhere.
pub fn odd_word(rng: &mut Rng, near: u32) -> u32 {
    match rng.below(5) {
        0 => *rng.pick(&EDGES),
        1 => near.wrapping_add(1),
        2 => near.wrapping_sub(1),
        3 => rng.below(70) as u32,
        _ => rng.word(),
    }
}

/// Words with little or no order.
pub fn raw_words(rng: &mut Rng) -> Vec<u32> {
    let length = match rng.below(12) {
        0 => 0,
        1 => 1,
        2 => 16_384 + rng.below(3),
        3 => rng.from(2, 3_000),
        _ => rng.from(2, 40),
    };
    match rng.below(3) {
        0 => (0..length).map(|_| odd_word(rng, 1)).collect(),
        1 => (0..length).map(|_| rng.below(48) as u32).collect(),
        _ => small_nodes(rng),
    }
}

/// A sound layout of a few nodes whose words are of any kind.
fn small_nodes(rng: &mut Rng) -> Vec<u32> {
    let count = rng.from(1, 6);
    let node = |rng: &mut Rng| {
        let length = rng.from(1, 6);
        let mut words: Vec<u32> = (0..length).map(|_| odd_word(rng, 4)).collect();
        if rng.percent(80) {
            words[0] = rng.from(1, 47) as u32;
        }
        words
    };
    let nodes: Vec<Vec<u32>> = (0..count).map(|_| node(rng)).collect();
    coding::join(&nodes)
}

/// The ends of the ranges in which the kinds fall, and the words next to them.
const KIND_ENDS: [u32; 20] =
    [0, 1, 2, 6, 7, 9, 10, 12, 13, 14, 15, 16, 19, 20, 29, 30, 46, 47, 48, u32::MAX];

/// One node of each sort, a node whose kind is any word, and a node that uses
/// it as one of some sort.
pub fn any_kind(rng: &mut Rng) -> Vec<u32> {
    let mut nodes = vec![
        vec![20],
        vec![32],
        vec![31, 7],
        vec![11, 2, 4],
        vec![10, 1],
        vec![12, 1, 0, 0],
        vec![15, 5, 6],
        vec![2, 4],
    ];
    let kind = match rng.below(8) {
        0 => odd_word(rng, 46),
        1..=2 => *rng.pick(&KIND_ENDS),
        _ => rng.from(1, 46) as u32,
    };
    let node = some_operands(rng, &nodes, kind);
    nodes.push(node);
    let at = nodes.len() as u32;
    let users = [
        (Sort::Predicate, vec![24, at]),
        (Sort::Expression, vec![36, at]),
        (Sort::Text, vec![3, at]),
        (Sort::Include, vec![40, at]),
        (Sort::Line, vec![10, 1, at]),
        (Sort::Schema, vec![4, 1, 0, at]),
        (Sort::Paragraph, vec![1, at]),
    ];
    let (fitting, others): (Vec<_>, Vec<_>) =
        users.into_iter().partition(|(sort, _)| has_sort(kind, *sort));
    let from = if fitting.is_empty() || rng.percent(30) { others } else { fitting };
    nodes.push(rng.pick(&from).1.clone());
    coding::join(&nodes)
}

/// A node of this kind: in most cases with a number of operands that the kind
/// takes, and each what the kind asks for.
fn some_operands(rng: &mut Rng, nodes: &[Vec<u32>], kind: u32) -> Vec<u32> {
    let any = |rng: &mut Rng| {
        let lengths = [16, 17, 19, 20, 255, 256];
        let length = if rng.percent(5) { *rng.pick(&lengths) } else { rng.below(9) };
        let operands = (0..length).map(|_| rng.below(9) as u32);
        std::iter::once(kind).chain(operands).collect::<Vec<u32>>()
    };
    let mut node = any(rng);
    if !is_listed(kind) || rng.percent(20) {
        return node;
    }
    while slots(&node).is_none() {
        node = any(rng);
    }
    for (i, slot) in slots(&node).expect("tested above").into_iter().enumerate() {
        let fits = |word: u32| match slot {
            Slot::Node(sort) => word > 0 && has_sort(nodes[word as usize - 1][0], sort),
            Slot::Count => word == node[i + 1],
            _ => in_range(slot, word),
        };
        let fitting: Vec<u32> = (0..=8).filter(|&word| fits(word)).collect();
        if rng.percent(97) {
            node[i + 1] = *rng.pick(&fitting);
        }
    }
    node
}

/// A coded document with one thing of its layout broken.
pub fn damage_layout(rng: &mut Rng, words: &[u32]) -> Vec<u32> {
    let mut words = words.to_vec();
    let count = words[0] as usize;
    let pair = 1 + rng.below(2 * count);
    match rng.below(7) {
        0 => words[0] = odd_word(rng, words[0]),
        1 => words[pair] = odd_word(rng, words[pair]),
        2 => {
            words.pop();
        }
        3 => words.push(rng.below(50) as u32),
        4 => words.truncate(rng.below(words.len())),
        5 => exchange_pairs(rng, &mut words, count),
        _ => move_a_word(rng, &mut words, count),
    }
    words
}

fn exchange_pairs(rng: &mut Rng, words: &mut [u32], count: usize) {
    let (a, b) = (rng.below(count), rng.below(count));
    words.swap(1 + 2 * a, 1 + 2 * b);
    words.swap(2 + 2 * a, 2 + 2 * b);
}

/// One node a word longer, another a word shorter, offsets as before or made
/// to follow.
fn move_a_word(rng: &mut Rng, words: &mut [u32], count: usize) {
    let (a, b) = (rng.below(count), rng.below(count));
    words[2 + 2 * a] = words[2 + 2 * a].wrapping_add(1);
    words[2 + 2 * b] = words[2 + 2 * b].wrapping_sub(1);
    if rng.percent(70) {
        let mut offset = 1 + 2 * count as u32;
        for k in 0..count {
            words[1 + 2 * k] = offset;
            offset = offset.wrapping_add(words[2 + 2 * k]);
        }
    }
}

/// A coded document with words of one or two nodes changed, added or taken
/// away; the layout stays sound.
pub fn damage_nodes(rng: &mut Rng, words: &[u32]) -> Vec<u32> {
    let Some(parts) = reference::layout::parts(words) else {
        return words.to_vec();
    };
    let mut nodes: Vec<Vec<u32>> = parts.into_iter().map(|part| words[part].to_vec()).collect();
    for _ in 0..rng.from(1, 2) {
        let k = rng.below(nodes.len());
        let at = rng.below(nodes[k].len());
        match rng.below(9) {
            0 => nodes[k][0] = rng.from(0, 48) as u32,
            1 => nodes[k].push(odd_word(rng, 4)),
            2 if nodes[k].len() > 1 => {
                nodes[k].pop();
            }
            3 => {
                let other = rng.below(nodes.len());
                nodes.swap(k, other);
            }
            4 => nodes.insert(k, vec![20]),
            5 => nodes[k][at] = rng.from(0, k + 1) as u32,
            6 if nodes.len() > 1 => {
                nodes.remove(k);
            }
            _ => nodes[k][at] = odd_word(rng, nodes[k][at]),
        }
    }
    coding::join(&nodes)
}

/// A coded document in which one node is used twice or never, or the Document
/// is not the last; operands are lower and of their sorts.
pub fn misuse_nodes(rng: &mut Rng, words: &[u32]) -> Vec<u32> {
    let Some(parts) = reference::layout::parts(words) else {
        return words.to_vec();
    };
    let mut nodes: Vec<Vec<u32>> = parts.into_iter().map(|part| words[part].to_vec()).collect();
    match rng.below(6) {
        0 => add_unused(rng, &mut nodes, vec![20]),
        1 => add_unused(rng, &mut nodes, vec![1]),
        2 => {
            let last = nodes.len() as u32;
            nodes.push(vec![24, last]);
        }
        3 if nodes.last().is_some_and(|node| node.len() > 1) => {
            nodes.last_mut().expect("checked above").pop();
        }
        _ => use_another(rng, &mut nodes),
    }
    coding::join(&nodes)
}

/// The operand words of a node that name nodes, with what they ask for.
fn node_slots(node: &[u32]) -> Vec<(usize, Slot)> {
    let known = if is_listed(node[0]) { slots(node) } else { None };
    let all = known.unwrap_or_default().into_iter().enumerate();
    all.filter(|(_, slot)| matches!(slot, Slot::Node(_))).map(|(i, slot)| (i + 1, slot)).collect()
}

/// Puts a node that nobody uses somewhere, the others keeping their operands.
fn add_unused(rng: &mut Rng, nodes: &mut Vec<Vec<u32>>, node: Vec<u32>) {
    let place = rng.below(nodes.len());
    for node in nodes.iter_mut() {
        for (at, _) in node_slots(node) {
            node[at] += u32::from(node[at] as usize > place);
        }
    }
    nodes.insert(place, node);
}

/// Lets one operand name another lower node of its sort.
fn use_another(rng: &mut Rng, nodes: &mut [Vec<u32>]) {
    for _ in 0..8 {
        let k = rng.below(nodes.len());
        let operands = node_slots(&nodes[k]);
        if operands.is_empty() {
            continue;
        }
        let (at, Slot::Node(sort)) = *rng.pick(&operands) else { continue };
        let others: Vec<u32> =
            (0..k).filter(|&i| has_sort(nodes[i][0], sort)).map(|i| i as u32 + 1).collect();
        if others.len() > 1 {
            nodes[k][at] = *rng.pick(&others);
            return;
        }
    }
}
